//! A connection to a server, over TCP or a Unix socket.

use crate::address::{connect_tcp, Address};
use crate::sys::{self, PollFd, POLLIN, POLLOUT};
use crate::trouble::Trouble;
use infod3::client::{write, CodecError, Command, Message, Reader, Wire};
use std::io::{self, Read, Write};
use std::net::{Shutdown, TcpStream};
use std::os::fd::{AsFd, BorrowedFd};
use std::os::unix::net::UnixStream;
use std::time::{Duration, Instant};

/// The longest line of the server itself that is waited for.
const LONGEST_LINE: usize = 1024;

/// A socket that does not block.
#[derive(Debug)]
enum Stream {
    Tcp(TcpStream),
    Unix(UnixStream),
}

impl Stream {
    fn read(&mut self, bytes: &mut [u8]) -> io::Result<usize> {
        match self {
            Stream::Tcp(stream) => stream.read(bytes),
            Stream::Unix(stream) => stream.read(bytes),
        }
    }

    fn write(&mut self, bytes: &[u8]) -> io::Result<usize> {
        match self {
            Stream::Tcp(stream) => stream.write(bytes),
            Stream::Unix(stream) => stream.write(bytes),
        }
    }

    fn end_writing(&self) -> io::Result<()> {
        match self {
            Stream::Tcp(stream) => stream.shutdown(Shutdown::Write),
            Stream::Unix(stream) => stream.shutdown(Shutdown::Write),
        }
    }
}

impl AsFd for Stream {
    fn as_fd(&self) -> BorrowedFd<'_> {
        match self {
            Stream::Tcp(stream) => stream.as_fd(),
            Stream::Unix(stream) => stream.as_fd(),
        }
    }
}

/// The bytes of commands. Where one of them is refused there are none, so that none is sent.
pub fn written(wire: Wire, commands: &[Command<'_>]) -> Result<Vec<u8>, Trouble> {
    let mut bytes = Vec::new();
    for command in commands {
        let written = write(wire, command, &mut bytes);
        written.map_err(|error| Trouble::of_command(command, error))?;
    }
    Ok(bytes)
}

/// A connection.
#[derive(Debug)]
pub struct Connection {
    stream: Stream,
    wire: Wire,
    /// How long sending may take.
    timeout: Duration,
    /// What is received and not given out yet.
    reader: Reader,
    room: Vec<u8>,
    /// The server has closed.
    closed: bool,
}

impl AsFd for Connection {
    fn as_fd(&self) -> BorrowedFd<'_> {
        self.stream.as_fd()
    }
}

impl Connection {
    /// Connects within `timeout`, which then holds for each sending too, and speaks framed bytes.
    pub fn open(address: &Address, timeout: Duration) -> Result<Connection, Trouble> {
        Connection::open_in(Wire::Framed, address, timeout)
    }

    /// Connects as [`Connection::open`] does, and speaks framed bytes or text lines. The socket is
    /// a stream, which keeps no packets apart.
    pub fn open_in(
        wire: Wire,
        address: &Address,
        timeout: Duration,
    ) -> Result<Connection, Trouble> {
        let stream = connect(address, timeout);
        let wrong = |error: io::Error| match error.kind() {
            io::ErrorKind::TimedOut => Trouble::Connect(format!("{address}: no answer in time")),
            _ => Trouble::Connect(format!("{address}: {error}")),
        };
        Ok(Connection::over(stream.map_err(wrong)?, wire, timeout))
    }

    fn over(stream: Stream, wire: Wire, timeout: Duration) -> Connection {
        Connection {
            stream,
            wire,
            timeout,
            reader: Reader::new(wire),
            room: vec![0; 65_536],
            closed: false,
        }
    }

    /// A second connection on the same socket, to send and receive in two threads. What this one
    /// has received stays with it.
    pub fn try_clone(&self) -> io::Result<Connection> {
        let stream = match &self.stream {
            Stream::Tcp(stream) => Stream::Tcp(stream.try_clone()?),
            Stream::Unix(stream) => Stream::Unix(stream.try_clone()?),
        };
        Ok(Connection::over(stream, self.wire, self.timeout))
    }

    /// Sends a command, unless it is refused.
    pub fn send(&mut self, command: Command<'_>) -> Result<(), Trouble> {
        self.send_all(&[command])
    }

    /// Sends commands together, or none of them where one is refused.
    pub fn send_all(&mut self, commands: &[Command<'_>]) -> Result<(), Trouble> {
        let bytes = written(self.wire, commands)?;
        self.send_bytes(&bytes)
    }

    /// Sends commands that are [`written`]. Where the server takes them too slowly the connection
    /// is of no use any more, since a part of them may be sent.
    pub fn send_bytes(&mut self, bytes: &[u8]) -> Result<(), Trouble> {
        let until = Instant::now().checked_add(self.timeout);
        let mut rest = bytes;
        while !rest.is_empty() {
            match self.send_some(rest) {
                Ok(0) => self.wait(POLLOUT, until)?,
                Ok(n) => rest = &rest[n..],
                Err(error) => return Err(self.last_words(error)),
            }
        }
        Ok(())
    }

    /// Sends as many of the bytes as the socket takes now, and gives their number. The bytes are
    /// commands that are [`written`]; the rest of them has to follow.
    pub fn send_some(&mut self, bytes: &[u8]) -> io::Result<usize> {
        match self.stream.write(bytes) {
            Err(error) if is_no_error(&error) => Ok(0),
            written => written,
        }
    }

    /// Says that nothing more is sent. The server then gives all that is queued, and closes.
    pub fn end_sending(&self) -> io::Result<()> {
        self.stream.end_writing()
    }

    /// Whether the server has closed and all that it sent is given out.
    pub fn has_ended(&self) -> bool {
        self.closed && self.reader.pending().is_empty()
    }

    /// Where sending fails because the server has closed, what it said last may still be there to
    /// read.
    fn last_words(&mut self, error: io::Error) -> Trouble {
        for _ in 0..1000 {
            match self.receive(Some(Duration::from_millis(500))) {
                Ok(_) => {}
                Err(Trouble::Lost(_) | Trouble::Late) => break,
                Err(trouble) => return trouble,
            }
        }
        Trouble::Lost(error.to_string())
    }

    /// The next message; waits at most `timeout`, or without end. An ERROR is a trouble, behind
    /// which more may come.
    pub fn receive(&mut self, timeout: Option<Duration>) -> Result<Message, Trouble> {
        let until = timeout.and_then(|timeout| Instant::now().checked_add(timeout));
        loop {
            if let Some(message) = self.received()? {
                return Ok(message);
            }
            match self.read() {
                Ok(true) => {}
                Ok(false) => self.wait(POLLIN, until)?,
                Err(trouble) => return Err(self.unfinished_line().unwrap_or(trouble)),
            }
        }
    }

    /// The next message that is here already.
    fn received(&mut self) -> Result<Option<Message>, Trouble> {
        let bytes = self.reader.pending();
        if bytes.first() == Some(&b'#') {
            return match bytes.iter().position(|&b| b == b'\n') {
                Some(end) => Err(Trouble::of_line(&bytes[..end])),
                None if bytes.len() > LONGEST_LINE => Err(Trouble::of_line(&bytes[..LONGEST_LINE])),
                None => Ok(None),
            };
        }
        match self.reader.next_message() {
            Ok(Some(Message::Error { number, text })) => Err(Trouble::Error(number, text.to_vec())),
            Ok(message) => Ok(message.map(Message::into_owned)),
            Err(CodecError::Refused(_)) => {
                Err(Trouble::Lost("the server sent no infod3".to_owned()))
            }
            Err(error) => Err(Trouble::Lost(error.to_string())),
        }
    }

    /// What a line of the server itself means that was cut off by the connection's end.
    fn unfinished_line(&self) -> Option<Trouble> {
        let bytes = self.reader.pending();
        bytes.starts_with(b"#").then(|| Trouble::of_line(bytes))
    }

    /// Reads what is there; false where nothing is.
    fn read(&mut self) -> Result<bool, Trouble> {
        match self.stream.read(&mut self.room) {
            Ok(0) => {
                self.closed = true;
                Err(Trouble::Lost("closed by the server".to_owned()))
            }
            Ok(n) => {
                self.reader.feed(&self.room[..n]);
                Ok(true)
            }
            Err(error) if is_no_error(&error) => Ok(false),
            Err(error) => Err(Trouble::Lost(error.to_string())),
        }
    }

    /// Waits until the socket may be ready, until then.
    fn wait(&mut self, events: i16, until: Option<Instant>) -> Result<(), Trouble> {
        let left = until.map(|until| until.saturating_duration_since(Instant::now()));
        if left.is_some_and(|left| left.is_zero()) {
            return Err(Trouble::Late);
        }
        let mut fds = [PollFd::new(Some(self.as_fd()), events)];
        sys::wait(&mut fds, left).map_err(|error| Trouble::Lost(error.to_string()))
    }

    /// Sends PING and drops what comes before its PONG, so that all that was sent before is done.
    /// The time is that for all of it.
    pub fn synchronise(&mut self, timeout: Duration) -> Result<(), Trouble> {
        self.send(Command::Ping(b"synchronise"))?;
        let begin = Instant::now();
        loop {
            let left = timeout.saturating_sub(begin.elapsed());
            if left.is_zero() {
                return Err(Trouble::Late);
            }
            match self.receive(Some(left))? {
                Message::Pong(id) if id == b"synchronise" => return Ok(()),
                _ => {}
            }
        }
    }
}

/// Whether a socket that does not block is only not ready, or a signal came.
fn is_no_error(error: &io::Error) -> bool {
    let kind = error.kind();
    kind == io::ErrorKind::WouldBlock || kind == io::ErrorKind::Interrupted
}

fn connect(address: &Address, timeout: Duration) -> io::Result<Stream> {
    match address {
        Address::Tcp(text) => {
            let stream = connect_tcp(text, timeout)?;
            stream.set_nodelay(true)?;
            stream.set_nonblocking(true)?;
            Ok(Stream::Tcp(stream))
        }
        Address::Unix(path) => {
            let stream = sys::connect_unix(path, timeout)?;
            stream.set_nonblocking(true)?;
            Ok(Stream::Unix(stream))
        }
    }
}

//! A site's controller that is a client of a server: examples/interlock.c in Rust (docs/client.md).
//!
//! interlock framed|text SECONDS SITE PATH
//! interlock framed|text SECONDS SITE HOST PORT
//!
//! It connects to a Unix socket or a TCP port and subscribes to site.SITE.*; the site's loading line
//! runs only while site.SITE.state is clear, and while the server has answered within SECONDS.
//! Without a connection the line stops and another one is tried, for ever.

use infod3::client::{write, Command, Message, Reader, Wire};
use std::convert::Infallible;
use std::env;
use std::io::{self, ErrorKind, Read, Write};
use std::net::{TcpStream, ToSocketAddrs};
use std::os::unix::net::UnixStream;
use std::process::exit;
use std::thread::sleep;
use std::time::{Duration, Instant};

/// The pause from one connection to the next.
const PAUSE: Duration = Duration::from_millis(500);
/// The shortest wait for input, since a socket takes none of no length.
const SHORTEST_WAIT: Duration = Duration::from_millis(1);

/// A socket of either sort.
trait Socket: Read + Write {
    fn set_read_timeout(&self, limit: Duration) -> io::Result<()>;
}

impl Socket for UnixStream {
    fn set_read_timeout(&self, limit: Duration) -> io::Result<()> {
        self.set_read_timeout(Some(limit))
    }
}

impl Socket for TcpStream {
    fn set_read_timeout(&self, limit: Duration) -> io::Result<()> {
        self.set_read_timeout(Some(limit))
    }
}

/// The loading line, and the reason that was last given for it.
struct Line(Option<(bool, String)>);

impl Line {
    /// The one place that switches the line. Here it only says so; a real one holds an output that
    /// falls back to stop by itself when this program ends.
    fn switch(&mut self, run: bool, why: &str) {
        let wanted = Some((run, why.to_owned()));
        if self.0 != wanted {
            println!("{why}: the line {}", if run { "runs" } else { "stops" });
            self.0 = wanted;
        }
    }
}

/// A connection, and what is known from it alone.
struct Connection {
    socket: Box<dyn Socket>,
    wire: Wire,
    reader: Reader,
    /// Nothing older lets the line run.
    limit: Duration,
    /// When the last PING was sent, whether it is not answered yet, and when the last one that is
    /// answered was sent.
    ping: Instant,
    asked: bool,
    proved: Instant,
    /// Every key that matches has come.
    settled: bool,
    state: Option<Vec<u8>>,
    km: Option<Vec<u8>>,
}

impl Connection {
    /// Sends a command, all of it. A server that has closed is found out by reading: its last words
    /// wait.
    fn send(&mut self, command: Command<'_>) -> Result<(), String> {
        let mut bytes = Vec::new();
        write(self.wire, &command, &mut bytes).map_err(|_| "no such command")?;
        match self.socket.write_all(&bytes).map_err(|error| error.kind()) {
            Ok(()) | Err(ErrorKind::BrokenPipe | ErrorKind::ConnectionReset) => Ok(()),
            Err(_) => Err("cannot send".to_owned()),
        }
    }

    fn send_ping(&mut self) -> Result<(), String> {
        self.asked = true;
        self.ping = Instant::now();
        self.send(Command::Ping(b""))
    }

    /// Waits for input and takes it in; asks for an answer when half of the limit has passed. What
    /// comes too late is not taken in.
    fn receive(&mut self) -> Result<(), String> {
        let (end, next) = (self.proved + self.limit, self.ping + self.limit / 2);
        let until = if self.asked { end } else { end.min(next) };
        let left = until.saturating_duration_since(Instant::now());
        let mut bytes = [0; 65_536];
        let limited = self.socket.set_read_timeout(left.max(SHORTEST_WAIT));
        let len = match limited.and_then(|()| self.socket.read(&mut bytes)) {
            Ok(len) if len > 0 => len,
            Err(error) if is_only_late(error.kind()) => 0,
            Ok(_) | Err(_) => return Err("connection lost".to_owned()),
        };
        if Instant::now() >= end {
            return Err("no answer".to_owned());
        }
        if !self.asked && Instant::now() >= next {
            self.send_ping()?;
        }
        self.reader.feed(&bytes[..len]);
        Ok(())
    }

    /// The next whole message that has come.
    fn next_message(&mut self) -> Result<Option<Message>, String> {
        let pending = self.reader.pending();
        // A line of the server itself, in every form, with CR LF.
        if pending.first() == Some(&b'#') {
            let end = pending.iter().position(|&byte| byte == b'\r');
            return end.map_or(Ok(None), |end| Err(shown(&pending[..end])));
        }
        let message = self.reader.next_message().map_err(|_| "not infod3")?;
        Ok(message.map(Message::into_owned))
    }

    /// Does what a message asks for. The feed writes the state last in its transactions, so that all
    /// the rest has come when the state does.
    fn act(&mut self, message: Message, prefix: &[u8], line: &mut Line) -> Result<(), String> {
        match message {
            Message::Version { version: 0, .. } => {}
            Message::Version { .. } => return Err("not version 0".to_owned()),
            Message::Error { number, .. } => return Err(format!("refused with {number}")),
            Message::Info { key, value } => match key.strip_prefix(prefix) {
                Some(b"km") => self.km = value,
                Some(b"state") => {
                    self.state = value;
                    self.decide(line);
                }
                _ => {}
            },
            // Behind a PONG comes only what changed after the PING was read.
            Message::Pong(_) => {
                self.asked = false;
                self.proved = self.ping;
                if !self.settled {
                    self.settled = true;
                    self.decide(line);
                }
            }
        }
        Ok(())
    }

    /// Switches the line by what is known: until every key has come that is nothing, and it stands.
    fn decide(&self, line: &mut Line) {
        match self.state.as_deref() {
            _ if !self.settled => {}
            Some(b"clear") => {
                let km = shown(self.km.as_deref().unwrap_or(b"?"));
                line.switch(true, &format!("clear, nearest cell {km} km"));
            }
            Some(_) => line.switch(false, "not clear"),
            None => line.switch(false, "no state"),
        }
    }
}

/// Whether a socket has only nothing to read yet.
fn is_only_late(kind: ErrorKind) -> bool {
    matches!(
        kind,
        ErrorKind::WouldBlock | ErrorKind::TimedOut | ErrorKind::Interrupted
    )
}

/// Bytes for people to read: a ? for what is not printable.
fn shown(bytes: &[u8]) -> String {
    let printable = |&byte| {
        if matches!(byte, b' '..=b'~') {
            char::from(byte)
        } else {
            '?'
        }
    };
    bytes.iter().map(printable).collect()
}

/// A connection to a path, or to a host and a port. The limit holds for sending too.
fn connect(place: &[String], limit: Duration) -> Option<Box<dyn Socket>> {
    if let [host, port] = place {
        let mut found = format!("{host}:{port}").to_socket_addrs().ok()?;
        let stream = found.find_map(|place| TcpStream::connect_timeout(&place, limit).ok())?;
        stream.set_write_timeout(Some(limit)).ok()?;
        return Some(Box::new(stream));
    }
    let stream = UnixStream::connect(&place[0]).ok()?;
    stream.set_write_timeout(Some(limit)).ok()?;
    Some(Box::new(stream))
}

/// Lives through one connection and says why it ended. Nothing that an earlier one said counts.
fn live(
    socket: Box<dyn Socket>,
    wire: Wire,
    limit: Duration,
    site: &str,
    line: &mut Line,
) -> Result<Infallible, String> {
    let prefix = format!("site.{site}.");
    let mut connection = Connection {
        socket,
        wire,
        reader: Reader::new(wire),
        limit,
        ping: Instant::now(),
        asked: false,
        proved: Instant::now(),
        settled: false,
        state: None,
        km: None,
    };
    let text = b"interlock";
    connection.send(Command::Hello { version: 0, text })?;
    connection.send(Command::Sub(format!("{prefix}*").as_bytes()))?;
    connection.send_ping()?;
    loop {
        connection.receive()?;
        while let Some(message) = connection.next_message()? {
            connection.act(message, prefix.as_bytes(), line)?;
        }
    }
}

fn main() {
    let arguments: Vec<String> = env::args().skip(1).collect();
    let wire = match arguments.first().map(String::as_str) {
        Some("framed") => Some(Wire::Framed),
        Some("text") => Some(Wire::Text),
        _ => None,
    };
    let seconds = arguments.get(1).and_then(|word| word.parse().ok());
    let (Some(wire), Some(seconds @ 1..=86_400), 4 | 5) = (wire, seconds, arguments.len()) else {
        eprintln!("usage: interlock framed|text SECONDS SITE PATH | SITE HOST PORT");
        exit(2);
    };
    let limit = Duration::from_secs(seconds);
    let mut line = Line(None);
    line.switch(false, "start");
    loop {
        let why = match connect(&arguments[3..], limit) {
            Some(socket) => live(socket, wire, limit, &arguments[2], &mut line),
            None => Err("cannot connect".to_owned()),
        };
        let Err(why) = why;
        line.switch(false, &why);
        sleep(PAUSE);
    }
}

//! Commands from the lines of standard input, and the messages of the server as they come.

use crate::options::Options;
use crate::output::{say, Output};
use crate::show::{self, Form};
use crate::task::{Line, LINES};
use crate::{End, UNCOMMITTED};
use infod3_cli::quote::fields;
use infod3_cli::sys::{self, PollFd, POLLIN, POLLOUT};
use infod3_cli::{written, Command, Connection, Message, Trouble, Wire};
use std::fs::File;
use std::io::{self, IsTerminal, Read, Write};
use std::os::fd::AsFd;
use std::time::Duration;

/// The identifier of the PING that is sent at once: a server does not wait for long for a client's
/// first message, but a terminal may.
const FIRST: &[u8] = b"\0infod3 begins\0";
/// The identifier of the PING that ends the interactive mode.
const LAST: &[u8] = b"\0infod3 ends\0";
/// Bytes that wait to be sent, beyond which no further line is read.
const MUCH: usize = 65_536;

/// The longest line. A command of 65,535 bytes has a quarter of a million in octal.
const LONGEST_LINE: usize = 524_288;
/// Messages that are shown in one turn, so that a flood of them does not keep the input waiting.
const MANY: usize = 1024;

/// One loop over standard input and the connection, so that neither waits for the other.
struct Session<'a> {
    connection: Connection,
    wire: Wire,
    output: &'a mut Output,
    form: Form,
    timeout: Duration,
    stdin: File,
    /// Somebody types the lines, and goes on after a wrong one.
    terminal: bool,
    /// What is read of the input and not yet a command.
    input: Vec<u8>,
    /// No more is read: the input has ended, or `quit` was said.
    ended: bool,
    /// The bytes of commands that are not sent.
    unsent: Vec<u8>,
    /// There may be messages that are received and not shown.
    more: bool,
    /// Why nothing more can be sent; what the server said last is still read.
    broken: Option<Trouble>,
    /// A transaction is begun and not committed.
    open: bool,
    /// The connection's own half is closed, so that its end is a good one.
    parted: bool,
    /// Lines that were wrong and not sent.
    wrong: usize,
}

/// Sends the lines of standard input and shows messages until the input ends.
pub fn run(options: &Options, output: &mut Output) -> Result<End, End> {
    let terminal = io::stdin().is_terminal();
    let wire = options.line_wire(terminal);
    let connection = crate::connect(options, wire)?;
    let stdin = io::stdin().as_fd().try_clone_to_owned();
    let stdin = stdin.map_err(|error| End::Usage(format!("standard input: {error}")))?;
    let mut session = Session {
        connection,
        wire,
        output,
        form: options.form.unwrap_or(Form::Text),
        timeout: options.timeout,
        stdin: stdin.into(),
        terminal,
        input: Vec::new(),
        ended: false,
        unsent: Vec::new(),
        more: false,
        broken: None,
        open: false,
        parted: false,
        wrong: 0,
    };
    session.ping(FIRST);
    if session.terminal {
        say(format_args!(
            "connected to {}; help shows the commands",
            options.address
        ));
    }
    while session.turn()? {}
    session.result()
}

impl Session<'_> {
    /// How the program ends when all lines are taken. Who types has seen what was wrong.
    fn result(&self) -> Result<End, End> {
        match (self.open, self.wrong) {
            (true, _) if self.terminal => {
                say(UNCOMMITTED);
                Ok(End::Done)
            }
            (true, _) => Err(End::Uncommitted),
            (false, 0) => Ok(End::Done),
            (false, _) if self.terminal => Ok(End::Done),
            (false, 1) => Err(End::Usage("1 line was wrong and not sent".to_owned())),
            (false, n) => Err(End::Usage(format!("{n} lines were wrong and not sent"))),
        }
    }

    /// Waits until something can be done and does it; false at the end.
    fn turn(&mut self) -> Result<bool, End> {
        self.part();
        let reads = !self.ended && self.unsent.len() < MUCH;
        let sends = !self.unsent.is_empty();
        let events = if sends { POLLIN | POLLOUT } else { POLLIN };
        let mut fds = [
            PollFd::new(Some(self.connection.as_fd()), events),
            PollFd::new(reads.then_some(self.stdin.as_fd()), POLLIN),
        ];
        // While something is to be sent or answered, silence is a trouble.
        let timeout = match self.more {
            true => Some(Duration::ZERO),
            false => (sends || self.ended).then_some(self.timeout),
        };
        sys::wait(&mut fds, timeout).map_err(|error| Trouble::Lost(error.to_string()))?;
        let [socket, stdin] = fds.map(|fd| fd.is_ready());
        if !socket && !stdin && !self.more && timeout.is_some() {
            return Err(self.broken.take().unwrap_or(Trouble::Late).into());
        }
        if socket || self.more {
            self.send();
            if !self.receive()? {
                return Ok(false);
            }
        }
        if stdin {
            self.read()?;
        }
        Ok(true)
    }

    /// Sends what the socket takes.
    fn send(&mut self) {
        if self.unsent.is_empty() {
            return;
        }
        match self.connection.send_some(&self.unsent) {
            Ok(n) => drop(self.unsent.drain(..n)),
            Err(error) => {
                self.broken = Some(Trouble::Lost(error.to_string()));
                self.unsent.clear();
                self.ended = true;
            }
        }
    }

    /// Closes the own half of the connection when all is sent, if a transaction is open: it would
    /// record the last PING.
    fn part(&mut self) {
        let all_sent = self.ended && self.unsent.is_empty() && self.broken.is_none();
        if all_sent && self.open && !self.parted {
            self.parted = true;
            if let Err(error) = self.connection.end_sending() {
                self.broken = Some(Trouble::Lost(error.to_string()));
            }
        }
    }

    /// Shows the messages that are here, or many of them; false after the last PONG, or at the end
    /// of a connection whose own half is closed.
    fn receive(&mut self) -> Result<bool, End> {
        self.more = false;
        for _ in 0..MANY {
            match self.connection.receive(Some(Duration::ZERO)) {
                Ok(Message::Pong(id)) if id == LAST => return Ok(false),
                Ok(Message::Pong(id)) if id == FIRST => {}
                Ok(message) => self.output.write(&show::message(self.form, &message))?,
                Err(Trouble::Late) => return Ok(true),
                Err(trouble) if self.goes_on_after(&trouble) => self.tell(&trouble),
                Err(Trouble::Lost(_)) if self.parted && self.connection.has_ended() => {
                    return Ok(false)
                }
                Err(trouble) => return Err(trouble.into()),
            }
        }
        self.more = true;
        Ok(true)
    }

    /// Whether somebody types and the server keeps the connection: a text client stays after each
    /// ERROR but 102.
    fn goes_on_after(&self, trouble: &Trouble) -> bool {
        let stays = matches!(trouble, Trouble::Error(100 | 101 | 103, _));
        stays && self.terminal && self.wire == Wire::Text
    }

    /// Tells who types of an ERROR, and what has become of the transaction.
    fn tell(&self, error: &Trouble) {
        say(error);
        if self.open {
            say("the transaction is spoiled: commit ends it, and none of it is done");
        }
    }

    /// Reads some input and takes its whole lines; at its end the rest is a line too.
    fn read(&mut self) -> Result<(), End> {
        let mut room = [0; 8192];
        let wrong = |error: io::Error| End::Usage(format!("standard input: {error}"));
        match self.stdin.read(&mut room) {
            Ok(0) => {
                let line = std::mem::take(&mut self.input);
                self.take(&line);
                self.end();
            }
            Ok(n) => {
                self.input.extend_from_slice(&room[..n]);
                self.take_lines();
                if self.input.len() > LONGEST_LINE {
                    return Err(self.endless_line());
                }
            }
            Err(error) => match error.kind() {
                io::ErrorKind::Interrupted | io::ErrorKind::WouldBlock => {}
                _ => return Err(wrong(error)),
            },
        }
        Ok(())
    }

    fn endless_line(&self) -> End {
        let error = format!("a line has more than {LONGEST_LINE} bytes");
        if self.open {
            say(error);
            return End::Uncommitted;
        }
        End::Usage(error)
    }

    fn take_lines(&mut self) {
        let mut input = std::mem::take(&mut self.input);
        let mut start = 0;
        while let Some(len) = input[start..].iter().position(|&b| b == b'\n') {
            self.take(&input[start..start + len]);
            start += len + 1;
        }
        input.drain(..start);
        self.input = input;
    }

    /// Takes no further line. The PONG of the last PING comes after the answers of all lines.
    fn end(&mut self) {
        if !self.ended && !self.open {
            self.ping(LAST);
        }
        self.ended = true;
    }

    /// Queues a PING of the program itself, which is never refused.
    fn ping(&mut self, id: &[u8]) {
        let ping = written(self.wire, &[Command::Ping(id)]);
        self.unsent.extend(ping.unwrap_or_default());
    }

    /// Queues a command, unless every server refuses it; the error is one line.
    fn queue(&mut self, command: Command<'_>) -> Result<(), String> {
        if self.open && command == Command::Begin {
            return Err("a transaction is open already; commit ends it".to_owned());
        }
        let bytes = written(self.wire, &[command]).map_err(|trouble| trouble.to_string())?;
        self.unsent.extend(bytes);
        match command {
            Command::Begin => self.open = true,
            Command::Commit => self.open = false,
            _ => {}
        }
        Ok(())
    }

    /// Takes one line; a wrong one is said and not sent. Without it a transaction is not what was
    /// meant, so none of it is done, unless somebody types who can decide.
    fn take(&mut self, line: &[u8]) {
        if self.ended {
            return;
        }
        let line = line.strip_suffix(b"\r").unwrap_or(line);
        let wrong_quotes =
            || "a field that begins with \" ends with one, and \\ooo is a byte in octal";
        let read = fields(line).ok_or_else(|| wrong_quotes().to_owned());
        let taken = read.and_then(|fields| match Line::of(&fields)? {
            Line::Empty => Ok(()),
            Line::Help => {
                let _ = io::stderr().write_all(LINES.as_bytes());
                Ok(())
            }
            Line::Quit => {
                self.end();
                Ok(())
            }
            Line::Send(command) => self.queue(command),
        });
        if let Err(error) = taken {
            self.wrong += 1;
            say(error);
            if self.open && !self.terminal {
                self.end();
            }
        }
    }
}

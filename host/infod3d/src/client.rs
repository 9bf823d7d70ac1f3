//! A client with a slot: its socket, its two buffers and how far it is on its way out. What is known
//! of the messages that it was fed is in `transaction`.

mod transaction;

pub use transaction::Recorded;

use crate::cut::{Input, Kind};
use crate::known::Known;
use crate::options::{Access, Limits, ListenerOptions};
use crate::output::Output;
use crate::socket::{Found, Socket};
use crate::sys;
use infod3::Refusal;
use std::ffi::c_short;
use std::fmt;
use std::io;
use std::time::{Duration, Instant};

/// Packets that are read in one turn.
const PACKETS_PER_TURN: usize = 8;
/// Bytes of a stream that are read in one turn.
const READ: usize = 65_536;
/// How long the log is silent about a client's typing errors after a line about one: all clients
/// together have fewer such lines than there may be about clients in a second.
const SILENCE: Duration = Duration::from_secs(1);
/// How often the socket of a client that is to be closed is tried.
const RETRY: Duration = Duration::from_millis(50);

/// Why a client is closed.
#[derive(Clone, Debug, PartialEq, Eq)]
pub enum Reason {
    /// It ended its input, and has got all that was queued.
    Ended,
    /// Its socket failed.
    Lost(String),
    /// A message of it was refused, and it was shut for that.
    Refused(Refusal),
    /// Its queue overflowed.
    Overflow,
    /// It sent WRITE to a read-only listener.
    ReadOnly,
    /// It sent more than its listener takes in one message, or a longer key.
    TooLong,
    /// It sent no message in time.
    Silent,
    /// The server stops.
    Stop,
}

impl fmt::Display for Reason {
    fn fmt(&self, f: &mut fmt::Formatter<'_>) -> fmt::Result {
        match self {
            Reason::Ended => f.write_str("ended by the client"),
            Reason::Lost(error) => write!(f, "lost: {error}"),
            Reason::Refused(refusal) => write!(f, "refused {}", refusal.number()),
            Reason::Overflow => f.write_str("overflow"),
            Reason::ReadOnly => f.write_str("read-only"),
            Reason::TooLong => f.write_str("too long"),
            Reason::Silent => f.write_str("no message in time"),
            Reason::Stop => f.write_str("server stops"),
        }
    }
}

/// A client.
#[derive(Debug)]
pub struct Client {
    /// Its socket.
    pub socket: Socket,
    /// Who it is.
    pub peer: String,
    /// How its bytes are read.
    pub kind: Kind,
    /// What it may do.
    pub access: Access,
    /// The longest key and message that it may send.
    pub limits: Limits,
    /// When it came.
    pub came: Instant,
    /// Whether a whole message of it has come.
    pub has_spoken: bool,
    /// What is read and not fed.
    pub input: Input,
    /// What is taken and not written.
    pub output: Output,
    /// The library may have messages for it.
    pub queued: bool,
    /// The input has ended: nothing more is read, what was read is still fed.
    pub ended: bool,
    /// The peer has ended it, and not the server.
    pub peer_ended: bool,
    /// A read has failed.
    pub read_failed: bool,
    /// The peer takes no more output: what is taken for it is dropped.
    pub gone: bool,
    /// The error of its socket, if there was one.
    pub lost: Option<String>,
    /// Bytes of its output that were dropped since the peer did not take them.
    pub dropped: usize,
    /// Nothing more is fed; it is closed for this reason when its output is written.
    pub leaving: Option<Reason>,
    /// Nothing more is taken for it: it is leaving and its queue was found empty, or the server
    /// itself has said the last line.
    pub drained: bool,
    /// When its socket last took a byte or stopped to, or when it began to leave.
    pub progress: Instant,
    /// When the socket is tried again although it does not say that it is ready.
    pub retry: Instant,
    /// Its transaction, while one is open.
    pub recorded: Option<Recorded>,
    /// All of that transaction, where it only asks for answers that nobody gets.
    pub talk: Option<Vec<u8>>,
    /// What need not be fed again, once it is gone.
    pub known: Known,
    /// Its typing errors: messages that were refused and left it open.
    pub slips: u64,
    /// Until then the log does not tell of them.
    quiet_until: Instant,
}

impl Client {
    /// A client that has just come to this listener.
    pub fn new(socket: Socket, peer: String, listener: &ListenerOptions, now: Instant) -> Client {
        let kind = match socket.is_packets() {
            true => Kind::Packets,
            false => Kind::Open,
        };
        Client {
            socket,
            peer,
            kind,
            access: listener.access,
            limits: listener.limits,
            came: now,
            has_spoken: false,
            input: Input::default(),
            output: Output::default(),
            queued: false,
            ended: false,
            peer_ended: false,
            read_failed: false,
            gone: false,
            lost: None,
            dropped: 0,
            leaving: None,
            drained: false,
            progress: now,
            retry: now,
            recorded: None,
            talk: None,
            known: Known::default(),
            slips: 0,
            quiet_until: now,
        }
    }

    /// What to wait for. Input that waits to be fed is fed before more is read, unless the peer is
    /// gone: then all that it sent has to be read before the last effect of it is known.
    pub fn events(&mut self) -> c_short {
        let open = !self.ended && self.leaving.is_none();
        let reads = open && (self.gone || !(self.output.is_stuck() || self.has_message()));
        let writes = !self.gone && !self.output.is_empty();
        let one = |yes, event| if yes { event } else { 0 };
        one(reads, sys::POLLIN) | one(writes, sys::POLLOUT)
    }

    /// Reads once, or a few packets, and gives the number of bytes. An error ends the output, and
    /// the input when nothing is left of it.
    pub fn read(&mut self, scratch: &mut [u8], now: Instant) -> usize {
        let (turns, most) = match self.kind {
            Kind::Packets => (PACKETS_PER_TURN, scratch.len()),
            _ => (1, READ.min(scratch.len())),
        };
        let mut read = 0;
        for _ in 0..turns {
            if self.ended {
                break;
            }
            match self.socket.read(&mut scratch[..most]) {
                Ok(Found::Bytes(n)) => {
                    read += n;
                    self.arrived(&scratch[..n.min(most)]);
                }
                Ok(Found::Nothing) => break,
                Ok(Found::End) => {
                    self.end(now);
                    self.peer_ended = true;
                }
                Err(error) => {
                    // Packets may wait behind the error that tells that their sender is gone; a
                    // second error is the end.
                    if std::mem::replace(&mut self.read_failed, true) {
                        self.end(now);
                    }
                    self.lose(Some(&error));
                }
            }
        }
        read
    }

    /// Notes the end of the input.
    pub fn end(&mut self, now: Instant) {
        if !self.ended {
            self.ended = true;
            self.progress = now;
        }
    }

    /// Notes that the peer takes no more output, and the first error that says so.
    pub fn lose(&mut self, error: Option<&io::Error>) {
        self.gone = true;
        self.dropped += self.output.len();
        self.output.clear();
        if self.lost.is_none() {
            self.lost = error.map(io::Error::to_string);
        }
    }

    /// Lets it go for this reason, unless it is leaving already.
    pub fn leave(&mut self, reason: Reason, now: Instant) {
        if self.leaving.is_none() {
            self.leaving = Some(reason);
            self.progress = now;
        }
    }

    /// Lets it go for this reason with a last line of the server itself, behind all that was taken
    /// for it; nothing more is taken.
    pub fn turn_away(&mut self, line: &str, reason: Reason, now: Instant) {
        self.say(line);
        self.leave(reason, now);
        self.drained = true;
        self.queued = false;
    }

    /// Appends what the server itself says, unless the peer is gone.
    pub fn say(&mut self, text: &str) {
        if !self.gone {
            let packets = self.kind == Kind::Packets;
            self.output.push(text.as_bytes(), packets);
        }
    }

    fn arrived(&mut self, bytes: &[u8]) {
        match (self.kind, bytes.first()) {
            (Kind::Packets, _) => return self.input.push_packet(bytes),
            (Kind::Open, Some(&byte)) => self.kind = Kind::of_first_byte(byte),
            _ => {}
        }
        self.input.push(bytes);
    }

    /// Writes what the socket takes now and gives the number of bytes. An error ends the output.
    pub fn write(&mut self, now: Instant) -> usize {
        if self.gone || self.output.is_empty() {
            return 0;
        }
        let was_stuck = self.output.is_stuck();
        self.retry = now + RETRY;
        match self.output.write_to(&mut self.socket) {
            Ok(0) if was_stuck => 0,
            Ok(written) => {
                self.progress = now;
                written
            }
            Err(error) => {
                self.lose(Some(&error));
                0
            }
        }
    }

    /// Whether the first message is whole, or is known to be too long for its listener.
    pub fn has_message(&mut self) -> bool {
        self.input.whole(self.kind).is_some() || self.is_too_long()
    }

    /// Whether the first message is longer than its listener takes, even before it is whole.
    pub fn is_too_long(&mut self) -> bool {
        self.limits.message < usize::MAX && self.input.least(self.kind) > self.limits.message
    }

    /// Whether its peer is gone and all that it sent is read.
    pub fn is_dead(&self) -> bool {
        self.gone && self.ended
    }

    /// Whether a message may be fed now: one waits, and no output of its own does.
    pub fn can_be_fed(&mut self) -> bool {
        let waits = self.queued || self.output.is_stuck() || self.output.is_full();
        self.leaving.is_none() && !waits && self.has_message()
    }

    /// Whether a message may be taken for it now: the library may have one, and the output has
    /// room.
    pub fn can_take(&self) -> bool {
        let room = !self.output.is_stuck() && !self.output.is_full();
        self.queued && !self.drained && (self.gone || room)
    }

    /// Whether there is something to do for it now.
    pub fn has_work(&mut self) -> bool {
        self.can_take() || self.can_be_fed()
    }

    /// Whether the log is to tell of a typing error now.
    pub fn is_slip_told(&mut self, now: Instant) -> bool {
        let told = self.quiet_until <= now;
        if told {
            self.quiet_until = now + SILENCE;
        }
        told
    }

    /// Whether it has to be closed now: nothing of it will be fed, and all that is owed to it is
    /// written or cannot be.
    pub fn is_done(&mut self) -> bool {
        let input_done = match self.leaving {
            Some(_) => true,
            None => self.ended && !self.has_message(),
        };
        input_done && (self.gone || (!self.queued && self.output.is_empty()))
    }

    /// When something is due for it if nothing happens until then.
    pub fn due(&self, patience: Duration, first_message: Option<Duration>) -> Option<Instant> {
        if self.is_waiting() {
            let next = self.retry.min(self.progress + patience);
            return self.output.is_stuck().then_some(next);
        }
        let limit = first_message.filter(|_| !self.has_spoken)?;
        Some(self.came + limit)
    }

    /// Whether it is to be closed, and its socket is to be tried again. A Unix socket says that it
    /// is ready only when three quarters of its buffer are free, and a slow reader needs long for
    /// that.
    pub fn is_to_be_retried(&self, now: Instant) -> bool {
        self.is_waiting() && self.output.is_stuck() && self.retry <= now
    }

    /// Whether it is to be closed, and its socket has taken no byte of what is left for so long.
    pub fn is_overdue(&self, patience: Duration, now: Instant) -> bool {
        self.is_waiting() && self.output.is_stuck() && self.progress + patience <= now
    }

    /// Whether it is to be closed when all is fed, taken and written.
    pub fn is_waiting(&self) -> bool {
        self.leaving.is_some() || self.ended
    }
}

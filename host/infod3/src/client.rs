//! The client's side of the protocol: commands are written, and messages of the server are read.
//!
//! [`write()`] appends the bytes of a [`Command`], [`read()`] reads the first [`Message`] of some
//! bytes, and [`Reader`] takes the bytes of a connection as they come and gives its messages. The
//! library does lengths, quotes and escapes; sockets are the program's.
//!
//! ```
//! use infod3::client::{write, Command, Message, Reader, Wire};
//! use infod3::{Broker, Form, Sizes};
//!
//! let mut commands = Vec::new();
//! write(Wire::Text, &Command::Write(b"site.7.note", b"say \"stop\""), &mut commands)?;
//! write(Wire::Text, &Command::Read(b"site.7.note"), &mut commands)?;
//! let lines = concat!(
//!     "WRITE \"site.7.note\" \"say \\042stop\\042\"\n",
//!     "READ \"site.7.note\"\n",
//! );
//! assert_eq!(commands, lines.as_bytes());
//!
//! // A server, which is at the other end of a socket else.
//! let mut broker = Broker::new(Sizes::SMALLEST)?;
//! broker.open(0, Form::Stream)?;
//! let consumed = broker.feed(0, &commands)?.consumed();
//! assert_eq!(broker.feed(0, &commands[consumed..])?.number(), 0);
//! let sent = broker.take_message(0)?.expect("an INFO is owed");
//!
//! let mut reader = Reader::new(Wire::Text);
//! // Bytes come as they please.
//! reader.feed(&sent[..9]);
//! assert_eq!(reader.next_message()?, None);
//! reader.feed(&sent[9..]);
//! let info = Message::Info {
//!     key: &b"site.7.note"[..],
//!     value: Some(&b"say \"stop\""[..]),
//! };
//! assert_eq!(reader.next_message()?, Some(info));
//! # Ok::<(), Box<dyn std::error::Error>>(())
//! ```

mod reader;

pub use reader::Reader;

use crate::answer::{Error, Refusal};
use crate::raw;
use std::fmt;

/// The bytes that no command and no message passes, in any form.
pub const LONGEST: usize = 262_152;

/// The bytes that no ID with its payload passes.
const LONGEST_PACKET: usize = 65_536;

/// What a command may have beside ID and payload where no byte of it is escaped: the word, spaces,
/// quotes, the digits of a version, the line end. Where it has more, the next room is enough.
const FIRST_ROOM: usize = 64;

/// The length of a scratch buffer at first, in which most messages fit.
const FIRST_SCRATCH: usize = 4096;

/// The form in which commands and messages go between a client and its server.
#[derive(Clone, Copy, Debug, PartialEq, Eq, Hash)]
pub enum Wire {
    /// 0: each packet is one command or message, an ID and a payload.
    Packets,
    /// 1: a stream of frames: an ID, two bytes of length, the payload.
    Framed,
    /// 2: a stream of text lines.
    Text,
}

impl Wire {
    /// All forms, in the order of their numbers.
    pub const ALL: [Wire; 3] = [Wire::Packets, Wire::Framed, Wire::Text];

    /// The form's number.
    pub fn number(self) -> usize {
        match self {
            Wire::Packets => 0,
            Wire::Framed => 1,
            Wire::Text => 2,
        }
    }
}

/// A command of a client.
#[derive(Clone, Copy, Debug, PartialEq, Eq, Hash)]
pub enum Command<'a> {
    /// Asks for VERSION.
    Hello {
        /// The version that the client speaks.
        version: u8,
        /// Any bytes.
        text: &'a [u8],
    },
    /// Adds a pattern: the INFO of each matching key follows, and one for each change.
    Sub(&'a [u8]),
    /// Removes a pattern.
    Unsub(&'a [u8]),
    /// Asks for a key's INFO.
    Read(&'a [u8]),
    /// Gives a key its value, which may be empty and may hold NULs.
    Write(&'a [u8], &'a [u8]),
    /// Deletes a key: a WRITE without a value.
    Delete(&'a [u8]),
    /// Begins a transaction.
    Begin,
    /// Runs it.
    Commit,
    /// Asks for PONG with these bytes.
    Ping(&'a [u8]),
}

impl Command<'_> {
    /// The command's ID, and the parts of which its payload is made.
    fn parts(&self) -> (u8, [&[u8]; 3]) {
        match self {
            Command::Hello { version, text } => (0, [std::slice::from_ref(version), text, b""]),
            Command::Sub(pattern) => (1, [pattern, b"", b""]),
            Command::Unsub(pattern) => (2, [pattern, b"", b""]),
            Command::Read(key) => (3, [key, b"", b""]),
            Command::Write(key, value) => (4, [key, b"\0", value]),
            Command::Delete(key) => (4, [key, b"", b""]),
            Command::Begin => (5, [b"", b"", b""]),
            Command::Commit => (6, [b"", b"", b""]),
            Command::Ping(id) => (7, [id, b"", b""]),
        }
    }

    /// Whether ID and payload would be another command: the first NUL of a WRITE ends its key.
    fn is_another(&self) -> bool {
        match self {
            Command::Write(key, _) | Command::Delete(key) => key.contains(&0),
            _ => false,
        }
    }
}

/// Why a command was not written, or a message not read.
///
/// ```
/// use infod3::client::CodecError;
/// use infod3::Refusal;
///
/// let error = CodecError::Refused(Refusal::Parameter);
/// assert_eq!(error.number(), 101);
/// assert_eq!(error.to_string(), "bad parameter");
/// ```
#[derive(Clone, Copy, Debug, PartialEq, Eq, Hash)]
pub enum CodecError {
    /// 100 to 102: the command or message is refused.
    Refused(Refusal),
    /// A number, or a count, that the call cannot give by the rules paper.
    Unexpected(u32),
}

impl CodecError {
    /// The answer's number.
    pub fn number(self) -> u32 {
        match self {
            CodecError::Refused(refusal) => refusal.number(),
            CodecError::Unexpected(number) => number,
        }
    }
}

impl fmt::Display for CodecError {
    fn fmt(&self, f: &mut fmt::Formatter<'_>) -> fmt::Result {
        match self {
            CodecError::Refused(refusal) => refusal.fmt(f),
            CodecError::Unexpected(number) => write!(f, "unexpected answer {number}"),
        }
    }
}

impl std::error::Error for CodecError {}

/// The refusal with this number, if it is one of the client's side, which has no 103.
fn refusal(number: u32) -> Option<Refusal> {
    Refusal::from_number(number).filter(|&refusal| refusal != Refusal::State)
}

/// Appends a command's bytes to `out` and gives their number. With an error `out` holds what it
/// held.
///
/// Errors, which are what a server would answer: [`Refusal::Parameter`] for a NUL in a key or a
/// pattern, and for an invalid pattern; then [`Refusal::Room`] for a payload of over 65,535 bytes
/// (key and value with the NUL between them) or a pattern of over 255.
///
/// ```
/// use infod3::client::{write, CodecError, Command, Wire};
/// use infod3::Refusal;
///
/// let mut out = Vec::new();
/// assert_eq!(write(Wire::Framed, &Command::Ping(b"x"), &mut out), Ok(4));
/// assert_eq!(write(Wire::Text, &Command::Delete(b"k"), &mut out), Ok(10));
/// assert_eq!(out, b"\x07\0\x01xWRITE \"k\"\n");
///
/// let refused = write(Wire::Text, &Command::Sub(b"a|b"), &mut out);
/// assert_eq!(refused, Err(CodecError::Refused(Refusal::Parameter)));
/// assert_eq!(out.len(), 14);
/// ```
pub fn write(wire: Wire, command: &Command<'_>, out: &mut Vec<u8>) -> Result<usize, CodecError> {
    if command.is_another() {
        return Err(CodecError::Refused(Refusal::Parameter));
    }
    let (id, parts) = command.parts();
    let start = out.len();
    let mut room = FIRST_ROOM + parts.iter().map(|part| part.len()).sum::<usize>();
    loop {
        // ID and payload stand behind the room for the command, so that no other buffer is needed.
        room = room.min(LONGEST);
        out.resize(start + room, 0);
        out.push(id);
        parts.iter().for_each(|part| out.extend_from_slice(part));
        let (front, packet) = out.split_at_mut(start + room);
        let reply = raw::write_command(wire.number(), packet, &mut front[start..]);
        let result = written(reply, room);
        out.truncate(start + result.unwrap_or(0));
        if reply.answer != 5 || room == LONGEST {
            return result;
        }
        // No byte becomes more than four.
        room *= 4;
    }
}

/// The result of writing with room for `room` bytes.
fn written(reply: raw::Reply, room: usize) -> Result<usize, CodecError> {
    match (reply.answer, refusal(reply.answer)) {
        (0, _) if reply.count <= room => Ok(reply.count),
        (_, Some(refusal)) => Err(CodecError::Refused(refusal)),
        (number, None) => Err(CodecError::Unexpected(number)),
    }
}

/// A message of the server, of bytes that are borrowed (`Message<&[u8]>`) or its own
/// (`Message<Vec<u8>>`, or `Message` alone).
#[derive(Clone, Copy, Debug, PartialEq, Eq, Hash)]
pub enum Message<B = Vec<u8>> {
    /// The answer to HELLO.
    Version {
        /// The version that the server speaks.
        version: u8,
        /// Any bytes.
        text: B,
    },
    /// What a key has.
    Info {
        /// The key, without NUL.
        key: B,
        /// Its value, which may be empty; none where the key is absent or was deleted.
        value: Option<B>,
    },
    /// The answer to PING, with its bytes.
    Pong(B),
    /// Why the server closes.
    Error {
        /// The number of the refusal.
        number: u8,
        /// Its text.
        text: B,
    },
}

impl<'a> Message<&'a [u8]> {
    /// The message of an ID and its payload, if it is one.
    fn of_packet(packet: &'a [u8]) -> Option<Message<&'a [u8]>> {
        let (&id, payload) = packet.split_first()?;
        let numbered = || payload.split_first().map(|(&number, text)| (number, text));
        match id {
            0x80 => numbered().map(|(version, text)| Message::Version { version, text }),
            0x81 => Some(match payload.iter().position(|&b| b == 0) {
                None => Message::Info {
                    key: payload,
                    value: None,
                },
                Some(at) => Message::Info {
                    key: &payload[..at],
                    value: Some(&payload[at + 1..]),
                },
            }),
            0x82 => Some(Message::Pong(payload)),
            0x83 => numbered().map(|(number, text)| Message::Error { number, text }),
            _ => None,
        }
    }

    /// The message with bytes of its own, to be kept.
    pub fn into_owned(self) -> Message<Vec<u8>> {
        match self {
            Message::Version { version, text } => Message::Version {
                version,
                text: text.to_vec(),
            },
            Message::Info { key, value } => Message::Info {
                key: key.to_vec(),
                value: value.map(<[u8]>::to_vec),
            },
            Message::Pong(id) => Message::Pong(id.to_vec()),
            Message::Error { number, text } => Message::Error {
                number,
                text: text.to_vec(),
            },
        }
    }
}

/// What became of the bytes in which a message was looked for.
#[derive(Clone, Copy, Debug, PartialEq, Eq, Hash)]
#[must_use = "the input goes on behind the bytes that were consumed"]
pub enum Received<'a> {
    /// 1: the input holds no whole message yet. Nothing is consumed.
    More,
    /// 0: the first message of the input.
    Message {
        /// The message.
        message: Message<&'a [u8]>,
        /// The bytes that it took up.
        consumed: usize,
    },
    /// 100 to 102: what comes first is no message.
    Refused {
        /// Why.
        refusal: Refusal,
        /// The bytes that it took up.
        consumed: usize,
    },
}

impl Received<'_> {
    /// The answer's number.
    pub fn number(self) -> u32 {
        match self {
            Received::More => 1,
            Received::Message { .. } => 0,
            Received::Refused { refusal, .. } => refusal.number(),
        }
    }

    /// The bytes of the input that were consumed.
    pub fn consumed(self) -> usize {
        match self {
            Received::More => 0,
            Received::Message { consumed, .. } | Received::Refused { consumed, .. } => consumed,
        }
    }
}

/// Reads the first message of `input`; a packet is all of it. The message's bytes lie in `scratch`,
/// whatever that held: it is made as long as a message needs it, up to 65,536 bytes, and never
/// shorter, so that the same one serves all messages.
///
/// A text line is a message only in the very form in which a server writes it.
///
/// Errors: [`Error::Unexpected`].
///
/// ```
/// use infod3::client::{read, Message, Received, Wire};
/// use infod3::Refusal;
///
/// let mut scratch = Vec::new();
/// let input = b"ERROR 102 \"no room\"\r\n";
/// let error = Message::Error { number: 102, text: &b"no room"[..] };
/// let received = Received::Message { message: error, consumed: input.len() };
/// assert_eq!(read(Wire::Text, input, &mut scratch)?, received);
/// assert_eq!(read(Wire::Text, &input[..20], &mut scratch)?, Received::More);
///
/// let refused = Received::Refused { refusal: Refusal::Message, consumed: 10 };
/// assert_eq!(read(Wire::Text, b"pong \"x\"\r\n", &mut scratch)?, refused);
/// # Ok::<(), infod3::Error>(())
/// ```
pub fn read<'a>(wire: Wire, input: &[u8], scratch: &'a mut Vec<u8>) -> Result<Received<'a>, Error> {
    let mut room = scratch.len().max(FIRST_SCRATCH);
    let found = loop {
        scratch.resize(room, 0);
        let found = raw::read_message(wire.number(), input, scratch);
        if found.answer != 5 || room >= LONGEST_PACKET {
            break found;
        }
        room = LONGEST_PACKET.min(room * 4);
    };
    received(found, input.len(), scratch)
}

/// The result of reading in `len` bytes. A count over `len` or over the scratch buffer is
/// unexpected, so that it may be used as an index.
fn received(found: raw::Read, len: usize, scratch: &[u8]) -> Result<Received<'_>, Error> {
    let consumed = found.consumed;
    let unexpected = Error::Unexpected(found.answer);
    if consumed > len {
        return Err(unexpected);
    }
    match (found.answer, refusal(found.answer)) {
        (0, _) => {
            let packet = scratch.get(..found.written).ok_or(unexpected)?;
            let message = Message::of_packet(packet).ok_or(unexpected)?;
            Ok(Received::Message { message, consumed })
        }
        (1, _) => Ok(Received::More),
        (_, Some(refusal)) => Ok(Received::Refused { refusal, consumed }),
        (_, None) => Err(unexpected),
    }
}

/// The Rust code of docs/client.md, which is compiled with the examples here.
#[cfg(doctest)]
#[doc = include_str!("../../../docs/client.md")]
pub struct Page;

#[cfg(test)]
mod tests {
    use super::*;

    #[test]
    fn every_number_is_a_result() {
        for answer in (0..300).chain([u32::MAX - 1, u32::MAX]) {
            match written(raw::Reply { answer, count: 0 }, 0) {
                Ok(count) => assert_eq!((answer, count), (0, 0)),
                Err(error) => assert_eq!(error.number(), answer),
            }
            let found = raw::Read {
                answer,
                consumed: 0,
                written: 1,
            };
            let number = received(found, 0, b"\x82").map_or_else(Error::number, Received::number);
            assert_eq!(number, answer);
        }
        let state = written(
            raw::Reply {
                answer: 103,
                count: 0,
            },
            0,
        );
        assert_eq!(state, Err(CodecError::Unexpected(103)));
    }

    #[test]
    fn counts_stay_inside_the_slices() {
        let long = raw::Reply {
            answer: 0,
            count: 9,
        };
        assert_eq!(written(long, 8), Err(CodecError::Unexpected(0)));
        for (answer, consumed, written) in [(0, 9, 1), (0, 8, 2), (0, 8, 0), (101, 9, 0)] {
            let found = raw::Read {
                answer,
                consumed,
                written,
            };
            let result = received(found, 8, b"\x82");
            assert_eq!(result, Err(Error::Unexpected(answer)));
        }
    }

    #[test]
    fn only_messages_of_a_server_are_messages() {
        for packet in [&b""[..], b"\x80", b"\x83", b"\x07x", b"\x84x"] {
            assert_eq!(Message::of_packet(packet), None, "{packet:?}");
        }
    }
}

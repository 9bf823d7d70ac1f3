//! The messages of a connection.

use super::{read, CodecError, Message, Received, Wire, LONGEST};
use crate::answer::Refusal;
use std::collections::VecDeque;

/// Takes the bytes of a connection as they come, in parts of any length, and gives its messages,
/// each once and in order. In [`Wire::Packets`] each feed is one packet.
///
/// ```
/// use infod3::client::{CodecError, Message, Reader, Wire};
/// use infod3::Refusal;
///
/// let mut reader = Reader::new(Wire::Framed);
/// reader.feed(b"\x82\0\x01x\x07\0\0\x82\0");
/// assert_eq!(reader.next_message(), Ok(Some(Message::Pong(&b"x"[..]))));
/// // A command is no message of a server; the reader goes on behind it.
/// let refused = CodecError::Refused(Refusal::Message);
/// assert_eq!(reader.next_message(), Err(refused));
/// assert_eq!(reader.next_message(), Ok(None));
/// assert_eq!(reader.pending(), b"\x82\0");
/// reader.feed(b"\x01y");
/// assert_eq!(reader.next_message(), Ok(Some(Message::Pong(&b"y"[..]))));
/// ```
///
/// A server may have lines of its own, which are no messages: infod3d begins such a line with `#`
/// and closes behind it. A program that wants to show it looks at [`Reader::pending`] before it
/// asks for a message, since in frames no whole message may ever come of it.
#[derive(Clone, Debug)]
pub struct Reader {
    wire: Wire,
    /// What was fed, of which the front is consumed.
    input: Vec<u8>,
    consumed: usize,
    /// The lengths of the packets that are not consumed.
    packets: VecDeque<usize>,
    scratch: Vec<u8>,
}

impl Reader {
    /// A reader at the beginning of a connection.
    pub fn new(wire: Wire) -> Reader {
        Reader {
            wire,
            input: Vec::new(),
            consumed: 0,
            packets: VecDeque::new(),
            scratch: Vec::new(),
        }
    }

    /// Takes the next bytes of the connection in.
    pub fn feed(&mut self, bytes: &[u8]) {
        // Each byte is moved to the front less than once on average.
        if self.consumed > self.input.len() / 2 {
            self.input.drain(..self.consumed);
            self.consumed = 0;
        }
        self.input.extend_from_slice(bytes);
        if self.wire == Wire::Packets {
            self.packets.push_back(bytes.len());
        }
    }

    /// What was fed and is not consumed. Where the connection has ended and no message is left, it
    /// is the beginning of a message that was cut off.
    pub fn pending(&self) -> &[u8] {
        &self.input[self.consumed..]
    }

    /// The next message, or none until more is fed.
    ///
    /// Errors: [`CodecError::Refused`] for what is no message, which is consumed. That are also
    /// [`LONGEST`] bytes without the end of a line, with [`Refusal::Room`], so that no server makes
    /// the reader grow without end. After [`CodecError::Unexpected`] nothing is consumed.
    pub fn next_message(&mut self) -> Result<Option<Message<&[u8]>>, CodecError> {
        let pending = &self.input[self.consumed..];
        let input = match (self.wire, self.packets.front()) {
            (Wire::Packets, Some(&len)) => &pending[..len],
            (Wire::Packets, None) => return Ok(None),
            (Wire::Framed | Wire::Text, _) => pending,
        };
        let len = input.len();
        let received = read(self.wire, input, &mut self.scratch);
        let received = received.map_err(|error| CodecError::Unexpected(error.number()))?;
        let packet = self.packets.pop_front();
        self.consumed += packet.unwrap_or(received.consumed());
        match received {
            Received::Message { message, .. } => Ok(Some(message)),
            Received::Refused { refusal, .. } => Err(CodecError::Refused(refusal)),
            Received::More if len < LONGEST => Ok(None),
            Received::More => {
                self.consumed += LONGEST;
                Err(CodecError::Refused(Refusal::Room))
            }
        }
    }
}

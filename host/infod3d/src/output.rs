//! The messages of a client that are taken from the library and not written yet.
//!
//! The library's queue is the real one, with its rule of what fits. This buffer is short: while
//! it holds [`MARK`] bytes or more nothing is taken, so it never holds more than that and one
//! message.

use crate::socket::Socket;
use std::collections::VecDeque;
use std::io;

/// From so many bytes on the buffer is full.
pub const MARK: usize = 65_536;

/// The buffer.
#[derive(Debug, Default)]
pub struct Output {
    bytes: Vec<u8>,
    /// Where the bytes that are not written yet begin.
    start: usize,
    /// The lengths of the messages among these, of a client with packets.
    packets: VecDeque<usize>,
    /// The socket took less than there was when it was last written to.
    stuck: bool,
}

impl Output {
    /// Whether all is written.
    pub fn is_empty(&self) -> bool {
        self.len() == 0
    }

    /// The number of bytes that are not written yet.
    pub fn len(&self) -> usize {
        self.bytes.len() - self.start
    }

    /// Whether no message may be taken for this client now.
    pub fn is_full(&self) -> bool {
        self.len() >= MARK
    }

    /// Whether bytes wait for the socket, which took less than there was.
    pub fn is_stuck(&self) -> bool {
        self.stuck
    }

    /// Appends a message.
    pub fn push(&mut self, message: &[u8], packets: bool) {
        if self.start == self.bytes.len() || self.start >= MARK {
            self.bytes.drain(..self.start);
            self.start = 0;
        }
        self.bytes.extend_from_slice(message);
        if packets {
            self.packets.push_back(message.len());
        }
    }

    /// Drops all that is not written.
    pub fn clear(&mut self) {
        *self = Output::default();
    }

    /// Writes what the socket takes now and gives the number of bytes: all messages of a stream
    /// together, packets one by one. That the socket takes no more is no error.
    pub fn write_to(&mut self, socket: &mut Socket) -> io::Result<usize> {
        let mut written = 0;
        self.stuck = false;
        while !self.is_empty() {
            let waiting = &self.bytes[self.start..];
            let part = self.packets.front().map_or(waiting, |&len| &waiting[..len]);
            match socket.write(part) {
                Ok(0) => return Err(io::ErrorKind::WriteZero.into()),
                Ok(n) => {
                    self.packets.pop_front();
                    self.start += n;
                    written += n;
                }
                Err(error) if error.kind() == io::ErrorKind::Interrupted => {}
                Err(error) if error.kind() == io::ErrorKind::WouldBlock => {
                    self.stuck = true;
                    break;
                }
                Err(error) => return Err(error),
            }
        }
        Ok(written)
    }
}

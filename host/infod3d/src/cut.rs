//! Where the messages in a client's bytes end. The server cuts by the same rules as the library, so
//! that a message is fed once, when it is whole.

use crate::command::Command;
use std::collections::VecDeque;

/// The longest message of a stream: a text line that is refused as over-long.
pub const LONGEST: usize = 262_152;

/// The most messages of a transaction that can be committed, its BEGIN and COMMIT included.
const LONGEST_TRANSACTION: usize = 66;
/// The most bytes of a transaction that is known again.
pub const LONGEST_TALK: usize = 16_384;

/// How a client's bytes are to be read.
#[derive(Clone, Copy, Debug, PartialEq, Eq)]
pub enum Kind {
    /// Each packet is one message.
    Packets,
    /// A stream before its first byte.
    Open,
    /// ID, length in two bytes, payload.
    Framed,
    /// Lines.
    Text,
}

impl Kind {
    /// The kind of a stream by its first byte.
    pub fn of_first_byte(byte: u8) -> Kind {
        match byte {
            0x0A | 0x0D | 0x20 | 0x40..=0x7E => Kind::Text,
            _ => Kind::Framed,
        }
    }
}

/// The bytes of a client that are read and not fed yet.
#[derive(Debug, Default)]
pub struct Input {
    bytes: Vec<u8>,
    /// Where the bytes that are not fed yet begin.
    start: usize,
    /// How many of these are known to hold no line end.
    scanned: usize,
    /// The lengths of the packets among these, of a client with packets.
    packets: VecDeque<usize>,
    /// How far the last messages are looked through for effects.
    survey: Survey,
}

/// How far the messages of an input that has ended are looked through for the last effect.
#[derive(Debug, Default)]
struct Survey {
    /// Bytes and messages that are looked at.
    seen: (usize, usize),
    /// Bytes and messages up to the end of the last one with an effect.
    kept: (usize, usize),
    /// Whether no WRITE was seen since the last COMMIT, which then has no effect.
    idle: bool,
    /// Whether what is behind the last effect is dropped.
    done: bool,
}

impl Input {
    /// The number of bytes that are not fed yet.
    pub fn len(&self) -> usize {
        self.bytes.len() - self.start
    }

    /// Whether nothing waits to be fed, not even an empty packet.
    pub fn is_empty(&self) -> bool {
        self.len() == 0 && self.packets.is_empty()
    }

    /// The first byte that is not fed yet.
    pub fn first(&self) -> Option<u8> {
        self.bytes.get(self.start).copied()
    }

    /// Appends bytes of a stream.
    pub fn push(&mut self, bytes: &[u8]) {
        if self.start > self.bytes.len() / 2 {
            self.bytes.drain(..self.start);
            self.start = 0;
        }
        self.bytes.extend_from_slice(bytes);
    }

    /// Appends a packet.
    pub fn push_packet(&mut self, bytes: &[u8]) {
        self.push(bytes);
        self.packets.push_back(bytes.len());
    }

    /// The length of the first message if it is whole.
    pub fn whole(&mut self, kind: Kind) -> Option<usize> {
        let bytes = &self.bytes[self.start..];
        match kind {
            Kind::Packets => self.packets.front().copied(),
            Kind::Open => None,
            Kind::Framed => frame_length(bytes),
            Kind::Text => {
                let found = line_length(bytes, self.scanned);
                self.scanned = found.map_or(bytes.len(), |len| len - 1);
                found
            }
        }
    }

    /// A number of bytes that the first message has at least, without ID, length and line end: all
    /// of them where it is whole or says how long it is.
    pub fn least(&mut self, kind: Kind) -> usize {
        let whole = self.whole(kind);
        let bytes = &self.bytes[self.start..];
        match (kind, whole) {
            (Kind::Packets, _) => whole.unwrap_or(0).saturating_sub(1),
            (Kind::Framed, _) => match bytes {
                [_, high, low, ..] => usize::from(u16::from_be_bytes([*high, *low])),
                _ => 0,
            },
            (_, Some(len)) => len - 1,
            (_, None) => bytes.len(),
        }
    }

    /// Goes on through the messages of an input that has ended, about `budget` bytes, for the last
    /// one that others may see the effect of. True when that is found; what is behind it is dropped
    /// then.
    pub fn keep_effects(&mut self, kind: Kind, budget: usize) -> bool {
        let until = self.survey.seen.0.saturating_add(budget);
        while !self.survey.done && self.survey.seen.0 < until {
            let (at, count) = self.survey.seen;
            let bytes = &self.bytes[self.start + at..];
            let found = match kind {
                Kind::Packets => self.packets.get(count).copied(),
                _ => stream_length(kind, bytes),
            };
            match found {
                Some(len) => {
                    self.survey.seen = (at + len, count + 1);
                    let command = Command::of(kind, &bytes[..len]);
                    let commits = command == Command::Commit && !self.survey.idle;
                    if commits || command == Command::Write {
                        self.survey.kept = self.survey.seen;
                        self.survey.idle = commits;
                    }
                }
                None => self.drop_tail(),
            }
        }
        self.survey.done
    }

    fn drop_tail(&mut self) {
        let (kept, count) = self.survey.kept;
        self.bytes.truncate(self.start + kept);
        self.packets.truncate(count);
        self.scanned = self.scanned.min(kept);
        self.survey.done = true;
    }

    /// The first `len` bytes.
    pub fn front(&self, len: usize) -> &[u8] {
        let bytes = &self.bytes[self.start..];
        &bytes[..len.min(bytes.len())]
    }

    /// The messages of a transaction that begins here and only asks for answers, if it is here up to
    /// its end: the length of each in four bytes and its bytes, and the lengths alone.
    pub fn transaction(&self, kind: Kind) -> Option<(Vec<u8>, Vec<usize>)> {
        let (mut text, mut lengths, mut at) = (Vec::new(), Vec::new(), self.start);
        while lengths.len() < LONGEST_TRANSACTION && text.len() < LONGEST_TALK {
            let bytes = &self.bytes[at..];
            let len = match kind {
                Kind::Packets => self.packets.get(lengths.len()).copied(),
                _ => stream_length(kind, bytes),
            }?;
            let command = Command::of(kind, &bytes[..len]);
            let begins = command == Command::Begin;
            if begins != lengths.is_empty() || !(begins || command.may_end_talk()) {
                return None;
            }
            text.extend(u32::try_from(len).ok()?.to_be_bytes());
            text.extend_from_slice(&bytes[..len]);
            lengths.push(len);
            at += len;
            if command == Command::Commit {
                return Some((text, lengths));
            }
        }
        None
    }

    /// Removes the first message, of `len` bytes.
    pub fn remove(&mut self, len: usize) {
        self.start += len.min(self.len());
        self.scanned = 0;
        self.packets.pop_front();
        if self.start == self.bytes.len() {
            self.bytes.clear();
            self.start = 0;
        }
    }
}

/// The length of the first message of a stream if it is whole.
fn stream_length(kind: Kind, bytes: &[u8]) -> Option<usize> {
    match kind {
        Kind::Packets | Kind::Open => None,
        Kind::Framed => frame_length(bytes),
        Kind::Text => line_length(bytes, 0),
    }
}

/// The length of the first frame if it is whole.
fn frame_length(bytes: &[u8]) -> Option<usize> {
    let (high, low) = (*bytes.get(1)?, *bytes.get(2)?);
    let len = 3 + usize::from(u16::from_be_bytes([high, low]));
    (bytes.len() >= len).then_some(len)
}

/// The length of the first line if it is whole or over-long; its first `scanned` bytes hold no end.
fn line_length(bytes: &[u8], scanned: usize) -> Option<usize> {
    let end = bytes[scanned..].iter().position(|b| b"\r\n".contains(b));
    let found = end.map(|at| scanned + at + 1);
    let longest = || (bytes.len() >= LONGEST).then_some(LONGEST);
    found.filter(|&len| len <= LONGEST).or_else(longest)
}

#[cfg(test)]
mod tests {
    use super::*;

    #[test]
    fn messages_are_cut_at_every_byte() {
        let stream: [(Kind, &[u8], &[usize]); 2] = [
            (Kind::Text, b"PING a\n\r\nw k v\r", &[7, 1, 1, 6]),
            (
                Kind::Framed,
                b"\x05\x00\x00\x07\x00\x02ab\x06\x00\x00",
                &[3, 5, 3],
            ),
        ];
        for (kind, bytes, lengths) in stream {
            for split in 0..=bytes.len() {
                let mut input = Input::default();
                let mut found = Vec::new();
                for part in [&bytes[..split], &bytes[split..]] {
                    input.push(part);
                    while let Some(len) = input.whole(kind) {
                        found.push(len);
                        input.remove(len);
                    }
                }
                assert_eq!(found, lengths);
                assert!(input.is_empty());
            }
        }
    }

    #[test]
    fn an_overlong_line_is_cut_at_the_limit() {
        let mut input = Input::default();
        input.push(&vec![b'x'; LONGEST - 1]);
        assert_eq!(input.whole(Kind::Text), None);
        input.push(b"x\n");
        assert_eq!(input.whole(Kind::Text), Some(LONGEST));
        let mut input = Input::default();
        input.push(&vec![b'x'; LONGEST - 1]);
        input.push(b"\n");
        assert_eq!(input.whole(Kind::Text), Some(LONGEST));
    }
}

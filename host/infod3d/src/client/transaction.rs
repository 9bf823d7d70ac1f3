//! What is known of the messages that a client was fed: its transaction, and what need not be fed
//! again.

use super::Client;
use crate::command::{is_blank, Command};
use crate::cut::{Kind, LONGEST_TALK};
use infod3::Refusal;

/// A transaction that is open.
#[derive(Clone, Debug, Default, PartialEq, Eq)]
pub struct Recorded {
    /// The most bytes that its WRITEs may owe another client.
    pub owed: usize,
    /// The number of its commands.
    pub commands: usize,
    /// A message in it was refused: nothing of it is done, and nothing more is recorded.
    pub spoiled: bool,
    /// Its messages so far, of a client with lines whose peer is gone; none where they are too many
    /// to be known again.
    said: Option<Vec<u8>>,
}

impl Client {
    /// The most bytes that this message can owe another client when it is fed. What is recorded
    /// counts when it is run.
    pub fn may_owe(&mut self, command: Command, len: usize) -> usize {
        let owed = || info_length(self.input.front(len));
        match (command, &self.recorded) {
            (Command::Write, None) => owed(),
            (Command::Commit, Some(recorded)) => recorded.owed,
            _ => 0,
        }
    }

    /// Notes that the first message, of `len` bytes, was accepted in this state of the store: where
    /// a transaction begins and ends, and what need not be fed again. True where the store may have
    /// changed.
    pub fn note_accepted(&mut self, command: Command, len: usize, state: u64) -> bool {
        let Some(recorded) = &mut self.recorded else {
            if command == Command::Begin {
                let said = (self.gone && self.kind == Kind::Text).then(Vec::new);
                self.recorded = Some(Recorded {
                    said,
                    ..Recorded::default()
                });
                if self.gone {
                    self.talk = self.input.transaction(self.kind).map(|(text, _)| text);
                }
            } else if self.gone {
                self.known.note(command, self.input.front(len), state);
            }
            return command == Command::Write;
        };
        if recorded.spoiled {
            return false;
        }
        match command {
            Command::Commit => {
                let changes = recorded.owed > 0;
                self.recorded = None;
                self.known.note_transaction(self.talk.take(), state);
                return changes;
            }
            Command::Write => recorded.owed += info_length(self.input.front(len)),
            Command::Help | Command::Other => return false,
            _ => {}
        }
        recorded.commands += 1;
        false
    }

    /// Notes that the first message, of `len` bytes, was refused and left the client open: outside
    /// of a transaction it does nothing but bring an ERROR, however often it is fed. Inside, it
    /// spoils the transaction, which a COMMIT ends, refused for its state and not for its form.
    pub fn note_slip(&mut self, command: Command, refusal: Refusal, len: usize, state: u64) {
        self.slips += 1;
        let message = self.input.front(len);
        let Some(recorded) = &mut self.recorded else {
            if self.gone {
                self.known.note(Command::Other, message, state);
            }
            return;
        };
        self.talk = None;
        let said = recorded.said.take();
        if command == Command::Commit && refusal == Refusal::State {
            let whole = said.map(|said| [&said, message].concat());
            self.known.note_spoiled(whole);
            self.recorded = None;
        } else {
            *recorded = Recorded {
                spoiled: true,
                said,
                ..Recorded::default()
            };
        }
    }

    /// Removes the first message, of `len` bytes.
    pub fn remove(&mut self, len: usize) {
        if let Some(recorded) = &mut self.recorded {
            let fits = |said: &Vec<u8>| said.len() + len <= LONGEST_TALK;
            recorded.said = recorded.said.take().filter(fits);
            if let Some(said) = &mut recorded.said {
                said.extend_from_slice(self.input.front(len));
            }
        }
        self.input.remove(len);
    }

    /// Removes the first message, of `len` bytes, where it need not be fed: a line that means
    /// nothing, or of a client whose peer is gone what would only bring answers. False where it has
    /// to be fed.
    pub fn passes_over(&mut self, len: usize, state: u64) -> bool {
        let message = self.input.front(len);
        let means_nothing = self.has_spoken && is_blank(self.kind, message);
        let alone = self.gone && self.recorded.is_none();
        if means_nothing || (alone && self.known.holds(message, state)) {
            self.remove(len);
            return true;
        }
        if !alone || Command::of(self.kind, message) != Command::Begin {
            return false;
        }
        if let Some(len) = self.known.spoiled(self.input.front(usize::MAX)) {
            self.input.remove(len);
            return true;
        }
        let talk = self.input.transaction(self.kind);
        let known = talk.filter(|(text, _)| self.known.holds_transaction(text, state));
        let Some((_, lengths)) = known else {
            return false;
        };
        lengths.into_iter().for_each(|len| self.input.remove(len));
        true
    }
}

/// The most bytes that a WRITE adds to the queue of a client that it matches: in text, five bytes
/// take three more each.
fn info_length(message: &[u8]) -> usize {
    let quoted = |b: &&u8| matches!(b, 0 | b'\n' | b'\r' | b'"' | b'\\');
    message.len() + 3 * message.iter().filter(quoted).count() + 32
}

#[cfg(test)]
mod tests {
    use super::*;
    use infod3::{Broker, Feed, Form, Sizes, View};

    /// What a WRITE owes in either form of a stream, as the library's queue counts it.
    #[test]
    fn no_info_is_longer_than_it_is_taken_for() {
        let mut broker = Broker::new(Sizes::SMALLEST).unwrap();
        let view = View::of(&mut broker).unwrap().unwrap();
        let nasty: Vec<u8> = (0..40).flat_map(|_| *b"\n\r\"\\\0").collect();
        for (key, value) in [
            (&b"k"[..], &b"v"[..]),
            (b"k", b""),
            (b"\n", &nasty),
            (b"", b""),
        ] {
            let len = u16::try_from(key.len() + 1 + value.len())
                .unwrap()
                .to_be_bytes();
            let write = [&[4, len[0], len[1]], key, b"\0", value].concat();
            for text in [true, false] {
                broker.open(0, Form::Stream).unwrap();
                if text {
                    // A blank line fixes the kind; the frame goes by a line of the same meaning.
                    let quoted: String = value.iter().map(|b| format!("\\{b:03o}")).collect();
                    let key: String = key.iter().map(|b| format!("\\{b:03o}")).collect();
                    for line in ["s *\n", &format!("w \"{key}\" \"{quoted}\"\n")] {
                        assert_eq!(broker.feed(0, line.as_bytes()), Ok(Feed::Done(line.len())));
                    }
                } else {
                    assert_eq!(broker.feed(0, b"\x01\0\x01*"), Ok(Feed::Done(4)));
                    assert_eq!(broker.feed(0, &write), Ok(Feed::Done(write.len())));
                }
                let queued = view.queued(broker.memory(), 0).unwrap();
                assert!(0 < queued && queued <= info_length(&write), "{queued}");
                broker.close(0).unwrap();
                broker = Broker::new(Sizes::SMALLEST).unwrap();
            }
        }
    }
}

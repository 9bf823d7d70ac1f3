//! What a client whose peer is gone need not be fed again.

use crate::command::Command;

/// The most messages that are kept, and the longest.
const MOST: usize = 16;
const LONGEST: usize = 512;

/// Messages that only queued answers to their client: such as were accepted, and such as were
/// refused outside of a transaction and left the client open. As long as the store and the client's
/// patterns stay as they were, the same bytes would have the same answers again, and these would be
/// dropped: the peer is gone. So they may be left out. Whatever may be refused in another way is fed,
/// since a refusal may shut the client or spoil its transaction.
#[derive(Debug, Default)]
pub struct Known {
    state: u64,
    messages: Vec<(Command, Vec<u8>)>,
    transactions: Vec<Vec<u8>>,
    /// The bytes of transactions that were spoiled, of a client with lines.
    spoiled: Vec<Vec<u8>>,
}

impl Known {
    /// Whether this message came before and would change nothing now, in this state of the store.
    pub fn holds(&self, message: &[u8], state: u64) -> bool {
        self.state == state && self.messages.iter().any(|(_, known)| known == message)
    }

    /// Whether this transaction was committed before and would change nothing now.
    pub fn holds_transaction(&self, text: &[u8], state: u64) -> bool {
        self.state == state && self.transactions.iter().any(|known| known == text)
    }

    /// Notes a transaction that was committed and had neither WRITE nor UNSUB in it; none is any
    /// other, after which nothing is known.
    pub fn note_transaction(&mut self, text: Option<Vec<u8>>, state: u64) {
        let Some(text) = text else {
            self.messages.clear();
            self.transactions.clear();
            return;
        };
        self.enter(state);
        self.messages.retain(|known| known.0 != Command::Unsub);
        if self.transactions.len() < MOST {
            self.transactions.push(text);
        }
    }

    /// The length of the spoiled transaction that the input begins with, if it is known. What spoils
    /// one is in its bytes alone, so it does nothing in any state, its WRITEs included.
    pub fn spoiled(&self, input: &[u8]) -> Option<usize> {
        let known = self.spoiled.iter().find(|known| input.starts_with(known));
        known.map(Vec::len)
    }

    /// Notes the bytes of a transaction that was spoiled, from its BEGIN to the COMMIT that ended
    /// it, if they are there.
    pub fn note_spoiled(&mut self, text: Option<Vec<u8>>) {
        let room = MOST - self.spoiled.len();
        self.spoiled.extend(text.into_iter().take(room));
    }

    /// Forgets what was known of another state.
    fn enter(&mut self, state: u64) {
        if self.state != state {
            self.messages.clear();
            self.transactions.clear();
            self.state = state;
        }
    }

    /// Notes a message that came outside of a transaction and left the client open, in this state
    /// of the store. A pattern that is added may be removed again, and one that is removed may be
    /// added again.
    pub fn note(&mut self, command: Command, message: &[u8], state: u64) {
        self.enter(state);
        match command {
            Command::Write | Command::Begin => return,
            Command::Sub => self.messages.retain(|known| known.0 != Command::Unsub),
            Command::Unsub => {
                self.messages.retain(|known| known.0 != Command::Sub);
                self.transactions.clear();
            }
            _ => {}
        }
        if self.messages.len() < MOST && message.len() <= LONGEST {
            self.messages.push((command, message.to_vec()));
        }
    }
}

#[cfg(test)]
mod tests {
    use super::*;

    #[test]
    fn only_the_same_message_in_the_same_state_is_known() {
        let mut known = Known::default();
        assert!(!known.holds(b"s *\n", 0));
        known.note(Command::Sub, b"s *\n", 0);
        known.note(Command::Ping, b"p\n", 0);
        known.note(Command::Write, b"w a b\n", 0);
        known.note(Command::Other, b"\n", 0);
        assert!(known.holds(b"s *\n", 0) && known.holds(b"p\n", 0) && known.holds(b"\n", 0));
        assert!(!known.holds(b"s a\n", 0) && !known.holds(b"w a b\n", 0));
        assert!(!known.holds(b"s *\n", 1), "the store may have changed");
        known.note(Command::Read, b"r a\n", 1);
        assert!(known.holds(b"r a\n", 1) && !known.holds(b"s *\n", 1));
    }

    #[test]
    fn transactions_are_known_as_a_whole() {
        let mut known = Known::default();
        let talk = |text: &str| Some(text.as_bytes().to_vec());
        known.note_transaction(talk("b s c"), 3);
        known.note(Command::Ping, b"p\n", 3);
        assert!(known.holds_transaction(b"b s c", 3) && known.holds(b"p\n", 3));
        assert!(!known.holds_transaction(b"b s c", 4) && !known.holds_transaction(b"b", 3));
        known.note(Command::Unsub, b"u *\n", 3);
        assert!(
            !known.holds_transaction(b"b s c", 3),
            "the pattern may be gone"
        );
        known.note_transaction(talk("b s c"), 3);
        assert!(!known.holds(b"u *\n", 3), "the pattern may be back");
        known.note_transaction(None, 3);
        assert!(!known.holds_transaction(b"b s c", 3) && !known.holds(b"p\n", 3));
    }

    #[test]
    fn spoiled_transactions_are_known_in_every_state() {
        let mut known = Known::default();
        assert_eq!(known.spoiled(b"b\nx\nc\n"), None);
        known.note_spoiled(None);
        known.note_spoiled(Some(b"b\nx\nc\n".to_vec()));
        known.note_transaction(None, 1);
        known.note(Command::Unsub, b"u *\n", 2);
        assert_eq!(known.spoiled(b"b\nx\nc\nw k v\n"), Some(6));
        assert_eq!(known.spoiled(b"b\nx\nc"), None, "its end is not there");
        assert_eq!(known.spoiled(b"b\ny\nc\n"), None);
        for count in 0..2 * MOST {
            known.note_spoiled(Some(format!("b\n{count}\nc\n").into()));
        }
        assert_eq!(known.spoiled.len(), MOST);
    }

    #[test]
    fn patterns_that_come_and_go_are_fed() {
        let mut known = Known::default();
        known.note(Command::Sub, b"s a\n", 0);
        known.note(Command::Sub, b"s b\n", 0);
        assert!(known.holds(b"s a\n", 0) && known.holds(b"s b\n", 0));
        known.note(Command::Unsub, b"u a\n", 0);
        assert!(!known.holds(b"s a\n", 0) && !known.holds(b"s b\n", 0));
        assert!(known.holds(b"u a\n", 0));
        known.note(Command::Sub, b"s a\n", 0);
        assert!(known.holds(b"s a\n", 0) && !known.holds(b"u a\n", 0));
    }
}

//! The situations of typing errors, of the transactions that they spoil, and of form 2.

use reference::reading::{Command, Kind};
use reference::server::{Client, Transaction, KEPT_ROOM, PATTERN_COUNT_LIMIT, RECORDED_LIMIT};
use reference::writing;

use super::{Before, Observed};
use crate::pair::{Pair, Sizes};

pub const SITUATIONS: [&str; 61] = [
    "open in form 3 refused",
    "open in a form above 255 refused",
    "form 1 after form 2",
    "form 2 after form 1",
    "form 1 after form 2 left in a transaction",
    "form 2 after form 1 left in a transaction",
    "form 1 after form 1 left in a spoiled transaction",
    "form 2 after form 1 left in a spoiled transaction",
    "slip in a slot that form 2 had before",
    "refusal that shuts in form 2 in a slot that form 1 had before",
    "BEGIN in a slot left in a transaction",
    "BEGIN in a slot left in a spoiled transaction",
    "first line refused in form 1",
    "first line refused in form 2",
    "first line refused with 102",
    "refused packet",
    "refused frame of form 1",
    "refused frame of form 2",
    "text client of form 2 shut by 100",
    "text client of form 2 shut by 101",
    "text client of form 2 shut by 102",
    "text client of form 2 shut by 103",
    "text client of form 1 shut by 102",
    "slip 100 outside a transaction",
    "slip 101 outside a transaction",
    "slip 100 that spoils",
    "slip 101 that spoils",
    "slip 103 that spoils",
    "slip 100 in a spoiled transaction",
    "slip 101 in a spoiled transaction",
    "slip 103 in a spoiled transaction",
    "slip that drops recorded commands",
    "slip of a client with patterns",
    "several ERRORs queued",
    "COMMIT with a field in a transaction",
    "COMMIT with a field in a spoiled transaction",
    "COMMIT of a spoiled transaction",
    "COMMIT right after that of a spoiled transaction",
    "BEGIN right after the COMMIT of a spoiled transaction",
    "blank line in a spoiled transaction",
    "HELLO in a spoiled transaction",
    "SUB in a spoiled transaction",
    "UNSUB in a spoiled transaction",
    "READ in a spoiled transaction",
    "WRITE in a spoiled transaction",
    "PING in a spoiled transaction",
    "65th command in a spoiled transaction",
    "record room passed in a spoiled transaction",
    "17th pattern in a spoiled transaction",
    "WRITE without room in a spoiled transaction",
    "refused with 102 in a spoiled transaction",
    "over-long line in a spoiled transaction",
    "ERROR 100 of a slip fits to the byte",
    "ERROR 101 of a slip fits to the byte",
    "ERROR 103 of a slip fits to the byte",
    "ERROR 100 of a slip is a byte too long",
    "ERROR 101 of a slip is a byte too long",
    "ERROR 103 of a slip is a byte too long",
    "102 in place of a slip that would spoil",
    "102 in place of a slip in a spoiled transaction",
    "102 in place of the 103 of a COMMIT",
];

/// What a closed client was.
#[derive(Clone, Copy)]
pub struct Left {
    pub is_stream: bool,
    pub hangs_up: bool,
    pub has_patterns: bool,
    pub stage: Stage,
}

/// How far a transaction is.
#[derive(Clone, Copy, Default, PartialEq, Eq)]
pub enum Stage {
    #[default]
    Off,
    Begun,
    Spoiled,
}

impl Stage {
    pub fn of(client: &Client) -> Stage {
        match client.transaction() {
            Transaction::Off => Stage::Off,
            Transaction::Begun(_) => Stage::Begun,
            Transaction::Spoiled => Stage::Spoiled,
        }
    }
}

/// The number of commands in a spoiled transaction, and what they would charge.
#[derive(Clone, Copy, Default)]
pub struct Idle {
    pub count: usize,
    pub used: usize,
}

/// The refusal of a text client of form 1 that would leave it open if its ERROR fits.
fn slip(before: &Before) -> Option<u32> {
    match (before.refusal, &before.command, before.stage) {
        (Some(refusal), ..) => (refusal != 102).then_some(refusal),
        (None, Some(Command::Begin), Stage::Begun | Stage::Spoiled) => Some(103),
        (None, Some(Command::Commit), Stage::Spoiled) => Some(103),
        _ => None,
    }
}

impl Observed {
    /// A client comes after another one in its slot.
    pub fn note_open(&mut self, slot: usize, form: usize) {
        let Some(left) = self.left.get(&slot).copied() else {
            return;
        };
        self.note("reopened slot that had patterns", left.has_patterns);
        let after_1 = left.is_stream && !left.hangs_up;
        let (begun, spoiled) = (left.stage == Stage::Begun, left.stage == Stage::Spoiled);
        match form {
            1 if left.hangs_up => {
                self.note("form 1 after form 2", true);
                self.note("form 1 after form 2 left in a transaction", begun);
            }
            1 => self.note("form 1 after form 1 left in a spoiled transaction", spoiled),
            2 => {
                self.note("form 2 after form 1", after_1);
                self.note(
                    "form 2 after form 1 left in a transaction",
                    after_1 && begun,
                );
                self.note("form 2 after form 1 left in a spoiled transaction", spoiled);
            }
            _ => {}
        }
    }

    /// A client that is refused: it is shut, or it stays open.
    pub fn note_refusal(&mut self, slot: usize, before: &Before, answer: u32, pair: &Pair) {
        let Some(client) = pair.reference.client(slot) else {
            return;
        };
        let is_first = before.kind == Some(Kind::Unfixed);
        let is_own = answer != 102;
        let left = self.left.get(&slot).copied();
        match (client.kind(), client.hangs_up()) {
            (Kind::Packets, _) => self.note("refused packet", true),
            (Kind::Framed | Kind::Unfixed, false) => self.note("refused frame of form 1", true),
            (Kind::Framed | Kind::Unfixed, true) => self.note("refused frame of form 2", true),
            (Kind::Text, true) => {
                let by = match answer {
                    100 => "text client of form 2 shut by 100",
                    101 => "text client of form 2 shut by 101",
                    102 => "text client of form 2 shut by 102",
                    _ => "text client of form 2 shut by 103",
                };
                self.note(by, client.is_shut());
                self.note("first line refused in form 2", is_first && is_own);
                let after_1 = left.is_some_and(|left| left.is_stream && !left.hangs_up);
                self.note(
                    "refusal that shuts in form 2 in a slot that form 1 had before",
                    after_1 && is_own,
                );
            }
            (Kind::Text, false) => {
                self.note("text client of form 1 shut by 102", !is_own);
                self.note("first line refused with 102", is_first && !is_own);
                self.note("first line refused in form 1", is_first && is_own);
                let after_2 = left.is_some_and(|left| left.hangs_up);
                self.note("slip in a slot that form 2 had before", after_2 && is_own);
                if let Some(due) = slip(before) {
                    self.note_room(before, due, answer, pair.sizes);
                    self.note_slip(before, due, answer, client);
                }
            }
        }
    }

    /// What a refused line is, in a transaction.
    pub fn note_refused_line(&mut self, line: &[u8], before: &Before, is_over_long: bool) {
        let is_commit = before.refusal == Some(101) && names_a_commit(line);
        let is_long = before.refusal == Some(102);
        match before.stage {
            Stage::Off => {}
            Stage::Begun => self.note("COMMIT with a field in a transaction", is_commit),
            Stage::Spoiled => {
                self.note("COMMIT with a field in a spoiled transaction", is_commit);
                self.note("refused with 102 in a spoiled transaction", is_long);
                self.note("over-long line in a spoiled transaction", is_over_long);
            }
        }
    }

    /// How the ERROR of a slip fits beside what is queued.
    fn note_room(&mut self, before: &Before, due: u32, answer: u32, sizes: Sizes) {
        let error = writing::encode(writing::Message::Error(due), Kind::Text);
        let (end, most) = (before.charge + error.len() + 4, sizes.q - KEPT_ROOM);
        let (fits, passes) = match due {
            100 => (
                "ERROR 100 of a slip fits to the byte",
                "ERROR 100 of a slip is a byte too long",
            ),
            101 => (
                "ERROR 101 of a slip fits to the byte",
                "ERROR 101 of a slip is a byte too long",
            ),
            _ => (
                "ERROR 103 of a slip fits to the byte",
                "ERROR 103 of a slip is a byte too long",
            ),
        };
        self.note(fits, answer == due && end == most);
        self.note(passes, answer == 102 && end == most + 1);
    }

    /// A slip, or 102 in its place.
    fn note_slip(&mut self, before: &Before, due: u32, answer: u32, client: &Client) {
        let is_commit = matches!(before.command, Some(Command::Commit));
        if answer == 102 {
            let in_place = match before.stage {
                Stage::Off => return,
                Stage::Begun => "102 in place of a slip that would spoil",
                Stage::Spoiled if is_commit => "102 in place of the 103 of a COMMIT",
                Stage::Spoiled => "102 in place of a slip in a spoiled transaction",
            };
            return self.note(in_place, true);
        }
        let slip = match (before.stage, due) {
            (Stage::Off, 100) => "slip 100 outside a transaction",
            (Stage::Off, _) => "slip 101 outside a transaction",
            (Stage::Begun, 100) => "slip 100 that spoils",
            (Stage::Begun, 101) => "slip 101 that spoils",
            (Stage::Begun, _) => "slip 103 that spoils",
            (Stage::Spoiled, 100) => "slip 100 in a spoiled transaction",
            (Stage::Spoiled, 101) => "slip 101 in a spoiled transaction",
            (Stage::Spoiled, _) if is_commit => "COMMIT of a spoiled transaction",
            (Stage::Spoiled, _) => "slip 103 in a spoiled transaction",
        };
        self.note(slip, true);
        let is_error = |message: &&[u8]| message.starts_with(b"ERROR ");
        let errors = client.queue().filter(is_error).count();
        self.note("several ERRORs queued", errors > 1);
        self.note("slip of a client with patterns", before.patterns > 0);
        let recorded = before.recording.map_or(0, |recording| recording.count);
        self.note("slip that drops recorded commands", recorded > 0);
    }

    /// Where a transaction begins, goes on spoiled, and has ended.
    pub fn note_transaction(&mut self, slot: usize, before: &Before, client: &Client) {
        let is_commit = matches!(before.command, Some(Command::Commit));
        let is_spoiled = before.stage == Stage::Spoiled;
        if before.stage == Stage::Off {
            let is_begin = matches!(before.command, Some(Command::Begin));
            let after_commit = self.ended.contains(&slot);
            self.note(
                "COMMIT right after that of a spoiled transaction",
                is_commit && after_commit,
            );
            self.note(
                "BEGIN right after the COMMIT of a spoiled transaction",
                is_begin && after_commit,
            );
            let left = self.left.get(&slot).map(|left| left.stage);
            self.note(
                "BEGIN in a slot left in a transaction",
                is_begin && left == Some(Stage::Begun),
            );
            self.note(
                "BEGIN in a slot left in a spoiled transaction",
                is_begin && left == Some(Stage::Spoiled),
            );
        }
        self.note(
            "blank line in a spoiled transaction",
            is_spoiled && before.is_blank,
        );
        self.ended.retain(|ended| *ended != slot);
        if is_spoiled && is_commit && !client.is_shut() {
            self.ended.push(slot);
        }
        if Stage::of(client) != Stage::Spoiled {
            self.idle.remove(&slot);
        }
    }

    /// A good command in a spoiled transaction, which does nothing.
    pub fn note_idle(&mut self, slot: usize, command: &Command, before: &Before, pair: &Pair) {
        let name = match command {
            Command::Begin | Command::Commit => return,
            Command::Hello { .. } => "HELLO in a spoiled transaction",
            Command::Sub(_) => "SUB in a spoiled transaction",
            Command::Unsub(_) => "UNSUB in a spoiled transaction",
            Command::Read(_) => "READ in a spoiled transaction",
            Command::Write { .. } => "WRITE in a spoiled transaction",
            Command::Ping(_) => "PING in a spoiled transaction",
        };
        self.note(name, true);
        let idle = self.idle.entry(slot).or_default();
        idle.count += 1;
        idle.used += command.payload_length() + 4;
        let Idle { count, used } = *idle;
        let is_65th = count > RECORDED_LIMIT;
        self.note("65th command in a spoiled transaction", is_65th);
        self.note(
            "record room passed in a spoiled transaction",
            !is_65th && used > pair.sizes.r,
        );
        let is_17th = matches!(command, Command::Sub(_))
            && !before.is_held
            && before.patterns == PATTERN_COUNT_LIMIT;
        self.note("17th pattern in a spoiled transaction", is_17th);
        let has_no_room = matches!(command, Command::Write { key, value: Some(value) }
            if !pair.reference.store().has_room(key, value));
        self.note("WRITE without room in a spoiled transaction", has_no_room);
    }
}

/// Whether a line is a COMMIT by its word.
fn names_a_commit(line: &[u8]) -> bool {
    let mut words = line
        .split(|byte| matches!(byte, b' ' | b'\r' | b'\n'))
        .filter(|word| !word.is_empty());
    words
        .next()
        .is_some_and(|word| word.eq_ignore_ascii_case(b"COMMIT") || word.eq_ignore_ascii_case(b"C"))
}

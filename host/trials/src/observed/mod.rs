//! What a run has reached: the answers of each call, the messages of each form, and the
//! situations that the generator aims at. Those of typing errors are in [`slips`].

mod slips;

use std::collections::BTreeMap;

use reference::patterns::Pattern;
use reference::reading::{self, Command, Kind, Message};
use reference::server::{KEPT_ROOM, PATTERN_COUNT_LIMIT, RECORDED_LIMIT};
use reference::store::ENTRY_LIMIT;
use reference::{Reply, Server};

use crate::pair::{Call, Pair};
use slips::{Idle, Left, Stage};

/// Every answer that each call can give.
const ANSWERS: [(&str, &[u32]); 5] = [
    ("set up", &[0, 5, 8]),
    ("open", &[0, 2, 4, 7, 8]),
    ("feed", &[0, 1, 2, 3, 7, 100, 101, 102, 103]),
    ("take", &[0, 2, 5, 6, 7]),
    ("close", &[0, 2, 7]),
];

const FORMS: [&str; 3] = ["packet", "frame", "line"];

const MESSAGES: [&str; 8] = [
    "VERSION",
    "INFO with a value",
    "INFO without a value",
    "PONG",
    "ERROR 100",
    "ERROR 101",
    "ERROR 102",
    "ERROR 103",
];

const SITUATIONS: [&str; 68] = [
    "kind fixed by LF",
    "kind fixed by CR",
    "kind fixed by a space",
    "kind fixed by 0x40 to 0x7E",
    "kind fixed by an ID of a command",
    "kind fixed by another byte of a frame",
    "kind fixed by a blank line",
    "kind fixed by a refused line",
    "kind fixed by a refused frame",
    "empty input of a stream",
    "empty packet",
    "more wanted of a frame",
    "more wanted of a line",
    "input with more than its first message",
    "over-long line",
    "line of 262,152 bytes",
    "payload over 65,535 bytes",
    "payload of 65,535 bytes",
    "pattern of 255 bytes",
    "pattern over 255 bytes",
    "blank line while recording",
    "SUB of a new pattern",
    "SUB of a held pattern",
    "SUB that queues several INFOs",
    "a 16th pattern",
    "a 17th pattern",
    "UNSUB of a held pattern",
    "UNSUB of no held pattern",
    "READ of an entry",
    "READ of an absent key",
    "WRITE of a new key",
    "WRITE of another value",
    "WRITE of an equal value",
    "WRITE of an empty value",
    "deletion of an entry",
    "deletion of an absent key",
    "WRITE refused: store room",
    "WRITE refused: 1,024 entries",
    "store exactly full",
    "WRITE with an INFO to the writer",
    "WRITE with an INFO to another client",
    "WRITE that two patterns of a client match",
    "BEGIN",
    "BEGIN while recording",
    "BEGIN after 64 recorded commands",
    "COMMIT without BEGIN",
    "COMMIT of nothing",
    "COMMIT of 64 commands",
    "COMMIT of a full record room",
    "COMMIT with several messages to another client",
    "COMMIT with several messages to its feeder",
    "COMMIT refused: WRITE",
    "COMMIT refused: SUB",
    "65th command",
    "record room passed",
    "refused while recording",
    "other client shut by a WRITE",
    "other client shut by a COMMIT",
    "feeder shut by a step answered 0",
    "feeder shut by a COMMIT answered 0",
    "feeder and others shut by one step",
    "queue exactly full",
    "take from a shut client",
    "shut client drained",
    "close of a client with messages",
    "close of a shut client",
    "reopened slot that had patterns",
    "set up of memory in use",
];

/// All situations.
fn situations() -> impl Iterator<Item = &'static str> {
    SITUATIONS.into_iter().chain(slips::SITUATIONS)
}

#[derive(Default)]
pub struct Observed {
    answers: BTreeMap<(&'static str, u32), u64>,
    messages: BTreeMap<(&'static str, &'static str), u64>,
    situations: BTreeMap<&'static str, u64>,
    /// What the last client of a slot left behind when it was closed.
    left: BTreeMap<usize, Left>,
    /// What the commands in a spoiled transaction would have come to if they were recorded.
    idle: BTreeMap<usize, Idle>,
    /// Slots whose last message was the COMMIT of a spoiled transaction.
    ended: Vec<usize>,
}

/// What is noted before a call; all but `is_used` of feeds and closes only.
#[derive(Default)]
pub struct Before {
    kind: Option<Kind>,
    hangs_up: bool,
    command: Option<Command>,
    /// The refusal by what the first message says, in no matter which state.
    refusal: Option<u32>,
    /// Whether the first message is a blank line.
    is_blank: bool,
    stage: Stage,
    recording: Option<Recorded>,
    /// What the client's queue charges.
    charge: usize,
    patterns: usize,
    /// Whether the pattern of a SUB or UNSUB is held.
    is_held: bool,
    /// What a READ or WRITE finds.
    stored: Option<Vec<u8>>,
    shut: Vec<usize>,
    /// The number of messages in each slot's queue.
    queued: Vec<usize>,
    /// Whether the store has entries.
    is_used: bool,
}

#[derive(Clone, Copy)]
struct Recorded {
    count: usize,
    used: usize,
    has_sub: bool,
    has_write: bool,
}

fn shut_slots(server: &Server, n: usize) -> Vec<usize> {
    let is_shut = |slot: &usize| server.client(*slot).is_some_and(|client| client.is_shut());
    (0..n).filter(is_shut).collect()
}

fn queue_length(server: &Server, slot: usize) -> usize {
    server
        .client(slot)
        .map_or(0, |client| client.queue().count())
}

fn queue_lengths(server: &Server, n: usize) -> Vec<usize> {
    (0..n).map(|slot| queue_length(server, slot)).collect()
}

impl Observed {
    fn note(&mut self, situation: &'static str, reached: bool) {
        debug_assert!(
            situations().any(|listed| listed == situation),
            "{situation} is listed"
        );
        if reached {
            *self.situations.entry(situation).or_default() += 1;
        }
    }

    /// Notes what the call is about to meet.
    pub fn before(&self, call: &Call, pair: &Pair) -> Before {
        let server = &pair.reference;
        let mut before = Before {
            is_used: server.store().count() > 0,
            ..Before::default()
        };
        let slot = match call {
            Call::Feed { slot, .. } | Call::Close { slot } => *slot,
            _ => return before,
        };
        let Some(client) = server.client(slot) else {
            return before;
        };
        before.kind = Some(client.kind());
        before.hangs_up = client.hangs_up();
        before.stage = Stage::of(client);
        before.charge = client.queued();
        before.patterns = client.patterns().len();
        before.shut = shut_slots(server, pair.sizes.n);
        before.queued = queue_lengths(server, pair.sizes.n);
        let Call::Feed { input, .. } = call else {
            return before;
        };
        before.recording = client.recording().map(|recording| Recorded {
            count: recording.count(),
            used: recording.used(),
            has_sub: recording
                .commands()
                .iter()
                .any(|c| matches!(c, Command::Sub(_))),
            has_write: recording
                .commands()
                .iter()
                .any(|c| matches!(c, Command::Write { .. })),
        });
        if let Some((message, _)) = reading::cut(client.kind().of_input(input), input) {
            before.is_blank = matches!(message, Message::Line(line)
                if line.iter().all(|&byte| byte == b' '));
            match reading::decode(message) {
                Ok(command) => before.command = command,
                Err(refusal) => before.refusal = Some(refusal),
            }
        }
        match &before.command {
            Some(Command::Sub(pattern) | Command::Unsub(pattern)) => {
                let is_same = |held: &Pattern| held.bytes() == pattern.bytes();
                before.is_held = client.patterns().iter().any(is_same);
            }
            Some(Command::Read(key) | Command::Write { key, .. }) => {
                before.stored = server.store().get(key).map(<[u8]>::to_vec);
            }
            _ => {}
        }
        before
    }

    /// Counts what the call has reached.
    pub fn after(
        &mut self,
        call: &Call,
        before: Before,
        reply: Reply,
        message: &[u8],
        pair: &Pair,
    ) {
        let done = reply.answer == 0;
        *self.answers.entry((call.name(), reply.answer)).or_default() += 1;
        match call {
            Call::SetUp(_) => {
                self.note("set up of memory in use", done && before.is_used);
                if done {
                    self.left.clear();
                    self.idle.clear();
                    self.ended.clear();
                }
            }
            Call::Open { form, slot } if done => self.note_open(*slot, *form),
            Call::Open { form, .. } => {
                let is_refused = reply.answer == 8;
                self.note("open in form 3 refused", is_refused && *form == 3);
                self.note(
                    "open in a form above 255 refused",
                    is_refused && *form > 255,
                );
            }
            Call::Take { slot, .. } => {
                if let Some(client) = pair.reference.client(*slot) {
                    self.note("take from a shut client", client.is_shut() && done);
                    self.note("shut client drained", client.is_shut() && reply.answer == 6);
                    if done {
                        self.note_message(client.kind(), message);
                    }
                }
            }
            Call::Close { slot } if done => {
                self.note("close of a client with messages", before.queued[*slot] > 0);
                self.note("close of a shut client", before.shut.contains(slot));
                let left = Left {
                    is_stream: before.kind != Some(Kind::Packets),
                    hangs_up: before.hangs_up,
                    has_patterns: before.patterns > 0,
                    stage: before.stage,
                };
                self.left.insert(*slot, left);
                self.idle.remove(slot);
                self.ended.retain(|ended| ended != slot);
            }
            Call::Feed { slot, input } => self.note_feed(*slot, input, &before, reply, pair),
            _ => {}
        }
    }

    fn note_message(&mut self, kind: Kind, message: &[u8]) {
        let (form, head) = match kind {
            Kind::Packets => (FORMS[0], 1),
            Kind::Framed | Kind::Unfixed => (FORMS[1], 3),
            Kind::Text => (FORMS[2], 0),
        };
        let quotes = message.iter().filter(|&&byte| byte == b'"').count();
        let has_value = if kind == Kind::Text {
            quotes == 4
        } else {
            message[head..].contains(&0)
        };
        let name = match message[0] {
            0x80 | b'V' => MESSAGES[0],
            0x81 | b'I' if has_value => MESSAGES[1],
            0x81 | b'I' => MESSAGES[2],
            0x82 | b'P' => MESSAGES[3],
            0x83 => MESSAGES[4 + usize::from(message[head] - 100)],
            _ => MESSAGES[4 + usize::from(message[b"ERROR 10".len()] - b'0')],
        };
        *self.messages.entry((form, name)).or_default() += 1;
    }

    fn note_feed(&mut self, slot: usize, input: &[u8], before: &Before, reply: Reply, pair: &Pair) {
        let server = &pair.reference;
        let (Some(kind), Some(client)) = (before.kind, server.client(slot)) else {
            return;
        };
        match reply.answer {
            1 => {
                let framed = kind.of_input(input) == Kind::Framed;
                self.note("empty input of a stream", input.is_empty());
                self.note("more wanted of a frame", !input.is_empty() && framed);
                self.note("more wanted of a line", !input.is_empty() && !framed);
                return;
            }
            3 => return,
            _ => {}
        }
        let refused = reply.answer >= 100;
        self.note("empty packet", input.is_empty());
        self.note(
            "input with more than its first message",
            reply.count < input.len(),
        );
        if kind == Kind::Unfixed {
            self.note_kind(input[0], refused, before.is_blank);
        }
        let is_longest = client.kind() == Kind::Text && reply.count == reading::LINE_LIMIT;
        let has_end = matches!(input.get(reading::LINE_LIMIT - 1), Some(b'\r' | b'\n'));
        let is_over_long = is_longest && !has_end;
        self.note("over-long line", is_over_long);
        self.note("line of 262,152 bytes", is_longest && has_end);
        let is_recording = before.recording.is_some();
        self.note(
            "blank line while recording",
            before.is_blank && is_recording,
        );
        self.note("refused while recording", refused && is_recording);
        if refused {
            self.note_refusal(slot, before, reply.answer, pair);
            self.note_refused_line(input, before, is_over_long);
        }
        self.note_transaction(slot, before, client);
        match &before.command {
            None if reply.answer == 102 && !is_over_long => {
                let is_pattern = names_a_pattern(client.kind(), input);
                self.note("pattern over 255 bytes", is_pattern);
                self.note("payload over 65,535 bytes", !is_pattern);
            }
            None => {}
            Some(command) => {
                let length = command.payload_length();
                let is_pattern = matches!(command, Command::Sub(_) | Command::Unsub(_));
                self.note("payload of 65,535 bytes", length == 65_535);
                self.note("pattern of 255 bytes", is_pattern && length == 255);
                self.note_command(slot, command, before, reply.answer, pair);
            }
        }
        for client in (0..pair.sizes.n).filter_map(|slot| server.client(slot)) {
            let is_full = client.queued() == pair.sizes.q - KEPT_ROOM;
            self.note("queue exactly full", is_full && !client.is_shut());
        }
        self.note("store exactly full", server.store().used() == pair.sizes.s);
    }

    fn note_kind(&mut self, first: u8, refused: bool, is_blank: bool) {
        let text = Kind::Unfixed.of_input(&[first]) == Kind::Text;
        self.note("kind fixed by LF", first == b'\n');
        self.note("kind fixed by CR", first == b'\r');
        self.note("kind fixed by a space", first == b' ');
        self.note("kind fixed by 0x40 to 0x7E", text && first >= 0x40);
        self.note("kind fixed by an ID of a command", first < 8);
        self.note("kind fixed by another byte of a frame", first >= 8 && !text);
        self.note("kind fixed by a blank line", text && is_blank);
        self.note("kind fixed by a refused line", text && refused);
        self.note("kind fixed by a refused frame", !text && refused);
    }

    fn note_command(
        &mut self,
        slot: usize,
        command: &Command,
        before: &Before,
        answer: u32,
        pair: &Pair,
    ) {
        let refused = answer == 102;
        if before.stage == Stage::Spoiled {
            self.note_idle(slot, command, before, pair);
            return;
        }
        match (command, before.recording) {
            (Command::Begin, Some(recording)) => {
                let is_last = recording.count == RECORDED_LIMIT;
                self.note("BEGIN while recording", true);
                self.note("BEGIN after 64 recorded commands", is_last);
            }
            (Command::Begin, None) => self.note("BEGIN", true),
            (Command::Commit, None) => self.note("COMMIT without BEGIN", true),
            (
                Command::Commit,
                Some(Recorded {
                    count,
                    used,
                    has_sub,
                    has_write,
                }),
            ) => {
                self.note("COMMIT of nothing", count == 0);
                self.note("COMMIT of 64 commands", count == RECORDED_LIMIT && !refused);
                self.note(
                    "COMMIT of a full record room",
                    used == pair.sizes.r && !refused,
                );
                self.note("COMMIT refused: WRITE", refused && !has_sub);
                self.note("COMMIT refused: SUB", refused && !has_write);
                self.note_delivery(slot, true, before, answer, pair);
            }
            (_, Some(recording)) => {
                let is_last = recording.count == RECORDED_LIMIT;
                self.note("65th command", refused && is_last);
                self.note("record room passed", refused && !is_last);
            }
            (_, None) => {
                self.note_running(slot, command, before, answer, &pair.reference);
                self.note_delivery(slot, false, before, answer, pair);
            }
        }
    }

    fn note_running(
        &mut self,
        slot: usize,
        command: &Command,
        before: &Before,
        answer: u32,
        server: &Server,
    ) {
        let done = answer == 0;
        let got = queue_length(server, slot).saturating_sub(before.queued[slot]);
        match command {
            Command::Sub(_) => {
                let is_new_at = |count| !before.is_held && before.patterns == count;
                self.note("SUB of a new pattern", done && !before.is_held);
                self.note("SUB of a held pattern", done && before.is_held);
                self.note("SUB that queues several INFOs", done && got > 1);
                self.note("a 16th pattern", done && is_new_at(PATTERN_COUNT_LIMIT - 1));
                self.note(
                    "a 17th pattern",
                    answer == 102 && is_new_at(PATTERN_COUNT_LIMIT),
                );
            }
            Command::Unsub(_) => {
                self.note("UNSUB of a held pattern", before.is_held);
                self.note("UNSUB of no held pattern", !before.is_held);
            }
            Command::Read(_) => {
                self.note("READ of an entry", before.stored.is_some());
                self.note("READ of an absent key", before.stored.is_none());
            }
            Command::Write { key, value } => {
                let old = before.stored.as_ref();
                let (sets, had) = (value.is_some(), old.is_some());
                let changes = old != value.as_ref();
                let is_empty = value.as_ref().is_some_and(Vec::is_empty);
                self.note("WRITE of a new key", done && sets && !had);
                self.note("WRITE of another value", done && sets && had && changes);
                self.note("WRITE of an equal value", done && sets && !changes);
                self.note("WRITE of an empty value", done && is_empty);
                self.note("deletion of an entry", !sets && had);
                self.note("deletion of an absent key", !sets && !had);
                let by_count = server.store().count() == ENTRY_LIMIT && !had;
                self.note("WRITE refused: store room", !done && !by_count);
                self.note("WRITE refused: 1,024 entries", !done && by_count);
                self.note(
                    "WRITE with an INFO to the writer",
                    done && changes && got > 0,
                );
                let matched_twice = |slot: usize| {
                    let patterns = server.client(slot).map_or(&[][..], |c| c.patterns());
                    patterns
                        .iter()
                        .filter(|pattern| pattern.matches(key).0)
                        .count()
                        > 1
                };
                let twice = done && changes && (0..before.queued.len()).any(matched_twice);
                self.note("WRITE that two patterns of a client match", twice);
            }
            _ => {}
        }
    }

    /// Who got messages and who was shut by a step.
    fn note_delivery(
        &mut self,
        slot: usize,
        is_commit: bool,
        before: &Before,
        answer: u32,
        pair: &Pair,
    ) {
        let server = &pair.reference;
        let queued = queue_lengths(server, pair.sizes.n);
        let shut = shut_slots(server, pair.sizes.n);
        let now_shut = |other: usize| shut.contains(&other) && !before.shut.contains(&other);
        let got = |other: usize| match now_shut(other) {
            true => 0,
            false => queued[other] - before.queued[other],
        };
        let others = || (0..pair.sizes.n).filter(|&other| other != slot);
        let other_shut = others().any(now_shut);
        let feeder_shut = answer == 0 && now_shut(slot);
        if is_commit {
            let several = others().any(|other| got(other) > 1);
            self.note("COMMIT with several messages to another client", several);
            self.note("COMMIT with several messages to its feeder", got(slot) > 1);
            self.note("other client shut by a COMMIT", other_shut);
            self.note("feeder shut by a COMMIT answered 0", feeder_shut);
        } else {
            let one = others().any(|other| got(other) == 1);
            self.note("WRITE with an INFO to another client", one);
            self.note("other client shut by a WRITE", other_shut);
        }
        self.note("feeder shut by a step answered 0", feeder_shut);
        self.note(
            "feeder and others shut by one step",
            feeder_shut && other_shut,
        );
    }

    pub fn calls(&self) -> u64 {
        self.answers.values().sum()
    }

    /// The counts, one to a line.
    pub fn lines(&self) -> String {
        let mut lines = String::new();
        for ((call, answer), count) in &self.answers {
            lines += &format!("{count:>9}  {call} answered {answer}\n");
        }
        for ((form, name), count) in &self.messages {
            lines += &format!("{count:>9}  {name} as a {form}\n");
        }
        for (situation, count) in &self.situations {
            lines += &format!("{count:>9}  {situation}\n");
        }
        lines
    }

    /// How many different answers, messages and situations were reached.
    pub fn summary(&self) -> String {
        let (answers, messages) = (self.answers.len(), self.messages.len());
        let situations = self.situations.len();
        format!("{answers} answers, {messages} messages and {situations} situations reached")
    }

    /// What the generator aims at and never reached.
    pub fn missing(&self) -> Vec<String> {
        let mut missing = Vec::new();
        for (call, answers) in ANSWERS {
            let never = |answer: &&u32| !self.answers.contains_key(&(call, **answer));
            let names = answers
                .iter()
                .filter(never)
                .map(|a| format!("{call} answered {a}"));
            missing.extend(names);
        }
        for form in FORMS {
            let never = |name: &&&'static str| !self.messages.contains_key(&(form, **name));
            let names = MESSAGES
                .iter()
                .filter(never)
                .map(|name| format!("{name} as a {form}"));
            missing.extend(names);
        }
        let never = |name: &&'static str| !self.situations.contains_key(*name);
        missing.extend(situations().filter(never).map(str::to_string));
        missing
    }
}

/// Whether a message is a SUB or UNSUB by its ID or word.
fn names_a_pattern(kind: Kind, input: &[u8]) -> bool {
    let first = input
        .iter()
        .find(|&&byte| byte != b' ')
        .map(u8::to_ascii_uppercase);
    match kind {
        Kind::Text => matches!(first, Some(b'S' | b'U')),
        _ => matches!(input.first(), Some(1 | 2)),
    }
}

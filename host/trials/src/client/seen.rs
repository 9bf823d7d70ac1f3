//! What the calls of the client's side have reached: the answers of each call in each form, the
//! commands and messages of each form, and the situations that the inputs aim at.

use std::collections::BTreeMap;

use reference::client::Read;

use super::inputs::{near_misses, ESCAPES};

/// The forms by number; all above are [`NO_FORM`].
pub const FORMS: [&str; 3] = ["packets", "framed", "text"];
const NO_FORM: &str = "no form";

/// Every answer that each call can give in each form.
const ANSWERS: [(&str, &str, &[u32]); 8] = [
    ("write", "packets", &[0, 5, 100, 101, 102]),
    ("write", "framed", &[0, 5, 100, 101, 102]),
    ("write", "text", &[0, 5, 100, 101, 102]),
    ("write", NO_FORM, &[8]),
    ("read", "packets", &[0, 5, 100, 101, 102]),
    ("read", "framed", &[0, 1, 5, 100, 101]),
    ("read", "text", &[0, 1, 5, 100, 101, 102]),
    ("read", NO_FORM, &[8]),
];

/// What is written and read in every form.
const MESSAGES: [&str; 14] = [
    "HELLO",
    "SUB",
    "UNSUB",
    "READ",
    "WRITE with a value",
    "WRITE without a value",
    "BEGIN",
    "COMMIT",
    "PING",
    "VERSION",
    "INFO with a value",
    "INFO without a value",
    "PONG",
    "ERROR",
];

const SITUATIONS: [&str; 50] = [
    "write: an empty command",
    "write: an ID from 0x08 to 0x7F",
    "write: an ID of a message",
    "write: an ID above 0x83",
    "write: HELLO without a version",
    "write: BEGIN or COMMIT with a payload",
    "write: NUL in a key of READ",
    "write: NUL in a pattern",
    "write: an invalid pattern",
    "write: an invalid pattern over 255 bytes",
    "write: a pattern of 255 bytes",
    "write: a pattern over 255 bytes",
    "write: a payload of 65,535 bytes",
    "write: a payload over 65,535 bytes",
    "write: an empty key",
    "write: an empty value",
    "write: a NUL in a value",
    "write: a NUL escaped",
    "write: an LF escaped",
    "write: a CR escaped",
    "write: a quote escaped",
    "write: a backslash escaped",
    "write: a raw byte of 0x7F or above",
    "write: a line over 262,000 bytes",
    "write: out too short by one",
    "write: an empty out too short",
    "read: an empty packet",
    "read: empty framed input",
    "read: empty text input",
    "read: a frame's head is cut",
    "read: a frame's payload is cut",
    "read: a line is cut",
    "read: bytes behind a frame",
    "read: bytes behind a line",
    "read: an ID of a command",
    "read: an ID above 0x83",
    "read: a number byte missing",
    "read: an escape",
    "read: a number of one digit",
    "read: a number of two digits",
    "read: a number of three digits",
    "read: a payload of 65,535 bytes in a packet",
    "read: a payload of 65,535 bytes in a frame",
    "read: a payload of 65,535 bytes in a line",
    "read: a payload over 65,535 bytes",
    "read: a line over 262,152 bytes that is not whole",
    "read: a line over 262,152 bytes without a known word",
    "read: a line over 262,152 bytes of bad form",
    "read: a line over 262,152 bytes with too long a payload",
    "read: out too short",
];

#[derive(Default)]
pub struct Seen {
    answers: BTreeMap<(&'static str, &'static str, u32), u64>,
    messages: BTreeMap<(&'static str, &'static str), u64>,
    situations: BTreeMap<&'static str, u64>,
}

fn form_name(form: usize) -> &'static str {
    FORMS.get(form).copied().unwrap_or(NO_FORM)
}

/// The name of a command or a message by ID and payload.
pub fn message_name(message: &[u8]) -> &'static str {
    let has_value = message[1..].contains(&0);
    match (message[0], has_value) {
        (0x00, _) => "HELLO",
        (0x01, _) => "SUB",
        (0x02, _) => "UNSUB",
        (0x03, _) => "READ",
        (0x04, true) => "WRITE with a value",
        (0x04, false) => "WRITE without a value",
        (0x05, _) => "BEGIN",
        (0x06, _) => "COMMIT",
        (0x07, _) => "PING",
        (0x80, _) => "VERSION",
        (0x81, true) => "INFO with a value",
        (0x81, false) => "INFO without a value",
        (0x82, _) => "PONG",
        _ => "ERROR",
    }
}

impl Seen {
    /// Notes a situation.
    pub fn note(&mut self, situation: &'static str) {
        *self.situations.entry(situation).or_default() += 1;
    }

    fn note_if(&mut self, reached: bool, situation: &'static str) {
        if reached {
            self.note(situation);
        }
    }

    fn answer(&mut self, call: &'static str, form: usize, answer: u32) {
        let name = form_name(form);
        *self.answers.entry((call, name, answer)).or_default() += 1;
    }

    fn message(&mut self, form: usize, message: &[u8]) {
        let names = (form_name(form), message_name(message));
        *self.messages.entry(names).or_default() += 1;
    }

    /// Notes a write, with the bytes written.
    pub fn write(&mut self, form: usize, command: &[u8], answer: u32, bytes: &[u8]) {
        self.answer("write", form, answer);
        let [id, payload @ ..] = command else {
            return self.note_if(answer == 100, "write: an empty command");
        };
        let is_pattern = matches!(id, 1 | 2);
        let has_nul = payload.contains(&0);
        match (answer, id) {
            (0, _) => self.written(form, command, bytes),
            (100, 0x08..=0x7F) => self.note("write: an ID from 0x08 to 0x7F"),
            (100, 0x80..=0x83) => self.note("write: an ID of a message"),
            (100, _) => self.note("write: an ID above 0x83"),
            (101, 0) => self.note("write: HELLO without a version"),
            (101, 5 | 6) => self.note("write: BEGIN or COMMIT with a payload"),
            (101, 3) => self.note("write: NUL in a key of READ"),
            (101, 1 | 2) if has_nul => self.note("write: NUL in a pattern"),
            (101, 1 | 2) if payload.len() > 255 => {
                self.note("write: an invalid pattern over 255 bytes")
            }
            (101, 1 | 2) => self.note("write: an invalid pattern"),
            (102, _) if is_pattern => self.note("write: a pattern over 255 bytes"),
            (102, _) => self.note("write: a payload over 65,535 bytes"),
            _ => {}
        }
    }

    /// Notes an out slice that a write found too short.
    pub fn too_short(&mut self, length: usize, room: usize) {
        self.note_if(room + 1 == length, "write: out too short by one");
        self.note_if(room == 0, "write: an empty out too short");
    }

    fn written(&mut self, form: usize, command: &[u8], bytes: &[u8]) {
        const ESCAPED: [&str; 5] = [
            "write: a NUL escaped",
            "write: an LF escaped",
            "write: a CR escaped",
            "write: a quote escaped",
            "write: a backslash escaped",
        ];
        self.message(form, command);
        let (id, payload) = (command[0], &command[1..]);
        if matches!(id, 1 | 2) {
            self.note_if(payload.len() == 255, "write: a pattern of 255 bytes");
        }
        self.note_if(payload.len() == 65_535, "write: a payload of 65,535 bytes");
        if id == 4 {
            let mut parts = payload.splitn(2, |byte| *byte == 0);
            let key = parts.next().unwrap_or_default();
            self.note_if(key.is_empty(), "write: an empty key");
            if let Some(value) = parts.next() {
                self.note_if(value.is_empty(), "write: an empty value");
                self.note_if(value.contains(&0), "write: a NUL in a value");
            }
        }
        if form == 2 {
            let string = match id {
                0 => &payload[1..],
                4 => payload
                    .splitn(2, |byte| *byte == 0)
                    .last()
                    .unwrap_or_default(),
                _ => payload,
            };
            for ((byte, _), name) in ESCAPES.iter().zip(ESCAPED) {
                self.note_if(string.contains(byte), name);
            }
            let is_high = |byte: &u8| *byte >= 0x7F;
            self.note_if(
                string.iter().any(is_high),
                "write: a raw byte of 0x7F or above",
            );
            self.note_if(bytes.len() > 262_000, "write: a line over 262,000 bytes");
        }
    }

    /// Notes a read.
    pub fn read(&mut self, form: usize, input: &[u8], read: &Read) {
        self.answer("read", form, read.answer);
        self.note_if(read.answer == 5, "read: out too short");
        match (read.answer, form) {
            (0, _) => self.taken(form, input, read),
            (1, 1) => self.note(match input.len() {
                0 => "read: empty framed input",
                1..=2 => "read: a frame's head is cut",
                _ => "read: a frame's payload is cut",
            }),
            (1, _) => self.note(match input.len() {
                0 => "read: empty text input",
                1..=262_152 => "read: a line is cut",
                _ => "read: a line over 262,152 bytes that is not whole",
            }),
            (100, 0 | 1) => self.note(match input.first() {
                None => "read: an empty packet",
                Some(0..=0x7F) => "read: an ID of a command",
                Some(_) => "read: an ID above 0x83",
            }),
            (101, 0 | 1) => self.note("read: a number byte missing"),
            (102, _) => self.note("read: a payload over 65,535 bytes"),
            _ => {}
        }
        if form == 2 && read.consumed > 262_152 {
            self.note(match read.answer {
                100 => "read: a line over 262,152 bytes without a known word",
                101 => "read: a line over 262,152 bytes of bad form",
                _ => "read: a line over 262,152 bytes with too long a payload",
            });
        }
    }

    fn taken(&mut self, form: usize, input: &[u8], read: &Read) {
        self.message(form, &read.message);
        let is_longest = read.message.len() == 65_536;
        let has_behind = read.consumed < input.len();
        match form {
            0 => self.note_if(is_longest, "read: a payload of 65,535 bytes in a packet"),
            1 => {
                self.note_if(is_longest, "read: a payload of 65,535 bytes in a frame");
                self.note_if(has_behind, "read: bytes behind a frame");
            }
            _ => {
                self.note_if(is_longest, "read: a payload of 65,535 bytes in a line");
                self.note_if(has_behind, "read: bytes behind a line");
                self.note_if(input[..read.consumed].contains(&b'\\'), "read: an escape");
                if let [0x80 | 0x83, number, ..] = read.message[..] {
                    self.note(match number {
                        0..=9 => "read: a number of one digit",
                        10..=99 => "read: a number of two digits",
                        _ => "read: a number of three digits",
                    });
                }
            }
        }
    }

    /// The calls compared.
    pub fn calls(&self) -> u64 {
        self.answers.values().sum()
    }

    /// All counts, a line each.
    pub fn lines(&self) -> String {
        let mut lines = String::new();
        for ((call, form, answer), count) in &self.answers {
            lines += &format!("{call} in {form} answered {answer}: {count}\n");
        }
        for ((form, name), count) in &self.messages {
            lines += &format!("{name} in {form}: {count}\n");
        }
        for (name, count) in &self.situations {
            lines += &format!("{name}: {count}\n");
        }
        lines
    }

    /// What was never reached, and what was noted under a name that is in no list.
    pub fn missing(&self) -> Vec<String> {
        let mut missing = Vec::new();
        for (call, form, answers) in ANSWERS {
            for answer in answers {
                if !self.answers.contains_key(&(call, form, *answer)) {
                    missing.push(format!("{call} in {form} answered {answer}"));
                }
            }
        }
        for form in FORMS {
            for name in MESSAGES {
                if !self.messages.contains_key(&(form, name)) {
                    missing.push(format!("{name} in {form}"));
                }
            }
        }
        for name in SITUATIONS.into_iter().chain(near_misses()) {
            if !self.situations.contains_key(name) {
                missing.push(name.to_string());
            }
        }
        for name in self.situations.keys() {
            if !SITUATIONS.contains(name) && near_misses().all(|other| other != *name) {
                missing.push(format!("{name}, which is in no list"));
            }
        }
        missing
    }
}

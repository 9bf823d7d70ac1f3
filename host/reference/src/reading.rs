//! From bytes to one command: cutting the first message off an input, and decoding it.

use crate::patterns::{Pattern, PATTERN_LIMIT};

/// The longest payload in binary form.
pub const PAYLOAD_LIMIT: usize = 65_535;
/// So many bytes without a line end are refused and consumed.
pub const LINE_LIMIT: usize = 262_152;

/// How a client's messages are written.
#[derive(Clone, Copy, Debug, PartialEq, Eq)]
pub enum Kind {
    /// Form 0: each feed is one message.
    Packets,
    /// Forms 1 and 2 before their first message is taken or refused.
    Unfixed,
    Framed,
    Text,
}

impl Kind {
    /// The kind by which this input is read: its first byte decides for an unfixed one.
    pub fn of_input(self, input: &[u8]) -> Kind {
        match (self, input.first()) {
            (Kind::Unfixed, Some(0x0A | 0x0D | 0x20 | 0x40..=0x7E)) => Kind::Text,
            (Kind::Unfixed, Some(_)) => Kind::Framed,
            _ => self,
        }
    }
}

/// The first whole message of an input.
#[derive(Clone, Copy, Debug, PartialEq, Eq)]
pub enum Message<'a> {
    Binary {
        id: u8,
        payload: &'a [u8],
    },
    /// A text line without its ending byte.
    Line(&'a [u8]),
    /// A packet without an ID.
    Empty,
    /// As many bytes as a line may have, without a line end.
    OverLong,
}

/// Cuts the first message off: the message and the bytes it takes up, or `None` where more
/// bytes are wanted.
pub fn cut(kind: Kind, input: &[u8]) -> Option<(Message<'_>, usize)> {
    match kind {
        Kind::Packets => Some(match input {
            [] => (Message::Empty, 0),
            [id, payload @ ..] => (Message::Binary { id: *id, payload }, input.len()),
        }),
        Kind::Unfixed => None,
        Kind::Framed => {
            let [id, high, low, rest @ ..] = input else {
                return None;
            };
            let length = usize::from(u16::from_be_bytes([*high, *low]));
            let payload = rest.get(..length)?;
            Some((Message::Binary { id: *id, payload }, 3 + length))
        }
        Kind::Text => {
            let head = &input[..input.len().min(LINE_LIMIT)];
            match head.iter().position(|&byte| byte == b'\n' || byte == b'\r') {
                Some(end) => Some((Message::Line(&head[..end]), end + 1)),
                None if head.len() == LINE_LIMIT => Some((Message::OverLong, LINE_LIMIT)),
                None => None,
            }
        }
    }
}

#[derive(Clone, Debug)]
pub enum Command {
    Hello {
        version: u8,
        text: Vec<u8>,
    },
    Sub(Pattern),
    Unsub(Pattern),
    Read(Vec<u8>),
    /// Without a value the key is deleted.
    Write {
        key: Vec<u8>,
        value: Option<Vec<u8>>,
    },
    Begin,
    Commit,
    Ping(Vec<u8>),
}

impl Command {
    /// The length of the payload in binary form.
    pub fn payload_length(&self) -> usize {
        match self {
            Command::Hello { text, .. } => 1 + text.len(),
            Command::Sub(pattern) | Command::Unsub(pattern) => pattern.bytes().len(),
            Command::Read(key) => key.len(),
            Command::Write { key, value } => key.len() + value.as_ref().map_or(0, |v| 1 + v.len()),
            Command::Begin | Command::Commit => 0,
            Command::Ping(identifier) => identifier.len(),
        }
    }

    fn is_too_long(&self) -> bool {
        match self {
            Command::Sub(pattern) | Command::Unsub(pattern) => {
                pattern.bytes().len() > PATTERN_LIMIT
            }
            _ => self.payload_length() > PAYLOAD_LIMIT,
        }
    }
}

/// The command of a whole message, `None` for a blank line, or the refusal: 100, then 101, then
/// 102 by length.
pub fn decode(message: Message) -> Result<Option<Command>, u32> {
    let command = match message {
        Message::Empty => return Err(100),
        Message::OverLong => return Err(102),
        Message::Binary { id, payload } => decode_binary(id, payload)?,
        Message::Line(line) => match decode_line(line)? {
            Some(command) => command,
            None => return Ok(None),
        },
    };
    if command.is_too_long() {
        return Err(102);
    }
    Ok(Some(command))
}

fn decode_binary(id: u8, payload: &[u8]) -> Result<Command, u32> {
    match id {
        0x00 => match payload {
            [] => Err(101),
            [version, text @ ..] => Ok(Command::Hello {
                version: *version,
                text: text.to_vec(),
            }),
        },
        0x01 => Ok(Command::Sub(pattern(payload)?)),
        0x02 => Ok(Command::Unsub(pattern(payload)?)),
        0x03 => Ok(Command::Read(key(payload.to_vec())?)),
        0x04 => Ok(match payload.iter().position(|&byte| byte == 0) {
            None => Command::Write {
                key: payload.to_vec(),
                value: None,
            },
            Some(end) => Command::Write {
                key: payload[..end].to_vec(),
                value: Some(payload[end + 1..].to_vec()),
            },
        }),
        0x05 if payload.is_empty() => Ok(Command::Begin),
        0x06 if payload.is_empty() => Ok(Command::Commit),
        0x05 | 0x06 => Err(101),
        0x07 => Ok(Command::Ping(payload.to_vec())),
        _ => Err(100),
    }
}

/// A key may hold no NUL.
fn key(bytes: Vec<u8>) -> Result<Vec<u8>, u32> {
    if bytes.contains(&0) {
        return Err(101);
    }
    Ok(bytes)
}

/// A pattern may hold no NUL and has to be valid.
fn pattern(bytes: &[u8]) -> Result<Pattern, u32> {
    if bytes.contains(&0) {
        return Err(101);
    }
    Pattern::parse(bytes).ok_or(101)
}

pub(crate) const WORDS: [(&[u8], &[u8], u8); 8] = [
    (b"HELLO", b"", 0x00),
    (b"SUB", b"S", 0x01),
    (b"UNSUB", b"U", 0x02),
    (b"READ", b"R", 0x03),
    (b"WRITE", b"W", 0x04),
    (b"BEGIN", b"B", 0x05),
    (b"COMMIT", b"C", 0x06),
    (b"PING", b"P", 0x07),
];

/// The command of a line, `None` for a line of spaces only.
fn decode_line(line: &[u8]) -> Result<Option<Command>, u32> {
    let line = skip_spaces(line);
    if line.is_empty() {
        return Ok(None);
    }
    let (word, rest) = split_at_space(line);
    let named = |full: &[u8], letter: &[u8]| {
        word.eq_ignore_ascii_case(full) || word.eq_ignore_ascii_case(letter)
    };
    let row = WORDS
        .iter()
        .find(|(full, letter, _)| named(full, letter))
        .ok_or(100u32)?;
    let mut fields = fields(rest)?.into_iter();
    let command = match row.2 {
        0x00 => {
            let version = fields.next().map_or(Ok(0), version)?;
            let text = fields.next().map_or(Vec::new(), |field| field.bytes);
            Command::Hello { version, text }
        }
        0x01 => Command::Sub(pattern(&fields.next().ok_or(101u32)?.bytes)?),
        0x02 => Command::Unsub(pattern(&fields.next().ok_or(101u32)?.bytes)?),
        0x03 => Command::Read(key(fields.next().ok_or(101u32)?.bytes)?),
        0x04 => {
            let key = key(fields.next().ok_or(101u32)?.bytes)?;
            let value = fields.next().map(|field| field.bytes);
            Command::Write { key, value }
        }
        0x05 => Command::Begin,
        0x06 => Command::Commit,
        _ => Command::Ping(fields.next().map_or(Vec::new(), |field| field.bytes)),
    };
    match fields.next() {
        Some(_) => Err(101),
        None => Ok(Some(command)),
    }
}

fn skip_spaces(bytes: &[u8]) -> &[u8] {
    let spaces = bytes.iter().take_while(|&&byte| byte == b' ').count();
    &bytes[spaces..]
}

fn split_at_space(bytes: &[u8]) -> (&[u8], &[u8]) {
    bytes.split_at(
        bytes
            .iter()
            .position(|&byte| byte == b' ')
            .unwrap_or(bytes.len()),
    )
}

struct Field {
    quoted: bool,
    bytes: Vec<u8>,
}

/// The fields behind the word, unescaped; 101 where one is badly quoted.
fn fields(mut rest: &[u8]) -> Result<Vec<Field>, u32> {
    let mut fields = Vec::new();
    loop {
        rest = skip_spaces(rest);
        match rest {
            [] => return Ok(fields),
            [b'"', inside @ ..] => {
                let end = inside.iter().position(|&byte| byte == b'"').ok_or(101u32)?;
                fields.push(Field {
                    quoted: true,
                    bytes: unescape(&inside[..end])?,
                });
                rest = &inside[end + 1..];
                if !matches!(rest, [] | [b' ', ..]) {
                    return Err(101);
                }
            }
            _ => {
                let (field, after) = split_at_space(rest);
                fields.push(Field {
                    quoted: false,
                    bytes: field.to_vec(),
                });
                rest = after;
            }
        }
    }
}

/// What stands between quotes: a backslash takes three octal digits, at most `\377`.
fn unescape(mut rest: &[u8]) -> Result<Vec<u8>, u32> {
    let mut bytes = Vec::with_capacity(rest.len());
    loop {
        match rest {
            [] => return Ok(bytes),
            [b'\\', a @ b'0'..=b'3', b @ b'0'..=b'7', c @ b'0'..=b'7', after @ ..] => {
                bytes.push((a - b'0') << 6 | (b - b'0') << 3 | (c - b'0'));
                rest = after;
            }
            [b'\\', ..] => return Err(101),
            [byte, after @ ..] => {
                bytes.push(*byte);
                rest = after;
            }
        }
    }
}

/// HELLO's version: unquoted digits, leading zeros allowed, below 256.
fn version(field: Field) -> Result<u8, u32> {
    if field.quoted || !field.bytes.iter().all(u8::is_ascii_digit) {
        return Err(101);
    }
    let add_digit = |value: u8, digit: &u8| value.checked_mul(10)?.checked_add(digit - b'0');
    field.bytes.iter().try_fold(0, add_digit).ok_or(101)
}

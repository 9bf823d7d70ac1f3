//! The client's side: commands written and messages read, as packets (form 0), framed bytes
//! (form 1) and text (form 2).
//!
//! A command that is handed in and a message that is handed out stand as in packets: one byte of
//! ID, then the payload. The writer refuses what the server refuses. The text reader takes a line
//! apart from left to right and takes it only where every byte is one that "Messages written"
//! puts there.

use crate::reading::{self, Command, Kind, PAYLOAD_LIMIT, WORDS};
use crate::writing::push_string;

/// What a read gives back.
#[derive(Clone, Debug, PartialEq, Eq)]
pub struct Read {
    pub answer: u32,
    /// The length of the message in the input: beside 0 and 100 to 102.
    pub consumed: usize,
    /// What is written to the out slice, ID and payload: empty beside a refusal.
    pub message: Vec<u8>,
}

impl Read {
    fn only(answer: u32) -> Read {
        Read {
            answer,
            consumed: 0,
            message: Vec::new(),
        }
    }
}

/// The kind of a form of the client's side; 8 for a form above 2.
fn kind(form: usize) -> Result<Kind, u32> {
    match form {
        0 => Ok(Kind::Packets),
        1 => Ok(Kind::Framed),
        2 => Ok(Kind::Text),
        _ => Err(8),
    }
}

/// The bytes of a command, for an out slice of `room` bytes. Refused, in this order, with 8 for
/// the form, 100 to 102 as the server refuses the packet, and 5.
pub fn write_command(form: usize, command: &[u8], room: usize) -> Result<Vec<u8>, u32> {
    let kind = kind(form)?;
    let [id, payload @ ..] = command else {
        return Err(100);
    };
    let message = reading::Message::Binary { id: *id, payload };
    let decoded = reading::decode(message)?.ok_or(100u32)?;
    let bytes = match kind {
        Kind::Packets => command.to_vec(),
        Kind::Text => command_line(&decoded),
        Kind::Framed | Kind::Unfixed => {
            let length = u16::try_from(payload.len()).map_err(|_| 102u32)?;
            [&[*id], &length.to_be_bytes()[..], payload].concat()
        }
    };
    if bytes.len() > room {
        return Err(5);
    }
    Ok(bytes)
}

/// The command as a line with its LF.
fn command_line(command: &Command) -> Vec<u8> {
    let (id, strings): (usize, Vec<&[u8]>) = match command {
        Command::Hello { text, .. } => (0, vec![text]),
        Command::Sub(pattern) => (1, vec![pattern.bytes()]),
        Command::Unsub(pattern) => (2, vec![pattern.bytes()]),
        Command::Read(key) => (3, vec![key]),
        Command::Write { key, value: None } => (4, vec![key]),
        Command::Write {
            key,
            value: Some(value),
        } => (4, vec![key, value]),
        Command::Begin => (5, vec![]),
        Command::Commit => (6, vec![]),
        Command::Ping(identifier) => (7, vec![identifier]),
    };
    let mut line = WORDS[id].0.to_vec();
    if let Command::Hello { version, .. } = command {
        line.extend_from_slice(format!(" {version}").as_bytes());
    }
    for string in strings {
        line.push(b' ');
        push_string(string, &mut line);
    }
    line.push(b'\n');
    line
}

/// The first message of the input, for an out slice of `room` bytes. Refused, in this order, with
/// 8 for the form, 1 for a message that is not whole, 100 for an unknown or missing word or ID,
/// 101 for any other bad form, 102 for a payload over 65,535 bytes, and 5.
pub fn read_message(form: usize, input: &[u8], room: usize) -> Read {
    let kind = match kind(form) {
        Ok(kind) => kind,
        Err(answer) => return Read::only(answer),
    };
    let Some(length) = message_length(kind, input) else {
        return Read::only(1);
    };
    let whole = &input[..length];
    let read = match kind {
        Kind::Packets => read_binary(whole.first(), whole.get(1..).unwrap_or_default()),
        Kind::Text => read_line(&whole[..length - 1]),
        Kind::Framed | Kind::Unfixed => read_binary(whole.first(), &whole[3..]),
    };
    let read = read.and_then(|message| match message.len() - 1 {
        0..=PAYLOAD_LIMIT => Ok(message),
        _ => Err(102),
    });
    match read {
        Ok(message) if message.len() > room => Read::only(5),
        Ok(message) => Read {
            answer: 0,
            consumed: length,
            message,
        },
        Err(answer) => Read {
            consumed: length,
            ..Read::only(answer)
        },
    }
}

/// The length of the input's first message, or `None` where it is not whole: a packet is all of
/// the input, a line ends with its first LF and may have any length.
fn message_length(kind: Kind, input: &[u8]) -> Option<usize> {
    match kind {
        Kind::Packets => Some(input.len()),
        Kind::Text => Some(1 + input.iter().position(|&byte| byte == b'\n')?),
        Kind::Framed | Kind::Unfixed => {
            let [_, high, low, payload @ ..] = input else {
                return None;
            };
            let length = usize::from(u16::from_be_bytes([*high, *low]));
            (payload.len() >= length).then_some(3 + length)
        }
    }
}

/// VERSION and ERROR begin with a number byte; an INFO's and a PONG's payload may be anything.
fn read_binary(id: Option<&u8>, payload: &[u8]) -> Result<Vec<u8>, u32> {
    match (id, payload) {
        (Some(0x80 | 0x83), []) => Err(101),
        (Some(id @ 0x80..=0x83), _) => Ok([&[*id], payload].concat()),
        _ => Err(100),
    }
}

/// The message of a line without its LF.
fn read_line(line: &[u8]) -> Result<Vec<u8>, u32> {
    let (line, has_return) = match line {
        [line @ .., b'\r'] => (line, true),
        _ => (line, false),
    };
    let end = line.iter().position(|&byte| byte == b' ');
    let (word, rest) = line.split_at(end.unwrap_or(line.len()));
    let (id, has_number, has_value) = match word {
        b"VERSION" => (0x80, true, false),
        b"INFO" => (0x81, false, true),
        b"PONG" => (0x82, false, false),
        b"ERROR" => (0x83, true, false),
        _ => return Err(100),
    };
    let mut message = vec![id];
    let mut parser = Parser { rest };
    let parsed = has_return
        .then_some(())
        .and_then(|()| parser.fields(has_number, has_value, &mut message));
    parsed.map(|()| message).ok_or(101)
}

/// What is left of a line; each function takes its part off the front, or gives `None` where
/// something else stands there.
struct Parser<'a> {
    rest: &'a [u8],
}

impl Parser<'_> {
    fn next(&mut self) -> Option<u8> {
        let (first, rest) = self.rest.split_first()?;
        self.rest = rest;
        Some(*first)
    }

    fn exactly(&mut self, byte: u8) -> Option<()> {
        (self.next()? == byte).then_some(())
    }

    /// All fields behind the word, up to the end of the line.
    fn fields(&mut self, has_number: bool, has_value: bool, out: &mut Vec<u8>) -> Option<()> {
        if has_number {
            self.exactly(b' ')?;
            out.push(self.number()?);
        }
        self.exactly(b' ')?;
        let start = out.len();
        self.string(out)?;
        if has_value {
            // The first NUL ends the key of an INFO as ID and payload.
            if out[start..].contains(&0) {
                return None;
            }
            if !self.rest.is_empty() {
                self.exactly(b' ')?;
                out.push(0);
                self.string(out)?;
            }
        }
        self.rest.is_empty().then_some(())
    }

    /// One to three digits without a leading zero, below 256.
    fn number(&mut self) -> Option<u8> {
        let digits = self.rest.iter().take_while(|byte| byte.is_ascii_digit());
        let (number, rest) = self.rest.split_at(digits.count());
        self.rest = rest;
        match number {
            [b'0'] => Some(0),
            [b'1'..=b'9', ..] if number.len() <= 3 => {
                let add = |sum: u32, digit: &u8| 10 * sum + u32::from(digit - b'0');
                u8::try_from(number.iter().fold(0, add)).ok()
            }
            _ => None,
        }
    }

    /// A string in quotes: five bytes stand as their escapes, all others as they are.
    fn string(&mut self, out: &mut Vec<u8>) -> Option<()> {
        self.exactly(b'"')?;
        loop {
            match self.next()? {
                b'"' => return Some(()),
                b'\\' => out.push(self.escaped()?),
                0 | b'\n' | b'\r' => return None,
                byte => out.push(byte),
            }
        }
    }

    /// The three digits behind a backslash.
    fn escaped(&mut self) -> Option<u8> {
        let digits = [self.next()?, self.next()?, self.next()?];
        match &digits {
            b"000" => Some(0),
            b"012" => Some(b'\n'),
            b"015" => Some(b'\r'),
            b"042" => Some(b'"'),
            b"134" => Some(b'\\'),
            _ => None,
        }
    }
}

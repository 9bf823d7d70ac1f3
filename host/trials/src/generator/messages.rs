//! Random keys, values, patterns and commands, and their three forms, good and bad.

use reference::reading::Kind;
use reference::Server;

use crate::random::Random;

/// A command before it is written in one of the forms.
#[derive(Clone, Debug)]
pub enum Command {
    Hello(u8, Vec<u8>),
    Sub(Vec<u8>),
    Unsub(Vec<u8>),
    Read(Vec<u8>),
    Write(Vec<u8>, Option<Vec<u8>>),
    Begin,
    Commit,
    Ping(Vec<u8>),
}

impl Command {
    fn id(&self) -> u8 {
        match self {
            Command::Hello(..) => 0,
            Command::Sub(_) => 1,
            Command::Unsub(_) => 2,
            Command::Read(_) => 3,
            Command::Write(..) => 4,
            Command::Begin => 5,
            Command::Commit => 6,
            Command::Ping(_) => 7,
        }
    }

    pub fn payload(&self) -> Vec<u8> {
        match self {
            Command::Hello(version, text) => [&[*version], text.as_slice()].concat(),
            Command::Sub(bytes) | Command::Unsub(bytes) => bytes.clone(),
            Command::Read(bytes) | Command::Ping(bytes) => bytes.clone(),
            Command::Write(key, None) => key.clone(),
            Command::Write(key, Some(value)) => [key.as_slice(), &[0], value].concat(),
            Command::Begin | Command::Commit => Vec::new(),
        }
    }
}

/// A packet of any length.
pub fn packet(id: u8, payload: &[u8]) -> Vec<u8> {
    [&[id], payload].concat()
}

/// A frame; of a payload over 65,535 bytes only the first ones are framed.
pub fn frame(id: u8, payload: &[u8]) -> Vec<u8> {
    let length = u16::try_from(payload.len()).unwrap_or(u16::MAX);
    [
        &[id],
        &length.to_be_bytes()[..],
        &payload[..usize::from(length)],
    ]
    .concat()
}

/// The command in the form of a client; a stream's first one as text where `text` is true.
pub fn encode(rng: &mut Random, command: &Command, kind: Kind, text: bool) -> Vec<u8> {
    match kind {
        Kind::Packets => packet(command.id(), &command.payload()),
        Kind::Framed => frame(command.id(), &command.payload()),
        Kind::Unfixed if !text => frame(command.id(), &command.payload()),
        Kind::Text | Kind::Unfixed => line(rng, command),
    }
}

const WORDS: [(&str, &str); 8] = [
    ("hello", "hello"),
    ("sub", "s"),
    ("unsub", "u"),
    ("read", "r"),
    ("write", "w"),
    ("begin", "b"),
    ("commit", "c"),
    ("ping", "p"),
];

/// The command as a line with its end, with random spaces, cases and quotes.
fn line(rng: &mut Random, command: &Command) -> Vec<u8> {
    let mut line = Vec::new();
    if rng.chance(10) {
        spaces(rng, &mut line);
    }
    let (word, letter) = WORDS[usize::from(command.id())];
    for byte in if rng.chance(50) { word } else { letter }.bytes() {
        line.push(if rng.chance(50) {
            byte.to_ascii_uppercase()
        } else {
            byte
        });
    }
    match command {
        Command::Hello(version, text) => {
            spaces(rng, &mut line);
            line.extend(std::iter::repeat_n(b'0', rng.below(3) * rng.below(20)));
            line.extend(version.to_string().bytes());
            if !text.is_empty() || rng.chance(50) {
                field(rng, &mut line, text);
            }
        }
        Command::Sub(bytes) | Command::Unsub(bytes) => field(rng, &mut line, bytes),
        Command::Read(bytes) => field(rng, &mut line, bytes),
        Command::Ping(bytes) if bytes.is_empty() && rng.chance(50) => {}
        Command::Ping(bytes) => field(rng, &mut line, bytes),
        Command::Write(key, value) => {
            field(rng, &mut line, key);
            if let Some(value) = value {
                field(rng, &mut line, value);
            }
        }
        Command::Begin | Command::Commit => {}
    }
    if rng.chance(10) {
        spaces(rng, &mut line);
    }
    line.push(*rng.pick(b"\r\n"));
    line
}

fn spaces(rng: &mut Random, line: &mut Vec<u8>) {
    let count = if rng.chance(80) { 1 } else { rng.between(1, 4) };
    line.extend(std::iter::repeat_n(b' ', count));
}

/// Spaces and the string as a field, in quotes where it has to be and else by chance.
fn field(rng: &mut Random, line: &mut Vec<u8>, string: &[u8]) {
    spaces(rng, line);
    let bare = !string.is_empty()
        && string[0] != b'"'
        && !string
            .iter()
            .any(|byte| matches!(byte, b' ' | b'\r' | b'\n'));
    if bare && rng.chance(50) {
        line.extend_from_slice(string);
        return;
    }
    line.push(b'"');
    let escape_percent = *rng.pick(&[0, 0, 5, 100]);
    for &byte in string {
        let has_to = matches!(byte, b'"' | b'\\' | b'\r' | b'\n');
        if has_to || rng.chance(escape_percent) {
            line.extend(format!("\\{byte:03o}").bytes());
        } else {
            line.push(byte);
        }
    }
    line.push(b'"');
}

/// A blank line, with or without spaces.
pub fn blank_line(rng: &mut Random) -> Vec<u8> {
    let mut line = vec![b' '; rng.below(3)];
    line.push(*rng.pick(b"\r\n"));
    line
}

const BAD_LINES: [&[u8]; 44] = [
    b"HELP",
    b"x",
    b"h",
    b"PINGG",
    b"VERSION 0",
    b"INFO a b",
    b"PONG",
    b"ERROR 100 a",
    b"@",
    b"~",
    b"PING\"x\"",
    b"SUB",
    b"UNSUB",
    b"READ",
    b"WRITE",
    b"SUB a b",
    b"UNSUB a b",
    b"READ a b",
    b"WRITE a b c",
    b"BEGIN x",
    b"COMMIT x",
    b"PING x y",
    b"PING \"a",
    b"PING \"a\"b",
    b"PING \"a\"\"b\"",
    b"PING \"\\400\"",
    b"PING \"\\8\"",
    b"PING \"\\12\"",
    b"PING \"\\\"",
    b"PING \"\\12x\"",
    b"HELLO 256",
    b"HELLO \"\"",
    b"HELLO \"1\"",
    b"HELLO +1",
    b"HELLO 1 a b",
    b"HELLO 99999999999999999999999999",
    b"HELLO 25a",
    b"READ a\0",
    b"READ \"\\000\"",
    b"SUB \"a\\000\"",
    b"WRITE \"\\000\" b",
    b"WRITE a\0b c",
    b"BEGIN \"\"",
    b"COMMIT \"\"",
];

const INVALID_PATTERNS: [&[u8]; 14] = [
    b"**",
    b"*(a)",
    b"a\\",
    b"a|b",
    b"(a",
    b"a)",
    b"(((((a)))))",
    b"(a|b",
    b"*\\",
    b"|",
    b")",
    b"(",
    b"((((()))))",
    b"a***",
];

/// A message that is refused with 100 or 101, in the form of a client.
pub fn bad_message(rng: &mut Random, kind: Kind, text: bool) -> Vec<u8> {
    if rng.chance(25) {
        let pattern = match rng.below(4) {
            0 => [rng.word(b"ab", 255), b"\\".to_vec()].concat(),
            _ => rng.pick(&INVALID_PATTERNS).to_vec(),
        };
        let command = if rng.chance(50) {
            Command::Sub(pattern)
        } else {
            Command::Unsub(pattern)
        };
        return encode(rng, &command, kind, text);
    }
    if kind == Kind::Text || (kind == Kind::Unfixed && text) {
        return [*rng.pick(&BAD_LINES), &[*rng.pick(b"\r\n")]].concat();
    }
    let any_id = rng.below(256) as u8;
    let (id, payload): (u8, &[u8]) = match rng.below(8) {
        0 => (0x00, b""),
        1 => (0x01, b"a\0"),
        2 => (0x02, b"\0"),
        3 => (0x03, b"a\0b"),
        4 => (0x05, b"x"),
        5 => (0x06, b"\0"),
        6 => (0x08 + any_id % 0xF8, b"abc"),
        _ => (
            *rng.pick(&[0x80, 0x81, 0x82, 0x83, 0x7F, 0x22, 0x30, 0x39, 0xFF]),
            b"",
        ),
    };
    match kind {
        Kind::Packets if rng.chance(20) => Vec::new(),
        Kind::Packets => packet(id, payload),
        _ => frame(id, payload),
    }
}

/// The message with one to three bytes changed, left out or put in.
pub fn mutated(rng: &mut Random, mut message: Vec<u8>) -> Vec<u8> {
    for _ in 0..rng.between(1, 3) {
        let at = rng.below(message.len());
        let byte = match rng.below(3) {
            0 => rng.below(256) as u8,
            _ => *rng.pick(b"\0\x01\x04 \n\r\"\\()*|?7aw"),
        };
        match rng.below(3) {
            0 if !message.is_empty() => message[at] = byte,
            1 if !message.is_empty() => drop(message.remove(at)),
            _ => message.insert(at, byte),
        }
    }
    message
}

const KEYS: [&[u8]; 20] = [
    b"a",
    b"b",
    b"ab",
    b"abc",
    b"ac",
    b"a.b",
    b"a.x.b",
    b"b.b",
    b"",
    b"k",
    b"site.7.state",
    b"site.7.km",
    b"iface.eth0.mtu",
    b"a b",
    b"\"q\"",
    b"\\",
    b"(*|?)",
    b"\xFF",
    b"\n\r",
    b"c",
];

const PATTERNS: [&[u8]; 24] = [
    b"*",
    b"a*",
    b"?",
    b"a?",
    b"*b",
    b"*.b",
    b"(a|b)*",
    b"(a|ab)c",
    b"(ab|a)c",
    b"((((a))))",
    b"",
    b"site.*.state",
    b"site.*",
    b"\\**",
    b"(|a)",
    b"*?*",
    b"*?(a|b)",
    b"(a*)b",
    b"(a|b|)(b|c|)",
    b"*\\.b",
    b"?*",
    b"(*b|*c|k)",
    b"\\a",
    b"a",
];

/// A key: a usual one, one that is stored, or a random one.
pub fn key(rng: &mut Random, server: &Server) -> Vec<u8> {
    match rng.below(20) {
        0..=10 => rng.pick(&KEYS).to_vec(),
        11..=14 => stored(rng, server).map_or(b"a".to_vec(), |(key, _)| key),
        15..=18 => {
            let length = rng.below(7);
            rng.word(b"abc.", length)
        }
        _ => {
            let length = rng.below(40);
            (0..length).map(|_| rng.between(1, 255) as u8).collect()
        }
    }
}

/// A random entry of the store.
pub fn stored(rng: &mut Random, server: &Server) -> Option<(Vec<u8>, Vec<u8>)> {
    let at = rng.below(server.store().count());
    server
        .store()
        .entries()
        .nth(at)
        .map(|(key, value)| (key.to_vec(), value.to_vec()))
}

/// A value of at most so many bytes.
pub fn value(rng: &mut Random, longest: usize) -> Vec<u8> {
    let length = match rng.below(10) {
        0..=1 => 0,
        2..=6 => rng.between(1, 8),
        7..=8 => rng.below(60),
        _ => rng.below(longest + 1),
    };
    match rng.below(4) {
        0 => (0..length).map(|_| rng.below(256) as u8).collect(),
        1 => rng.word(b"\0\n\r\"\\ x", length),
        _ => rng.word(b"0123456789", length),
    }
}

/// A valid pattern of at most 255 bytes.
pub fn pattern(rng: &mut Random, server: &Server) -> Vec<u8> {
    let mut pattern = match rng.below(20) {
        0..=7 => rng.pick(&PATTERNS).to_vec(),
        8..=10 => escaped(&key(rng, server)),
        11..=13 => {
            let key = rng.pick(&KEYS);
            [escaped(&key[..key.len().min(1)]), b"*".to_vec()].concat()
        }
        14..=15 => format!("p{}*", rng.below(40)).into_bytes(),
        _ => valid_pattern(rng, 0),
    };
    if pattern.contains(&0) || pattern.len() > 255 {
        pattern = b"*".to_vec();
    }
    pattern
}

/// The pattern that matches just this key.
fn escaped(key: &[u8]) -> Vec<u8> {
    let mut pattern = Vec::new();
    for &byte in key {
        if b"(|)*?\\".contains(&byte) {
            pattern.push(b'\\');
        }
        pattern.push(byte);
    }
    pattern
}

/// A random valid pattern with groups up to four deep.
pub fn valid_pattern(rng: &mut Random, depth: usize) -> Vec<u8> {
    let mut pattern = Vec::new();
    for _ in 0..rng.below(5) {
        match rng.below(12) {
            0..=3 => pattern.push(*rng.pick(b"abc.")),
            4 => pattern.push(b'?'),
            5 => pattern.extend_from_slice(&[b'\\', *rng.pick(b"a*(|)?\\")]),
            6..=7 => pattern.extend_from_slice(&[b'*', *rng.pick(b"abc.?")]),
            8 => pattern.extend_from_slice(&[b'*', b'\\', *rng.pick(b"a*(|)?\\")]),
            _ if depth < 4 => {
                pattern.push(b'(');
                for branch in 0..rng.between(1, 3) {
                    if branch > 0 {
                        pattern.push(b'|');
                    }
                    pattern.extend(valid_pattern(rng, depth + 1));
                }
                pattern.push(b')');
            }
            _ => pattern.push(b'b'),
        }
    }
    if rng.chance(25) {
        pattern.push(b'*');
    }
    pattern
}

/// A pattern that the slot's client holds.
pub fn held(rng: &mut Random, server: &Server, slot: usize) -> Option<Vec<u8>> {
    let patterns = server.client(slot)?.patterns();
    Some(patterns.get(rng.below(patterns.len()))?.bytes().to_vec())
}

/// A command that stands by itself; values of at most so many bytes.
pub fn command(rng: &mut Random, server: &Server, slot: usize, longest: usize) -> Command {
    let held = held(rng, server, slot);
    match (rng.below(100), held) {
        (0..=39, _) => write(rng, server, longest),
        (40..=56, _) => Command::Read(key(rng, server)),
        (57..=60, Some(held)) => Command::Sub(held),
        (57..=71, _) => Command::Sub(pattern(rng, server)),
        (72..=77, Some(held)) => Command::Unsub(held),
        (72..=80, _) => Command::Unsub(pattern(rng, server)),
        (81..=92, _) => Command::Ping(value(rng, longest)),
        _ => Command::Hello(rng.below(256) as u8, value(rng, 30)),
    }
}

fn write(rng: &mut Random, server: &Server, longest: usize) -> Command {
    match rng.below(10) {
        0 => Command::Write(key(rng, server), None),
        1 => Command::Write(
            stored(rng, server).map_or(b"a".to_vec(), |entry| entry.0),
            None,
        ),
        2 => match stored(rng, server) {
            Some((key, value)) => Command::Write(key, Some(value)),
            None => Command::Write(b"a".to_vec(), Some(b"1".to_vec())),
        },
        _ => Command::Write(key(rng, server), Some(value(rng, longest))),
    }
}

/// All words of this alphabet with up to so many bytes.
pub fn all_words(alphabet: &[u8], longest: usize) -> Vec<Vec<u8>> {
    let mut words = vec![Vec::new()];
    let mut from = 0;
    for _ in 0..longest {
        let to = words.len();
        for index in from..to {
            for &byte in alphabet {
                words.push([&words[index][..], &[byte]].concat());
            }
        }
        from = to;
    }
    words
}

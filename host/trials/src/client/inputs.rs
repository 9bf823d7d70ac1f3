//! Random commands and messages as ID and payload, the forms of a message, and lines that are
//! almost of the form that is taken.

use crate::generator::messages;
use crate::random::Random;

/// The words of the four messages.
pub const WORDS: [(&str, u8); 4] = [
    ("VERSION", 0x80),
    ("INFO", 0x81),
    ("PONG", 0x82),
    ("ERROR", 0x83),
];

/// The bytes that stand as escapes in a string, each with its own.
pub const ESCAPES: [(u8, &str); 5] = [
    (0, "\\000"),
    (b'\n', "\\012"),
    (b'\r', "\\015"),
    (b'"', "\\042"),
    (b'\\', "\\134"),
];

/// The string in quotes.
pub fn quoted(string: &[u8]) -> Vec<u8> {
    let mut bytes = vec![b'"'];
    for byte in string {
        match ESCAPES.iter().find(|(escaped, _)| escaped == byte) {
            Some((_, escape)) => bytes.extend_from_slice(escape.as_bytes()),
            None => bytes.push(*byte),
        }
    }
    bytes.push(b'"');
    bytes
}

/// The bytes of a message in a form, by "Messages written"; a payload over 65,535 bytes has no
/// frame.
pub fn encoded(form: usize, message: &[u8]) -> Vec<u8> {
    match form {
        0 => message.to_vec(),
        1 => messages::frame(message[0], &message[1..]),
        _ => line(message),
    }
}

fn line(message: &[u8]) -> Vec<u8> {
    let (id, payload) = (message[0], &message[1..]);
    let word = WORDS[usize::from(id - 0x80)].0.as_bytes();
    let mut line = [word, b" "].concat();
    match id {
        0x80 | 0x83 => {
            line.extend(format!("{} ", payload[0]).bytes());
            line.extend(quoted(&payload[1..]));
        }
        0x81 => {
            let mut parts = payload.splitn(2, |byte| *byte == 0);
            line.extend(quoted(parts.next().unwrap_or_default()));
            if let Some(value) = parts.next() {
                line.push(b' ');
                line.extend(quoted(value));
            }
        }
        _ => line.extend(quoted(payload)),
    }
    line.extend_from_slice(b"\r\n");
    line
}

/// A string of at most so many bytes: plain, full of what is escaped, of high bytes, or any.
pub fn string(rng: &mut Random, longest: usize) -> Vec<u8> {
    let length = match rng.below(6) {
        0 => 0,
        1..=4 => rng.below(longest.min(12) + 1),
        _ => rng.below(longest + 1),
    };
    match rng.below(5) {
        0 => rng.word(b"\0\n\r\"\\", length),
        1 => rng.word(b"\0\n\r\"\\ 0127x", length),
        2 => (0..length).map(|_| rng.between(0x7F, 0xFF) as u8).collect(),
        3 => (0..length).map(|_| rng.byte()).collect(),
        _ => rng.word(b"abc. 019", length),
    }
}

/// A string without a NUL.
fn key(rng: &mut Random, longest: usize) -> Vec<u8> {
    let mut key = string(rng, longest);
    key.retain(|byte| *byte != 0);
    key
}

/// So many bytes of a long payload: one byte throughout, or random ones.
pub fn long(rng: &mut Random, length: usize) -> Vec<u8> {
    match rng.below(5) {
        0 => vec![b'a'; length],
        1 => vec![*rng.pick(b"\0\n\r\"\\"); length],
        2 => vec![0xFF; length],
        3 => rng.word(b"ab\"\\", length),
        _ => {
            let mut bytes = vec![0; length];
            rng.fill(&mut bytes);
            bytes
        }
    }
}

/// A length around the longest payload.
pub fn limit(rng: &mut Random) -> usize {
    rng.between(65_533, 65_537)
}

/// A message, good in every form but for a payload that is too long; `huge` is one in so many.
pub fn message(rng: &mut Random, huge: usize) -> Vec<u8> {
    let id = 0x80 + rng.below(4) as u8;
    let mut payload = match id {
        0x81 => key(rng, 60),
        _ => string(rng, 60),
    };
    if rng.one_in(huge) {
        let length = limit(rng);
        payload = long(rng, length);
    } else if id == 0x81 && rng.chance(70) {
        payload.push(0);
        payload.extend(string(rng, 60));
    }
    if matches!(id, 0x80 | 0x83) && payload.is_empty() {
        payload.push(*rng.pick(&[0, 7, 10, 99, 100, 103, 199, 255]));
    }
    messages::packet(id, &payload)
}

/// A pattern of about the longest length, valid but for its length or invalid.
pub fn long_pattern(rng: &mut Random, length: usize) -> Vec<u8> {
    let tail: &[u8] = match rng.below(6) {
        0 => b"**",
        1 => b"(",
        2 => b"\\",
        3 => b"*",
        4 => b"(a|)",
        _ => b"",
    };
    [&rng.word(b"abc?", length - tail.len()), tail].concat()
}

/// A command, good or bad: any ID, and payloads that fit the ID or do not; `huge` is one in so
/// many.
pub fn command(rng: &mut Random, huge: usize) -> Vec<u8> {
    if rng.one_in(60) {
        return Vec::new();
    }
    let id = match rng.below(10) {
        0 => rng.byte(),
        _ => rng.below(8) as u8,
    };
    let payload = match (rng.below(10), id) {
        _ if rng.one_in(huge) => {
            let length = limit(rng);
            long(rng, length)
        }
        (0..=1, _) => string(rng, 60),
        (2, _) => Vec::new(),
        (3, 1 | 2) => {
            let length = rng.between(254, 257);
            long_pattern(rng, length)
        }
        (4, 1 | 2) => {
            let pattern = messages::valid_pattern(rng, 0);
            messages::mutated(rng, pattern)
        }
        (_, 1 | 2) => messages::valid_pattern(rng, 0),
        (_, 3) => key(rng, 60),
        (_, 4) => [&key(rng, 60), &b"\0"[..], &string(rng, 60)].concat(),
        (3..=8, 5 | 6) => Vec::new(),
        _ => string(rng, 60),
    };
    messages::packet(id, &payload)
}

/// Bytes that are no message, or one by chance: words, quotes and escapes in any order.
pub fn rubble(rng: &mut Random) -> Vec<u8> {
    let pieces: [&[u8]; 16] = [
        b"PONG", b"INFO", b"VERSION", b"ERROR", b" ", b" ", b"\"", b"\"", b"\\012", b"\\101", b"0",
        b"25", b"x", b"\r", b"\n", b"\r\n",
    ];
    let mut bytes = Vec::new();
    if rng.chance(60) {
        bytes.extend_from_slice(rng.pick(&WORDS).0.as_bytes());
        bytes.push(b' ');
    }
    for _ in 0..rng.below(9) {
        match rng.below(6) {
            0 => bytes.push(rng.byte()),
            _ => bytes.extend(*rng.pick(&pieces)),
        }
    }
    if rng.chance(70) {
        bytes.extend_from_slice(b"\r\n");
    }
    bytes
}

/// A line that is almost of the form that is taken: what is wrong with it and the answer due, in
/// the words of the papers, and lines in which `@` stands for a known word, `$` for a string, `%`
/// for one without a NUL, `#` for a number and `~` for CR LF, each as it has to be.
const NEAR_MISSES: [(&str, u32, &[&str]); 46] = [
    ("an empty line", 100, &["\n", "~"]),
    ("a line of spaces", 100, &[" ~", "  \n"]),
    (
        "a word in lower case",
        100,
        &["pong $~", "info % $~", "version # $~", "error # $~"],
    ),
    (
        "a word in mixed case",
        100,
        &["Pong $~", "INFo %~", "vERSION # $~", "ErroR # $~"],
    ),
    (
        "a word cut short",
        100,
        &["PON $~", "INF %~", "VERSIO # $~", "ERRO # $~", "#~"],
    ),
    (
        "a word too long",
        100,
        &["PONGG $~", "INFOS %~", "VERSIONS # $~", "ERRORERROR # $~"],
    ),
    (
        "a command's word",
        100,
        &["PING $~", "WRITE % $~", "BEGIN~", "HELLO # $~", "SUB %~"],
    ),
    (
        "a space before the word",
        100,
        &[" PONG $~", "  INFO % $~", " ERROR # $~"],
    ),
    (
        "no space behind the word",
        100,
        &["PONG$~", "INFO$~", "VERSION# $~", "ERROR# $~"],
    ),
    ("a tab for a space", 100, &["PONG\t$~", "INFO\t% $~"]),
    (
        "CR in the word",
        100,
        &["PONG\rX\n", "P\rONG $~", "PONG\r $~", "\rPONG $~"],
    ),
    ("CR CR behind the word", 100, &["PONG\r~", "INFO\r\r~"]),
    ("NUL in the word", 100, &["PONG\0 $~", "\0~"]),
    ("a word alone", 101, &["@~"]),
    ("a word alone without CR", 101, &["@\n"]),
    ("a word and spaces", 101, &["@ ~", "@  ~", "@ \n"]),
    (
        "no CR before LF",
        101,
        &["PONG $\n", "INFO % $\n", "VERSION # $\n", "ERROR # $\n"],
    ),
    (
        "CR CR at the end",
        101,
        &["PONG $\r~", "INFO % $\r~", "ERROR # $\r~"],
    ),
    (
        "a space at the end",
        101,
        &["PONG $ ~", "INFO % ~", "INFO % $ ~", "VERSION # $ ~"],
    ),
    (
        "two spaces behind the word",
        101,
        &["PONG  $~", "INFO  %~", "VERSION  # $~"],
    ),
    (
        "two spaces between fields",
        101,
        &["INFO %  $~", "VERSION #  $~", "ERROR #  $~"],
    ),
    (
        "no space between fields",
        101,
        &["INFO %$~", "VERSION #$~", "INFO %\t$~"],
    ),
    (
        "a bare string",
        101,
        &["PONG x~", "INFO k~", "INFO k $~", "INFO % v~", "ERROR # x~"],
    ),
    (
        "no opening quote",
        101,
        &["PONG x\"~", "INFO k\" $~", "VERSION # x\"~"],
    ),
    (
        "no closing quote",
        101,
        &["PONG \"~", "PONG \"x~", "INFO % \"x~", "ERROR # \"~"],
    ),
    ("a single quote", 101, &["PONG 'x'~", "INFO 'k' $~"]),
    (
        "a tail behind the quote",
        101,
        &["PONG $x~", "INFO %x $~", "INFO % $x~", "ERROR # $0~"],
    ),
    (
        "a raw quote in a string",
        101,
        &["PONG \"a\"b\"~", "PONG $$~", "INFO % $$~"],
    ),
    (
        "a surplus string",
        101,
        &["PONG $ $~", "INFO % $ $~", "VERSION # $ $~", "ERROR # $ $~"],
    ),
    (
        "a missing string",
        101,
        &["VERSION #~", "ERROR #~", "VERSION # ~", "ERROR # ~"],
    ),
    (
        "a raw CR in a string",
        101,
        &["PONG \"a\rb\"~", "INFO % \"\r\"~", "INFO \"\r\" $~"],
    ),
    (
        "a raw NUL in a string",
        101,
        &["PONG \"a\0b\"~", "INFO \"\0\" $~", "ERROR # \"\0\"~"],
    ),
    (
        "a backslash alone",
        101,
        &["PONG \"\\\"~", "PONG \"\\x\"~", "INFO % \"a\\\"~"],
    ),
    (
        "an escape of a plain byte",
        101,
        &["PONG \"\\101\"~", "INFO \"\\040\"~", "PONG \"\\177\"~"],
    ),
    (
        "an escape over \\177",
        101,
        &["PONG \"\\377\"~", "PONG \"\\400\"~", "PONG \"\\777\"~"],
    ),
    (
        "an escape of two digits",
        101,
        &["PONG \"\\12\"~", "PONG \"\\00\"~", "PONG \"\\42x\"~"],
    ),
    (
        "an escape of other digits",
        101,
        &["PONG \"\\018\"~", "PONG \"\\x0A\"~", "PONG \"\\n\"~"],
    ),
    (
        "two backslashes",
        101,
        &["PONG \"\\\\\"~", "PONG \"\\\\134\"~"],
    ),
    (
        "a cut escape at the end",
        101,
        &["PONG \"\\0~", "PONG \"\\01~", "PONG \"\\~"],
    ),
    (
        "a leading zero",
        101,
        &[
            "VERSION 00 $~",
            "ERROR 007 $~",
            "VERSION 0255 $~",
            "ERROR 01 $~",
        ],
    ),
    (
        "a number over 255",
        101,
        &["VERSION 256 $~", "ERROR 300 $~", "VERSION 999 $~"],
    ),
    (
        "a number of many digits",
        101,
        &["VERSION 1000 $~", "ERROR 4294967296 $~"],
    ),
    (
        "a number missing",
        101,
        &["VERSION $~", "ERROR $~", "VERSION  $~"],
    ),
    (
        "a number of another form",
        101,
        &[
            "ERROR \"7\" $~",
            "VERSION +1 $~",
            "ERROR -0 $~",
            "ERROR 1x $~",
        ],
    ),
    (
        "a number too much",
        101,
        &["PONG # $~", "INFO # %~", "VERSION # # $~", "PONG #~"],
    ),
    (
        "NUL in an INFO's key",
        101,
        &[
            "INFO \"\\000\"~",
            "INFO \"a\\000b\" $~",
            "INFO \"\\000\" $~",
        ],
    ),
];

/// The names of the near misses.
pub fn near_misses() -> impl Iterator<Item = &'static str> {
    NEAR_MISSES.iter().map(|(name, ..)| *name)
}

/// A line that is almost right: its name, the answer due, its bytes.
pub fn near_miss(rng: &mut Random) -> (&'static str, u32, Vec<u8>) {
    let (name, answer, lines) = *rng.pick(&NEAR_MISSES);
    let mut line = Vec::new();
    for byte in rng.pick(lines).bytes() {
        match byte {
            b'@' => line.extend_from_slice(rng.pick(&WORDS).0.as_bytes()),
            b'$' => line.extend(quoted(&string(rng, 20))),
            b'%' => line.extend(quoted(&key(rng, 20))),
            b'#' => line.extend(rng.byte().to_string().bytes()),
            b'~' => line.extend_from_slice(b"\r\n"),
            _ => line.push(byte),
        }
    }
    (name, answer, line)
}

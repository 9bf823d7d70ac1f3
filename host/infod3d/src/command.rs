//! What the server has to know of a message that it feeds or has taken. The library alone decides
//! what a message means.

use crate::cut::Kind;
use infod3::Word;

/// The command that a message is, valid or not.
#[derive(Clone, Copy, Debug, PartialEq, Eq)]
pub enum Command {
    /// HELP in text mode, which the server answers.
    Help,
    /// HELLO, whose text goes into the log.
    Hello,
    /// SUB.
    Sub,
    /// UNSUB.
    Unsub,
    /// READ.
    Read,
    /// WRITE, which a read-only listener refuses.
    Write,
    /// BEGIN.
    Begin,
    /// COMMIT.
    Commit,
    /// PING.
    Ping,
    /// Any other message.
    Other,
}

/// The commands by their IDs.
const BY_ID: [Command; 8] = [
    Command::Hello,
    Command::Sub,
    Command::Unsub,
    Command::Read,
    Command::Write,
    Command::Begin,
    Command::Commit,
    Command::Ping,
];

impl Command {
    /// The command of a whole message.
    pub fn of(kind: Kind, message: &[u8]) -> Command {
        let id = match kind {
            Kind::Text => return Command::of_line(message),
            _ => message.first().copied(),
        };
        id.map_or(Command::Other, Command::of_id)
    }

    fn of_line(line: &[u8]) -> Command {
        let word = word(skip_spaces(line));
        if word.eq_ignore_ascii_case(b"HELP") {
            return Command::Help;
        }
        Word::named(word).map_or(Command::Other, |row| Command::of_id(row.id))
    }

    fn of_id(id: u8) -> Command {
        let command = BY_ID.get(usize::from(id)).copied();
        command.unwrap_or(Command::Other)
    }

    /// Whether it may stand in a transaction that only asks for answers, its end included.
    pub fn may_end_talk(self) -> bool {
        use Command::{Commit, Hello, Ping, Read, Sub};
        matches!(self, Hello | Sub | Read | Ping | Commit)
    }
}

/// The length of what comes first in a message: the key of a READ or a WRITE, the pattern of a SUB
/// or an UNSUB.
pub fn first_length(kind: Kind, message: &[u8]) -> usize {
    if kind == Kind::Text {
        return field(rest_of_line(message)).0.len();
    }
    let payload = payload(kind, message);
    let end = payload.iter().position(|&b| b == 0);
    end.unwrap_or(payload.len())
}

/// The text in a HELLO.
pub fn hello_text(kind: Kind, message: &[u8]) -> Vec<u8> {
    match kind {
        Kind::Text => field(field(rest_of_line(message)).1).0,
        _ => payload(kind, message).get(1..).unwrap_or(&[]).to_vec(),
    }
}

/// Whether a line is empty or of spaces only, which means nothing.
pub fn is_blank(kind: Kind, message: &[u8]) -> bool {
    kind == Kind::Text && payload(kind, message).iter().all(|&b| b == b' ')
}

/// The bytes of a message behind its ID and length, or of a line before its end.
pub fn payload(kind: Kind, message: &[u8]) -> &[u8] {
    let head = match kind {
        Kind::Text => {
            let end = message.iter().position(|b| b"\r\n".contains(b));
            return &message[..end.unwrap_or(message.len())];
        }
        Kind::Packets => 1,
        Kind::Open | Kind::Framed => 3,
    };
    message.get(head..).unwrap_or(&[])
}

/// Whether a message that was taken is an ERROR. A client's last message is one, and so are the
/// answers to typing errors: the library alone tells whether the client is shut.
pub fn is_error(kind: Kind, message: &[u8]) -> bool {
    match kind {
        Kind::Text => message.starts_with(b"ERROR "),
        _ => message.first() == Some(&0x83),
    }
}

fn skip_spaces(bytes: &[u8]) -> &[u8] {
    let start = bytes.iter().position(|&b| b != b' ');
    &bytes[start.unwrap_or(bytes.len())..]
}

/// The bytes up to a space or a line end.
fn word(bytes: &[u8]) -> &[u8] {
    let end = bytes.iter().position(|b| b" \r\n".contains(b));
    &bytes[..end.unwrap_or(bytes.len())]
}

/// What stands behind the word of a line.
fn rest_of_line(line: &[u8]) -> &[u8] {
    let line = skip_spaces(payload(Kind::Text, line));
    &line[word(line).len()..]
}

/// The next field of a line, and what is behind it. Of a wrong field it gives something: the
/// library refuses it.
fn field(rest: &[u8]) -> (Vec<u8>, &[u8]) {
    let rest = skip_spaces(rest);
    let Some(inside) = rest.strip_prefix(b"\"") else {
        let word = word(rest);
        return (word.to_vec(), &rest[word.len()..]);
    };
    let end = inside.iter().position(|&b| b == b'"');
    let (text, behind) = inside.split_at(end.unwrap_or(inside.len()));
    let mut bytes = Vec::with_capacity(text.len());
    let mut text = text.iter();
    while let Some(&byte) = text.next() {
        let octal = |value: u8, digit: &u8| (value << 3) | (digit & 7);
        bytes.push(match byte {
            b'\\' => text.by_ref().take(3).fold(0, octal),
            other => other,
        });
    }
    (bytes, behind.get(1..).unwrap_or(&[]))
}

#[cfg(test)]
mod tests {
    use super::*;

    #[test]
    fn words_are_found_as_the_library_finds_them() {
        let text = |line: &str| Command::of(Kind::Text, line.as_bytes());
        for line in ["WRITE k v\n", "  w k\r", "wRiTe", "w\n"] {
            assert_eq!(text(line), Command::Write, "{line:?}");
        }
        for line in ["HELP\n", " help me\r", "Help"] {
            assert_eq!(text(line), Command::Help, "{line:?}");
        }
        for line in [
            "",
            "\n",
            "   \n",
            "WRITER k\n",
            "\"WRITE\" k\n",
            "\tw k\n",
            "HELPS\n",
            "h\n",
        ] {
            assert_eq!(text(line), Command::Other, "{line:?}");
        }
        for row in &infod3::WORDS {
            let command = text(row.word);
            assert_eq!(format!("{command:?}").to_ascii_uppercase(), row.word);
            assert_eq!(Command::of(Kind::Framed, &[row.id, 0, 0]), command);
            assert_eq!(Command::of(Kind::Packets, &[row.id]), command);
            if let Some(letter) = row.letter {
                assert_eq!(text(&format!(" {letter} k\n")), command);
            }
        }
        assert_eq!(Word::named(b"HELP"), None);
        assert_eq!(Command::of(Kind::Packets, b"\x04k"), Command::Write);
        assert_eq!(Command::of(Kind::Packets, b"HELP"), Command::Other);
        assert_eq!(Command::of(Kind::Packets, b""), Command::Other);
        assert_eq!(Command::of(Kind::Packets, b"\x08"), Command::Other);
    }

    #[test]
    fn keys_are_measured_in_every_form() {
        let table: [(Kind, &[u8], usize); 9] = [
            (Kind::Framed, b"\x04\0\x04ab\0c", 2),
            (Kind::Framed, b"\x03\0\x02ab", 2),
            (Kind::Packets, b"\x04abc\0", 3),
            (Kind::Packets, b"", 0),
            (Kind::Text, b" w  abc d\n", 3),
            (Kind::Text, b"READ \"a b\\012\"\r", 4),
            (Kind::Text, b"w \"ab", 2),
            (Kind::Text, b"w \"\\01", 1),
            (Kind::Text, b"w\n", 0),
        ];
        for (kind, message, length) in table {
            assert_eq!(first_length(kind, message), length, "{message:?}");
        }
    }

    #[test]
    fn the_text_of_hello_is_found() {
        let text = |line: &[u8]| hello_text(Kind::Text, line);
        assert_eq!(text(b"HELLO 0 port-7\n"), b"port-7");
        assert_eq!(text(b"hello 0 \"port 7\"\r"), b"port 7");
        assert_eq!(text(b"HELLO\n"), b"");
        assert_eq!(hello_text(Kind::Framed, b"\0\0\x02\0x"), b"x");
        assert_eq!(hello_text(Kind::Packets, b"\0"), b"");
    }
}

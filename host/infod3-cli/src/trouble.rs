//! Why a connection does not go on, or a command is not sent.

use crate::quote::{field, harmless};
use infod3::client::{CodecError, Command};
use infod3::Refusal;
use std::fmt;

/// Why a connection does not go on, or a command is not sent.
#[derive(Clone, Debug, PartialEq, Eq)]
pub enum Trouble {
    /// The server cannot be reached, or has no free slot.
    Connect(String),
    /// The server sent ERROR. It closes behind 102, and behind every ERROR where the wire is framed
    /// or the listener hangs up; else a client may go on.
    Error(u8, Vec<u8>),
    /// The server takes no WRITE at this listener.
    ReadOnly,
    /// The server turned the client away with this line.
    Refused(String),
    /// The connection is lost, or what comes is not infod3.
    Lost(String),
    /// Nothing came in time.
    Late,
    /// A command that a server would refuse is not sent, for this reason.
    NotSent(String),
}

/// What is said of a command whose payload is too long.
const TOO_LONG: &str = "too long: a command holds at most 65535 bytes, so key and value together \
                        at most 65534";

impl Trouble {
    /// Why a command is not written.
    pub fn of_command(command: &Command<'_>, error: CodecError) -> Trouble {
        let (name, string): (&str, &[u8]) = match command {
            Command::Sub(pattern) | Command::Unsub(pattern) => ("PATTERN", pattern),
            Command::Read(key) | Command::Delete(key) | Command::Write(key, _) => ("KEY", key),
            _ => ("", b""),
        };
        Trouble::NotSent(match (error, name) {
            (CodecError::Refused(Refusal::Parameter), "PATTERN" | "KEY") if string.contains(&0) => {
                format!("a {name} holds no NUL")
            }
            (CodecError::Refused(Refusal::Parameter), "PATTERN") => {
                let string = field(string);
                format!("{string} is no PATTERN, such as site.*.state or site.(7|8).*")
            }
            (CodecError::Refused(Refusal::Room), "PATTERN") => {
                "too long: a PATTERN has at most 255 bytes".to_owned()
            }
            (CodecError::Refused(Refusal::Room), _) => TOO_LONG.to_owned(),
            (error, _) => error.to_string(),
        })
    }

    /// What a line of the server itself means: such a line starts with `#`, and the server closes
    /// behind it.
    pub fn of_line(line: &[u8]) -> Trouble {
        let line = line.strip_prefix(b"#").unwrap_or(line).trim_ascii();
        if line.starts_with(b"no free slot") {
            Trouble::Connect(harmless(line))
        } else if line.starts_with(b"read-only") {
            Trouble::ReadOnly
        } else {
            Trouble::Refused(harmless(line))
        }
    }
}

impl fmt::Display for Trouble {
    fn fmt(&self, f: &mut fmt::Formatter<'_>) -> fmt::Result {
        match self {
            Trouble::Connect(error) => write!(f, "cannot connect: {error}"),
            Trouble::Error(number, text) => write!(f, "ERROR {number} {}", harmless(text)),
            Trouble::ReadOnly => f.write_str("the server refuses: this listener is read-only"),
            Trouble::Refused(line) => write!(f, "the server refuses: {line}"),
            Trouble::Lost(error) => write!(f, "connection lost: {error}"),
            Trouble::Late => f.write_str("connection lost: no answer in time"),
            Trouble::NotSent(reason) => f.write_str(reason),
        }
    }
}

impl std::error::Error for Trouble {}

#[cfg(test)]
mod tests {
    use super::*;
    use infod3::client::Wire;

    #[test]
    fn lines_of_the_server_are_told_apart() {
        let said = |line: &[u8]| Trouble::of_line(line).to_string();
        assert_eq!(
            said(b"# no free slot: 2 clients are connected\r\n"),
            "cannot connect: no free slot: 2 clients are connected"
        );
        let read_only = "the server refuses: this listener is read-only";
        assert_eq!(said(b"# read-only: no WRITE here\r\n"), read_only);
        assert_eq!(said(b"# read-only"), read_only);
        assert_eq!(
            said(b"# too long\x1b[2J\xff\r\n"),
            "the server refuses: too long\\033[2J\\377"
        );
        let error = Trouble::Error(101, b"bad\nparameter".to_vec());
        assert_eq!(error.to_string(), "ERROR 101 bad\\012parameter");
    }

    #[test]
    fn a_command_that_is_not_sent_is_explained() {
        let long = [b'x'; 65_536];
        let no_pattern = "is no PATTERN, such as site.*.state or site.(7|8).*";
        let table = [
            (Command::Sub(b"a|b"), format!("a|b {no_pattern}")),
            (
                Command::Unsub(b"a b\\"),
                format!("\"a b\\134\" {no_pattern}"),
            ),
            (Command::Sub(b"\0"), "a PATTERN holds no NUL".to_owned()),
            (
                Command::Sub(&long[..256]),
                "too long: a PATTERN has at most 255 bytes".to_owned(),
            ),
            (Command::Write(b"a\0", b""), "a KEY holds no NUL".to_owned()),
            (Command::Delete(b"a\0b"), "a KEY holds no NUL".to_owned()),
            (Command::Read(b"\0"), "a KEY holds no NUL".to_owned()),
            (Command::Write(b"k", &long), TOO_LONG.to_owned()),
            (Command::Ping(&long), TOO_LONG.to_owned()),
        ];
        for (command, said) in table {
            let error = infod3::client::write(Wire::Framed, &command, &mut Vec::new());
            let trouble = Trouble::of_command(&command, error.expect_err("a refusal"));
            assert_eq!(trouble, Trouble::NotSent(said));
        }
    }
}

//! What the words of the arguments, or of a line, ask for.

use infod3::Word;
use infod3_cli::quote::field;
use infod3_cli::Command;

/// What the program is to do.
#[derive(Clone, Copy, Debug, PartialEq, Eq)]
pub enum Task<'a> {
    /// Print the value of a key.
    Read(&'a [u8]),
    /// Send a command that has no answer.
    Change(Command<'a>),
    /// Set a key's value to the bytes of standard input.
    WriteInput(&'a [u8]),
    /// Print the keys that match these patterns.
    Watch(&'a [Vec<u8>]),
    /// See whether the server answers.
    Ping,
    /// Print the text line of a command.
    Print(Command<'a>),
    /// Print that of a WRITE whose value are the bytes of standard input.
    PrintInput(&'a [u8]),
    /// Take commands from the lines of standard input.
    Lines,
}

impl Task<'_> {
    /// Reads the words of the arguments; the error is one line.
    pub fn of(words: &[Vec<u8>], stdin: bool) -> Result<Task<'_>, String> {
        let Some((name, operands)) = words.split_first() else {
            return Ok(Task::Lines);
        };
        match (name.as_slice(), operands) {
            (b"read", [key]) => Ok(Task::Read(key)),
            (b"write", _) => Ok(match key_and_value(operands, stdin)? {
                (key, Some(value)) => Task::Change(Command::Write(key, value)),
                (key, None) => Task::WriteInput(key),
            }),
            (b"delete", [key]) => Ok(Task::Change(Command::Delete(key))),
            (b"watch", patterns @ [_, ..]) => Ok(Task::Watch(patterns)),
            (b"ping", []) => Ok(Task::Ping),
            (b"line", _) => line(operands, stdin),
            (b"read" | b"delete", _) => Err(wrong(name, operands, &["KEY"])),
            (b"watch", _) => Err(wrong(name, operands, &["PATTERN"])),
            (b"ping", _) => Err(wrong(name, operands, &[])),
            _ => Err(unknown(name, "read, write, delete, watch, ping and line")),
        }
    }
}

/// The key of a write and its value, or none where standard input has it.
fn key_and_value(operands: &[Vec<u8>], stdin: bool) -> Result<(&[u8], Option<&[u8]>), String> {
    match operands {
        [key] if stdin => Ok((key, None)),
        [key, value] if !stdin => Ok((key, Some(value))),
        [_, _, ..] if stdin => Err("write --stdin wants no VALUE".to_owned()),
        [] if stdin => Err("write --stdin wants a KEY".to_owned()),
        [_] => Err("write wants a VALUE (or --stdin)".to_owned()),
        _ => Err(wrong(b"write", operands, &["KEY", "VALUE"])),
    }
}

/// The command whose text line is to be printed, in the words of a line of the interactive mode.
fn line(words: &[Vec<u8>], stdin: bool) -> Result<Task<'_>, String> {
    let Some((name, operands)) = words.split_first() else {
        return Err("line wants a COMMAND".to_owned());
    };
    match known(name) {
        None | Some("HELP" | "QUIT") => Err(unknown(name, COMMANDS)),
        Some("WRITE") => Ok(match key_and_value(operands, stdin)? {
            (key, Some(value)) => Task::Print(Command::Write(key, value)),
            (key, None) => Task::PrintInput(key),
        }),
        Some(_) => match Line::of(words)? {
            Line::Send(command) => Ok(Task::Print(command)),
            Line::Empty | Line::Help | Line::Quit => Err(unknown(name, COMMANDS)),
        },
    }
}

/// What a line of the interactive mode asks for.
#[derive(Clone, Copy, Debug, PartialEq, Eq)]
pub enum Line<'a> {
    /// Nothing.
    Empty,
    /// A command to send.
    Send(Command<'a>),
    /// The list of commands.
    Help,
    /// The end.
    Quit,
}

/// The list of the interactive mode's commands.
pub const LINES: &str = "\
read KEY, write KEY VALUE, delete KEY, sub PATTERN, unsub PATTERN, begin, commit, ping [TEXT] or
one of their first letters; hello [VERSION [TEXT]], help, quit
";

impl Line<'_> {
    /// Reads the fields of a line; the error is one line.
    pub fn of(fields: &[Vec<u8>]) -> Result<Line<'_>, String> {
        let Some((name, operands)) = fields.split_first() else {
            return Ok(Line::Empty);
        };
        let word = known(name).ok_or_else(|| unknown(name, WORDS))?;
        let command = match (word, operands) {
            ("READ", [key]) => Command::Read(key),
            ("WRITE", [key, value]) => Command::Write(key, value),
            ("DELETE", [key]) => Command::Delete(key),
            ("SUB", [pattern]) => Command::Sub(pattern),
            ("UNSUB", [pattern]) => Command::Unsub(pattern),
            ("BEGIN", []) => Command::Begin,
            ("COMMIT", []) => Command::Commit,
            ("PING", []) => Command::Ping(b""),
            ("PING", [text]) => Command::Ping(text),
            ("HELLO", []) => hello(b"0", b"")?,
            ("HELLO", [version]) => hello(version, b"")?,
            ("HELLO", [version, text]) => hello(version, text)?,
            ("HELP", []) => return Ok(Line::Help),
            ("QUIT", []) => return Ok(Line::Quit),
            _ => return Err(wrong(name, operands, behind(word))),
        };
        Ok(Line::Send(command))
    }
}

/// What a line's first word, in any case, asks for, in capitals: a word or letter of the protocol,
/// or one of this client's own.
fn known(name: &[u8]) -> Option<&'static str> {
    if let Some(row) = Word::named(name) {
        return Some(row.word);
    }
    Some(match name.to_ascii_lowercase().as_slice() {
        b"delete" | b"d" => "DELETE",
        b"watch" => "SUB",
        b"help" | b"h" | b"?" => "HELP",
        b"quit" | b"q" | b"exit" => "QUIT",
        _ => return None,
    })
}

/// What may stand behind such a word.
fn behind(word: &str) -> &'static [&'static str] {
    match word {
        "READ" | "DELETE" => &["KEY"],
        "WRITE" => &["KEY", "VALUE"],
        "SUB" | "UNSUB" => &["PATTERN"],
        "PING" => &["TEXT"],
        "HELLO" => &["VERSION", "TEXT"],
        _ => &[],
    }
}

/// What a line may begin with.
const WORDS: &str = "read, write, delete, sub, unsub, begin, commit, ping, hello, help and quit";
/// Those of them that are commands.
const COMMANDS: &str = "read, write, delete, sub, unsub, begin, commit, ping and hello";

fn hello<'a>(version: &[u8], text: &'a [u8]) -> Result<Command<'a>, String> {
    let digits = std::str::from_utf8(version).ok();
    let digits = digits.filter(|text| text.bytes().all(|b| b.is_ascii_digit()));
    match digits.and_then(|digits| digits.parse().ok()) {
        Some(version) => Ok(Command::Hello { version, text }),
        None => Err(format!(
            "hello wants a VERSION from 0 to 255, not {}",
            field(version)
        )),
    }
}

fn unknown(name: &[u8], names: &str) -> String {
    format!("unknown command {}; commands are {names}", field(name))
}

/// What is missing behind a command, or what is too much.
fn wrong(name: &[u8], operands: &[Vec<u8>], wanted: &[&str]) -> String {
    let name = field(name);
    match (operands.get(wanted.len()), wanted.get(operands.len()..)) {
        (Some(more), _) if wanted.is_empty() => {
            format!("{name} wants nothing behind it, not {}", field(more))
        }
        (Some(more), _) => {
            format!(
                "{name} wants a {} alone; {} is too much",
                wanted.join(" and a "),
                field(more)
            )
        }
        (None, missing) => format!(
            "{name} wants a {}",
            missing.unwrap_or(wanted).join(" and a ")
        ),
    }
}

#[cfg(test)]
mod tests {
    use super::*;

    fn words(line: &str) -> Vec<Vec<u8>> {
        line.split_whitespace().map(|word| word.into()).collect()
    }

    #[test]
    fn every_word_of_a_line() {
        for row in &infod3::WORDS {
            let word = row.word.to_ascii_lowercase();
            let letter = row.letter.map(String::from);
            for name in [Some(word), letter].into_iter().flatten() {
                assert_eq!(known(name.as_bytes()), Some(row.word));
                let capital = name.to_ascii_uppercase();
                assert_eq!(known(capital.as_bytes()), Some(row.word));
            }
        }
        let own = [
            ("DELETE", "delete Delete d D"),
            ("SUB", "watch WATCH"),
            ("HELP", "help HELP h H ?"),
            ("QUIT", "quit Quit q Q exit EXIT"),
        ];
        for (word, names) in own {
            for name in words(names) {
                assert_eq!(known(&name), Some(word));
                assert_eq!(Word::named(&name), None, "the client's own alone");
            }
        }
        for name in ["", "del", "line", "re", "reads", "\"read\"", "read\0", "e"] {
            assert_eq!(known(name.as_bytes()), None, "{name}");
        }
    }

    /// The words of a list in capitals, sorted.
    fn listed(list: &str) -> Vec<String> {
        let words = list.split(", ").flat_map(|part| part.split(" and "));
        let mut words: Vec<_> = words.map(str::to_ascii_uppercase).collect();
        words.sort_unstable();
        words
    }

    /// The words of the protocol and these, in the same way.
    fn protocol_and(own: &str) -> Vec<String> {
        let protocol = infod3::WORDS.map(|row| row.word).join(", ");
        listed(&format!("{protocol}, {own}"))
    }

    #[test]
    fn lists_have_every_word() {
        assert_eq!(listed(WORDS), protocol_and("delete, help, quit"));
        assert_eq!(listed(COMMANDS), protocol_and("delete"));
    }

    #[test]
    fn list_of_lines_has_every_word_with_its_fields() {
        let (lettered, others) = LINES
            .trim_end()
            .split_once(" or\none of their first letters; ")
            .expect("two sorts of words");
        let lettered = lettered.split(", ").map(|shown| (shown, true));
        let others = others.split(", ").map(|shown| (shown, false));
        let mut all = Vec::new();
        for (shown, has_letter) in lettered.chain(others) {
            let mut fields = shown.split(' ');
            let name = fields.next().unwrap_or_default().as_bytes();
            let fields: Vec<_> = fields.map(|field| field.trim_matches(['[', ']'])).collect();
            let word = known(name).expect("a word");
            assert_eq!(behind(word), fields, "{shown}");
            match Word::named(name) {
                _ if has_letter => assert_eq!(known(&name[..1]), Some(word), "{shown}"),
                Some(row) => assert_eq!(row.letter, None, "{shown}"),
                None => {}
            }
            all.push(word.to_owned());
        }
        all.sort_unstable();
        assert_eq!(all, protocol_and("delete, help, quit"));
    }

    #[test]
    fn a_wrong_command_says_what_is_missing() {
        let table = [
            ("read", "read wants a KEY"),
            ("delete", "delete wants a KEY"),
            ("write", "write wants a KEY and a VALUE"),
            ("write k", "write wants a VALUE (or --stdin)"),
            ("watch", "watch wants a PATTERN"),
            ("read a b", "read wants a KEY alone; b is too much"),
            (
                "write a b c",
                "write wants a KEY and a VALUE alone; c is too much",
            ),
            ("ping x", "ping wants nothing behind it, not x"),
            (
                "reed k",
                "unknown command reed; commands are read, write, delete, watch, ping and line",
            ),
            ("line", "line wants a COMMAND"),
            ("line write k", "write wants a VALUE (or --stdin)"),
            ("line read", "read wants a KEY"),
            ("line begin x", "begin wants nothing behind it, not x"),
            (
                "line hello 256",
                "hello wants a VERSION from 0 to 255, not 256",
            ),
            (
                "line quit",
                "unknown command quit; commands are read, write, delete, sub, unsub, begin, \
                 commit, ping and hello",
            ),
        ];
        for (line, error) in table {
            assert_eq!(Task::of(&words(line), false), Err(error.to_owned()));
        }
        let stdin = |line| Task::of(&words(line), true).map(|_| ());
        assert_eq!(stdin("write"), Err("write --stdin wants a KEY".to_owned()));
        assert_eq!(
            stdin("write a b"),
            Err("write --stdin wants no VALUE".to_owned())
        );
    }

    #[test]
    fn a_wrong_line_says_what_is_missing() {
        let table = [
            ("r", "r wants a KEY"),
            ("WRITE k", "WRITE wants a VALUE"),
            ("sub", "sub wants a PATTERN"),
            ("ping a b", "ping wants a TEXT alone; b is too much"),
            ("commit now", "commit wants nothing behind it, not now"),
            (
                "hello 1 me too",
                "hello wants a VERSION and a TEXT alone; too is too much",
            ),
            ("hello +1", "hello wants a VERSION from 0 to 255, not +1"),
        ];
        for (line, error) in table {
            assert_eq!(Line::of(&words(line)), Err(error.to_owned()));
        }
        let error = Line::of(&words("nonsense")).map(|_| ()).unwrap_err();
        assert!(error.starts_with("unknown command nonsense; commands are read, write,"));
        assert_eq!(Line::of(&[]), Ok(Line::Empty));
        assert_eq!(Line::of(&words("Quit")), Ok(Line::Quit));
    }
}

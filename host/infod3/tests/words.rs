//! The words of commands are the same in the library's source, in this crate, on the page
//! docs/words.md and in the header, and the library does with them what the page says.

use infod3::client::{write, Command, Wire};
use infod3::{Broker, Error, Feed, Form, Refusal, Sizes, Word, WORDS};
use std::fs;
use std::path::Path;
use std::str::FromStr;

const SOURCE: &str = "crates/words/src/lib.rt";
const IDS: &str = "crates/protocol/src/command_id.rt";
const PAGE: &str = "docs/words.md";
const HEADER: &str = "include/infod3.h";

/// A word in capitals, its letter and its ID.
type Row = (String, Option<char>, u8);

/// The rows of this crate.
fn rows() -> Vec<Row> {
    let row = |row: &Word| (row.word.to_owned(), row.letter, row.id);
    WORDS.iter().map(row).collect()
}

/// A file of the repository.
fn file(name: &str) -> String {
    let root = Path::new(env!("CARGO_MANIFEST_DIR")).join("../..");
    fs::read_to_string(root.join(name)).unwrap_or_else(|error| panic!("{name}: {error}"))
}

/// What stands between two texts.
fn between<'a>(text: &'a str, before: &str, behind: &str) -> Result<&'a str, String> {
    let rest = text.split_once(before).map(|(_, rest)| rest);
    let found = rest.and_then(|rest| rest.split_once(behind));
    let missing = || format!("nothing stands between {before:?} and {behind:?}");
    found.map(|(found, _)| found).ok_or_else(missing)
}

fn number<N: FromStr>(text: &str) -> Result<N, String> {
    text.parse().map_err(|_| format!("{text:?} is no number"))
}

fn letter(text: &str) -> Result<Option<char>, String> {
    match text.as_bytes() {
        [byte @ b'a'..=b'z'] => Ok(Some(char::from(*byte))),
        _ => Err(format!("{text:?} is no small letter")),
    }
}

/// The ID of each command by its name, as the library's source has them in the conversion to a
/// byte, whose arms are such as `CommandId::Sub => 1,`.
fn ids_of_source(source: &str) -> Result<Vec<(&str, u8)>, String> {
    let arms = between(source, "impl From<CommandId> for u8 {", "\n}\n")?;
    let arms = between(arms, "match command {\n", "        }\n")?;
    arms.lines().map(id_of_source).collect()
}

fn id_of_source(arm: &str) -> Result<(&str, u8), String> {
    let name = between(arm, "CommandId::", " => ")?;
    Ok((name, number(between(arm, " => ", ",")?)?))
}

/// The rows of the constant ROWS in the library's source, or where its form is another than the one
/// known here.
fn rows_of_source(source: &str, ids: &str) -> Result<Vec<Row>, String> {
    let ids = ids_of_source(ids)?;
    let (count, table) = between(source, "const ROWS: [Row; ", "\n];\n")?
        .split_once("] = [\n")
        .ok_or("the count of ROWS is not followed by `] = [`")?;
    let row = |text| row_of_source(text, &ids);
    let rows: Result<Vec<Row>, String> = table.split_inclusive("},").map(row).collect();
    let rows = rows?;
    match number::<usize>(count)? == rows.len() {
        true => Ok(rows),
        false => Err(format!("ROWS has {} rows and not {count}", rows.len())),
    }
}

/// A row such as `Row { word: b"sub", letter: Some(b's'), id: CommandId::Sub, },`, with any spaces
/// and line ends between its parts.
fn row_of_source(text: &str, ids: &[(&str, u8)]) -> Result<Row, String> {
    let parts: Vec<&str> = text.split_whitespace().collect();
    let ["Row", "{", "word:", word, "letter:", name, "id:", id, "},"] = parts[..] else {
        return Err(format!("{text:?} is no Row of word, letter and id"));
    };
    let word = between(word, "b\"", "\",")?;
    if word.is_empty() || !word.bytes().all(|byte| byte.is_ascii_lowercase()) {
        return Err(format!("{text:?} has no word of small letters"));
    }
    let letter = match name {
        "None," => None,
        _ => letter(between(name, "Some(b'", "'),")?)?,
    };
    let command = between(id, "CommandId::", ",")?;
    let known = ids.iter().find(|(name, _)| *name == command);
    let (_, id) = known.ok_or_else(|| format!("{command} has no ID"))?;
    Ok((word.to_ascii_uppercase(), letter, *id))
}

#[test]
fn rows_are_those_of_the_source() {
    let found = rows_of_source(&file(SOURCE), &file(IDS));
    let found =
        found.unwrap_or_else(|error| panic!("{SOURCE} is not in the form known here: {error}"));
    assert_eq!(found, rows(), "{SOURCE}");
    assert_eq!(found.len(), 8);
}

#[test]
fn another_table_in_the_source_is_noticed() {
    let (source, ids) = (file(SOURCE), file(IDS));
    for (from, to) in [
        ("letter: None,", "letter: Some(b'h'),"),
        ("letter: None,", "letter: Some(b'\\0'),"),
        ("letter: None,", "letter: 0,"),
        ("Some(b's')", "Some(b'S')"),
        ("Some(b's')", "Some(b'x')"),
        ("Some(b'p')", "None"),
        ("b\"ping\"", "b\"pong\""),
        ("b\"ping\"", "b\"PING\""),
        ("b\"ping\"", "b\"ping\\0\""),
        ("b\"ping\"", "b\"\""),
        ("id: CommandId::Ping,", "id: CommandId::Pong,"),
        ("id: CommandId::Sub,", "id: CommandId::Unsub,"),
        ("id: CommandId::Sub,", "id: 1,"),
        ("        letter: Some(b's'),\n", ""),
        ("const ROWS: [Row; 8]", "const ROWS: [Row; 9]"),
    ] {
        assert!(source.contains(from), "{SOURCE} has no {from}");
        let altered = source.replacen(from, to, 1);
        assert_ne!(rows_of_source(&altered, &ids), Ok(rows()), "{to}");
    }
    for (from, to) in [
        ("CommandId::Ping => 7,", "CommandId::Ping => 8,"),
        ("CommandId::Sub => 1,", "CommandId::Sub => 2,"),
        ("            CommandId::Sub => 1,\n", ""),
    ] {
        assert!(ids.contains(from), "{IDS} has no {from}");
        let altered = ids.replacen(from, to, 1);
        assert_ne!(rows_of_source(&source, &altered), Ok(rows()), "{to}");
    }
}

/// What the page's table begins with.
const COLUMNS: &str = "\
| Word | Letter | ID | Fields | What it does | Example |
|---|---|---|---|---|---|
";

/// The rows of the page's table, each with its example.
fn rows_of_page(page: &str) -> Result<Vec<(Row, &str)>, String> {
    let row = |line| {
        let cells: Vec<&str> = str::split(line, '|').map(str::trim).collect();
        let ["", word, name, id, _fields, _meaning, example, ""] = cells[..] else {
            return Err(format!("{line:?} has not six cells"));
        };
        let name = match name {
            "none" => None,
            _ => letter(name)?,
        };
        let id = id.strip_prefix("0x").filter(|digits| digits.len() == 2);
        let id = id.and_then(|digits| u8::from_str_radix(digits, 16).ok());
        let id = id.ok_or_else(|| format!("{line:?} has no ID such as 0x00"))?;
        Ok(((word.to_owned(), name, id), between(example, "`", "`")?))
    };
    between(page, COLUMNS, "\n\n")?.lines().map(row).collect()
}

#[test]
fn rows_are_those_of_the_page() {
    let page = file(PAGE);
    let found = rows_of_page(&page).unwrap_or_else(|error| panic!("{PAGE}: {error}"));
    let found: Vec<Row> = found.into_iter().map(|(row, _)| row).collect();
    assert_eq!(found, rows(), "{PAGE}");
    assert_eq!(page.matches("|---").count(), 6, "{PAGE} has one table");
}

/// The rows that the comment of infod3_feed has in words.
fn rows_of_header(header: &str) -> Result<Vec<Row>, String> {
    let lines = header.lines().map(|line| line.trim_matches([' ', '*']));
    let text = lines.collect::<Vec<_>>().join(" ");
    let comment = between(&text, "Feeds a client ", "infod3_reply infod3_feed(")?;
    let list = between(
        comment,
        "The words of text commands, in letters of either case, each with the letter that will do \
         and its ID: ",
        ". Any other word is 100.",
    )?;
    let row = |item| {
        let parts: Vec<&str> = str::split(item, ' ').collect();
        let (word, letter, id) = match parts[..] {
            [word, "(no", "letter)", id] => (word, None, id),
            [word, name, id] => (word, letter(name)?, id),
            _ => return Err(format!("{item:?} is no word, letter and ID")),
        };
        Ok((word.to_owned(), letter, number(id)?))
    };
    list.split(", ").map(row).collect()
}

#[test]
fn rows_are_those_of_the_header() {
    let found = rows_of_header(&file(HEADER)).unwrap_or_else(|error| panic!("{HEADER}: {error}"));
    assert_eq!(found, rows(), "{HEADER}");
}

/// A broker with one client of this form.
fn broker(form: Form) -> Broker<Vec<u8>> {
    let mut broker = Broker::new(Sizes::SMALLEST).expect("sizes in range");
    broker.open(0, form).expect("a free slot");
    broker
}

/// Feeds a line, which is consumed whole; gives the answer.
fn feed(broker: &mut Broker<Vec<u8>>, line: &str) -> u32 {
    let fed = broker.feed(0, format!("{line}\n").as_bytes());
    let fed = fed.unwrap_or_else(|error| panic!("{line}: {error}"));
    assert_eq!(fed.consumed(), line.len() + 1, "{line}");
    fed.number()
}

/// All that the client is sent.
fn sent(broker: &mut Broker<Vec<u8>>) -> String {
    let mut text = Vec::new();
    while broker
        .append_message(0, &mut text)
        .expect("a client")
        .is_some()
    {}
    String::from_utf8(text).expect("ASCII alone")
}

#[test]
fn library_knows_every_row() {
    for row in &WORDS {
        let names = [Some(row.word.to_owned()), row.letter.map(String::from)];
        for name in names.into_iter().flatten() {
            for name in [name.to_ascii_lowercase(), name.to_ascii_uppercase()] {
                let wants_a_field = matches!(row.word, "SUB" | "UNSUB" | "READ" | "WRITE");
                let answer = if wants_a_field { 101 } else { 0 };
                assert_eq!(feed(&mut broker(Form::Stream), &name), answer, "{name}");
            }
        }
    }
}

#[test]
fn library_writes_every_row() {
    let commands = [
        Command::Hello {
            version: 0,
            text: b"",
        },
        Command::Sub(b"k"),
        Command::Unsub(b"k"),
        Command::Read(b"k"),
        Command::Write(b"k", b"v"),
        Command::Begin,
        Command::Commit,
        Command::Ping(b"x"),
    ];
    for (command, row) in commands.iter().zip(&WORDS) {
        let (mut packet, mut line) = (Vec::new(), Vec::new());
        write(Wire::Packets, command, &mut packet).expect("a command");
        write(Wire::Text, command, &mut line).expect("a command");
        let word = line.split(|byte| b" \n".contains(byte)).next();
        assert_eq!((packet[0], word), (row.id, Some(row.word.as_bytes())));
    }
}

/// What stands as code in the page's rule that begins with this.
fn codes<'a>(page: &'a str, rule: &str) -> Vec<&'a str> {
    let rule = between(page, &format!("- **{rule}"), "\n- ");
    let rule = rule.unwrap_or_else(|error| panic!("{PAGE}: {error}"));
    rule.split('`').skip(1).step_by(2).collect()
}

#[test]
fn page_has_lines_that_are_served_and_refused() {
    let page = file(PAGE);
    let mut client = broker(Form::Stream);
    for (row, line) in rows_of_page(&page).expect("a table") {
        assert_eq!(line.split(' ').next(), Some(row.0.as_str()));
        assert_eq!(feed(&mut client, line), 0, "{line}");
    }
    let same = codes(&page, "A word is known exactly when");
    assert_eq!(same.len(), 5);
    for word in same {
        assert_eq!(Word::named(word.as_bytes()), Some(&WORDS[4]), "{word}");
        assert_eq!(feed(&mut client, &format!("  {word}  k  v  ")), 0);
    }
    sent(&mut client);
    let unknown = codes(&page, "No other word is known.");
    assert_eq!(unknown.len(), 8);
    for word in unknown.into_iter().chain(["HELP", "ping\tx", "ping\0"]) {
        assert_eq!(Word::named(word.as_bytes()), None, "{word}");
        for line in [word.to_owned(), format!(" {word} x \"")] {
            assert_eq!(feed(&mut client, &line), 100, "{line}");
            assert_eq!(sent(&mut client), "ERROR 100 \"unknown message\"\r\n");
        }
    }
}

#[test]
fn page_says_what_becomes_of_the_client() {
    // A client of form 1 stays open and keeps its patterns.
    let mut client = broker(Form::Stream);
    for (line, answer) in [("SUB k", 0), ("REED k", 100), ("WRITE k v", 0)] {
        assert_eq!(feed(&mut client, line), answer, "{line}");
    }
    let info = "INFO \"k\" \"v\"\r\n";
    assert_eq!(
        sent(&mut client),
        format!("ERROR 100 \"unknown message\"\r\n{info}")
    );
    // Its transaction is spoiled, up to COMMIT.
    for (line, answer) in [
        ("BEGIN", 0),
        ("WRITE k w", 0),
        ("REED k", 100),
        ("WRITE k x", 0),
        ("COMMIT", 103),
        ("READ k", 0),
    ] {
        assert_eq!(feed(&mut client, line), answer, "{line}");
    }
    assert!(sent(&mut client).ends_with(&format!("ERROR 103 \"bad state\"\r\n{info}")));
    // Where its ERROR does not fit, it is shut with 102; for one of form 2 the ERROR always fits.
    let long = format!("PING {}", "x".repeat(930));
    for (form, answer) in [(Form::Stream, 102), (Form::StreamHangUp, 100)] {
        let mut client = broker(form);
        assert_eq!(feed(&mut client, &long), 0);
        assert_eq!(feed(&mut client, "REED k"), answer);
        assert_eq!(client.feed(0, b"PING\n"), Err(Error::Shut));
        let error = format!("\r\nERROR {answer} \"");
        assert!(sent(&mut client).contains(&error), "{form:?}");
    }
    // A binary client is shut by an ID that is none of the eight.
    let mut client = broker(Form::Stream);
    let refused = Feed::Refused(Refusal::Message, 3);
    assert_eq!(client.feed(0, b"\x08\0\0"), Ok(refused));
    assert_eq!(client.feed(0, b"\x07\0\0"), Err(Error::Shut));
}

#[test]
fn page_says_which_streams_are_text() {
    for first in 0..=u8::MAX {
        let is_text = matches!(first, b' ' | b'\r' | b'\n' | 0x40..=0x7E);
        let mut client = broker(Form::Stream);
        // As text it begins with a whole line; as a frame it is the head of one of 2,560 bytes.
        let fed = client.feed(0, &[first, b'\n', 0]).expect("a client");
        assert_eq!(fed != Feed::More, is_text, "{first:#x}");
    }
}

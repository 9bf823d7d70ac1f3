//! The options of the program, checked.

use crate::show::Form;
use infod3_cli::quote::field;
use infod3_cli::{Address, Wire};
use std::ffi::{OsStr, OsString};
use std::os::unix::ffi::{OsStrExt, OsStringExt};
use std::time::Duration;

/// The largest number that an option takes.
const LARGEST: u64 = 1_000_000_000;

/// What the options say, and the words between them.
#[derive(Clone, Debug, PartialEq, Eq)]
pub struct Options {
    /// Where the server is.
    pub address: Address,
    /// How commands and messages go to the server and back, if it is said.
    pub wire: Option<Wire>,
    /// How keys and values are shown, if it is said.
    pub form: Option<Form>,
    /// The number of lines after which watching ends.
    pub count: Option<u64>,
    /// How long an answer may take.
    pub timeout: Duration,
    /// How long a watched server may be silent until it is asked for an answer.
    pub keepalive: Option<Duration>,
    /// Watching ends with the connection.
    pub once: bool,
    /// The value to write is read from standard input.
    pub stdin: bool,
    /// The command and what stands behind it.
    pub words: Vec<Vec<u8>>,
}

/// What the arguments ask for.
#[derive(Clone, Debug, PartialEq, Eq)]
pub enum Request {
    /// The help text.
    Help,
    /// The version.
    Version,
    /// The manual page.
    Man,
    /// A command, or the lines of standard input.
    Run(Box<Options>),
}

/// Reads the arguments, without the program's name, and the variable INFOD3_SERVER. The error is
/// one line.
pub fn parse(
    arguments: impl IntoIterator<Item = OsString>,
    server: Option<OsString>,
) -> Result<Request, String> {
    let server = server.filter(|server| !server.is_empty());
    let mut options = Options {
        address: Address::read(server.as_deref().unwrap_or(OsStr::new("127.0.0.1:7070"))),
        wire: None,
        form: None,
        count: None,
        timeout: Duration::from_secs(10),
        keepalive: None,
        once: false,
        stdin: false,
        words: Vec::new(),
    };
    let mut arguments = arguments.into_iter();
    while let Some(argument) = arguments.next() {
        let operands = options.words.len().saturating_sub(1);
        match argument.as_bytes() {
            b"--" => {
                options.words.extend(arguments.map(OsString::into_vec));
                break;
            }
            // Behind the first operand these may be values.
            b"-h" if operands == 0 => return Ok(Request::Help),
            b"-V" if operands == 0 => return Ok(Request::Version),
            [b'-', b'-', ..] => {
                let given = Given::of(argument, &mut arguments);
                if let Some(request) = options.take(given)? {
                    return Ok(request);
                }
            }
            [b'-', _, ..] if options.words.is_empty() => {
                return Err(format!("unknown option {}", argument.to_string_lossy()));
            }
            _ => options.words.push(argument.into_vec()),
        }
    }
    options.check()?;
    Ok(Request::Run(Box::new(options)))
}

/// An option as it is given: `--name`, which may be followed by its value, or `--name=value`.
struct Given<'a, I> {
    name: String,
    value: Option<OsString>,
    rest: &'a mut I,
}

impl<I: Iterator<Item = OsString>> Given<'_, I> {
    fn of(argument: OsString, rest: &mut I) -> Given<'_, I> {
        let bytes = argument.as_bytes();
        let at = bytes.iter().position(|&b| b == b'=');
        let name = String::from_utf8_lossy(&bytes[..at.unwrap_or(bytes.len())]).into_owned();
        let value = at.map(|at| OsString::from_vec(bytes[at + 1..].to_vec()));
        Given { name, value, rest }
    }

    /// The value, behind `=` or as the next argument.
    fn value(self) -> Result<OsString, String> {
        let value = self.value.or_else(|| self.rest.next());
        value.ok_or_else(|| format!("{} wants a value", self.name))
    }

    fn number(self) -> Result<u64, String> {
        let name = self.name.clone();
        let text = self.value()?.to_string_lossy().into_owned();
        match text.parse() {
            Ok(n @ 1..=LARGEST) => Ok(n),
            _ => Err(format!(
                "{name} wants a number from 1 to {LARGEST}, not {text}"
            )),
        }
    }

    fn seconds(self) -> Result<Duration, String> {
        self.number().map(Duration::from_secs)
    }

    fn wire(self) -> Result<Wire, String> {
        let name = self.name.clone();
        let text = self.value()?;
        match text.as_bytes() {
            b"framed" => Ok(Wire::Framed),
            b"text" => Ok(Wire::Text),
            other => Err(format!("{name} wants framed or text, not {}", field(other))),
        }
    }

    /// That an option without a value has none.
    fn alone(self) -> Result<(), String> {
        match self.value {
            Some(_) => Err(format!("{} takes no value", self.name)),
            None => Ok(()),
        }
    }
}

impl Options {
    /// How one command, or what is watched, goes over the wire.
    pub fn command_wire(&self) -> Wire {
        self.wire.unwrap_or(Wire::Framed)
    }

    /// How lines go over the wire. A server keeps a text client that makes a typing error, so lines
    /// from a terminal are text. Behind a line of a script that is refused nothing more is to be
    /// done, and a server shuts a framed client.
    pub fn line_wire(&self, terminal: bool) -> Wire {
        let usual = if terminal { Wire::Text } else { Wire::Framed };
        self.wire.unwrap_or(usual)
    }

    /// Takes one option in; a request where it asks for something else than to run.
    fn take<I>(&mut self, given: Given<'_, I>) -> Result<Option<Request>, String>
    where
        I: Iterator<Item = OsString>,
    {
        match given.name.as_str() {
            "--help" => return given.alone().map(|()| Some(Request::Help)),
            "--version" => return given.alone().map(|()| Some(Request::Version)),
            "--man" => return given.alone().map(|()| Some(Request::Man)),
            "--tcp" => self.address = Address::Tcp(given.value()?.to_string_lossy().into_owned()),
            "--unix" => self.address = Address::Unix(given.value()?.into()),
            "--wire" => self.wire = Some(given.wire()?),
            "--text" => self.show_as(Form::Text, given)?,
            "--raw" => self.show_as(Form::Raw, given)?,
            "--json" => self.show_as(Form::Json, given)?,
            "--stdin" => self.stdin = given.alone().map(|()| true)?,
            "--once" => self.once = given.alone().map(|()| true)?,
            "--count" => self.count = Some(given.number()?),
            "--timeout" => self.timeout = given.seconds()?,
            "--keepalive" => self.keepalive = Some(given.seconds()?),
            name => return Err(format!("unknown option {name}")),
        }
        Ok(None)
    }

    fn show_as<I>(&mut self, form: Form, given: Given<'_, I>) -> Result<(), String>
    where
        I: Iterator<Item = OsString>,
    {
        given.alone()?;
        match self.form.replace(form) {
            Some(other) if other != form => {
                Err("choose one of --text, --raw and --json".to_owned())
            }
            _ => Ok(()),
        }
    }

    /// That the address is one, and that every option belongs to the command.
    fn check(&self) -> Result<(), String> {
        self.address.check()?;
        // What stands behind `line` is a command too.
        let is_line = self.words.first().is_some_and(|word| word == b"line");
        let command = self.words.get(usize::from(is_line)).map(Vec::as_slice);
        let table: [(&str, bool, &[u8]); 4] = [
            ("--stdin", self.stdin, b"write"),
            ("--once", self.once, b"watch"),
            ("--count", self.count.is_some(), b"watch"),
            ("--keepalive", self.keepalive.is_some(), b"watch"),
        ];
        match table
            .iter()
            .find(|(_, given, of)| *given && command != Some(of))
        {
            Some((name, _, of)) => Err(format!("{name} is for {}", String::from_utf8_lossy(of))),
            None => Ok(()),
        }
    }
}

#[cfg(test)]
mod tests {
    use super::*;

    fn read(line: &str) -> Result<Request, String> {
        parse(line.split_whitespace().map(OsString::from), None)
    }

    fn options(line: &str) -> Options {
        match read(line) {
            Ok(Request::Run(options)) => *options,
            other => panic!("{line}: {other:?}"),
        }
    }

    #[test]
    fn a_value_stands_behind_or_with_its_name() {
        let apart = options("--tcp [::1]:7 --timeout 3 --count 2 --keepalive 4 watch --once x");
        let together = options("--tcp=[::1]:7 --timeout=3 --count=2 --keepalive=4 watch --once x");
        assert_eq!(apart, together);
        assert_eq!(apart.address, Address::Tcp("[::1]:7".to_owned()));
        assert_eq!(apart.words, [b"watch", &b"x"[..]]);
        assert_eq!(
            options("--unix=a=b ping").address,
            Address::Unix("a=b".into())
        );
        for (line, wire) in [
            ("ping", None),
            ("--wire framed ping", Some(Wire::Framed)),
            ("--wire=text ping", Some(Wire::Text)),
            ("ping --wire text", Some(Wire::Text)),
        ] {
            let found = options(line);
            assert_eq!(found.wire, wire, "{line}");
            assert_eq!(found.command_wire(), wire.unwrap_or(Wire::Framed));
            assert_eq!(found.line_wire(false), wire.unwrap_or(Wire::Framed));
            assert_eq!(found.line_wire(true), wire.unwrap_or(Wire::Text));
        }
        assert!(options("line write --stdin k").stdin);
    }

    #[test]
    fn paths_need_not_be_utf_8() {
        let odd = |text: &[u8]| OsString::from_vec(text.to_vec());
        let expected = Address::Unix(odd(b"/tmp/\xff").into());
        for arguments in [
            vec![odd(b"--unix"), odd(b"/tmp/\xff")],
            vec![odd(b"--unix=/tmp/\xff")],
        ] {
            match parse(arguments, None) {
                Ok(Request::Run(options)) => assert_eq!(options.address, expected),
                other => panic!("{other:?}"),
            }
        }
        match parse([], Some(odd(b"unix:/tmp/\xff"))) {
            Ok(Request::Run(options)) => assert_eq!(options.address, expected),
            other => panic!("{other:?}"),
        }
    }

    #[test]
    fn wrong_options_are_said_in_one_line() {
        let table = [
            ("--loud", "unknown option --loud"),
            ("-x", "unknown option -x"),
            ("--tcp", "--tcp wants a value"),
            (
                "--tcp 7070",
                "7070 is no address and port, such as 127.0.0.1:7070",
            ),
            (
                "--unix=",
                "the path of a Unix socket has 1 to 107 bytes and no NUL",
            ),
            ("--raw=1", "--raw takes no value"),
            ("--raw --json", "choose one of --text, --raw and --json"),
            (
                "--count 0",
                "--count wants a number from 1 to 1000000000, not 0",
            ),
            (
                "--timeout 1.5",
                "--timeout wants a number from 1 to 1000000000, not 1.5",
            ),
            (
                "--timeout=1000000001",
                "--timeout wants a number from 1 to 1000000000, not 1000000001",
            ),
            ("--stdin read k", "--stdin is for write"),
            ("--stdin line read k", "--stdin is for write"),
            ("--stdin line", "--stdin is for write"),
            ("--once line ping", "--once is for watch"),
            ("--wire", "--wire wants a value"),
            ("--wire packets", "--wire wants framed or text, not packets"),
            ("--wire=", "--wire wants framed or text, not \"\""),
            ("--once", "--once is for watch"),
        ];
        for (line, error) in table {
            assert_eq!(read(line), Err(error.to_owned()));
        }
    }

    #[test]
    fn help_is_found_unless_it_may_be_a_value() {
        for line in ["-h", "--help", "read -h", "--raw -h", "write k v --help"] {
            assert_eq!(read(line), Ok(Request::Help), "{line}");
        }
        for line in ["-V", "--version", "ping -V", "--raw -V"] {
            assert_eq!(read(line), Ok(Request::Version), "{line}");
        }
        assert_eq!(read("--man"), Ok(Request::Man));
        assert_eq!(options("write k -h").words, [b"write", &b"k"[..], b"-h"]);
        assert_eq!(options("write k -V").words, [b"write", &b"k"[..], b"-V"]);
        assert_eq!(options("read -k").words, [b"read", &b"-k"[..]]);
        assert_eq!(options("read -- -h").words, [b"read", &b"-h"[..]]);
        assert_eq!(options("write k -5").words, [b"write", &b"k"[..], b"-5"]);
    }
}

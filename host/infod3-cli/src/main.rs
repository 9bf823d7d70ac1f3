//! The program `infod3`: one command, or lines from the terminal.

#![forbid(unsafe_code)]

mod interactive;
mod options;
mod output;
mod page;
mod show;
mod task;
mod watch;

use infod3_cli::{written, Command, Connection, Message, Trouble, Wire};
use options::{Options, Request};
use output::{say, Output};
use page::PAGE;
use show::Form;
use std::io::{self, Read};
use std::process::ExitCode;
use task::Task;
use watch::Watch;

/// What is said where the lines end inside a transaction.
pub const UNCOMMITTED: &str = "the transaction was not committed";

/// How the program ends.
#[derive(Debug)]
pub enum End {
    /// All is done.
    Done,
    /// The key that was asked for is absent.
    Absent,
    /// The arguments or lines are wrong.
    Usage(String),
    /// The lines end inside a transaction, which is not committed.
    Uncommitted,
    /// The connection does not go on.
    Trouble(Trouble),
    /// Standard output cannot be written to.
    Output(io::Error),
}

impl From<Trouble> for End {
    fn from(trouble: Trouble) -> End {
        End::Trouble(trouble)
    }
}

impl End {
    /// The exit status, and the line that says why. A reader of the output that is gone ends the
    /// program quietly, as it ends any filter.
    fn status(&self) -> (u8, String) {
        match self {
            End::Done => (0, String::new()),
            End::Absent => (1, String::new()),
            End::Usage(error) => (2, format!("{error}; infod3 --help shows how")),
            End::Uncommitted => (2, UNCOMMITTED.to_owned()),
            End::Output(error) if error.kind() == io::ErrorKind::BrokenPipe => (0, String::new()),
            End::Output(error) => (6, format!("cannot write to standard output: {error}")),
            End::Trouble(trouble) => {
                let status = match trouble {
                    Trouble::NotSent(_) => 2,
                    Trouble::Connect(_) => 3,
                    Trouble::Error(..) | Trouble::Refused(_) => 4,
                    Trouble::Lost(_) | Trouble::Late => 5,
                    Trouble::ReadOnly => 7,
                };
                (status, trouble.to_string())
            }
        }
    }
}

fn main() -> ExitCode {
    let end = run().unwrap_or_else(|end| end);
    let (status, line) = end.status();
    if !line.is_empty() {
        say(line);
    }
    ExitCode::from(status)
}

fn run() -> Result<End, End> {
    let server = std::env::var_os("INFOD3_SERVER");
    let request = options::parse(std::env::args_os().skip(1), server).map_err(End::Usage)?;
    let mut output = Output::standard()?;
    let text = match request {
        Request::Run(options) => return perform(&options, &mut output),
        Request::Help => PAGE.help(),
        Request::Version => PAGE.version(),
        Request::Man => PAGE.man(),
    };
    output.write(text.as_bytes())?;
    Ok(End::Done)
}

fn perform(options: &Options, output: &mut Output) -> Result<End, End> {
    match Task::of(&options.words, options.stdin).map_err(End::Usage)? {
        Task::Read(key) => read(options, key, output),
        Task::Change(command) => change(options, command),
        Task::WriteInput(key) => change(options, Command::Write(key, &input()?)),
        Task::Watch(patterns) => Watch::new(options, patterns, output)?.run(),
        Task::Ping => {
            connect(options, options.command_wire())?.synchronise(options.timeout)?;
            output.write(b"pong\n")?;
            Ok(End::Done)
        }
        Task::Print(command) => print(command, output),
        Task::PrintInput(key) => print(Command::Write(key, &input()?), output),
        Task::Lines => interactive::run(options, output),
    }
}

/// All bytes of standard input, or more than a command holds.
fn input() -> Result<Vec<u8>, End> {
    let mut bytes = Vec::new();
    let read = io::stdin().take(65_536).read_to_end(&mut bytes);
    read.map_err(|error| End::Usage(format!("standard input: {error}")))?;
    Ok(bytes)
}

/// Prints the text line of a command.
fn print(command: Command<'_>, output: &mut Output) -> Result<End, End> {
    output.write(&written(Wire::Text, &[command])?)?;
    Ok(End::Done)
}

fn connect(options: &Options, wire: Wire) -> Result<Connection, Trouble> {
    Connection::open_in(wire, &options.address, options.timeout)
}

fn read(options: &Options, key: &[u8], output: &mut Output) -> Result<End, End> {
    let wire = options.command_wire();
    let command = written(wire, &[Command::Read(key)])?;
    let mut connection = connect(options, wire)?;
    connection.send_bytes(&command)?;
    match connection.receive(Some(options.timeout))? {
        Message::Info {
            key: found,
            value: Some(value),
        } if found == key => {
            let form = options.form.unwrap_or(Form::Fields);
            output.write(&show::value(form, key, &value))?;
            Ok(End::Done)
        }
        Message::Info {
            key: found,
            value: None,
        } if found == key => Ok(End::Absent),
        _ => Err(Trouble::Lost("another answer than the key's INFO".to_owned()).into()),
    }
}

/// Sends a command that has no answer, and waits until it is done. One that is refused is not
/// worth a connection.
fn change(options: &Options, command: Command<'_>) -> Result<End, End> {
    let wire = options.command_wire();
    let command = written(wire, &[command])?;
    let mut connection = connect(options, wire)?;
    connection.send_bytes(&command)?;
    connection.synchronise(options.timeout)?;
    Ok(End::Done)
}

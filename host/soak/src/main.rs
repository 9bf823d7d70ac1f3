//! Nights against a server process: `soak SECONDS` plays a storm, `soak --hostile SECONDS` plays
//! clients that do their worst.
//!
//! - [`storm`] is the storm night and [`hostile`] the hostile one, in phases.
//! - [`night`] has the feeds and subscribers of both, [`check`] what they hold against each other;
//!   [`typist`] is somebody who types, with errors.
//! - [`attack`] has the hostile clients, [`ping`] the one whose latency is the figure.
//! - [`server`] starts a server whose log may stall; [`figures`] and [`table`] make the output.

mod attack;
mod check;
mod figures;
mod hostile;
mod night;
mod ping;
mod server;
mod storm;
mod table;
mod typist;

use std::error::Error;
use std::process::ExitCode;

const USAGE: &str =
    "usage: soak SECONDS | soak --hostile SECONDS [--phase NUMBER] [--slack FACTOR]";

fn help() -> String {
    let (least, phases) = (hostile::least(None), hostile::list());
    format!(
        "\
{USAGE}
  SECONDS            1 to 86400: a storm night so long
  --hostile SECONDS  {least} to 86400: hostile clients in phases, so long together
  --phase NUMBER     one phase alone, for 2 seconds or more
  --slack FACTOR     multiplies the bounds of --hostile, 0.001 to 1000; 1 if not given
Exit status: 0 nothing was wrong, 1 something was, 2 wrong usage.

phases:
{phases}"
    )
}

/// What is to be played.
#[derive(Debug, PartialEq)]
enum Request {
    Help,
    Storm(u64),
    Hostile(u64, Bounds),
}

/// What `--hostile` goes with.
#[derive(Clone, Copy, Debug, PartialEq)]
struct Bounds {
    /// The only phase, counted from 1.
    phase: Option<usize>,
    slack: f64,
}

/// Reads the arguments, without the program's name. The error is one line.
fn parse(arguments: impl Iterator<Item = String>) -> Result<Request, String> {
    let (mut hostile, mut phase, mut slack, mut seconds) = (false, None, None, None);
    let mut words = arguments.flat_map(|word| match word.split_once('=') {
        Some((name, value)) if name.starts_with("--") => vec![name.to_owned(), value.to_owned()],
        _ => vec![word],
    });
    while let Some(word) = words.next() {
        match word.as_str() {
            "-h" | "--help" => return Ok(Request::Help),
            "--hostile" => hostile = true,
            "--phase" => phase = Some(number(words.next(), "--phase", 1, hostile::count())?),
            "--slack" => slack = Some(factor(words.next())?),
            _ if seconds.is_none() => seconds = Some(word),
            _ => return Err(format!("{word} is one word too many")),
        }
    }
    if !hostile && (phase.is_some() || slack.is_some()) {
        return Err("--phase and --slack go with --hostile".to_owned());
    }
    let least = if hostile { hostile::least(phase) } else { 1 };
    let seconds = number(seconds, "SECONDS", least, 86_400)?;
    let slack = slack.unwrap_or(1.0);
    Ok(match hostile {
        true => Request::Hostile(seconds, Bounds { phase, slack }),
        false => Request::Storm(seconds),
    })
}

/// A number in this range, both ends included.
fn number<T: std::str::FromStr + PartialOrd + std::fmt::Display>(
    word: Option<String>,
    name: &str,
    least: T,
    most: T,
) -> Result<T, String> {
    let word = word.ok_or(format!("{name} is missing"))?;
    match word.parse() {
        Ok(n) if n >= least && n <= most => Ok(n),
        _ => Err(format!("{name} is {least} to {most}, not {word}")),
    }
}

fn factor(word: Option<String>) -> Result<f64, String> {
    number(word, "--slack", 0.001, 1000.0)
}

fn run(request: Request) -> Result<bool, Box<dyn Error>> {
    match request {
        Request::Help => {
            print!("{}", help());
            Ok(true)
        }
        Request::Storm(seconds) => storm::soak(seconds),
        Request::Hostile(seconds, Bounds { phase, slack }) => hostile::night(seconds, phase, slack),
    }
}

fn main() -> ExitCode {
    let arguments = std::env::args_os().skip(1);
    let request = parse(arguments.map(|word| word.to_string_lossy().into_owned()));
    match request.map(run) {
        Ok(Ok(true)) => ExitCode::SUCCESS,
        Ok(Ok(false)) => ExitCode::from(1),
        Ok(Err(error)) => {
            eprintln!("soak: {error}");
            ExitCode::from(1)
        }
        Err(error) => {
            eprintln!("soak: {error}\n{USAGE}");
            ExitCode::from(2)
        }
    }
}

#[cfg(test)]
mod tests {
    use super::*;

    fn read(line: &str) -> Result<Request, String> {
        parse(line.split_whitespace().map(str::to_owned))
    }

    #[test]
    fn arguments_are_read() {
        let hostile = |seconds, phase, slack| {
            let bounds = Bounds { phase, slack };
            Ok(Request::Hostile(seconds, bounds))
        };
        assert_eq!(read("20"), Ok(Request::Storm(20)));
        assert_eq!(read("--hostile 55"), hostile(55, None, 1.0));
        assert_eq!(read("60 --slack=2.5 --hostile"), hostile(60, None, 2.5));
        assert_eq!(read("--hostile=2 --phase 11"), hostile(2, Some(11), 1.0));
        assert_eq!(read("5 -h"), Ok(Request::Help));
    }

    #[test]
    fn wrong_arguments_are_said_in_one_line() {
        let table = [
            ("", "SECONDS is missing"),
            ("0", "SECONDS is 1 to 86400, not 0"),
            ("--hostile 54", "SECONDS is 55 to 86400, not 54"),
            ("--hostile 1 --phase 9", "SECONDS is 2 to 86400, not 1"),
            ("--fast", "SECONDS is 1 to 86400, not --fast"),
            ("5 6", "6 is one word too many"),
            ("5 --slack 2", "--phase and --slack go with --hostile"),
            ("--hostile 60 --slack", "--slack is missing"),
            ("--hostile 60 --slack 0", "--slack is 0.001 to 1000, not 0"),
            (
                "--hostile 60 --slack nan",
                "--slack is 0.001 to 1000, not nan",
            ),
            ("--hostile 60 --phase 12", "--phase is 1 to 11, not 12"),
        ];
        for (line, error) in table {
            assert_eq!(read(line), Err(error.to_owned()));
        }
    }
}

//! The program: reads its options, listens and serves until a signal stops it.

use infod3d::options::{self, Request, PAGE};
use infod3d::{Log, Options, Server};
use std::io::{ErrorKind, Write};
use std::process::ExitCode;

fn main() -> ExitCode {
    match options::parse(std::env::args_os().skip(1)) {
        Ok(Request::Help) => say(&PAGE.help()),
        Ok(Request::Version) => say(&PAGE.version()),
        Ok(Request::Man) => say(&PAGE.man()),
        Ok(Request::Serve(options)) => match serve(&options) {
            Ok(()) => ExitCode::SUCCESS,
            Err(error) => fail(1, &error.to_string()),
        },
        Err(error) => fail(2, &error),
    }
}

/// Writes to standard output. A reader that is gone has read enough; any other failure is said.
fn say(text: &str) -> ExitCode {
    let mut output = std::io::stdout();
    let written = output
        .write_all(text.as_bytes())
        .and_then(|()| output.flush());
    match written {
        Err(error) if error.kind() != ErrorKind::BrokenPipe => {
            fail(1, &format!("standard output: {error}"))
        }
        _ => ExitCode::SUCCESS,
    }
}

/// Says on standard error what is wrong; where that cannot be written the status has to do.
fn fail(status: u8, error: &str) -> ExitCode {
    let _ = writeln!(std::io::stderr(), "infod3d: {error}");
    ExitCode::from(status)
}

fn serve(options: &Options) -> Result<(), Box<dyn std::error::Error>> {
    let log = Log::new(Box::new(std::io::stderr()), options.quiet);
    let mut server = Server::new(options, log)?;
    server.take_signals()?;
    server.tell_manager();
    server.run()?;
    Ok(())
}

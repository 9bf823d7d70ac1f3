//! The server beside redis, mosquitto and nats on this machine, where they are installed: requests
//! and fan-out deliveries per second, and the server's processor time for each.
//!
//! All get the same load from the same generator over loopback TCP, one after the other in one
//! run. Each protocol is spoken by hand and only says how its messages look ([`peers`]); the
//! generator sends them and counts bytes ([`load`]). The first argument says when and where it is
//! measured; the second one, if there is one, is a page with two marks, between which the table
//! is put ([`page`]).

mod load;
mod page;
mod peers;

use load::Numbers;
use peers::Peer;
use std::error::Error;
use std::ffi::OsString;
use std::process::ExitCode;

fn row(name: &str, numbers: &Numbers) -> String {
    format!(
        "| {name} | {:.0} | {:.1} | {:.0} | {:.2} |",
        numbers.requests_per_second,
        numbers.cpu_per_request,
        numbers.deliveries_per_second,
        numbers.cpu_per_delivery
    )
}

/// What stands above the table.
fn head(measured: &str) -> Vec<String> {
    let first = format!(
        "{} clients with {} requests in flight each for {} s, then {} subscribers with a payload of",
        load::CLIENTS,
        load::IN_FLIGHT,
        load::REQUEST_TIME.as_secs(),
        load::SUBSCRIBERS
    );
    let second = format!(
        "{} bytes and at most {} messages ahead for {} s. CPU is that of the server process in",
        peers::PAYLOAD,
        load::WINDOW,
        load::FAN_OUT_TIME.as_secs()
    );
    let third = "microseconds. All figures were measured in one run:".to_owned();
    let table = "| Server | requests/s | CPU/request | deliveries/s | CPU/delivery |";
    vec![
        first,
        second,
        third,
        format!("{measured}."),
        String::new(),
        table.to_owned(),
        "|---|---|---|---|---|".to_owned(),
    ]
}

/// Measures all servers, prints each line when it is known and gives them all; true where the own
/// server failed.
fn measure(measured: &str) -> (Vec<String>, bool) {
    let mut lines = head(measured);
    lines.iter().for_each(|line| println!("{line}"));
    let mut failed = false;
    for peer in Peer::all() {
        let name = peer.title();
        let line = match peer.is_installed().then(|| load::measure(&peer)) {
            None => format!("| {name} | not installed | | | |"),
            Some(Ok(numbers)) => row(&name, &numbers),
            Some(Err(error)) => {
                // Another server that does not work here is no failure of ours.
                failed |= peer.is_own();
                format!("| {name} | failed: {error} | | | |")
            }
        };
        println!("{line}");
        lines.push(line);
    }
    (lines, failed)
}

fn run(measured: &str, path: Option<OsString>) -> Result<bool, Box<dyn Error>> {
    let Some(path) = path else {
        return Ok(measure(measured).1);
    };
    // A page without marks is found before the minutes of the measurement.
    page::put(&std::fs::read_to_string(&path)?, &[])?;
    let (lines, failed) = measure(measured);
    if !failed {
        let text = page::put(&std::fs::read_to_string(&path)?, &lines)?;
        std::fs::write(&path, text)?;
        println!("written to {}", path.to_string_lossy());
    }
    Ok(failed)
}

fn main() -> ExitCode {
    let mut arguments = std::env::args_os().skip(1);
    let measured = arguments
        .next()
        .unwrap_or_else(|| "at an unknown time".into());
    match run(&measured.to_string_lossy(), arguments.next()) {
        Ok(failed) => ExitCode::from(u8::from(failed)),
        Err(error) => {
            eprintln!("bench-peers: {error}");
            ExitCode::from(1)
        }
    }
}

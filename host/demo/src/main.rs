//! A storm night through the real sockets: a feed of reports, a quarry, a port and an airfield
//! that subscribe to their own keys, and an analyst who reads along. It shows what each site
//! receives, and what its controller does with its loading line.
//!
//! Each site is a client of its own, over TCP or the Unix socket. After each step of the feed the
//! sites are asked to answer a PING, so that all that was owed to them is there to be shown.

use infod3_cli::quote::quote;
use infod3_cli::{Address, Command, Connection, Message, Trouble};
use infod3d::process::Process;
use std::process::ExitCode;
use std::time::Duration;

const PATIENCE: Duration = Duration::from_secs(10);

/// A client that shows what it receives.
struct Site {
    name: &'static str,
    connection: Connection,
    /// The site's loading line runs, for a site that has one.
    line: Option<bool>,
}

impl Site {
    fn open(
        name: &'static str,
        address: &Address,
        patterns: &[&str],
        line: Option<bool>,
    ) -> Result<Site, Trouble> {
        let mut connection = Connection::open(address, PATIENCE)?;
        for pattern in patterns {
            connection.send(Command::Sub(pattern.as_bytes()))?;
        }
        Ok(Site {
            name,
            connection,
            line,
        })
    }

    /// Shows all that has come for this site by now.
    fn show(&mut self) -> Result<(), Trouble> {
        self.connection.send(Command::Ping(b"shown"))?;
        loop {
            match self.connection.receive(Some(PATIENCE))? {
                Message::Info { key, value } => self.info(&key, value.as_deref()),
                Message::Pong(_) => return Ok(()),
                _ => {}
            }
        }
    }

    fn info(&mut self, key: &[u8], value: Option<&[u8]>) {
        let shown = value.map_or("is gone".to_owned(), quote);
        let action = match (key.ends_with(b".state"), value) {
            (true, Some(b"alert")) => self.set_line(false),
            (true, Some(b"clear")) => self.set_line(true),
            _ => "",
        };
        println!("    {:<10} {} {shown}{action}", self.name, quote(key));
    }

    fn set_line(&mut self, runs: bool) -> &'static str {
        match (self.line.replace(runs), runs) {
            (None, _) => {
                self.line = None;
                ""
            }
            (Some(before), _) if before == runs => "",
            (_, true) => "   -> the loading line restarts",
            (_, false) => "   -> the loading line STOPS",
        }
    }
}

/// A step of the night: what is said, and the commands that the feed sends at once.
type Step = (&'static str, Vec<Command<'static>>);

fn night() -> Vec<Step> {
    use Command::{Begin, Commit, Delete, Write};
    vec![
        (
            "21:04  A first cell, far out: plain reports of its distance",
            vec![
                Write(b"site.quarry.km", b"38"),
                Write(b"site.port.km", b"52"),
                Write(b"site.airfield.km", b"61"),
            ],
        ),
        (
            "21:31  It nears the quarry: distance and alert in one transaction",
            vec![
                Begin,
                Write(b"site.quarry.km", b"9"),
                Write(b"site.quarry.state", b"alert"),
                Commit,
            ],
        ),
        (
            "21:50  The front is over all three: one transaction, each site gets its own part",
            vec![
                Begin,
                Write(b"site.port.km", b"7"),
                Write(b"site.port.state", b"alert"),
                Write(b"site.airfield.km", b"12"),
                Write(b"site.airfield.state", b"alert"),
                Commit,
            ],
        ),
        (
            "22:15  A report that repeats the last one changes nothing, and nobody is told",
            vec![Write(b"site.port.km", b"7")],
        ),
        (
            "22:40  The port: an all-clear in a transaction, then at once a new alert; in order",
            vec![
                Begin,
                Write(b"site.port.km", b"21"),
                Write(b"site.port.state", b"clear"),
                Commit,
                Write(b"site.port.state", b"alert"),
                Write(b"site.port.km", b"5"),
            ],
        ),
        (
            "23:58  The storm has passed: all clear, and the distances are taken back",
            vec![
                Begin,
                Write(b"site.quarry.state", b"clear"),
                Write(b"site.port.state", b"clear"),
                Write(b"site.airfield.state", b"clear"),
                Delete(b"site.quarry.km"),
                Delete(b"site.port.km"),
                Delete(b"site.airfield.km"),
                Commit,
            ],
        ),
    ]
}

fn play() -> Result<(), Box<dyn std::error::Error>> {
    let server = Process::start(&Process::beside()?, &["--quiet"])?;
    let tcp = Address::Tcp(server.tcp.to_string());
    let unix = Address::Unix(server.unix.clone());
    println!("A server on {tcp} and {unix}.");
    let mut feed = Connection::open(&tcp, PATIENCE)?;
    let mut sites = [
        Site::open("quarry", &tcp, &["site.quarry.*"], Some(true))?,
        Site::open("port", &unix, &["site.port.*"], Some(true))?,
        Site::open("airfield", &tcp, &["site.airfield.*"], Some(true))?,
        Site::open("analyst", &unix, &["site.*.state"], None)?,
    ];
    for site in &mut sites {
        site.show()?;
    }
    for (text, commands) in night() {
        println!("\n{text}");
        feed.send_all(&commands)?;
        feed.synchronise(PATIENCE)?;
        for site in &mut sites {
            site.show()?;
        }
    }
    println!("\n23:59  A controller that comes late learns the present state at once");
    let mut late = Site::open("tower", &unix, &["site.airfield.*"], None)?;
    late.show()?;
    Ok(())
}

fn main() -> ExitCode {
    match play() {
        Ok(()) => ExitCode::SUCCESS,
        Err(error) => {
            eprintln!("demo: {error}");
            ExitCode::from(1)
        }
    }
}

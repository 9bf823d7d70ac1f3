//! A server as a process of its own, for programs that exercise it: started on ports and paths
//! that are free, and stopped at the end.

use crate::options::escaped;
use std::io::{self, BufRead, BufReader};
use std::net::SocketAddr;
use std::path::{Path, PathBuf};
use std::process::{Child, Command, Stdio};
use std::time::{Duration, Instant};

/// The running server.
#[derive(Debug)]
pub struct Process {
    child: Child,
    /// Its TCP port.
    pub tcp: SocketAddr,
    /// Its Unix socket.
    pub unix: PathBuf,
}

impl Process {
    /// Starts the program on a free loopback port and on a Unix socket in the folder for
    /// temporary files. Its log goes nowhere.
    pub fn start(program: &Path, arguments: &[&str]) -> io::Result<Process> {
        let name = format!("infod3d-{}.sock", std::process::id());
        let unix = std::env::temp_dir().join(name);
        let mut child = Command::new(program)
            .args(["--tcp", "127.0.0.1:0", "--unix"])
            .arg(escaped(&unix))
            .args(arguments)
            .stdin(Stdio::null())
            .stderr(Stdio::piped())
            .spawn()?;
        match first_port(&mut child) {
            Some(tcp) => Ok(Process { child, tcp, unix }),
            None => {
                let _ = child.kill();
                let _ = child.wait();
                Err(io::Error::other("the server did not start"))
            }
        }
    }

    /// The program `infod3d` beside the running one.
    pub fn beside() -> io::Result<PathBuf> {
        Ok(std::env::current_exe()?.with_file_name("infod3d"))
    }

    /// The process.
    pub fn id(&self) -> u32 {
        self.child.id()
    }
}

/// The port in the log, whose rest is dropped.
fn first_port(child: &mut Child) -> Option<SocketAddr> {
    let mut log = BufReader::new(child.stderr.take()?);
    let port = port_in(&mut log);
    std::thread::spawn(move || io::copy(&mut log, &mut io::sink()));
    port
}

/// The TCP port that a server's log names, which is read up to the line of its Unix socket.
pub fn port_in(log: &mut impl BufRead) -> Option<SocketAddr> {
    let mut port = None;
    loop {
        let mut line = String::new();
        if log.read_line(&mut line).ok()? == 0 {
            return None;
        }
        if let Some((_, place)) = line.split_once(" listen tcp ") {
            port = place.split_whitespace().next()?.parse().ok();
        }
        if line.contains(" listen unix ") {
            return port;
        }
    }
}

/// The seconds of processor time that a process has used, by the system's table.
pub fn cpu_seconds(pid: u32) -> Option<f64> {
    let text = std::fs::read_to_string(format!("/proc/{pid}/stat")).ok()?;
    // The name in brackets may hold anything; behind it the times are the 12th and 13th field.
    let (_, fields) = text.rsplit_once(')')?;
    let mut times = fields.split_whitespace().skip(11);
    let mut next = || times.next()?.parse::<f64>().ok();
    Some((next()? + next()?) / TICKS)
}

/// Ticks of that table in a second; Linux has shown 100 on every machine for decades.
const TICKS: f64 = 100.0;

impl Drop for Process {
    /// Asks the server to stop, and kills it where it does not within two seconds.
    fn drop(&mut self) {
        let pid = self.child.id().to_string();
        let _ = Command::new("kill").arg(pid).status();
        let until = Instant::now() + Duration::from_secs(2);
        while matches!(self.child.try_wait(), Ok(None)) {
            if Instant::now() > until {
                let _ = self.child.kill();
                let _ = self.child.wait();
                return;
            }
            std::thread::sleep(Duration::from_millis(5));
        }
    }
}

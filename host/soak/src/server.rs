//! A server process of a hostile night, whose log is read and dropped, or not read at all.

use infod3d::process::{port_in, Process};
use std::io::{self, BufReader};
use std::net::SocketAddr;
use std::path::PathBuf;
use std::process::{Child, ChildStderr, Command, Stdio};
use std::sync::atomic::{AtomicU32, Ordering};
use std::sync::mpsc;
use std::time::{Duration, Instant};

/// What becomes of the server's log.
#[derive(Clone, Copy, Debug, PartialEq, Eq)]
pub enum Log {
    /// It is read and dropped.
    Read,
    /// It is a pipe that nobody reads.
    Stalled,
}

/// The running server; it is killed where it was not stopped.
pub struct Server {
    child: Child,
    /// The pipe of a stalled log, which stays open.
    _log: Option<BufReader<ChildStderr>>,
    /// Its TCP port.
    pub tcp: SocketAddr,
    /// Its Unix socket.
    pub unix: PathBuf,
}

impl Server {
    /// Starts the program `infod3d` beside the running one on a free loopback port and on a Unix
    /// socket in the folder for temporary files.
    pub fn start(log: Log) -> io::Result<Server> {
        static COUNT: AtomicU32 = AtomicU32::new(0);
        let count = COUNT.fetch_add(1, Ordering::Relaxed);
        let name = format!("infod3d-hostile-{}-{count}.sock", std::process::id());
        let unix = std::env::temp_dir().join(name);
        let mut child = Command::new(Process::beside()?)
            .args(["--tcp", "127.0.0.1:0", "--unix"])
            .arg(&unix)
            .stdin(Stdio::null())
            .stdout(Stdio::null())
            .stderr(Stdio::piped())
            .spawn()?;
        let started = child.stderr.take().and_then(first_port);
        let Some((tcp, mut pipe)) = started else {
            let _ = child.kill();
            let _ = child.wait();
            return Err(io::Error::other("the server did not start"));
        };
        let log = match log {
            Log::Stalled => Some(pipe),
            Log::Read => {
                std::thread::spawn(move || io::copy(&mut pipe, &mut io::sink()));
                None
            }
        };
        Ok(Server {
            child,
            _log: log,
            tcp,
            unix,
        })
    }

    /// Asks the server to stop, and gives how long that took; none where it took longer than
    /// `limit`, or the server did not end well.
    pub fn stop(mut self, limit: Duration) -> Option<Duration> {
        let begin = Instant::now();
        let pid = self.child.id().to_string();
        let _ = Command::new("kill").arg(pid).stderr(Stdio::null()).status();
        while begin.elapsed() < limit {
            if let Some(status) = self.child.try_wait().ok()? {
                return status.success().then(|| begin.elapsed());
            }
            std::thread::sleep(Duration::from_millis(5));
        }
        None
    }
}

impl Drop for Server {
    fn drop(&mut self) {
        let _ = self.child.kill();
        let _ = self.child.wait();
        let _ = std::fs::remove_file(&self.unix);
    }
}

/// The port in the log and what follows in the log; none where it does not come in half a minute.
fn first_port(pipe: ChildStderr) -> Option<(SocketAddr, BufReader<ChildStderr>)> {
    let (sender, receiver) = mpsc::channel();
    std::thread::spawn(move || {
        let mut log = BufReader::new(pipe);
        let _ = sender.send(port_in(&mut log).map(|port| (port, log)));
    });
    receiver.recv_timeout(Duration::from_secs(30)).ok()?
}

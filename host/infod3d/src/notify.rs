//! What the service manager is told: that the server listens, that it stops, and by the watchdog
//! that its loop turns. It is one datagram each to the socket that NOTIFY_SOCKET names, as
//! `sd_notify(3)` describes it.

use std::ffi::OsString;
use std::io;
use std::os::linux::net::SocketAddrExt;
use std::os::unix::ffi::OsStrExt;
use std::os::unix::net::{SocketAddr, UnixDatagram};
use std::time::{Duration, Instant};

/// How long the first datagram may take.
const AT_START: Duration = Duration::from_secs(1);

/// The service manager.
#[derive(Debug)]
pub struct Manager {
    socket: UnixDatagram,
    address: SocketAddr,
    /// Half the watchdog's time, and when it is to be told next.
    watchdog: Option<(Duration, Instant)>,
    /// An error was given.
    failed: bool,
}

/// What the environment says of the service manager.
#[derive(Clone, Debug, Default)]
struct Environment {
    socket: Option<OsString>,
    watchdog: Option<OsString>,
    /// The process that the watchdog is meant for.
    pid: Option<OsString>,
}

impl Manager {
    /// The manager that the environment names, or none where it names none.
    pub fn of_environment(now: Instant) -> io::Result<Option<Manager>> {
        let environment = Environment {
            socket: std::env::var_os("NOTIFY_SOCKET"),
            watchdog: std::env::var_os("WATCHDOG_USEC"),
            pid: std::env::var_os("WATCHDOG_PID"),
        };
        Manager::of(&environment, now)
    }

    fn of(environment: &Environment, now: Instant) -> io::Result<Option<Manager>> {
        let Some(name) = environment.socket.as_ref().filter(|name| !name.is_empty()) else {
            return Ok(None);
        };
        let address = match name.as_bytes() {
            [b'@', name @ ..] => SocketAddr::from_abstract_name(name)?,
            [b'/', ..] => SocketAddr::from_pathname(name)?,
            _ => {
                let text = "NOTIFY_SOCKET begins with neither / nor @";
                return Err(io::Error::new(io::ErrorKind::InvalidInput, text));
            }
        };
        let socket = UnixDatagram::unbound()?;
        socket.set_write_timeout(Some(AT_START))?;
        Ok(Some(Manager {
            socket,
            address,
            watchdog: watchdog(environment).map(|half| (half, now)),
            failed: false,
        }))
    }

    /// Tells that all listeners listen, and waits for a second at most where the manager is busy,
    /// since it may end a service that it takes for one that never got ready. From then on nothing
    /// is waited for.
    pub fn ready(&mut self, status: &str) -> io::Result<()> {
        let told = self.tell(&format!("READY=1\nSTATUS={status}"));
        self.socket.set_nonblocking(true)?;
        told
    }

    /// Tells that the server stops.
    pub fn stopping(&mut self) -> io::Result<()> {
        self.tell("STOPPING=1")
    }

    /// When the watchdog is to be told next.
    pub fn due(&self) -> Option<Instant> {
        self.watchdog.map(|(_, next)| next)
    }

    /// Tells the watchdog that the loop turns, if it is time.
    pub fn tick(&mut self, now: Instant) -> io::Result<()> {
        match self.watchdog {
            Some((half, next)) if next <= now => {
                self.watchdog = Some((half, now + half));
                self.tell("WATCHDOG=1")
            }
            _ => Ok(()),
        }
    }

    /// Sends one datagram. Only the first error is given; the manager is told on.
    fn tell(&mut self, text: &str) -> io::Result<()> {
        match self.socket.send_to_addr(text.as_bytes(), &self.address) {
            Err(error) if !self.failed => {
                self.failed = true;
                Err(error)
            }
            _ => Ok(()),
        }
    }
}

/// Half the time of the watchdog, if it is meant for this process.
fn watchdog(environment: &Environment) -> Option<Duration> {
    let number = |text: &OsString| text.to_str()?.parse::<u64>().ok();
    let pid = environment.pid.as_ref();
    if pid.is_some_and(|pid| number(pid) != Some(u64::from(std::process::id()))) {
        return None;
    }
    let time = environment.watchdog.as_ref().and_then(number)?;
    (time > 0).then(|| Duration::from_micros(time.div_ceil(2)))
}

#[cfg(test)]
mod tests {
    use super::*;

    /// A manager's socket of an abstract name, and the environment that names it.
    fn manager(name: &str) -> (UnixDatagram, Environment) {
        let name = format!("infod3d-notify-{}-{name}", std::process::id());
        let address = SocketAddr::from_abstract_name(&name).unwrap();
        let socket = UnixDatagram::bind_addr(&address).unwrap();
        socket
            .set_read_timeout(Some(Duration::from_secs(30)))
            .unwrap();
        let environment = Environment {
            socket: Some(format!("@{name}").into()),
            ..Environment::default()
        };
        (socket, environment)
    }

    fn told(socket: &UnixDatagram) -> String {
        let mut bytes = [0; 200];
        let len = socket.recv(&mut bytes).expect("a datagram");
        String::from_utf8_lossy(&bytes[..len]).into_owned()
    }

    #[test]
    fn each_event_is_one_datagram() {
        let (socket, mut environment) = manager("events");
        environment.watchdog = Some("3000001".into());
        environment.pid = Some(std::process::id().to_string().into());
        let now = Instant::now();
        let mut manager = Manager::of(&environment, now).unwrap().unwrap();
        manager.ready("1 listener").unwrap();
        assert_eq!(told(&socket), "READY=1\nSTATUS=1 listener");
        manager.tick(now).unwrap();
        assert_eq!(told(&socket), "WATCHDOG=1");
        let next = now + Duration::from_micros(1_500_001);
        assert_eq!(manager.due(), Some(next));
        manager.tick(next - Duration::from_micros(1)).unwrap();
        manager.stopping().unwrap();
        assert_eq!(told(&socket), "STOPPING=1", "nothing was due before");
        manager.tick(next).unwrap();
        assert_eq!(told(&socket), "WATCHDOG=1");
    }

    #[test]
    fn a_manager_that_does_not_read_is_not_waited_for() {
        let (_socket, environment) = manager("full");
        let mut manager = Manager::of(&environment, Instant::now()).unwrap().unwrap();
        assert_eq!(manager.due(), None, "there is no watchdog");
        manager.ready("").unwrap();
        let mut tries = 0..100_000;
        let error = tries.find_map(|_| manager.stopping().err());
        assert_eq!(error.unwrap().kind(), io::ErrorKind::WouldBlock);
        assert!(manager.stopping().is_ok(), "one error is enough");
    }

    #[test]
    fn the_environment_is_checked() {
        let now = Instant::now();
        let named = |socket: &str| Environment {
            socket: Some(socket.into()),
            ..Environment::default()
        };
        assert!(Manager::of(&Environment::default(), now).unwrap().is_none());
        assert!(Manager::of(&named(""), now).unwrap().is_none());
        assert!(Manager::of(&named("vsock:2:1"), now).is_err());
        assert!(Manager::of(&named(&format!("/{}", "x".repeat(200))), now).is_err());
        for (time, pid) in [("0", None), ("x", None), ("1000", Some("1"))] {
            let environment = Environment {
                watchdog: Some(time.into()),
                pid: pid.map(OsString::from),
                ..named("/nowhere")
            };
            let manager = Manager::of(&environment, now).unwrap().unwrap();
            assert_eq!(manager.due(), None);
        }
    }
}

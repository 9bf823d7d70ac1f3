//! The loop: waits for all sockets at once, reads, works for a bounded time and writes. How clients
//! come and go is in `coming`; who is served next is in `work`, what is done for them in `feeding`
//! and `taking`; how the server stops is in `stopping`, what it says of itself in `telling`.

mod coming;
mod feeding;
mod stopping;
mod taking;
mod telling;
mod work;

use crate::client::Client;
use crate::counters::Counters;
use crate::cut::LONGEST;
use crate::folder;
use crate::listener::{Listener, Place};
use crate::log::Log;
use crate::metrics::Metrics;
use crate::notify::Manager;
use crate::options::Options;
use crate::socket::Socket;
use crate::sys::{self, PollFd};
use infod3::{Broker, Error, View};
use std::fmt;
use std::io::{self, Read, Write};
use std::os::fd::AsRawFd;
use std::os::unix::net::UnixStream;
use std::time::{Duration, Instant};
use stopping::Stopping;
use work::Costs;

/// Why the server cannot start or go on.
#[derive(Debug)]
pub enum Failure {
    /// A socket cannot be listened at.
    Listen(String, io::Error),
    /// The system refuses what the loop cannot do without.
    System(io::Error),
    /// The library gave an answer that its rules do not allow here.
    Library(Error),
}

impl fmt::Display for Failure {
    fn fmt(&self, f: &mut fmt::Formatter<'_>) -> fmt::Result {
        match self {
            Failure::Listen(place, error) => write!(f, "cannot listen on {place}: {error}"),
            Failure::System(error) => write!(f, "the system refuses: {error}"),
            Failure::Library(error) => write!(f, "the library fails: {error}"),
        }
    }
}

impl std::error::Error for Failure {}

impl From<Error> for Failure {
    fn from(error: Error) -> Failure {
        Failure::Library(error)
    }
}

/// Lets another thread, or a signal, ask something of the server.
#[derive(Debug)]
pub struct Handle {
    pipe: UnixStream,
}

impl Handle {
    /// Stops the server.
    pub fn stop(&mut self) {
        self.ask(sys::SIGTERM);
    }

    /// Writes the counters to the log.
    pub fn write_counters(&mut self) {
        self.ask(sys::SIGUSR1);
    }

    /// A pipe that is full holds requests enough; a server that has ended needs none.
    fn ask(&mut self, number: i32) {
        let _ = self.pipe.write(&[number as u8]);
    }
}

/// What a descriptor in the list to wait for belongs to.
enum Source {
    Requests,
    Listener(usize),
    Client(usize),
    Parting(usize),
}

/// The server.
pub struct Server {
    broker: Broker<Vec<u8>>,
    view: Option<View>,
    listeners: Vec<Listener>,
    /// The clients by their slots.
    clients: Vec<Option<Client>>,
    /// The listener that the client in each slot came by, or the last one before it.
    origins: Vec<usize>,
    /// Sockets of closed clients, whose last bytes are dropped until then.
    partings: Vec<(Socket, Instant)>,
    counters: Counters,
    log: Log,
    requests: UnixStream,
    asking: UnixStream,
    started: Instant,
    stats: Option<(Duration, Instant)>,
    metrics: Option<Metrics>,
    manager: Option<Manager>,
    patience: Duration,
    first_message: Option<Duration>,
    costs: Costs,
    /// Time that was spent on others in a client's stretch, for which these have paid.
    paid: Duration,
    /// How often the store may have changed.
    changes: u64,
    /// Set once the server is to stop.
    stopping: Option<Stopping>,
    read_room: Vec<u8>,
    take_room: Vec<u8>,
}

impl Server {
    /// Sets the broker up and listens everywhere.
    pub fn new(options: &Options, log: Log) -> Result<Server, Failure> {
        let mut broker = Broker::new(options.sizes)?;
        let view = View::of(&mut broker)?;
        let listeners = listeners(options)?;
        let (requests, asking) = UnixStream::pair().map_err(Failure::System)?;
        for end in [&requests, &asking] {
            end.set_nonblocking(true).map_err(Failure::System)?;
        }
        let now = Instant::now();
        let metrics = options.metrics.as_ref();
        let metrics = metrics.map(|path| Metrics::start(path, options.metrics_period, now));
        Ok(Server {
            broker,
            view,
            listeners,
            clients: (0..options.sizes.slots()).map(|_| None).collect(),
            origins: vec![0; options.sizes.slots()],
            partings: Vec::new(),
            counters: Counters::default(),
            log,
            requests,
            asking,
            started: now,
            stats: options.stats.map(|period| (period, now + period)),
            metrics: metrics.transpose().map_err(Failure::System)?,
            manager: None,
            patience: options.patience,
            first_message: options.first_message,
            costs: Costs::new(options.sizes.slots(), now),
            paid: Duration::ZERO,
            changes: 0,
            stopping: None,
            read_room: vec![0; LONGEST],
            take_room: vec![0; options.sizes.queue()],
        })
    }

    /// Where the server listens, with the ports that the system chose.
    pub fn places(&self) -> Vec<Place> {
        let places = self.listeners.iter().map(|l| &l.options.place);
        places.cloned().collect()
    }

    /// A handle for another thread.
    pub fn handle(&self) -> io::Result<Handle> {
        let pipe = self.asking.try_clone()?;
        Ok(Handle { pipe })
    }

    /// Lets SIGINT, SIGTERM and SIGHUP stop this server and SIGUSR1 write its counters. A process
    /// has one server with signals; for a second one this is an error.
    pub fn take_signals(&self) -> io::Result<()> {
        let numbers = [sys::SIGHUP, sys::SIGINT, sys::SIGTERM, sys::SIGUSR1];
        sys::signals_to(self.asking.try_clone()?.into(), &numbers)
    }

    /// Serves until it is stopped, and gives the counters. From its first line in the log on, a
    /// signal that was taken stops it.
    pub fn run(mut self) -> Result<Counters, Failure> {
        self.announce();
        while !self.has_stopped() {
            self.turn()?;
        }
        self.close_all();
        self.write_counters();
        self.finish_metrics();
        Ok(self.counters)
    }

    fn turn(&mut self) -> Result<(), Failure> {
        let now = Instant::now();
        let (mut fds, sources) = self.poll_list(now);
        let timeout = self.timeout(now);
        sys::wait(&mut fds, timeout).map_err(Failure::System)?;
        let now = Instant::now();
        let mut arrivals = Vec::new();
        for (fd, source) in fds.iter().zip(&sources) {
            match *source {
                _ if fd.revents == 0 => {}
                Source::Requests => self.answer_requests(now),
                Source::Listener(index) => arrivals.push(index),
                Source::Client(slot) => self.serve(slot, fd, now),
                Source::Parting(index) => self.drop_input(index, now),
            }
        }
        self.work()?;
        self.write_all(Instant::now());
        self.close_done(Instant::now())?;
        self.partings.retain(|(_, until)| *until > now);
        // Those who come find the slots of those who have just gone.
        for index in arrivals {
            self.accept(index, now)?;
        }
        self.write_stats(now);
        Ok(())
    }

    /// The descriptors to wait for. Those of clients are there even without events, since errors
    /// and hang-ups are found in any case.
    fn poll_list(&mut self, now: Instant) -> (Vec<PollFd>, Vec<Source>) {
        let mut fds = vec![PollFd::new(self.requests.as_raw_fd(), sys::POLLIN)];
        let mut sources = vec![Source::Requests];
        for (index, listener) in self.listeners.iter_mut().enumerate() {
            listener.paused = listener.paused.filter(|until| *until > now);
            if listener.paused.is_none() && self.stopping.is_none() {
                fds.push(PollFd::new(listener.fd(), sys::POLLIN));
                sources.push(Source::Listener(index));
            }
        }
        for (slot, client) in self.clients.iter_mut().enumerate() {
            if let Some(client) = client {
                fds.push(PollFd::new(client.socket.fd(), client.events()));
                sources.push(Source::Client(slot));
            }
        }
        for (index, (socket, _)) in self.partings.iter().enumerate() {
            fds.push(PollFd::new(socket.fd(), sys::POLLIN));
            sources.push(Source::Parting(index));
        }
        (fds, sources)
    }

    /// How long to wait at most, in milliseconds: not at all while there is work, else until the
    /// next moment at which something is due.
    fn timeout(&mut self, now: Instant) -> i32 {
        for slot in 0..self.clients.len() {
            self.look(slot, now);
        }
        if self.clients.iter_mut().flatten().any(Client::has_work) {
            return 0;
        }
        let patience = self.patience();
        let clients = self.clients.iter().flatten();
        let moments = clients
            .filter_map(|client| client.due(patience, self.first_message))
            .chain(self.partings.iter().map(|(_, until)| *until))
            .chain(self.listeners.iter().filter_map(|l| l.paused))
            .chain(self.due())
            .chain(self.stopping.as_ref().map(Stopping::next));
        match moments.min() {
            None => -1,
            Some(moment) => {
                let left = moment.saturating_duration_since(now).as_millis() + 1;
                i32::try_from(left).unwrap_or(i32::MAX)
            }
        }
    }

    /// Reads what was asked of the server.
    fn answer_requests(&mut self, now: Instant) {
        let mut bytes = [0; 64];
        let read = self.requests.read(&mut bytes).unwrap_or(0);
        for &byte in &bytes[..read] {
            match i32::from(byte) {
                sys::SIGUSR1 => self.write_counters(),
                number => self.begin_stop(number, now),
            }
        }
    }

    /// Reads and writes what a client's socket is ready for.
    fn serve(&mut self, slot: usize, fd: &PollFd, now: Instant) {
        let Some(client) = &mut self.clients[slot] else {
            return;
        };
        let begin = sys::thread_time();
        let failed = sys::POLLHUP | sys::POLLERR | sys::POLLNVAL;
        if fd.found(failed) {
            client.lose(None);
        }
        if client.leaving.is_none() && fd.found(sys::POLLIN | failed) {
            self.counters.bytes_in += client.read(&mut self.read_room, now) as u64;
        }
        if fd.found(sys::POLLOUT) {
            self.counters.bytes_out += client.write(now) as u64;
        }
        self.charge(slot, sys::thread_time() - begin);
    }
}

/// All listeners of the options, and first the folder that one of them may need.
fn listeners(options: &Options) -> Result<Vec<Listener>, Failure> {
    if let Some(path) = &options.private_folder {
        let wrong = |error| Failure::Listen(format!("a socket in {}", path.display()), error);
        folder::make_private(path).map_err(wrong)?;
    }
    let made = options.listeners.iter().map(|listener| {
        let wrong = |error| Failure::Listen(listener.place.to_string(), error);
        Listener::new(listener).map_err(wrong)
    });
    made.collect()
}

#[cfg(test)]
mod tests {
    use super::*;
    use crate::options::ListenerOptions;
    use infod3::Sizes;

    /// A memory of another layout than the known one has no view; the calls alone must do.
    #[test]
    fn the_calls_alone_are_enough() {
        let path = std::env::temp_dir().join(format!("infod3d-view-{}", std::process::id()));
        let options = Options {
            listeners: vec![ListenerOptions::unix(&path)],
            sizes: Sizes::new(3, 4096, 4096, 256).unwrap(),
            ..Options::default()
        };
        let log = Log::new(Box::new(io::sink()), true);
        let mut server = Server::new(&options, log).unwrap();
        server.view = None;
        let mut handle = server.handle().unwrap();
        let running = std::thread::spawn(move || server.run().unwrap());
        let connect = || {
            let stream = UnixStream::connect(&path).unwrap();
            stream
                .set_read_timeout(Some(Duration::from_secs(30)))
                .unwrap();
            stream
        };
        let (mut watcher, mut writer) = (connect(), connect());
        let mut answer = [0; 15];
        watcher.write_all(b"SUB *\nPING abcdef\n").unwrap();
        watcher.read_exact(&mut answer).unwrap();
        assert_eq!(&answer, b"PONG \"abcdef\"\r\n");
        // Of two typing errors one leaves it open, and the other spoils its transaction.
        writer
            .write_all(b"NONSENSE\nWRITE ab cd\nb\nw ab ef\nr\nc\np x\n")
            .unwrap();
        let answers = b"ERROR 100 \"unknown message\"\r\nERROR 101 \"bad parameter\"\r\n\
                        ERROR 103 \"bad state\"\r\nPONG \"x\"\r\n";
        let mut found = [0; 90];
        writer.read_exact(&mut found[..answers.len()]).unwrap();
        assert_eq!(found[..answers.len()], answers[..]);
        // A frame that is refused shuts its client.
        let mut framed = connect();
        framed.write_all(b"\x08\0\0\x07\0\0").unwrap();
        let mut rest = Vec::new();
        framed.read_to_end(&mut rest).unwrap();
        assert_eq!(rest, b"\x83\0\x10dunknown message");
        watcher.read_exact(&mut answer[..11]).unwrap();
        assert_eq!(&answer[..11], b"INFO \"ab\" \"");
        // An ERROR of its own waits before the one that shuts it.
        watcher.write_all(b"s **\n").unwrap();
        // Its queue overflows: the one commit owes it more than fits.
        let value = "x".repeat(230);
        watcher.write_all(b"BEGIN\n").unwrap();
        watcher
            .write_all(format!("WRITE a {value}\n").as_bytes())
            .unwrap();
        watcher.write_all(b"COMMIT\nBEGIN\n").unwrap();
        watcher.write_all("READ a\n".repeat(30).as_bytes()).unwrap();
        watcher.write_all(b"COMMIT\n").unwrap();
        let mut rest = Vec::new();
        watcher.read_to_end(&mut rest).unwrap();
        let rest = String::from_utf8(rest).unwrap();
        assert!(rest.contains("ERROR 101 ") && rest.ends_with("ERROR 102 \"no room\"\r\n"));
        handle.stop();
        let counters = running.join().unwrap();
        assert_eq!((counters.overflows, counters.shut()), (1, 2));
        assert_eq!((counters.slips, counters.refusals), (4, [2, 2, 0, 1]));
    }
}

//! The hostile clients. They speak text over raw sockets and do what no honest client does.

use std::io::{self, ErrorKind, Read, Write};
use std::net::{SocketAddr, TcpStream};
use std::os::unix::net::UnixStream;
use std::path::{Path, PathBuf};
use std::sync::atomic::{AtomicBool, AtomicU64, Ordering};
use std::sync::{mpsc, Arc};
use std::thread::{self, JoinHandle};
use std::time::{Duration, Instant};

/// The length of the long values.
pub const LONG: usize = 35_000;
/// How many of them there are.
pub const LONG_KEYS: usize = 24;
/// How long a client pipelines before it resets its connection.
const LIFE: Duration = Duration::from_millis(1500);
/// How often the sockets are looked at.
const SWEEP: Duration = Duration::from_micros(500);
/// Bytes that are sent or received for one client in one sweep, at most.
const SHARE: usize = 262_144;

/// What a hostile client does.
#[derive(Clone, Copy, Debug, PartialEq, Eq)]
enum Kind {
    /// Sends `SUB *` as fast as the server takes it, and reads all answers.
    Pipelining,
    /// Subscribes to everything and never reads.
    Stuck,
    /// Sends `SUB *` for 1.5 seconds without reading, resets, and comes again.
    Resetting,
    /// Sends typing errors as fast as the server takes them, and reads all answers.
    Slipping,
}

/// What a client sends that pipelines or resets.
const SUBS: &[u8] = b"s *\n";
/// What a client sends that slips: errors outside of a transaction and inside.
const SLIPS: &[u8] = b"x\ns **\nb\nb\nw load.0000 x\nc\n";

/// The hostile ones of a phase.
#[derive(Clone, Copy, Debug, Default)]
pub struct Plan {
    /// Clients that pipeline.
    pub pipelining: usize,
    /// Clients that are stuck.
    pub stuck: usize,
    /// Clients that reset.
    pub resetting: usize,
    /// Clients that slip.
    pub slipping: usize,
    /// Whether long values are written again and again, so that stuck queues overflow.
    pub churn: bool,
    /// Whether somebody connects and leaves as fast as that goes.
    pub flood: bool,
}

impl Plan {
    /// The clients that keep a slot.
    pub fn clients(&self) -> usize {
        self.pipelining + self.stuck + self.resetting + self.slipping
    }
}

/// What the hostile ones have done.
#[derive(Debug, Default)]
struct Tally {
    /// Connections of clients that keep a slot.
    connects: AtomicU64,
    /// Connections of the flood.
    flood: AtomicU64,
    /// Bytes that were sent.
    sent: AtomicU64,
    /// Bytes that were received.
    received: AtomicU64,
    /// The hostile ones have to go.
    over: AtomicBool,
}

impl Tally {
    fn is_over(&self) -> bool {
        self.over.load(Ordering::Relaxed)
    }
}

fn add(count: &AtomicU64, n: usize) {
    count.fetch_add(n as u64, Ordering::Relaxed);
}

/// The running attack.
pub struct Attack {
    tally: Arc<Tally>,
    threads: Vec<JoinHandle<()>>,
    gone: mpsc::Receiver<()>,
}

impl Attack {
    /// Starts it.
    pub fn start(plan: Plan, tcp: SocketAddr, unix: &Path) -> Attack {
        let tally = Arc::new(Tally::default());
        let (ended, gone) = mpsc::channel();
        let mut threads = Vec::new();
        let mut run = |work: Box<dyn FnOnce(&Tally) + Send>| {
            let (tally, ended) = (tally.clone(), ended.clone());
            threads.push(thread::spawn(move || {
                work(&tally);
                let _ = ended.send(());
            }));
        };
        run(Box::new(move |tally| sweep(plan, tcp, tally)));
        let path = || -> PathBuf { unix.to_owned() };
        if plan.churn {
            let path = path();
            run(Box::new(move |tally| churn(&path, tally)));
        }
        if plan.flood {
            let path = path();
            run(Box::new(move |tally| flood(&path, tally)));
        }
        Attack {
            tally,
            threads,
            gone,
        }
    }

    /// Asks the hostile ones to go and waits until all their sockets are closed; false where that
    /// takes longer than `limit`, since the server stalls.
    pub fn end(&self, limit: Duration) -> bool {
        self.tally.over.store(true, Ordering::Relaxed);
        let until = Instant::now() + limit;
        let left = || until.saturating_duration_since(Instant::now());
        (0..self.threads.len()).all(|_| self.gone.recv_timeout(left()).is_ok())
    }

    /// Waits for the threads, after the server has ended, and gives what they did: connections of
    /// clients that keep a slot, those of the flood, bytes sent and received.
    pub fn join(self) -> [u64; 4] {
        for thread in self.threads {
            let _ = thread.join();
        }
        let tally = &self.tally;
        let counts = [&tally.connects, &tally.flood, &tally.sent, &tally.received];
        counts.map(|count| count.load(Ordering::Relaxed))
    }
}

/// A hostile client that keeps a slot.
struct Hostile {
    kind: Kind,
    stream: Option<TcpStream>,
    born: Instant,
    /// Bytes that were sent over this connection.
    sent: usize,
    /// When it connects, or says something again.
    next: Instant,
}

/// Lets all clients that keep a slot go on in turn. One thread does so, since many threads on few
/// processors would delay the client that is measured.
fn sweep(plan: Plan, tcp: SocketAddr, tally: &Tally) {
    let kinds = [
        (Kind::Pipelining, plan.pipelining),
        (Kind::Stuck, plan.stuck),
        (Kind::Resetting, plan.resetting),
        (Kind::Slipping, plan.slipping),
    ];
    let now = Instant::now();
    let each = |(kind, count)| (0..count).map(move |_| Hostile::new(kind, now));
    let mut clients: Vec<Hostile> = kinds.into_iter().flat_map(each).collect();
    let [subs, slips] = [SUBS, SLIPS].map(|lines| lines.repeat(65_536 / lines.len()));
    let mut room = vec![0; 65_536];
    while !tally.is_over() {
        for client in &mut clients {
            let lines = match client.kind {
                Kind::Slipping => &slips,
                _ => &subs,
            };
            client.go_on(tcp, lines, &mut room, tally);
        }
        thread::sleep(SWEEP);
    }
}

impl Hostile {
    fn new(kind: Kind, now: Instant) -> Hostile {
        Hostile {
            kind,
            stream: None,
            born: now,
            sent: 0,
            next: now,
        }
    }

    /// Connects, or sends and receives what goes without waiting. A client that is closed comes
    /// again a little later.
    fn go_on(&mut self, tcp: SocketAddr, lines: &[u8], room: &mut [u8], tally: &Tally) {
        let now = Instant::now();
        if self.stream.is_none() && self.next <= now && !tally.is_over() {
            self.connect(tcp, tally);
        }
        let Some(stream) = &mut self.stream else {
            return;
        };
        let worked = match self.kind {
            Kind::Pipelining | Kind::Slipping => send(stream, lines, &mut self.sent, tally)
                .and_then(|()| receive(stream, room, tally)),
            Kind::Resetting => send(stream, lines, &mut self.sent, tally),
            Kind::Stuck if self.next > now => Ok(()),
            Kind::Stuck => {
                self.next = now + Duration::from_millis(500);
                say(stream, &mut self.sent, tally)
            }
        };
        let resets = self.kind == Kind::Resetting && self.born + LIFE <= now;
        if worked.is_err() || resets {
            // What it has not read makes the close a reset.
            self.stream = None;
            self.next = now + Duration::from_millis(20);
        }
    }

    fn connect(&mut self, tcp: SocketAddr, tally: &Tally) {
        let now = Instant::now();
        let made = TcpStream::connect_timeout(&tcp, Duration::from_secs(1));
        let made = made.and_then(|stream| stream.set_nonblocking(true).map(|()| stream));
        (self.born, self.sent, self.next) = (now, 0, now);
        match made {
            Ok(stream) => {
                add(&tally.connects, 1);
                self.stream = Some(stream);
            }
            Err(_) => self.next = now + Duration::from_millis(50),
        }
    }
}

/// Sends lines while the socket takes them.
fn send(stream: &mut TcpStream, lines: &[u8], sent: &mut usize, tally: &Tally) -> io::Result<()> {
    let mut share = 0;
    while share < SHARE {
        match stream.write(&lines[*sent % lines.len()..]) {
            Ok(n) => {
                *sent += n;
                share += n;
                add(&tally.sent, n);
            }
            Err(error) if error.kind() == ErrorKind::WouldBlock => break,
            Err(error) => return Err(error),
        }
    }
    Ok(())
}

/// Reads what is there and drops it.
fn receive(stream: &mut TcpStream, room: &mut [u8], tally: &Tally) -> io::Result<()> {
    let mut share = 0;
    while share < SHARE {
        match stream.read(room) {
            Ok(0) => return Err(ErrorKind::UnexpectedEof.into()),
            Ok(n) => {
                share += n;
                add(&tally.received, n);
            }
            Err(error) if error.kind() == ErrorKind::WouldBlock => break,
            Err(error) => return Err(error),
        }
    }
    Ok(())
}

/// What a stuck client says: that it wants everything, and then a little now and then, by which
/// it finds out that it is closed.
fn say(stream: &mut TcpStream, sent: &mut usize, tally: &Tally) -> io::Result<()> {
    let line: &[u8] = match *sent {
        0 => b"s *\n",
        _ => b"p\n",
    };
    match stream.write(line) {
        Ok(n) => {
            *sent += n;
            add(&tally.sent, n);
            Ok(())
        }
        Err(error) if error.kind() == ErrorKind::WouldBlock => Ok(()),
        Err(error) => Err(error),
    }
}

/// The frame of a WRITE.
pub fn write_frame(key: &str, value: &[u8]) -> Vec<u8> {
    let len = (key.len() + 1 + value.len()) as u16;
    let mut frame = vec![4];
    frame.extend(len.to_be_bytes());
    frame.extend(key.bytes().chain([0]));
    frame.extend(value);
    frame
}

/// The key of a long value.
pub fn long_key(number: usize) -> String {
    format!("long.{number:02}")
}

/// Writes long values anew, twenty in a second.
fn churn(unix: &Path, tally: &Tally) {
    let Ok(mut stream) = UnixStream::connect(unix) else {
        return;
    };
    let _ = stream.set_write_timeout(Some(Duration::from_millis(200)));
    for number in 0usize.. {
        if tally.is_over() {
            return;
        }
        let value = vec![b'a' + (number / LONG_KEYS % 26) as u8; LONG];
        let frame = write_frame(&long_key(number % LONG_KEYS), &value);
        if stream.write_all(&frame).is_err() {
            return;
        }
        add(&tally.sent, frame.len());
        thread::sleep(Duration::from_millis(50));
    }
}

/// Connects and leaves, over the Unix socket, so that the machine does not run out of ports.
fn flood(unix: &Path, tally: &Tally) {
    while !tally.is_over() {
        match UnixStream::connect(unix) {
            Ok(_) => add(&tally.flood, 1),
            Err(_) => thread::sleep(Duration::from_millis(5)),
        }
    }
}

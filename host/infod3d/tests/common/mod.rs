//! What the tests share: a server in a thread of its own, its log, and clients that wait at most
//! half a minute for anything.

#![allow(dead_code)]

use infod3::Sizes;
use infod3d::counters::Counters;
use infod3d::listener::Place;
use infod3d::options::ListenerOptions;
use infod3d::{sys, Handle, Log, Options, Server};
use std::io::{BufRead, BufReader, Read, Write};
use std::net::{Shutdown, SocketAddr, TcpStream};
use std::os::fd::{AsFd, OwnedFd};
use std::os::unix::net::UnixStream;
use std::path::PathBuf;
use std::process::{Child, Command, Stdio};
use std::sync::atomic::{AtomicU32, Ordering};
use std::sync::{mpsc, Arc, Mutex};
use std::time::{Duration, Instant};

/// How long a test waits for anything.
pub const PATIENCE: Duration = Duration::from_secs(30);

/// The program as a process, killed at the end where it still runs.
pub struct Program {
    child: Child,
    /// The lines of its log, which a thread reads.
    log: mpsc::Receiver<String>,
}

impl Program {
    /// Starts the program; `change` may add arguments and environment.
    pub fn start(change: impl FnOnce(&mut Command)) -> Program {
        let mut command = Command::new(env!("CARGO_BIN_EXE_infod3d"));
        change(&mut command);
        Program::spawn(command)
    }

    /// Starts a command that becomes the program.
    pub fn spawn(mut command: Command) -> Program {
        command.stdout(Stdio::piped()).stderr(Stdio::piped());
        let mut child = command.spawn().expect("infod3d runs");
        let lines = BufReader::new(child.stderr.take().expect("its log")).lines();
        let (sender, log) = mpsc::channel();
        std::thread::spawn(move || lines.map_while(Result::ok).try_for_each(|l| sender.send(l)));
        Program { child, log }
    }

    /// The next line of the log that holds this text.
    pub fn wait_for(&mut self, text: &str) -> String {
        loop {
            let line = self.log.recv_timeout(PATIENCE);
            let line = line.unwrap_or_else(|error| panic!("no {text:?} in the log: {error}"));
            if line.contains(text) {
                return line;
            }
        }
    }

    /// Sends a signal, such as `-TERM`.
    pub fn signal(&self, name: &str) {
        let pid = self.child.id().to_string();
        let sent = Command::new("kill").args([name, &pid]).status();
        assert!(sent.expect("kill runs").success());
    }

    /// Waits for the end: the status, what was said on standard output, and the rest of the log.
    pub fn finish(mut self) -> (Option<i32>, String, String) {
        let until = Instant::now() + PATIENCE;
        let status = loop {
            if let Some(status) = self.child.try_wait().expect("a process") {
                break status.code();
            }
            assert!(Instant::now() < until, "the process does not end");
            std::thread::sleep(Duration::from_millis(2));
        };
        let mut output = String::new();
        let mut stdout = self.child.stdout.take().expect("its output");
        stdout.read_to_string(&mut output).expect("UTF-8");
        let log = std::iter::from_fn(|| self.log.recv_timeout(PATIENCE).ok());
        (status, output, log.map(|line| line + "\n").collect())
    }
}

impl Drop for Program {
    fn drop(&mut self) {
        // One that has ended needs no killing.
        let _ = self.child.kill();
        let _ = self.child.wait();
    }
}

/// A folder of a test's own, removed at its end.
pub struct Folder(pub PathBuf);

impl Folder {
    pub fn new() -> Folder {
        static COUNT: AtomicU32 = AtomicU32::new(0);
        let count = COUNT.fetch_add(1, Ordering::Relaxed);
        let name = format!("infod3d-test-{}-{count}", std::process::id());
        let path = std::env::temp_dir().join(name);
        std::fs::create_dir_all(&path).expect("a folder for the sockets");
        Folder(path)
    }
}

impl Drop for Folder {
    fn drop(&mut self) {
        let _ = std::fs::remove_dir_all(&self.0);
    }
}

/// A log that a test can read.
#[derive(Clone, Default)]
pub struct Lines(Arc<Mutex<Vec<u8>>>);

impl Write for Lines {
    fn write(&mut self, bytes: &[u8]) -> std::io::Result<usize> {
        self.0.lock().expect("the log").extend_from_slice(bytes);
        Ok(bytes.len())
    }
    fn flush(&mut self) -> std::io::Result<()> {
        Ok(())
    }
}

impl Lines {
    pub fn text(&self) -> String {
        String::from_utf8(self.0.lock().expect("the log").clone()).expect("UTF-8")
    }

    /// Waits until the log holds this text.
    pub fn wait_for(&self, text: &str) {
        let until = Instant::now() + PATIENCE;
        while !self.text().contains(text) {
            assert!(Instant::now() < until, "no {text:?} in:\n{}", self.text());
            std::thread::sleep(Duration::from_millis(2));
        }
    }

    /// Waits until the log holds this text so many times.
    pub fn wait_for_count(&self, text: &str, count: usize) {
        let until = Instant::now() + PATIENCE;
        while self.count(text) != count {
            assert!(Instant::now() < until, "{}", self.text());
            std::thread::sleep(Duration::from_millis(2));
        }
    }

    pub fn count(&self, text: &str) -> usize {
        self.text().matches(text).count()
    }
}

/// A server on all three sorts of sockets, stopped at the end of the test.
pub struct Running {
    pub tcp: SocketAddr,
    pub unix: PathBuf,
    pub packets: PathBuf,
    pub log: Lines,
    handle: Handle,
    result: mpsc::Receiver<Result<Counters, String>>,
    _folder: Folder,
}

/// A server of these sizes.
pub fn sized(slots: usize, store: usize, queue: usize, record: usize) -> Running {
    start(|options| {
        options.sizes = Sizes::new(slots, store, queue, record).expect("sizes in range");
    })
}

/// A server with changed options. Its listeners are TCP, Unix and seqpacket, in this order.
pub fn start(change: impl FnOnce(&mut Options)) -> Running {
    let folder = Folder::new();
    let mut options = Options {
        listeners: vec![
            ListenerOptions::tcp("127.0.0.1:0".parse().expect("an address")),
            ListenerOptions::unix(folder.0.join("stream")),
            ListenerOptions::packets(folder.0.join("packets")),
        ],
        ..Options::default()
    };
    change(&mut options);
    let log = Lines::default();
    let sink = Log::new(Box::new(log.clone()), options.quiet);
    let server = Server::new(&options, sink).expect("a server");
    let places = server.places();
    let handle = server.handle().expect("a handle");
    let (sender, result) = mpsc::channel();
    std::thread::spawn(move || {
        // A test that has failed waits no more.
        let _ = sender.send(server.run().map_err(|error| error.to_string()));
    });
    let Place::Tcp(tcp) = places[0] else {
        panic!("the first listener is TCP");
    };
    Running {
        tcp,
        unix: folder.0.join("stream"),
        packets: folder.0.join("packets"),
        log,
        handle,
        result,
        _folder: folder,
    }
}

impl Running {
    pub fn over_tcp(&self) -> Client {
        let stream = TcpStream::connect(self.tcp).expect("connected");
        stream.set_nodelay(true).expect("nodelay");
        stream.set_read_timeout(Some(PATIENCE)).expect("a timeout");
        stream.set_write_timeout(Some(PATIENCE)).expect("a timeout");
        Client::new(Box::new(stream))
    }

    pub fn over_unix(&self) -> Client {
        let stream = UnixStream::connect(&self.unix).expect("connected");
        stream.set_read_timeout(Some(PATIENCE)).expect("a timeout");
        stream.set_write_timeout(Some(PATIENCE)).expect("a timeout");
        Client::new(Box::new(stream))
    }

    pub fn over_packets(&self) -> Packets {
        Packets(sys::connect_packets(&self.packets).expect("connected"))
    }

    pub fn write_counters(&mut self) {
        self.handle.write_counters();
    }

    /// Stops the server and gives its counters.
    pub fn stop(mut self) -> Counters {
        self.handle.stop();
        let result = self.result.recv_timeout(PATIENCE);
        let counters = result.expect("the server stops in time");
        counters.expect("the server stops without a failure")
    }
}

impl Drop for Running {
    fn drop(&mut self) {
        self.handle.stop();
    }
}

/// A stream that can be half-closed.
pub trait Stream: Read + Write + Send {
    fn end(&self);
}

impl Stream for TcpStream {
    fn end(&self) {
        // A server that has closed already needs no telling.
        let _ = self.shutdown(Shutdown::Write);
    }
}

impl Stream for UnixStream {
    fn end(&self) {
        // A server that has closed already needs no telling.
        let _ = self.shutdown(Shutdown::Write);
    }
}

/// A client of a stream.
pub struct Client {
    pub stream: Box<dyn Stream>,
    bytes: Vec<u8>,
}

impl Client {
    pub fn new(stream: Box<dyn Stream>) -> Client {
        Client {
            stream,
            bytes: Vec::new(),
        }
    }

    pub fn send(&mut self, bytes: impl AsRef<[u8]>) {
        self.stream.write_all(bytes.as_ref()).expect("sent");
    }

    /// The number of bytes that were read from the stream and not asked for.
    pub fn buffered(&self) -> usize {
        self.bytes.len()
    }

    /// Sends what the server may refuse to take because it has closed.
    pub fn try_send(&mut self, bytes: impl AsRef<[u8]>) -> bool {
        self.stream.write_all(bytes.as_ref()).is_ok()
    }

    fn fill(&mut self) -> bool {
        let mut room = [0; 65_536];
        let n = self
            .stream
            .read(&mut room)
            .expect("bytes, or the end, in time");
        self.bytes.extend_from_slice(&room[..n]);
        n > 0
    }

    /// The next so many bytes.
    pub fn bytes(&mut self, len: usize) -> Vec<u8> {
        while self.bytes.len() < len {
            assert!(self.fill(), "ended after {:?}", self.bytes);
        }
        self.bytes.drain(..len).collect()
    }

    /// The next line without its end.
    pub fn line(&mut self) -> String {
        let len = loop {
            match self.bytes.windows(2).position(|two| two == b"\r\n") {
                Some(at) => break at + 2,
                None => assert!(self.fill(), "ended after {:?}", self.bytes),
            }
        };
        let line: Vec<u8> = self.bytes.drain(..len).collect();
        String::from_utf8_lossy(&line[..len - 2]).into_owned()
    }

    /// The next frame: ID and payload.
    pub fn frame(&mut self) -> (u8, Vec<u8>) {
        let head = self.bytes(3);
        let len = usize::from(u16::from_be_bytes([head[1], head[2]]));
        (head[0], self.bytes(len))
    }

    /// All that comes up to the end.
    pub fn rest(&mut self) -> Vec<u8> {
        while self.fill() {}
        std::mem::take(&mut self.bytes)
    }

    /// Waits until the server has done all that was sent as text.
    pub fn synchronise(&mut self) {
        self.send("PING synchronise\n");
        while self.line() != "PONG \"synchronise\"" {}
    }
}

/// A client with packets.
pub struct Packets(pub OwnedFd);

impl Packets {
    pub fn send(&self, packet: &[u8]) {
        let sent = sys::send_packet(self.0.as_fd(), packet).expect("sent");
        assert_eq!(sent, packet.len());
    }

    /// The next packet, which is empty at the end.
    pub fn packet(&self) -> Vec<u8> {
        use std::os::fd::AsRawFd;
        let mut fds = [sys::PollFd::new(self.0.as_raw_fd(), sys::POLLIN)];
        sys::wait(&mut fds, PATIENCE.as_millis() as i32).expect("poll");
        assert!(fds[0].revents != 0, "no packet in time");
        let mut room = vec![0; 70_000];
        let len = sys::receive(self.0.as_fd(), &mut room).expect("received");
        room.truncate(len);
        room
    }
}

/// A frame.
pub fn frame(id: u8, payload: &[u8]) -> Vec<u8> {
    let len = u16::try_from(payload.len()).expect("a payload that fits");
    let mut frame = vec![id];
    frame.extend(len.to_be_bytes());
    frame.extend_from_slice(payload);
    frame
}

/// Numbers that look random and are the same in every run.
pub struct Random(pub u64);

impl Random {
    /// A number below `limit`, which is not 0.
    pub fn below(&mut self, limit: usize) -> usize {
        self.0 ^= self.0 << 13;
        self.0 ^= self.0 >> 7;
        self.0 ^= self.0 << 17;
        (self.0 % limit as u64) as usize
    }
}

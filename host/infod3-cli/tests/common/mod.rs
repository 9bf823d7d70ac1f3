//! What the tests share: real servers, servers that only say what a test wants, and the program, in
//! both forms of the wire.

#![allow(dead_code)]

pub mod sys;

use infod3d::options::ListenerOptions;
use infod3d::{Handle, Log, Options, Server};
use std::ffi::OsStr;
use std::io::{BufRead, BufReader, Read, Write};
use std::os::unix::net::{UnixListener, UnixStream};
use std::path::{Path, PathBuf};
use std::process::{Child, Command, Stdio};
use std::sync::mpsc::{channel, Receiver};
use std::thread;
use std::time::{Duration, Instant};

/// How long anything may take that ends by itself.
pub const PATIENCE: Duration = Duration::from_secs(60);

/// A path that no other test has.
pub fn path(name: &str) -> PathBuf {
    std::env::temp_dir().join(format!("infod3-cli-{}-{name}", std::process::id()))
}

/// The two values of the option `--wire`.
pub const WIRES: [&str; 2] = ["framed", "text"];

/// A server in a thread, and the form in which the program is to speak with it.
pub struct Running {
    pub path: PathBuf,
    pub tcp: String,
    wire: &'static str,
    stopping: Stopping,
}

/// A server for each form of the wire.
pub fn both(name: &str) -> [Running; 2] {
    both_with(name, infod3::Sizes::LARGEST)
}

/// Such servers of these sizes.
pub fn both_with(name: &str, sizes: infod3::Sizes) -> [Running; 2] {
    WIRES.map(|wire| Running {
        wire,
        ..server_at(&path(&format!("{name}-{wire}")), sizes)
    })
}

/// A server with the largest sizes.
pub fn server(name: &str) -> Running {
    server_at(&path(name), infod3::Sizes::LARGEST)
}

/// The only place that knows the server's options.
pub fn server_at(path: &Path, sizes: infod3::Sizes) -> Running {
    let options = Options {
        listeners: vec![
            ListenerOptions::tcp("127.0.0.1:0".parse().expect("an address")),
            ListenerOptions::unix(path),
        ],
        sizes,
        ..Options::default()
    };
    let log = Log::new(Box::new(std::io::sink()), true);
    let server = Server::new(&options, log).expect("a server");
    let tcp = server.places()[0].to_string().replace("tcp ", "");
    let handle = server.handle().expect("a handle");
    thread::spawn(move || server.run().expect("a clean end"));
    Running {
        path: path.to_owned(),
        tcp,
        wire: "framed",
        stopping: Stopping {
            handle,
            path: path.to_owned(),
        },
    }
}

/// Stops a server at the end.
struct Stopping {
    handle: Handle,
    path: PathBuf,
}

impl Drop for Stopping {
    fn drop(&mut self) {
        self.handle.stop();
        let until = Instant::now() + PATIENCE;
        while self.path.exists() && Instant::now() < until {
            thread::sleep(Duration::from_millis(2));
        }
    }
}

impl Running {
    /// The program, with the options that name the server and the wire.
    pub fn program(&self) -> Command {
        let mut command = program(&self.path);
        command.args(["--wire", self.wire]);
        command
    }

    pub fn spawn(&self, arguments: &[&str]) -> Child {
        let child = self.program().args(arguments).spawn();
        child.expect("infod3 runs")
    }

    /// Runs the program with this input: its status, output and errors.
    pub fn run(&self, arguments: &[&str], input: &[u8]) -> Ended {
        finish_with(self.spawn(arguments), input)
    }
}

/// The program, with the options that name the server.
pub fn program(unix: &Path) -> Command {
    let mut command = bare_program();
    command.arg("--unix").arg(unix);
    command
}

/// The program alone, with pipes.
pub fn bare_program() -> Command {
    let mut command = Command::new(env!("CARGO_BIN_EXE_infod3"));
    command
        .env_remove("INFOD3_SERVER")
        .stdin(Stdio::piped())
        .stdout(Stdio::piped())
        .stderr(Stdio::piped());
    command
}

pub fn spawn(unix: &Path, arguments: &[&str]) -> Child {
    let child = program(unix).args(arguments).spawn();
    child.expect("infod3 runs")
}

pub fn run(unix: &Path, arguments: &[&str], input: &[u8]) -> Ended {
    finish_with(spawn(unix, arguments), input)
}

/// Runs the program without any server.
pub fn run_bare(arguments: &[&str]) -> Ended {
    let child = bare_program().args(arguments).spawn();
    finish(child.expect("infod3 runs"))
}

/// A status, what was printed and what was said on standard error.
pub type Ended = (i32, String, String);

/// How a program ends that prints this and has no trouble.
pub fn done(output: &str) -> Ended {
    (0, output.to_owned(), String::new())
}

/// Gives a program its input in a thread of its own, since one that ends early takes none, and
/// waits for its end.
pub fn finish_with(mut child: Child, input: &[u8]) -> Ended {
    let mut stdin = child.stdin.take().expect("its input");
    let input = input.to_vec();
    thread::spawn(move || stdin.write_all(&input));
    finish(child)
}

/// Closes the input of a program, unless it is taken, and waits for its end.
pub fn finish(mut child: Child) -> Ended {
    drop(child.stdin.take());
    let output = child.stdout.take().map(text);
    let errors = child.stderr.take().map(text);
    wait(&mut child);
    let status = child.wait().expect("a status").code().expect("a status");
    let all = |text: Option<Receiver<String>>| text.map_or(String::new(), |text| all_of(&text));
    (status, all(output), all(errors))
}

/// All that a program writes, read in a thread.
fn text(mut from: impl Read + Send + 'static) -> Receiver<String> {
    let (sender, receiver) = channel();
    thread::spawn(move || {
        let mut text = String::new();
        from.read_to_string(&mut text).expect("UTF-8");
        let _ = sender.send(text);
    });
    receiver
}

fn all_of(text: &Receiver<String>) -> String {
    text.recv_timeout(PATIENCE).expect("all that was written")
}

/// Waits for the end of a program that may keep its input.
pub fn wait(child: &mut Child) {
    let until = Instant::now() + PATIENCE;
    while child.try_wait().expect("a process").is_none() {
        if Instant::now() > until {
            let _ = child.kill();
            panic!("the program does not end");
        }
        thread::sleep(Duration::from_millis(2));
    }
}

/// A running program whose lines are read as they come. It is killed at the end.
pub struct Lines {
    pub child: Child,
    output: Receiver<String>,
    errors: Receiver<String>,
}

impl Lines {
    pub fn of(mut child: Child) -> Lines {
        let output = lines(child.stdout.take().expect("its output"));
        let errors = lines(child.stderr.take().expect("its errors"));
        Lines {
            child,
            output,
            errors,
        }
    }

    /// The next line of standard output, without its end.
    pub fn output(&self) -> String {
        let line = self.output.recv_timeout(PATIENCE);
        line.expect("a line of standard output")
    }

    /// The next line of standard error, without its end.
    pub fn error(&self) -> String {
        let line = self.errors.recv_timeout(PATIENCE);
        line.expect("a line of standard error")
    }

    /// Kills the program, and gives the lines of standard error that were not asked for.
    pub fn kill(mut self) -> Vec<String> {
        self.child.kill().expect("killed");
        self.errors.iter().collect()
    }

    /// The exit status.
    pub fn status(&mut self) -> i32 {
        wait(&mut self.child);
        let status = self.child.wait().expect("a status");
        status.code().expect("a status")
    }
}

impl Drop for Lines {
    fn drop(&mut self) {
        let _ = self.child.kill();
        let _ = self.child.wait();
    }
}

fn lines(from: impl Read + Send + 'static) -> Receiver<String> {
    let (sender, receiver) = channel();
    thread::spawn(move || {
        for line in BufReader::new(from).lines().map_while(Result::ok) {
            if sender.send(line).is_err() {
                return;
            }
        }
    });
    receiver
}

/// A server that does what a test wants with each connection, in a thread that is left behind.
pub struct Fake {
    path: PathBuf,
}

/// Starts such a server.
pub fn fake(name: &str, mut serve: impl FnMut(usize, UnixStream) + Send + 'static) -> Fake {
    let path = path(name);
    let listener = UnixListener::bind(&path).expect("a listener");
    thread::spawn(move || {
        for (number, stream) in listener.incoming().enumerate() {
            serve(number, stream.expect("a connection"));
        }
    });
    Fake { path }
}

impl std::ops::Deref for Fake {
    type Target = Path;

    fn deref(&self) -> &Path {
        &self.path
    }
}

impl Drop for Fake {
    fn drop(&mut self) {
        let _ = std::fs::remove_file(&self.path);
    }
}

/// A message of a server as a frame.
pub fn frame(id: u8, payload: &[u8]) -> Vec<u8> {
    let len = u16::try_from(payload.len()).expect("a short payload");
    let mut frame = vec![id];
    frame.extend(len.to_be_bytes());
    frame.extend_from_slice(payload);
    frame
}

/// Reads frames until one has this ID, and gives its payload.
pub fn await_frame(stream: &mut impl Read, id: u8) -> Vec<u8> {
    loop {
        let mut head = [0; 3];
        stream.read_exact(&mut head).expect("a frame");
        let len = usize::from(u16::from_be_bytes([head[1], head[2]]));
        let mut payload = vec![0; len];
        stream.read_exact(&mut payload).expect("a frame");
        if head[0] == id {
            return payload;
        }
    }
}

/// Reads commands in this form of the wire until one has this ID, and gives its payload, in text
/// its line from the first space on.
pub fn await_command(stream: &mut impl Read, wire: &str, id: u8) -> Vec<u8> {
    if wire == "framed" {
        return await_frame(stream, id);
    }
    let word: &[u8] = match id {
        READ => b"READ",
        WRITE => b"WRITE",
        _ => b"PING",
    };
    loop {
        let mut line = Vec::new();
        while !line.ends_with(b"\n") {
            let mut byte = [0];
            stream.read_exact(&mut byte).expect("a line");
            line.push(byte[0]);
        }
        if let Some(rest) = line.strip_prefix(word) {
            return rest.to_vec();
        }
    }
}

/// Reads commands until one is a PING, and gives the PONG that answers it.
pub fn await_ping(stream: &mut impl Read, wire: &str) -> Vec<u8> {
    let id = await_command(stream, wire, PING);
    match wire {
        "framed" => frame(PONG, &id),
        _ => [b"PONG".as_slice(), id.trim_ascii_end(), b"\r\n"].concat(),
    }
}

/// An INFO of plain bytes.
pub fn info(wire: &str, key: &str, value: &str) -> Vec<u8> {
    match wire {
        "framed" => frame(INFO, format!("{key}\0{value}").as_bytes()),
        _ => format!("INFO \"{key}\" \"{value}\"\r\n").into_bytes(),
    }
}

/// An ERROR of plain bytes.
pub fn error(wire: &str, number: u8, text: &str) -> Vec<u8> {
    match wire {
        "framed" => frame(ERROR, &[&[number], text.as_bytes()].concat()),
        _ => format!("ERROR {number} \"{text}\"\r\n").into_bytes(),
    }
}

/// The IDs of a few commands and messages.
pub const READ: u8 = 3;
pub const WRITE: u8 = 4;
pub const PING: u8 = 7;
pub const INFO: u8 = 0x81;
pub const PONG: u8 = 0x82;
pub const ERROR: u8 = 0x83;

/// An argument of bytes that need not be UTF-8.
pub fn bytes(text: &[u8]) -> &OsStr {
    std::os::unix::ffi::OsStrExt::from_bytes(text)
}

//! The load generator: one thread, nonblocking sockets, the same for every server.

use crate::peers::{Peer, Until};
use infod3d::process::cpu_seconds;
use infod3d::sys::{self, PollFd};
use std::io::{self, Read, Write};
use std::net::{TcpListener, TcpStream};
use std::os::fd::AsRawFd;
use std::process::{Child, Command, Stdio};
use std::time::{Duration, Instant};

/// Clients of the request load.
pub const CLIENTS: usize = 8;
/// Requests that each of them has in flight.
pub const IN_FLIGHT: usize = 16;
/// How long the request load lasts.
pub const REQUEST_TIME: Duration = Duration::from_secs(3);
/// Subscribers of the fan-out.
pub const SUBSCRIBERS: usize = 24;
/// How far the publisher may be ahead of the slowest subscriber, in messages.
pub const WINDOW: u64 = 64;
/// How long the fan-out lasts.
pub const FAN_OUT_TIME: Duration = Duration::from_secs(5);

const PATIENCE: Duration = Duration::from_secs(5);

/// What was measured.
pub struct Numbers {
    /// Answers per second over all clients.
    pub requests_per_second: f64,
    /// Microseconds of the server's processor time for each.
    pub cpu_per_request: f64,
    /// Deliveries per second over all subscribers.
    pub deliveries_per_second: f64,
    /// Microseconds of the server's processor time for each.
    pub cpu_per_delivery: f64,
}

/// A server that is killed at the end.
struct Running(Child);

impl Drop for Running {
    fn drop(&mut self) {
        let _ = self.0.kill();
        let _ = self.0.wait();
    }
}

/// Starts the server, loads it twice and stops it.
pub fn measure(peer: &Peer) -> io::Result<Numbers> {
    let port = TcpListener::bind("127.0.0.1:0")?.local_addr()?.port();
    let (program, arguments) = peer.command(port);
    let child = Command::new(program)
        .args(arguments)
        .current_dir(std::env::temp_dir())
        .stdin(Stdio::null())
        .stdout(Stdio::null())
        .stderr(Stdio::null())
        .spawn()?;
    let mut server = Running(child);
    wait_for_port(&mut server.0, port)?;
    let pid = server.0.id();
    let mut first = connect(peer, port)?;
    talk(&mut first, &peer.preparation())?;
    let (requests, seconds, cpu) = timed(pid, || request(peer, port))?;
    let (deliveries, fan_seconds, fan_cpu) = timed(pid, || fan_out(peer, port))?;
    Ok(Numbers {
        requests_per_second: requests / seconds,
        cpu_per_request: 1e6 * cpu / requests,
        deliveries_per_second: deliveries / fan_seconds,
        cpu_per_delivery: 1e6 * fan_cpu / deliveries,
    })
}

/// Runs a load: its count, its seconds and the server's seconds of processor time.
fn timed(
    pid: u32,
    load: impl FnOnce() -> io::Result<(u64, Duration)>,
) -> io::Result<(f64, f64, f64)> {
    let missing = || io::Error::other("no processor time in /proc");
    let before = cpu_seconds(pid).ok_or_else(missing)?;
    let (count, time) = load()?;
    let after = cpu_seconds(pid).ok_or_else(missing)?;
    if count == 0 {
        return Err(io::Error::other("nothing was answered"));
    }
    Ok((count as f64, time.as_secs_f64(), after - before))
}

fn wait_for_port(child: &mut Child, port: u16) -> io::Result<()> {
    let until = Instant::now() + PATIENCE;
    while TcpStream::connect(("127.0.0.1", port)).is_err() {
        if Instant::now() > until || child.try_wait()?.is_some() {
            return Err(io::Error::other("the server does not listen"));
        }
        std::thread::sleep(Duration::from_millis(20));
    }
    Ok(())
}

fn connect(peer: &Peer, port: u16) -> io::Result<TcpStream> {
    let mut stream = TcpStream::connect(("127.0.0.1", port))?;
    stream.set_nodelay(true)?;
    stream.set_read_timeout(Some(PATIENCE))?;
    stream.set_write_timeout(Some(PATIENCE))?;
    talk(&mut stream, &peer.greeting())?;
    Ok(stream)
}

/// Says each thing and waits for its answer.
fn talk(stream: &mut TcpStream, steps: &[(Vec<u8>, Until)]) -> io::Result<()> {
    for (said, until) in steps {
        stream.write_all(said)?;
        let mut answer = Vec::new();
        let mut room = [0; 4096];
        loop {
            let enough = match until {
                Until::Bytes(n) => answer.len() >= *n,
                Until::EndsWith(end) => answer.ends_with(end),
            };
            if enough {
                break;
            }
            match stream.read(&mut room)? {
                0 => return Err(io::ErrorKind::UnexpectedEof.into()),
                n => answer.extend_from_slice(&room[..n]),
            }
        }
    }
    Ok(())
}

/// A connection under load.
struct Loaded {
    stream: TcpStream,
    received: u64,
    pending: Vec<u8>,
}

impl Loaded {
    fn new(stream: TcpStream) -> io::Result<Loaded> {
        stream.set_nonblocking(true)?;
        Ok(Loaded {
            stream,
            received: 0,
            pending: Vec::new(),
        })
    }

    /// Reads what is there.
    fn read(&mut self, room: &mut [u8]) -> io::Result<()> {
        match self.stream.read(room) {
            Ok(0) => Err(io::ErrorKind::UnexpectedEof.into()),
            Ok(n) => {
                self.received += n as u64;
                Ok(())
            }
            Err(error) if error.kind() == io::ErrorKind::WouldBlock => Ok(()),
            Err(error) => Err(error),
        }
    }

    /// Writes what is pending as far as the socket takes it.
    fn write(&mut self) -> io::Result<()> {
        while !self.pending.is_empty() {
            match self.stream.write(&self.pending) {
                Ok(n) => drop(self.pending.drain(..n)),
                Err(error) if error.kind() == io::ErrorKind::WouldBlock => break,
                Err(error) => return Err(error),
            }
        }
        Ok(())
    }

    fn to_wait_for(&self) -> PollFd {
        let events = match self.pending.is_empty() {
            true => sys::POLLIN,
            false => sys::POLLIN | sys::POLLOUT,
        };
        PollFd::new(self.stream.as_raw_fd(), events)
    }
}

/// Waits at most 10 ms and reads from and writes to all that is ready.
fn turn(all: &mut [Loaded], room: &mut [u8]) -> io::Result<()> {
    let mut fds: Vec<PollFd> = all.iter().map(Loaded::to_wait_for).collect();
    sys::wait(&mut fds, 10)?;
    for (fd, loaded) in fds.iter().zip(all) {
        if fd.found(sys::POLLOUT) {
            loaded.write()?;
        }
        if fd.found(!sys::POLLOUT) {
            loaded.read(room)?;
        }
    }
    Ok(())
}

/// Keeps requests in flight from all clients; the number of answers and the time they took.
fn request(peer: &Peer, port: u16) -> io::Result<(u64, Duration)> {
    let clients = (0..CLIENTS).map(|_| Loaded::new(connect(peer, port)?));
    let mut clients = clients.collect::<io::Result<Vec<_>>>()?;
    let mut sent = [0; CLIENTS];
    let mut room = vec![0; 65_536];
    let (request, len) = (peer.request(), peer.answer_len() as u64);
    let begin = Instant::now();
    while begin.elapsed() < REQUEST_TIME {
        for (client, sent) in clients.iter_mut().zip(&mut sent) {
            let more = (client.received / len + IN_FLIGHT as u64).saturating_sub(*sent);
            for _ in 0..more {
                client.pending.extend_from_slice(request);
            }
            *sent += more;
            client.write()?;
        }
        turn(&mut clients, &mut room)?;
    }
    let answers = clients.iter().map(|client| client.received / len).sum();
    Ok((answers, begin.elapsed()))
}

/// Publishes to all subscribers; the number of deliveries and the time they took.
fn fan_out(peer: &Peer, port: u16) -> io::Result<(u64, Duration)> {
    let mut all = Vec::new();
    for _ in 0..SUBSCRIBERS {
        let mut stream = connect(peer, port)?;
        talk(&mut stream, &peer.subscription())?;
        all.push(Loaded::new(stream)?);
    }
    // The publisher is the last one; what it is answered is read and not counted.
    all.push(Loaded::new(connect(peer, port)?)?);
    let len = peer.delivery_len() as u64;
    let mut room = vec![0; 65_536];
    let mut published = 0;
    let begin = Instant::now();
    while begin.elapsed() < FAN_OUT_TIME {
        let slowest = all[..SUBSCRIBERS].iter().map(|s| s.received / len).min();
        let ahead = slowest.unwrap_or(0) + WINDOW;
        while published < ahead {
            published += 1;
            let message = peer.publication(published);
            all[SUBSCRIBERS].pending.extend(message);
        }
        all[SUBSCRIBERS].write()?;
        turn(&mut all, &mut room)?;
    }
    let deliveries = all[..SUBSCRIBERS].iter().map(|s| s.received / len).sum();
    Ok((deliveries, begin.elapsed()))
}

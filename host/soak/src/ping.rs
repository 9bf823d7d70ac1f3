//! The client whose latency is the figure of a hostile night.
//!
//! It sends a PING every four milliseconds whether or not the ones before are answered, so that a
//! stall delays all that are sent in it and is not seen as one late answer. A PING carries the
//! moment at which it was sent.

use crate::figures::sorted;
use std::io::{self, ErrorKind, Read, Write};
use std::net::{SocketAddr, TcpStream};
use std::thread::{self, JoinHandle};
use std::time::{Duration, Instant};

const PERIOD: Duration = Duration::from_millis(4);
/// The bytes of a PING's frame, and of its PONG's.
const FRAME: usize = 11;
/// What the PING behind all others carries.
const LAST: u64 = u64::MAX;

/// What the PINGs found.
#[derive(Clone, Debug, Default)]
pub struct Pings {
    /// Microseconds from sending to the answer, in ascending order. One that was never answered
    /// counts with the time that it was waited for.
    pub micros: Vec<u32>,
    /// Those that were never answered.
    pub unanswered: u64,
}

/// The running client.
pub struct Pinger {
    begin: Instant,
    sending: JoinHandle<Vec<u64>>,
    receiving: JoinHandle<Vec<(u64, u64)>>,
}

impl Pinger {
    /// Connects, waits until it has a slot, and pings until `end`; answers are waited for `grace`
    /// longer.
    pub fn start(tcp: SocketAddr, end: Instant, grace: Duration) -> io::Result<Pinger> {
        let begin = Instant::now();
        let mut out = greet(tcp, grace)?;
        let mut back = out.try_clone()?;
        back.set_read_timeout(Some(Duration::from_millis(100)))?;
        let last = end.saturating_duration_since(begin) + grace;
        let sending = thread::spawn(move || send_until(&mut out, begin, end));
        let receiving = thread::spawn(move || receive(&mut back, begin, last));
        Ok(Pinger {
            begin,
            sending,
            receiving,
        })
    }

    /// Waits for the end.
    pub fn join(self) -> Pings {
        let sent = self.sending.join().unwrap_or_default();
        let answered = self.receiving.join().unwrap_or_default();
        let now = micros(self.begin);
        let unanswered = &sent[answered.len().min(sent.len())..];
        let waited = unanswered.iter().map(|at| now - at);
        let answered = answered.iter().map(|(at, back)| back - at);
        let narrow = |n: u64| u32::try_from(n).unwrap_or(u32::MAX);
        let mut micros: Vec<u32> = answered.chain(waited).map(narrow).collect();
        sorted(&mut micros);
        Pings {
            micros,
            unanswered: unanswered.len() as u64,
        }
    }
}

fn micros(begin: Instant) -> u64 {
    u64::try_from(begin.elapsed().as_micros()).unwrap_or(u64::MAX)
}

fn ping(at: u64) -> [u8; FRAME] {
    let mut frame = [7, 0, 8, 0, 0, 0, 0, 0, 0, 0, 0];
    frame[3..].copy_from_slice(&at.to_be_bytes());
    frame
}

/// The moment in a PONG.
fn pong(frame: &[u8; FRAME]) -> Option<u64> {
    let (head, at) = frame.split_at(3);
    (head == [0x82, 0, 8]).then_some(u64::from_be_bytes(at.try_into().ok()?))
}

/// Connects and waits until a PING is answered, which shows that the client has a slot.
pub fn greet(tcp: SocketAddr, timeout: Duration) -> io::Result<TcpStream> {
    let mut stream = TcpStream::connect_timeout(&tcp, timeout)?;
    stream.set_nodelay(true)?;
    stream.set_read_timeout(Some(timeout))?;
    stream.set_write_timeout(Some(timeout))?;
    stream.write_all(&ping(0))?;
    let mut frame = [0; FRAME];
    stream.read_exact(&mut frame)?;
    match pong(&frame) {
        Some(_) => Ok(stream),
        None => Err(io::Error::other("the server sent no PONG")),
    }
}

/// Sends until the end, or until the server is gone; gives when.
fn send_until(out: &mut TcpStream, begin: Instant, end: Instant) -> Vec<u64> {
    let mut sent = Vec::new();
    let mut due = Instant::now();
    while due < end {
        thread::sleep(due.saturating_duration_since(Instant::now()));
        let at = micros(begin);
        sent.push(at);
        if out.write_all(&ping(at)).is_err() {
            return sent;
        }
        due += PERIOD;
    }
    // Where it cannot be sent, the receiver finds the connection's end.
    let _ = out.write_all(&ping(LAST));
    sent
}

/// Receives PONGs until the last PING is answered, the server is gone or `last` has passed; gives
/// when each was sent and came.
fn receive(back: &mut TcpStream, begin: Instant, last: Duration) -> Vec<(u64, u64)> {
    let mut answered = Vec::new();
    let mut room = Vec::new();
    let mut bytes = [0; 64 * FRAME];
    while begin.elapsed() < last {
        match back.read(&mut bytes) {
            Ok(0) => break,
            Ok(n) => room.extend_from_slice(&bytes[..n]),
            Err(error) if is_wait(&error) => continue,
            Err(_) => break,
        }
        let now = micros(begin);
        let mut frames = room.chunks_exact(FRAME);
        for frame in &mut frames {
            match frame.try_into().ok().and_then(pong) {
                None | Some(LAST) => return answered,
                Some(at) => answered.push((at, now)),
            }
        }
        room = frames.remainder().to_vec();
    }
    answered
}

fn is_wait(error: &io::Error) -> bool {
    matches!(
        error.kind(),
        ErrorKind::WouldBlock | ErrorKind::TimedOut | ErrorKind::Interrupted
    )
}

#[cfg(test)]
mod tests {
    use super::*;
    use std::net::TcpListener;

    /// A server that answers PINGs as they come but rests for `stall` after each `every`.
    fn stub(every: usize, stall: Duration) -> SocketAddr {
        let listener = TcpListener::bind("127.0.0.1:0").unwrap();
        let tcp = listener.local_addr().unwrap();
        thread::spawn(move || {
            let (mut stream, _) = listener.accept().unwrap();
            let mut frame = [0; FRAME];
            let mut count = 0;
            while stream.read_exact(&mut frame).is_ok() {
                count += 1;
                if count % every == 0 {
                    thread::sleep(stall);
                }
                frame[0] = 0x82;
                if stream.write_all(&frame).is_err() {
                    return;
                }
            }
        });
        tcp
    }

    fn pings(tcp: SocketAddr, length: u64, grace: u64) -> Pings {
        let end = Instant::now() + Duration::from_millis(length);
        let pinger = Pinger::start(tcp, end, Duration::from_millis(grace));
        pinger.unwrap().join()
    }

    /// One stall of 0.4 s in a second is one answer in two hundred, but it delays all that is
    /// sent in it.
    #[test]
    fn a_stall_delays_all_that_is_sent_in_it() {
        let found = pings(stub(60, Duration::from_millis(400)), 1000, 30_000);
        assert_eq!(found.unanswered, 0);
        let late = found.micros.iter().filter(|&&n| n > 100_000).count();
        assert!(late >= 10, "{late} of {} are late", found.micros.len());
    }

    #[test]
    fn what_is_never_answered_counts() {
        let found = pings(stub(20, Duration::from_secs(60)), 500, 1500);
        assert!(found.unanswered > 0);
        assert!(found.micros.last().is_some_and(|&n| n >= 500_000));
    }
}

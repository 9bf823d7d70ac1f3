//! The calls of the system that std lacks, declared by hand for Linux: `poll`, and a Unix socket
//! that is connected within a time.
//!
//! This is the only module of the client with `unsafe` in it. Every function is safe for every
//! argument, and an error is that of `errno`.

use std::ffi::{c_int, c_short, c_ulong};
use std::io;
use std::os::fd::{AsRawFd, BorrowedFd, FromRawFd, OwnedFd};
use std::os::unix::ffi::OsStrExt;
use std::os::unix::net::UnixStream;
use std::path::Path;
use std::time::{Duration, Instant};

#[cfg(not(target_os = "linux"))]
compile_error!("the numbers of this module are those of Linux");

/// There is something to read, or the input has ended: poll(2).
pub const POLLIN: c_short = 0x001;
/// There is room to write: poll(2).
pub const POLLOUT: c_short = 0x004;

/// The family of Unix sockets: unix(7).
const AF_UNIX: c_int = 1;
/// A stream: socket(2).
const SOCK_STREAM: c_int = 1;
/// The descriptor is closed in programs that are started: socket(2).
const SOCK_CLOEXEC: c_int = 0o2000000;
/// The most bytes of a Unix socket's path, without the NUL at its end: unix(7).
const LONGEST_PATH: usize = 107;

/// A descriptor to wait for: `struct pollfd` of poll(2).
#[repr(C)]
#[derive(Clone, Copy, Debug)]
pub struct PollFd {
    fd: c_int,
    events: c_short,
    revents: c_short,
}

impl PollFd {
    /// Waits for `events` of a descriptor; errors and hang-ups are found in any case. With no
    /// descriptor nothing is ever found.
    pub fn new(fd: Option<BorrowedFd<'_>>, events: c_short) -> PollFd {
        PollFd {
            fd: fd.map_or(-1, |fd| fd.as_raw_fd()),
            events,
            revents: 0,
        }
    }

    /// Whether something was found that is asked for, or an error or a hang-up.
    pub fn is_ready(&self) -> bool {
        self.revents != 0
    }
}

/// `struct sockaddr_un` of unix(7).
#[repr(C)]
struct UnixAddress {
    family: u16,
    path: [u8; LONGEST_PATH + 1],
}

extern "C" {
    /// poll(2).
    fn poll(fds: *mut PollFd, count: c_ulong, timeout: c_int) -> c_int;
    /// socket(2).
    fn socket(domain: c_int, kind: c_int, protocol: c_int) -> c_int;
    /// connect(2).
    fn connect(fd: c_int, address: *const UnixAddress, len: u32) -> c_int;
}

/// The result of a call that answers -1 with `errno`.
fn checked(answer: c_int) -> io::Result<c_int> {
    match answer {
        -1 => Err(io::Error::last_os_error()),
        other => Ok(other),
    }
}

/// Waits until one of the descriptors is ready or the time is over, without end where there is
/// none. A signal does not end the waiting.
pub fn wait(fds: &mut [PollFd], timeout: Option<Duration>) -> io::Result<()> {
    let begin = Instant::now();
    loop {
        let left = timeout.map(|timeout| timeout.saturating_sub(begin.elapsed()));
        // A part of a millisecond counts as a whole one, so that nothing is asked over and over.
        let left = left.map(|left| left.as_nanos().div_ceil(1_000_000));
        let left = left.map_or(-1, |left| c_int::try_from(left).unwrap_or(c_int::MAX));
        // SAFETY: pointer and count are those of one slice of `struct pollfd`, which the call
        // alone writes during its time.
        let answer = unsafe { poll(fds.as_mut_ptr(), fds.len() as c_ulong, left) };
        match checked(answer) {
            Err(error) if error.kind() == io::ErrorKind::Interrupted => {}
            other => return other.map(|_| ()),
        }
    }
}

/// What is wrong with the path of a Unix socket, if it cannot be one.
pub fn check_path(path: &Path) -> Result<(), String> {
    let bytes = path.as_os_str().as_bytes();
    match bytes.is_empty() || bytes.len() > LONGEST_PATH || bytes.contains(&0) {
        true => Err(format!(
            "the path of a Unix socket has 1 to {LONGEST_PATH} bytes and no NUL"
        )),
        false => Ok(()),
    }
}

fn unix_address(path: &Path) -> io::Result<UnixAddress> {
    let wrong = |text| io::Error::new(io::ErrorKind::InvalidInput, text);
    check_path(path).map_err(wrong)?;
    let bytes = path.as_os_str().as_bytes();
    let mut address = UnixAddress {
        family: AF_UNIX as u16,
        path: [0; LONGEST_PATH + 1],
    };
    address.path[..bytes.len()].copy_from_slice(bytes);
    Ok(address)
}

/// Connects to a Unix socket. A listener whose backlog is full lets the call wait for as long as
/// the time for sending allows (SO_SNDTIMEO, socket(7)).
pub fn connect_unix(path: &Path, timeout: Duration) -> io::Result<UnixStream> {
    let address = unix_address(path)?;
    // SAFETY: three numbers.
    let fd = checked(unsafe { socket(AF_UNIX, SOCK_STREAM | SOCK_CLOEXEC, 0) })?;
    // SAFETY: the call has just made this descriptor, so nothing else owns it.
    let stream = UnixStream::from(unsafe { OwnedFd::from_raw_fd(fd) });
    let begin = Instant::now();
    loop {
        let left = timeout.saturating_sub(begin.elapsed());
        if left.is_zero() {
            return Err(io::ErrorKind::TimedOut.into());
        }
        stream.set_write_timeout(Some(left))?;
        let len = size_of::<UnixAddress>() as u32;
        // SAFETY: the address is a whole `struct sockaddr_un` of the length given.
        match checked(unsafe { connect(fd, &address, len) }) {
            Ok(_) => return Ok(stream),
            Err(error) => match error.kind() {
                io::ErrorKind::Interrupted => {}
                io::ErrorKind::WouldBlock => return Err(io::ErrorKind::TimedOut.into()),
                _ => return Err(error),
            },
        }
    }
}

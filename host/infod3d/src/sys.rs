//! The calls of the system that std lacks, declared by hand for Linux: `poll`, Unix seqpacket
//! sockets, the credentials of a peer and keep-alive; signals and folders by descriptor are in
//! modules of their own. Each declaration names the page of the manual that it was checked
//! against.
//!
//! This is the only module of the server with `unsafe` in it. Every function is safe for every
//! argument, and an error is that of `errno`.

mod files;
mod signals;

pub use files::Folder;
pub use signals::{signals_to, SIGHUP, SIGINT, SIGTERM, SIGUSR1};

use std::ffi::{c_int, c_long, c_short, c_ulong, c_void};
use std::io;
use std::os::fd::{AsRawFd, BorrowedFd, FromRawFd, OwnedFd, RawFd};
use std::os::unix::ffi::OsStrExt;
use std::path::Path;
use std::time::Duration;

#[cfg(not(target_os = "linux"))]
compile_error!("the numbers of this module are those of Linux");

/// There is something to read, or the input has ended.
pub const POLLIN: c_short = 0x001;
/// There is room to write.
pub const POLLOUT: c_short = 0x004;
/// The peer is in error.
pub const POLLERR: c_short = 0x008;
/// The peer is gone in both directions.
pub const POLLHUP: c_short = 0x010;
/// The descriptor is not open.
pub const POLLNVAL: c_short = 0x020;
/// The peer writes no more.
pub const POLLRDHUP: c_short = 0x2000;

const AF_UNIX: c_int = 1;
const SOCK_STREAM: c_int = 1;
const SOCK_SEQPACKET: c_int = 5;
const SOCK_NONBLOCK: c_int = 0o4000;
const SOCK_CLOEXEC: c_int = 0o2000000;
const MSG_TRUNC: c_int = 0x20;
const MSG_NOSIGNAL: c_int = 0x4000;
const SHUT_WR: c_int = 1;
const SOL_SOCKET: c_int = 1;
const SO_KEEPALIVE: c_int = 9;
const SO_PEERCRED: c_int = 17;
const IPPROTO_TCP: c_int = 6;
const TCP_KEEPIDLE: c_int = 4;
const TCP_KEEPINTVL: c_int = 5;
const TCP_USER_TIMEOUT: c_int = 18;
const BACKLOG: c_int = 128;

/// A descriptor to wait for: `struct pollfd`.
#[repr(C)]
#[derive(Clone, Copy, Debug)]
pub struct PollFd {
    fd: c_int,
    events: c_short,
    /// What was found.
    pub revents: c_short,
}

impl PollFd {
    /// Waits for `events` of a descriptor; errors and hang-ups are found in any case.
    pub fn new(fd: RawFd, events: c_short) -> PollFd {
        PollFd {
            fd,
            events,
            revents: 0,
        }
    }

    /// Whether one of these events was found.
    pub fn found(&self, events: c_short) -> bool {
        self.revents & events != 0
    }
}

/// Who is at the other end of a Unix socket: `struct ucred`.
#[repr(C)]
#[derive(Clone, Copy, Debug, Default, PartialEq, Eq)]
pub struct Credentials {
    /// The process that connected.
    pub pid: i32,
    /// Its user.
    pub uid: u32,
    /// Its group.
    pub gid: u32,
}

/// `struct sockaddr_un`.
#[repr(C)]
struct UnixAddress {
    family: u16,
    path: [u8; 108],
}

extern "C" {
    /// `poll(2)`
    fn poll(fds: *mut PollFd, count: c_ulong, timeout: c_int) -> c_int;
    /// `socket(2)`
    fn socket(domain: c_int, kind: c_int, protocol: c_int) -> c_int;
    /// `bind(2)`, `unix(7)`
    fn bind(fd: c_int, address: *const UnixAddress, len: u32) -> c_int;
    /// `listen(2)`
    fn listen(fd: c_int, backlog: c_int) -> c_int;
    /// `connect(2)`, `unix(7)`
    fn connect(fd: c_int, address: *const UnixAddress, len: u32) -> c_int;
    /// `accept(2)`
    fn accept4(fd: c_int, address: *mut c_void, len: *mut u32, flags: c_int) -> c_int;
    /// `recv(2)`
    fn recv(fd: c_int, bytes: *mut c_void, len: usize, flags: c_int) -> isize;
    /// `send(2)`
    fn send(fd: c_int, bytes: *const c_void, len: usize, flags: c_int) -> isize;
    /// `shutdown(2)`
    fn shutdown(fd: c_int, how: c_int) -> c_int;
    /// `getsockopt(2)`, `socket(7)`, `unix(7)`
    fn getsockopt(fd: c_int, level: c_int, name: c_int, value: *mut c_void, len: *mut u32)
        -> c_int;
    /// `setsockopt(2)`, `socket(7)`, `tcp(7)`
    fn setsockopt(fd: c_int, level: c_int, name: c_int, value: *const c_void, len: u32) -> c_int;
    /// `geteuid(2)`
    fn geteuid() -> u32;
    /// `clock_gettime(2)`
    fn clock_gettime(clock: c_int, time: *mut TimeSpec) -> c_int;
}

/// `struct timespec` of `timespec(3type)`.
#[repr(C)]
#[derive(Default)]
struct TimeSpec {
    seconds: c_long,
    nanoseconds: c_long,
}

/// The clock of the processor time of a thread, of `clock_gettime(2)`.
const CLOCK_THREAD_CPUTIME_ID: c_int = 3;

/// The processor time that this thread has used; what the system runs in between does not count.
pub fn thread_time() -> Duration {
    let mut time = TimeSpec::default();
    // SAFETY: the time is a whole `struct timespec`, which the call alone writes.
    unsafe { clock_gettime(CLOCK_THREAD_CPUTIME_ID, &mut time) };
    let seconds = u64::try_from(time.seconds).unwrap_or(0);
    Duration::new(seconds, u32::try_from(time.nanoseconds).unwrap_or(0))
}

/// The result of a call that answers -1 with `errno`.
fn checked(answer: c_int) -> io::Result<c_int> {
    match answer {
        -1 => Err(io::Error::last_os_error()),
        other => Ok(other),
    }
}

/// The result of a call that answers a length, or -1 with `errno`.
fn length(answer: isize) -> io::Result<usize> {
    usize::try_from(answer).map_err(|_| io::Error::last_os_error())
}

/// The owner of a descriptor that a call has just made, or its error.
fn owned(answer: c_int) -> io::Result<OwnedFd> {
    let fd = checked(answer)?;
    // SAFETY: the call that gave this number has just made the descriptor, so nothing else owns
    // it.
    Ok(unsafe { OwnedFd::from_raw_fd(fd) })
}

/// Waits until one of the descriptors is ready or `timeout` milliseconds have passed, without end
/// for -1. A signal ends the waiting too, with nothing found.
pub fn wait(fds: &mut [PollFd], timeout: c_int) -> io::Result<()> {
    // SAFETY: pointer and count are those of one slice of `struct pollfd`, which the call alone
    // writes during its time.
    let answer = unsafe { poll(fds.as_mut_ptr(), fds.len() as c_ulong, timeout) };
    match checked(answer) {
        Err(error) if error.kind() == io::ErrorKind::Interrupted => {
            fds.iter_mut().for_each(|fd| fd.revents = 0);
            Ok(())
        }
        other => other.map(|_| ()),
    }
}

/// The address of a Unix socket; a path has at most 107 bytes and no NUL.
fn unix_address(path: &Path) -> io::Result<UnixAddress> {
    let bytes = path.as_os_str().as_bytes();
    let mut address = UnixAddress {
        family: AF_UNIX as u16,
        path: [0; 108],
    };
    if bytes.is_empty() || bytes.len() > 107 || bytes.contains(&0) {
        return Err(io::Error::new(
            io::ErrorKind::InvalidInput,
            "the path of a Unix socket has 1 to 107 bytes and no NUL",
        ));
    }
    address.path[..bytes.len()].copy_from_slice(bytes);
    Ok(address)
}

/// The length of every address that is handed over: the path is filled up with NUL.
const ADDRESS_LEN: u32 = size_of::<UnixAddress>() as u32;

/// A nonblocking seqpacket listener at a path that is free.
pub fn listen_packets(path: &Path) -> io::Result<OwnedFd> {
    let address = unix_address(path)?;
    let kind = SOCK_SEQPACKET | SOCK_NONBLOCK | SOCK_CLOEXEC;
    // SAFETY: three numbers.
    let fd = owned(unsafe { socket(AF_UNIX, kind, 0) })?;
    // SAFETY: the address is a whole `struct sockaddr_un` of the length given.
    checked(unsafe { bind(fd.as_raw_fd(), &address, ADDRESS_LEN) })?;
    // SAFETY: two numbers.
    checked(unsafe { listen(fd.as_raw_fd(), BACKLOG) })?;
    Ok(fd)
}

/// The next client of a seqpacket listener, nonblocking.
pub fn accept_packets(fd: BorrowedFd<'_>) -> io::Result<OwnedFd> {
    let flags = SOCK_NONBLOCK | SOCK_CLOEXEC;
    // SAFETY: no address is asked for, so both pointers are null, as the call allows.
    owned(unsafe {
        accept4(
            fd.as_raw_fd(),
            std::ptr::null_mut(),
            std::ptr::null_mut(),
            flags,
        )
    })
}

fn connect_unix(path: &Path, kind: c_int) -> io::Result<OwnedFd> {
    let address = unix_address(path)?;
    // SAFETY: three numbers.
    let fd = owned(unsafe { socket(AF_UNIX, kind | SOCK_CLOEXEC, 0) })?;
    // SAFETY: the address is a whole `struct sockaddr_un` of the length given.
    checked(unsafe { connect(fd.as_raw_fd(), &address, ADDRESS_LEN) })?;
    Ok(fd)
}

/// A blocking seqpacket client.
pub fn connect_packets(path: &Path) -> io::Result<OwnedFd> {
    connect_unix(path, SOCK_SEQPACKET)
}

/// Whether somebody listens at the path of a Unix socket of any kind. It never blocks.
pub fn somebody_listens(path: &Path) -> io::Result<bool> {
    match connect_unix(path, SOCK_STREAM | SOCK_NONBLOCK) {
        Ok(_) => Ok(true),
        Err(error) => match error.kind() {
            io::ErrorKind::ConnectionRefused => Ok(false),
            // A listener whose backlog is full, or one of another kind of socket (EPROTOTYPE).
            io::ErrorKind::WouldBlock => Ok(true),
            _ if error.raw_os_error() == Some(91) => Ok(true),
            _ => Err(error),
        },
    }
}

/// Receives one packet into `bytes` and gives its length, which is more than `bytes.len()` where
/// the end of it is lost. 0 is an empty packet or the end of the input.
pub fn receive(fd: BorrowedFd<'_>, bytes: &mut [u8]) -> io::Result<usize> {
    // SAFETY: pointer and length are those of one slice, and the call writes no more than that.
    length(unsafe {
        recv(
            fd.as_raw_fd(),
            bytes.as_mut_ptr().cast(),
            bytes.len(),
            MSG_TRUNC,
        )
    })
}

/// Sends one packet, whole or not at all. No signal is raised where the peer is gone.
pub fn send_packet(fd: BorrowedFd<'_>, bytes: &[u8]) -> io::Result<usize> {
    // SAFETY: pointer and length are those of one slice that is only read.
    length(unsafe {
        send(
            fd.as_raw_fd(),
            bytes.as_ptr().cast(),
            bytes.len(),
            MSG_NOSIGNAL,
        )
    })
}

/// Whether the peer of a socket has ended its writing.
pub fn input_ended(fd: BorrowedFd<'_>) -> bool {
    let mut fds = [PollFd::new(fd.as_raw_fd(), POLLRDHUP)];
    wait(&mut fds, 0).is_err() || fds[0].revents != 0
}

/// Ends the writing on a socket.
pub fn end_output(fd: BorrowedFd<'_>) -> io::Result<()> {
    // SAFETY: two numbers.
    checked(unsafe { shutdown(fd.as_raw_fd(), SHUT_WR) }).map(|_| ())
}

/// Who connected a Unix socket.
pub fn peer_credentials(fd: BorrowedFd<'_>) -> io::Result<Credentials> {
    let mut found = Credentials::default();
    let mut len = size_of::<Credentials>() as u32;
    // SAFETY: the value is a whole `struct ucred` of the length given, and the length is a number
    // of its own.
    checked(unsafe {
        getsockopt(
            fd.as_raw_fd(),
            SOL_SOCKET,
            SO_PEERCRED,
            (&raw mut found).cast(),
            &mut len,
        )
    })?;
    Ok(found)
}

/// When the system takes a TCP peer for dead: a silent one is asked after 60 seconds and then every
/// 15, and where no answer has come for 100 seconds, to a question or to data, the connection ends:
/// after 105 seconds at most. With `TCP_USER_TIMEOUT` the number of questions does not count.
const KEEP_ALIVE: [(c_int, c_int, c_int); 4] = [
    (SOL_SOCKET, SO_KEEPALIVE, 1),
    (IPPROTO_TCP, TCP_KEEPIDLE, 60),
    (IPPROTO_TCP, TCP_KEEPINTVL, 15),
    (IPPROTO_TCP, TCP_USER_TIMEOUT, 100_000),
];

/// Lets the system find out within two minutes that a TCP peer is dead, whether it is silent or
/// does not acknowledge what is sent to it.
pub fn keep_alive(fd: BorrowedFd<'_>) -> io::Result<()> {
    for (level, name, value) in KEEP_ALIVE {
        let len = size_of::<c_int>() as u32;
        // SAFETY: the value is a number of the length given, which is only read.
        checked(unsafe {
            setsockopt(fd.as_raw_fd(), level, name, (&raw const value).cast(), len)
        })?;
    }
    Ok(())
}

/// The numbers of keep-alive that a socket has: whether it is on, the seconds of silence and
/// between questions, and the milliseconds without an answer.
#[cfg(test)]
pub fn keep_alive_of(fd: BorrowedFd<'_>) -> io::Result<[c_int; 4]> {
    let mut found = [0; 4];
    for ((level, name, _), value) in KEEP_ALIVE.into_iter().zip(&mut found) {
        let mut len = size_of::<c_int>() as u32;
        // SAFETY: the value is a number of the length given, and so is the length itself.
        checked(unsafe {
            getsockopt(
                fd.as_raw_fd(),
                level,
                name,
                (value as *mut c_int).cast(),
                &mut len,
            )
        })?;
    }
    Ok(found)
}

/// The user whose rights the process has: `geteuid(2)`.
pub fn user() -> u32 {
    // SAFETY: no argument; the call cannot fail.
    unsafe { geteuid() }
}

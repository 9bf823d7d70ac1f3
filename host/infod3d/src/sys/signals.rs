//! Signals as bytes of a socket.

use super::{checked, send, MSG_NOSIGNAL};
use std::ffi::c_int;
use std::io;
use std::os::fd::{AsRawFd, OwnedFd};
use std::sync::OnceLock;

/// The terminal is gone.
pub const SIGHUP: c_int = 1;
/// Ctrl-C on the terminal.
pub const SIGINT: c_int = 2;
/// The request to write the counters.
pub const SIGUSR1: c_int = 10;
/// The request to stop.
pub const SIGTERM: c_int = 15;

/// The answer of `signal` for an error.
const SIG_ERR: usize = usize::MAX;
/// The handler of a signal that is ignored.
const SIG_IGN: usize = 1;

extern "C" {
    /// `signal(2)`: the handler stays, and calls that it interrupts are begun again.
    fn signal(number: c_int, handler: usize) -> usize;
    /// `errno(3)`: where this thread's error number lies.
    fn __errno_location() -> *mut c_int;
}

/// Where the handler writes. It is owned here until the process ends, so its number never comes to
/// mean another file.
static SOCKET: OnceLock<OwnedFd> = OnceLock::new();

/// Writes the signal's number as one byte to the socket, and leaves `errno` as it was.
extern "C" fn note_signal(number: c_int) {
    let byte = number as u8;
    let fd = SOCKET.get().map_or(-1, AsRawFd::as_raw_fd);
    // SAFETY: the call gives the address of this thread's number, which lives as long as the
    // thread. `send` may be called in a handler (`signal-safety(7)`), and the byte lives during
    // the call. A socket that is full or closed is an error that nobody needs to know of: bytes
    // before it are waiting, or the server has ended.
    unsafe {
        let errno = __errno_location();
        let before = *errno;
        send(fd, (&raw const byte).cast(), 1, MSG_NOSIGNAL);
        *errno = before;
    }
}

/// From now on each of these signals writes its number as one byte to the socket, which must not
/// block. SIGHUP stays ignored where the process was started so, as `nohup` does.
///
/// It is an error to ask a second time: a process has one place for its signals.
pub fn signals_to(socket: OwnedFd, numbers: &[c_int]) -> io::Result<()> {
    let taken = |_| {
        let text = "another server of this process has the signals";
        io::Error::new(io::ErrorKind::AlreadyExists, text)
    };
    SOCKET.set(socket).map_err(taken)?;
    for &number in numbers {
        let before = handle(number, note_signal as *const () as usize)?;
        if number == SIGHUP && before == SIG_IGN {
            handle(number, SIG_IGN)?;
        }
    }
    Ok(())
}

/// Sets the handler of a signal and gives the one before.
fn handle(number: c_int, handler: usize) -> io::Result<usize> {
    // SAFETY: the handler is `note_signal`, which calls only what a handler may call, or the
    // number for none.
    match unsafe { signal(number, handler) } {
        SIG_ERR => checked(-1).map(|_| 0),
        before => Ok(before),
    }
}

#[cfg(test)]
mod tests {
    use super::*;

    #[test]
    fn a_signal_leaves_errno_as_it_was() {
        let number = || io::Error::last_os_error().raw_os_error();
        // SAFETY: the address of this thread's number.
        unsafe { *__errno_location() = 77 };
        // There is no socket, so the handler's own call fails and sets the number.
        note_signal(SIGUSR1);
        assert_eq!(number(), Some(77));
    }
}

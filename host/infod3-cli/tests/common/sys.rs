//! What std cannot make: a listener whose backlog is full, and a terminal.

use std::ffi::{c_char, c_int, CStr};
use std::fs::{File, OpenOptions};
use std::os::fd::AsRawFd;
use std::os::unix::fs::OpenOptionsExt;
use std::os::unix::net::{UnixListener, UnixStream};
use std::path::Path;

extern "C" {
    /// listen(2).
    fn listen(fd: c_int, backlog: c_int) -> c_int;
    /// unlockpt(3).
    fn unlockpt(fd: c_int) -> c_int;
    /// ptsname_r(3).
    fn ptsname_r(fd: c_int, name: *mut c_char, len: usize) -> c_int;
}

/// The terminal does not become the controlling one of the process: open(2).
const O_NOCTTY: c_int = 0o400;

/// A listener that nobody accepts from, and the one client that its backlog holds.
pub fn full_listener(path: &Path) -> (UnixListener, UnixStream) {
    let listener = UnixListener::bind(path).expect("a listener");
    // SAFETY: two numbers; the descriptor is that of a listener, whose backlog may be changed.
    assert_eq!(unsafe { listen(listener.as_raw_fd(), 0) }, 0);
    let client = UnixStream::connect(path).expect("the first client");
    (listener, client)
}

/// A terminal (pty(7)): what is written to the first is typed at the second.
pub fn terminal() -> (File, File) {
    let open = |path: &str| {
        let mut options = OpenOptions::new();
        options.read(true).write(true).custom_flags(O_NOCTTY);
        options.open(path).expect("a terminal")
    };
    let keyboard = open("/dev/ptmx");
    let fd = keyboard.as_raw_fd();
    // SAFETY: a number, the descriptor of a file that is open.
    assert_eq!(unsafe { unlockpt(fd) }, 0);
    let mut name = [0; 128];
    // SAFETY: the pointer and the length are those of one array, which the call alone writes.
    assert_eq!(unsafe { ptsname_r(fd, name.as_mut_ptr(), name.len()) }, 0);
    // SAFETY: the call has ended the name with a NUL inside the array.
    let name = unsafe { CStr::from_ptr(name.as_ptr()) };
    let terminal = open(name.to_str().expect("UTF-8"));
    (keyboard, terminal)
}

//! The two outputs of the program. Nothing that fails here panics.

use crate::End;
use infod3_cli::sys::{self, PollFd, POLLIN, POLLOUT};
use std::fmt::Display;
use std::fs::File;
use std::io::{self, Write};
use std::os::fd::{AsFd, BorrowedFd};
use std::time::Duration;

/// Standard output without a buffer, so that what is written is written, or is an error.
#[derive(Debug)]
pub struct Output {
    file: File,
}

impl Output {
    /// The program's standard output.
    pub fn standard() -> Result<Output, End> {
        let fd = io::stdout().as_fd().try_clone_to_owned();
        let file = File::from(fd.map_err(End::Output)?);
        Ok(Output { file })
    }

    /// Writes all of it at once. An error is how the program ends.
    pub fn write(&mut self, bytes: &[u8]) -> Result<(), End> {
        let mut rest = bytes;
        while !rest.is_empty() {
            match self.file.write(rest) {
                Ok(0) => return Err(End::Output(io::ErrorKind::WriteZero.into())),
                Ok(n) => rest = &rest[n..],
                Err(error) => match error.kind() {
                    io::ErrorKind::Interrupted => {}
                    // Another program has made the terminal or pipe nonblocking.
                    io::ErrorKind::WouldBlock => self.wait()?,
                    _ => return Err(End::Output(error)),
                },
            }
        }
        Ok(())
    }

    /// Waits until there is something to read from `input`, or the time is over. A reader of the
    /// output that is gone meanwhile is an error, as it is in writing; poll(2) finds it in a pipe
    /// and in a socket without being asked.
    pub fn wait_for(&self, input: Option<BorrowedFd<'_>>, timeout: Duration) -> Result<(), End> {
        let mut fds = [
            PollFd::new(Some(self.file.as_fd()), 0),
            PollFd::new(input, POLLIN),
        ];
        sys::wait(&mut fds, Some(timeout)).map_err(End::Output)?;
        match fds[0].is_ready() {
            true => Err(End::Output(io::ErrorKind::BrokenPipe.into())),
            false => Ok(()),
        }
    }

    fn wait(&self) -> Result<(), End> {
        let mut fds = [PollFd::new(Some(self.file.as_fd()), POLLOUT)];
        sys::wait(&mut fds, None).map_err(End::Output)
    }
}

/// Writes a line to standard error. Where that fails there is no place left to say so.
pub fn say(line: impl Display) {
    let _ = io::stderr().write_all(format!("infod3: {line}\n").as_bytes());
}

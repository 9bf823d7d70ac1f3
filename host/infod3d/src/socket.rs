//! A client's socket of one of three sorts, nonblocking.

use crate::sys;
use std::io::{self, Read, Write};
use std::net::{Shutdown, TcpStream};
use std::os::fd::{AsFd, AsRawFd, OwnedFd, RawFd};
use std::os::unix::net::UnixStream;

/// The socket.
#[derive(Debug)]
pub enum Socket {
    /// A stream over TCP.
    Tcp(TcpStream),
    /// A stream over a Unix socket.
    Unix(UnixStream),
    /// Packets over a Unix socket.
    Packets(OwnedFd),
}

/// What a read found.
#[derive(Debug)]
pub enum Found {
    /// So many bytes, or a packet of so many, of which those beyond the buffer are lost.
    Bytes(usize),
    /// Nothing now.
    Nothing,
    /// The end of the input.
    End,
}

impl Socket {
    /// Whether each message is a packet.
    pub fn is_packets(&self) -> bool {
        matches!(self, Socket::Packets(_))
    }

    /// The descriptor to wait for.
    pub fn fd(&self) -> RawFd {
        match self {
            Socket::Tcp(stream) => stream.as_raw_fd(),
            Socket::Unix(stream) => stream.as_raw_fd(),
            Socket::Packets(fd) => fd.as_raw_fd(),
        }
    }

    /// Reads what is there, at most `bytes.len()` bytes or one packet. An empty packet whose
    /// sender has ended its writing is taken for that end, since the two look alike.
    pub fn read(&mut self, bytes: &mut [u8]) -> io::Result<Found> {
        let read = match self {
            Socket::Tcp(stream) => stream.read(bytes),
            Socket::Unix(stream) => stream.read(bytes),
            Socket::Packets(fd) => sys::receive(fd.as_fd(), bytes),
        };
        match read {
            Ok(0) => match self {
                Socket::Packets(fd) if !sys::input_ended(fd.as_fd()) => Ok(Found::Bytes(0)),
                _ => Ok(Found::End),
            },
            Ok(n) => Ok(Found::Bytes(n)),
            Err(error) => match error.kind() {
                io::ErrorKind::WouldBlock | io::ErrorKind::Interrupted => Ok(Found::Nothing),
                _ => Err(error),
            },
        }
    }

    /// Writes as many bytes as the socket takes, or one packet.
    pub fn write(&mut self, bytes: &[u8]) -> io::Result<usize> {
        match self {
            Socket::Tcp(stream) => stream.write(bytes),
            Socket::Unix(stream) => stream.write(bytes),
            Socket::Packets(fd) => sys::send_packet(fd.as_fd(), bytes),
        }
    }

    /// Tells the peer that no more comes. A peer that is gone needs no telling.
    pub fn end_output(&self) {
        let _ = match self {
            Socket::Tcp(stream) => stream.shutdown(Shutdown::Write),
            Socket::Unix(stream) => stream.shutdown(Shutdown::Write),
            Socket::Packets(fd) => sys::end_output(fd.as_fd()),
        };
    }
}

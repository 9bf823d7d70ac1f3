//! The sockets on which clients arrive.

use crate::options::ListenerOptions;
use crate::shown;
use crate::socket::Socket;
use crate::socket_file::{file_number, publish, FileNumber};
use crate::sys;
use std::fmt;
use std::io;
use std::net::{SocketAddr, TcpListener};
use std::os::fd::{AsFd, AsRawFd, OwnedFd, RawFd};
use std::os::unix::net::UnixListener;
use std::path::{Path, PathBuf};
use std::time::Instant;

/// Where a listener is.
#[derive(Clone, Debug, PartialEq, Eq)]
pub enum Place {
    /// A TCP port.
    Tcp(SocketAddr),
    /// A Unix socket with streams.
    Unix(PathBuf),
    /// A Unix socket with packets.
    Packets(PathBuf),
}

impl Place {
    /// Whether other machines may reach it.
    pub fn is_remote(&self) -> bool {
        matches!(self, Place::Tcp(address) if !address.ip().is_loopback())
    }
}

impl fmt::Display for Place {
    fn fmt(&self, f: &mut fmt::Formatter<'_>) -> fmt::Result {
        match self {
            Place::Tcp(address) => write!(f, "tcp {address}"),
            Place::Unix(path) => write!(f, "unix {}", shown::path(path)),
            Place::Packets(path) => write!(f, "seqpacket {}", shown::path(path)),
        }
    }
}

#[derive(Debug)]
enum Acceptor {
    Tcp(TcpListener),
    Unix(UnixListener),
    Packets(OwnedFd),
}

/// A listener.
#[derive(Debug)]
pub struct Listener {
    acceptor: Acceptor,
    /// Where it is, with the port that the system chose for port 0, and what holds for its
    /// clients.
    pub options: ListenerOptions,
    /// Device and number of the socket's file, so that only the own file is removed.
    file: Option<FileNumber>,
    /// Until then nothing is accepted, after an error.
    pub paused: Option<Instant>,
}

impl Listener {
    /// Listens as the options say. The file that a dead server left at the path of a Unix socket
    /// is replaced.
    pub fn new(options: &ListenerOptions) -> io::Result<Listener> {
        let mut options = options.clone();
        let rights = options.rights.clone();
        let (acceptor, file) = match &mut options.place {
            Place::Tcp(address) => (tcp(address)?, None),
            Place::Unix(path) => {
                let (made, file) = publish(path, &rights, listen_streams)?;
                (Acceptor::Unix(made), Some(file))
            }
            Place::Packets(path) => {
                let (made, file) = publish(path, &rights, sys::listen_packets)?;
                (Acceptor::Packets(made), Some(file))
            }
        };
        Ok(Listener {
            acceptor,
            options,
            file,
            paused: None,
        })
    }

    /// The descriptor to wait for.
    pub fn fd(&self) -> RawFd {
        match &self.acceptor {
            Acceptor::Tcp(listener) => listener.as_raw_fd(),
            Acceptor::Unix(listener) => listener.as_raw_fd(),
            Acceptor::Packets(fd) => fd.as_raw_fd(),
        }
    }

    /// The next client with a description of its peer, or none.
    pub fn accept(&self) -> io::Result<Option<(Socket, String)>> {
        match self.try_accept() {
            Ok(client) => Ok(Some(client)),
            Err(error) => match error.kind() {
                io::ErrorKind::WouldBlock
                | io::ErrorKind::Interrupted
                | io::ErrorKind::ConnectionAborted => Ok(None),
                _ => Err(error),
            },
        }
    }

    fn try_accept(&self) -> io::Result<(Socket, String)> {
        match &self.acceptor {
            Acceptor::Tcp(listener) => {
                let (stream, peer) = listener.accept()?;
                stream.set_nonblocking(true)?;
                stream.set_nodelay(true)?;
                sys::keep_alive(stream.as_fd())?;
                Ok((Socket::Tcp(stream), format!("tcp {peer}")))
            }
            Acceptor::Unix(listener) => {
                let (stream, _) = listener.accept()?;
                stream.set_nonblocking(true)?;
                let peer = unix_peer("unix", stream.as_fd());
                Ok((Socket::Unix(stream), peer))
            }
            Acceptor::Packets(listener) => {
                let fd = sys::accept_packets(listener.as_fd())?;
                let peer = unix_peer("seqpacket", fd.as_fd());
                Ok((Socket::Packets(fd), peer))
            }
        }
    }
}

/// Listens on a TCP port and puts the port into the address that the system chose.
fn tcp(address: &mut SocketAddr) -> io::Result<Acceptor> {
    let listener = TcpListener::bind(*address)?;
    listener.set_nonblocking(true)?;
    *address = listener.local_addr()?;
    Ok(Acceptor::Tcp(listener))
}

fn listen_streams(path: &Path) -> io::Result<UnixListener> {
    let listener = UnixListener::bind(path)?;
    listener.set_nonblocking(true)?;
    Ok(listener)
}

impl Drop for Listener {
    /// Removes the socket's file, if it is still the one that was made.
    fn drop(&mut self) {
        if let Place::Unix(path) | Place::Packets(path) = &self.options.place {
            if self.file.is_some() && self.file == file_number(path) {
                let _ = std::fs::remove_file(path);
            }
        }
    }
}

fn unix_peer(sort: &str, fd: std::os::fd::BorrowedFd<'_>) -> String {
    match sys::peer_credentials(fd) {
        Ok(peer) => format!("{sort} pid={} uid={} gid={}", peer.pid, peer.uid, peer.gid),
        Err(error) => format!("{sort} ({error})"),
    }
}

#[cfg(test)]
mod tests {
    use super::*;
    use std::net::TcpStream;

    #[test]
    fn a_dead_tcp_client_is_found_within_two_minutes() {
        let address = "127.0.0.1:0".parse().unwrap();
        let listener = Listener::new(&ListenerOptions::tcp(address)).unwrap();
        let Place::Tcp(address) = listener.options.place else {
            panic!("a TCP port");
        };
        let _client = TcpStream::connect(address).unwrap();
        let mut fds = [sys::PollFd::new(listener.fd(), sys::POLLIN)];
        sys::wait(&mut fds, 30_000).unwrap();
        let (socket, _) = listener.accept().unwrap().expect("a client");
        let Socket::Tcp(stream) = socket else {
            panic!("a TCP stream");
        };
        let found = sys::keep_alive_of(stream.as_fd()).unwrap();
        let [on, silence, question, user_timeout] = found.map(i64::from);
        assert_eq!((on, user_timeout), (1, 100_000));
        // The question at which the silence has lasted for the user timeout.
        let questions = (user_timeout / 1000 - silence + question - 1) / question;
        assert!(silence + questions * question <= 120);
    }
}

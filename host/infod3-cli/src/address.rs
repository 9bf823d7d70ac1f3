//! Where a server is.

use crate::sys;
use std::ffi::{OsStr, OsString};
use std::fmt;
use std::io;
use std::net::{TcpStream, ToSocketAddrs};
use std::os::unix::ffi::{OsStrExt, OsStringExt};
use std::path::PathBuf;
use std::time::{Duration, Instant};

/// Where a server is.
#[derive(Clone, Debug, PartialEq, Eq)]
pub enum Address {
    /// A name or address, and a port.
    Tcp(String),
    /// The path of a Unix socket, which need not be UTF-8.
    Unix(PathBuf),
}

impl Address {
    /// Reads `tcp:ADDR:PORT`, `unix:PATH`, a path (with a slash) or ADDR:PORT.
    pub fn read(text: impl AsRef<OsStr>) -> Address {
        let bytes = text.as_ref().as_bytes();
        let path = |bytes: &[u8]| Address::Unix(OsString::from_vec(bytes.to_vec()).into());
        let tcp = |bytes: &[u8]| Address::Tcp(String::from_utf8_lossy(bytes).into_owned());
        if let Some(rest) = bytes.strip_prefix(b"unix:") {
            path(rest)
        } else if let Some(rest) = bytes.strip_prefix(b"tcp:") {
            tcp(rest)
        } else if bytes.contains(&b'/') {
            path(bytes)
        } else {
            tcp(bytes)
        }
    }

    /// Says what is wrong with an address that no server can have.
    pub fn check(&self) -> Result<(), String> {
        match self {
            Address::Unix(path) => sys::check_path(path),
            Address::Tcp(text) => match text.rsplit_once(':') {
                Some((name, port)) if !name.is_empty() && port.parse::<u16>().is_ok() => Ok(()),
                _ => Err(format!(
                    "{text} is no address and port, such as 127.0.0.1:7070"
                )),
            },
        }
    }
}

impl fmt::Display for Address {
    fn fmt(&self, f: &mut fmt::Formatter<'_>) -> fmt::Result {
        match self {
            Address::Tcp(address) => write!(f, "tcp:{address}"),
            Address::Unix(path) => write!(f, "unix:{}", path.display()),
        }
    }
}

/// Tries all addresses of a name, within the time for all of them.
pub(crate) fn connect_tcp(text: &str, timeout: Duration) -> io::Result<TcpStream> {
    let begin = Instant::now();
    let mut last = io::Error::new(io::ErrorKind::NotFound, "no such address");
    for address in text.to_socket_addrs()? {
        let left = timeout.saturating_sub(begin.elapsed());
        if left.is_zero() {
            return Err(io::ErrorKind::TimedOut.into());
        }
        match TcpStream::connect_timeout(&address, left) {
            Ok(stream) => return Ok(stream),
            Err(error) => last = error,
        }
    }
    Err(last)
}

#[cfg(test)]
mod tests {
    use super::*;

    #[test]
    fn addresses_are_read() {
        let table = [
            ("127.0.0.1:7", Address::Tcp("127.0.0.1:7".to_owned())),
            ("tcp:a:7", Address::Tcp("a:7".to_owned())),
            ("unix:a", Address::Unix("a".into())),
            ("./a", Address::Unix("./a".into())),
        ];
        for (text, address) in table {
            assert_eq!(Address::read(text), address);
            assert_eq!(address.check(), Ok(()));
        }
        let odd = OsString::from_vec(b"unix:/tmp/\xff".to_vec());
        let path = OsString::from_vec(b"/tmp/\xff".to_vec());
        assert_eq!(Address::read(odd), Address::Unix(path.into()));
    }

    #[test]
    fn impossible_addresses_are_said() {
        for text in ["7070", ":7070", "a:70000", "a:", "unix:"] {
            assert!(Address::read(text).check().is_err(), "{text}");
        }
        let long = format!("/{}", "x".repeat(107));
        assert!(Address::read(long).check().is_err());
    }
}

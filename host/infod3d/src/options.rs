//! The options of the program, checked: [`parse`] reads the arguments, and what they mean is in
//! [`Options`].

mod line;
mod listeners;
mod page;
mod values;

pub use line::parse;
pub use listeners::escaped;
pub use page::PAGE;

use crate::listener::Place;
use infod3::{Form, Sizes};
use std::fmt;
use std::net::SocketAddr;
use std::path::PathBuf;
use std::time::Duration;

/// What the clients of a listener may do.
#[derive(Clone, Copy, Debug, PartialEq, Eq)]
pub enum Access {
    /// All commands.
    Full,
    /// All but WRITE.
    ReadOnly,
}

/// Mode and owner of the file of a Unix socket.
#[derive(Clone, Debug, PartialEq, Eq)]
pub struct UnixRights {
    /// The permission bits.
    pub mode: u32,
    /// The user, if it is to be changed.
    pub uid: Option<u32>,
    /// The group, if it is to be changed.
    pub gid: Option<u32>,
}

impl Default for UnixRights {
    /// For the user alone who starts the server.
    fn default() -> UnixRights {
        UnixRights {
            mode: 0o600,
            uid: None,
            gid: None,
        }
    }
}

/// The most that a listener takes from its clients, in bytes or commands; `usize::MAX` where there
/// is no limit.
#[derive(Clone, Copy, Debug, PartialEq, Eq)]
pub struct Limits {
    /// The longest key.
    pub key: usize,
    /// The longest message; ID, length and line end do not count.
    pub message: usize,
    /// The longest pattern.
    pub pattern: usize,
    /// The most commands in a transaction.
    pub transaction: usize,
}

impl Limits {
    /// No limit beside those of the library.
    pub const NONE: Limits = Limits {
        key: usize::MAX,
        message: usize::MAX,
        pattern: usize::MAX,
        transaction: usize::MAX,
    };
}

/// A listener: where it is and what holds for its clients.
#[derive(Clone, Debug, PartialEq, Eq)]
pub struct ListenerOptions {
    /// Where it is.
    pub place: Place,
    /// What its clients may do.
    pub access: Access,
    /// Whether every refusal shuts its clients, those with text lines too; without meaning for
    /// packets, whose clients are shut in any case.
    pub hang_up: bool,
    /// Mode and owner of the file of a Unix socket; without meaning for TCP.
    pub rights: UnixRights,
    /// Slots that are kept free for its clients.
    pub reserve: usize,
    /// The most that it takes from its clients.
    pub limits: Limits,
}

impl ListenerOptions {
    /// A listener there, with all commands allowed, no slot reserved and no limits, whose text
    /// clients stay open after a typing error.
    pub fn at(place: Place) -> ListenerOptions {
        ListenerOptions {
            place,
            access: Access::Full,
            hang_up: false,
            rights: UnixRights::default(),
            reserve: 0,
            limits: Limits::NONE,
        }
    }

    /// Such a listener on a TCP port; port 0 lets the system choose.
    pub fn tcp(address: SocketAddr) -> ListenerOptions {
        ListenerOptions::at(Place::Tcp(address))
    }

    /// Such a listener at a Unix stream socket.
    pub fn unix(path: impl Into<PathBuf>) -> ListenerOptions {
        ListenerOptions::at(Place::Unix(path.into()))
    }

    /// Such a listener at a Unix seqpacket socket.
    pub fn packets(path: impl Into<PathBuf>) -> ListenerOptions {
        ListenerOptions::at(Place::Packets(path.into()))
    }

    /// The form in which its clients are opened.
    pub fn form(&self) -> Form {
        match (&self.place, self.hang_up) {
            (Place::Packets(_), _) => Form::Packets,
            (_, false) => Form::Stream,
            (_, true) => Form::StreamHangUp,
        }
    }
}

/// The place, and what is not as usual there.
impl fmt::Display for ListenerOptions {
    fn fmt(&self, f: &mut fmt::Formatter<'_>) -> fmt::Result {
        write!(f, "{}", self.place)?;
        if self.access == Access::ReadOnly {
            f.write_str(" read-only")?;
        }
        if self.hang_up {
            f.write_str(" hang-up")?;
        }
        let numbers = [
            ("reserve", self.reserve, 0),
            ("longest-key", self.limits.key, usize::MAX),
            ("longest-message", self.limits.message, usize::MAX),
            ("longest-pattern", self.limits.pattern, usize::MAX),
            ("longest-transaction", self.limits.transaction, usize::MAX),
        ];
        for (name, number, usual) in numbers {
            if number != usual {
                write!(f, " {name}={number}")?;
            }
        }
        Ok(())
    }
}

/// The options.
#[derive(Clone, Debug, PartialEq, Eq)]
pub struct Options {
    /// The listeners.
    pub listeners: Vec<ListenerOptions>,
    /// The sizes of the broker.
    pub sizes: Sizes,
    /// No line for what single clients do.
    pub quiet: bool,
    /// How often the counters are written.
    pub stats: Option<Duration>,
    /// How long a client that is to be closed may take no byte of what is left for it.
    pub patience: Duration,
    /// How long a new client may take until its first message is whole; none for no limit.
    pub first_message: Option<Duration>,
    /// The file that holds the counters for Prometheus.
    pub metrics: Option<PathBuf>,
    /// How often that file is written.
    pub metrics_period: Duration,
    /// A folder for a socket that is made before the server listens, and is this user's alone.
    pub private_folder: Option<PathBuf>,
}

impl Default for Options {
    /// No listener, the largest sizes.
    fn default() -> Options {
        Options {
            listeners: Vec::new(),
            sizes: Sizes::LARGEST,
            quiet: false,
            stats: None,
            patience: Duration::from_secs(10),
            first_message: Some(Duration::from_secs(30)),
            metrics: None,
            metrics_period: Duration::from_secs(15),
            private_folder: None,
        }
    }
}

/// What the arguments ask for.
#[derive(Clone, Debug, PartialEq, Eq)]
pub enum Request {
    /// The help text.
    Help,
    /// Name and version.
    Version,
    /// The manual page.
    Man,
    /// A server with these options.
    Serve(Box<Options>),
}

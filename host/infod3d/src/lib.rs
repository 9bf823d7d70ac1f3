//! A server of the broker: one poll loop over all sockets.
//!
//! - [`options`] reads the arguments, [`server`] is the loop, [`client`] and [`listener`] are its
//!   two sorts of sockets; [`folder`] is where a socket lies for which no path is named.
//! - [`cut`] finds where a client's first message ends and [`command`] which command it is, as far
//!   as the server itself has to know; [`output`] is the short buffer of what is taken and not
//!   written; [`known`] is what a dead client need not be fed again.
//! - [`help`], [`log`], [`counters`], [`metrics`] and [`notify`] are what the server says.
//! - [`process`] starts the program for others that exercise it.
//! - [`sys`] declares what std lacks.
//!
//! # What a client can rely on
//!
//! Every byte that is read is fed once, in order, in whole messages. Every message that is taken
//! is written, in order, or the client is closed. The library's queue is the real queue: the
//! server takes a message only while its own buffer is short, so a client that does not read is
//! shut by the library's rule. One that reads is never shut because the server was busy.
//!
//! Nobody waits long for another's sake. A client that has not read its own answers is not fed until
//! it has; each pays for the time that is spent on it, and who has cost least is served next.
//!
//! A client that ends its input (half-closes) is fed what it sent, gets all that is queued for it
//! by then and is closed. A message that it left unfinished is dropped. Of a client that is dead, all
//! that others can see the effect of is done; what would only bring it answers need not be.
//!
//! A text client that makes a typing error gets an ERROR in its turn and goes on, with its patterns.
//! A client that is shut gets what was queued and its ERROR, and is closed when its socket has
//! taken all of it, or when it has taken no byte for ten seconds. A server that stops does the same
//! for all, within ten seconds.

#![deny(unsafe_code)]
#![warn(missing_docs)]

pub mod client;
pub mod command;
pub mod counters;
pub mod cut;
pub mod folder;
pub mod help;
pub mod known;
pub mod listener;
pub mod log;
pub mod metrics;
pub mod notify;
pub mod options;
pub mod output;
pub mod process;
pub mod server;
mod shown;
pub mod socket;
mod socket_file;
#[allow(unsafe_code)]
pub mod sys;

pub use log::Log;
pub use options::Options;
pub use server::{Handle, Server};

//! A client of an infod3 server, in framed bytes or in text lines; every byte can be said in both.
//!
//! [`Address`] says where a server is, [`Connection`] sends commands and receives messages, and
//! [`Trouble`] is why a connection does not go on. [`Wire`], [`Command`] and [`Message`] are those
//! of the library's codec, and [`written`] gives the bytes of commands. [`quote`] shows strings and
//! reads the fields of a line, [`json`] writes strings as JSON does, and [`sys`] declares what std
//! lacks.

#![deny(unsafe_code)]
#![warn(missing_docs)]

mod address;
mod connection;
pub mod json;
pub mod quote;
#[allow(unsafe_code)]
pub mod sys;
mod trouble;

pub use address::Address;
pub use connection::{written, Connection};
pub use infod3::client::{Command, Message, Wire};
pub use trouble::Trouble;

//! The simple server of document 01 ("the paper"), in safe Rust with ordinary collections. A text
//! client stays open after a typing error, as document 02 asks (P2).
//!
//! It is written from the papers and docs/DECISIONS.md and shares no code with the broker, so
//! that the two can be compared call by call. It has no lent memory: answer 7, and answer 5 of
//! set up, are the caller's. There is one module for each section of the paper: `patterns`,
//! `reading` ("From bytes to one command"), `writing` ("Messages written"), `store` and
//! `server` ("The simple server"). `client` is the other end of the line: a writer of commands
//! and a reader of messages.

#![forbid(unsafe_code)]

pub mod client;
pub mod patterns;
pub mod reading;
pub mod server;
pub mod store;
pub mod writing;

pub use patterns::{matches, Match};
pub use server::{Reply, Server};

//! A message broker over lent memory, speaking infod3 version 0.
//!
//! The broker holds a store of keys and values, and for each client slot the patterns that the
//! client subscribed to, its recording (the commands of a transaction) and a queue of messages
//! that it has not taken yet. All of it lies in one slice of bytes that the host lends with each
//! call. The library keeps nothing else, allocates nothing and opens nothing: sockets, time,
//! logging and access rights are the host's.
//!
//! There are five calls. **Set up** makes a memory ready, **open** puts a client into a slot,
//! **feed** hands a client's bytes to the broker, **take** gives a client's next message,
//! **close** frees the slot.
//!
//! ```
//! use infod3::{Broker, Feed, Form, Sizes};
//!
//! // Two slots, 1,024 bytes of store, 1,024 of queue and 256 of recording for each slot.
//! let mut broker = Broker::new(Sizes::new(2, 1024, 1024, 256)?)?;
//! broker.open(0, Form::Stream)?;
//! broker.open(1, Form::Stream)?;
//!
//! assert_eq!(broker.feed(1, b"SUB site.*.state\n")?, Feed::Done(17));
//! assert_eq!(broker.feed(0, b"WRITE site.7.state alert\n")?, Feed::Done(25));
//! let message = broker.take_message(1)?.expect("an INFO is owed");
//! assert_eq!(message, b"INFO \"site.7.state\" \"alert\"\r\n");
//!
//! // A feed takes one message and says how long it was.
//! assert_eq!(broker.feed(1, b"PING x\nPING y\n")?, Feed::Done(7));
//! // An unfinished message is fed again, with more bytes behind it.
//! assert_eq!(broker.feed(1, b"PING")?, Feed::More);
//! # Ok::<(), Box<dyn std::error::Error>>(())
//! ```
//!
//! # A client's input
//!
//! A feed takes the first whole message of the bytes it gets, and no more. A host that reads from
//! a stream keeps the bytes that are not consumed and feeds them again: first while the answer is
//! [`Feed::Done`], then, after [`Feed::More`], with what arrives next. A refused message
//! ([`Feed::Refused`]) is answered with an ERROR. A text client that was opened as
//! [`Form::Stream`] stays open after a typing error, with its patterns, and is fed on. Every other
//! refusal shuts its client: the ERROR is the last message of its queue, every further feed is
//! [`Error::Shut`], and all that is left to do is to take what is queued and close the slot.
//!
//! A line begins with one of eight words or their letters, in any case; [`WORDS`] is the table of
//! them. Every other word is refused with 100.
//!
//! ```
//! use infod3::{Broker, Error, Feed, Form, Refusal, Sizes};
//!
//! /// Feeds all of it; gives the refusals, and whether the client is shut.
//! fn feed_all(broker: &mut Broker<Vec<u8>>, mut pending: &[u8]) -> (Vec<Refusal>, bool) {
//!     let mut refused = Vec::new();
//!     loop {
//!         match broker.feed(0, pending) {
//!             Ok(Feed::Done(n)) => pending = &pending[n..],
//!             Ok(Feed::Refused(refusal, n)) => {
//!                 refused.push(refusal);
//!                 pending = &pending[n..];
//!             }
//!             Ok(Feed::More) => return (refused, false),
//!             Err(error) => return (refused, error == Error::Shut),
//!         }
//!     }
//! }
//!
//! let mut broker = Broker::new(Sizes::new(1, 256, 1024, 256)?)?;
//! let input = b"PING a\nNONSENSE\nPING b\n";
//! broker.open(0, Form::Stream)?;
//! assert_eq!(feed_all(&mut broker, input), (vec![Refusal::Message], false));
//! let mut text = Vec::new();
//! while broker.append_message(0, &mut text)?.is_some() {}
//! let expected = concat!(
//!     "PONG \"a\"\r\n",
//!     "ERROR 100 \"unknown message\"\r\n",
//!     "PONG \"b\"\r\n",
//! );
//! assert_eq!(text, expected.as_bytes());
//!
//! // A client of this form is shut by every refusal.
//! broker.close(0)?;
//! broker.open(0, Form::StreamHangUp)?;
//! assert_eq!(feed_all(&mut broker, input), (vec![Refusal::Message], true));
//! # Ok::<(), Box<dyn std::error::Error>>(())
//! ```
//!
//! # Answers
//!
//! Every call ends with a numbered answer, for every memory and every argument, and none panics.
//! The typed layer gives what a host goes on with as a value ([`Feed`], a message or none) and
//! what it has to look into as an [`Error`]: the call was not served and no lent byte is altered.
//! A number that is in no table becomes [`Error::Unexpected`]. Each type has `number()`, the
//! answer as the rules paper numbers it.
//!
//! # Memory
//!
//! [`Broker::new`] makes its own memory; [`Broker::set_up`] takes what it is lent, owned or
//! borrowed; [`Broker::take_over`] goes on with a memory that is in use, such as one that another
//! process left in a file. A memory that breaks the rules of its layout is answered with
//! [`Error::Damaged`] and left as it is.
//!
//! [`View`] reads a few numbers of a memory without a call, such as how many bytes a client's queue
//! holds, for a host that would have to try many calls else.
//!
//! # The client's side
//!
//! A program at the other end of the line needs no broker: [`client`] writes all commands and reads
//! all messages, in packets, in frames and in text, so that nobody has to quote a string or to count
//! a length by hand. What it writes a broker reads as the same command, and what a broker says it
//! reads as the same message.
//!
//! ```
//! use infod3::client::{write, Command, Wire};
//!
//! let mut line = Vec::new();
//! write(Wire::Text, &Command::Write(b"site.7.note", b"a\\b\n"), &mut line)?;
//! assert_eq!(line, b"WRITE \"site.7.note\" \"a\\134b\\012\"\n");
//! # Ok::<(), infod3::client::CodecError>(())
//! ```
//!
//! # Linking
//!
//! The build links the archive `libffi.a`, from crates/ffi/out of the repository (where `rt lib`
//! in crates/ffi writes it) or from the folder that INFOD3_ARCHIVE names.

#![deny(unsafe_code)]
#![warn(missing_docs)]

mod answer;
mod broker;
pub mod client;
mod layout;
#[allow(unsafe_code)]
pub mod raw;
mod sizes;
mod view;
mod words;

pub use answer::{Error, Feed, Match, MatchError, Refusal};
pub use broker::{matches, Broker, Form};
pub use sizes::{Size, SizeError, Sizes};
pub use view::View;
pub use words::{Word, WORDS};

//! The answers of the calls, typed.

use crate::raw::Reply;
use std::fmt;

/// Why a message was refused. The text that `Display` writes is the text of the ERROR that its
/// client gets. [`Refusal::Room`] shuts the client; so do the others, but for a text client that
/// was opened as [`Form::Stream`](crate::Form::Stream), which stays open.
///
/// ```
/// use infod3::Refusal;
///
/// assert_eq!(Refusal::Room.number(), 102);
/// assert_eq!(Refusal::Room.to_string(), "no room");
/// assert_eq!(Refusal::from_number(102), Some(Refusal::Room));
/// ```
#[derive(Clone, Copy, Debug, PartialEq, Eq, Hash, PartialOrd, Ord)]
pub enum Refusal {
    /// 100: unknown or malformed message.
    Message,
    /// 101: bad parameter, an invalid pattern among them.
    Parameter,
    /// 102: no room, in the message's own lengths, the store, the patterns or the recording, or in
    /// the queue for the ERROR of a client that would have stayed open.
    Room,
    /// 103: bad command state, which is a BEGIN in a transaction, or the COMMIT of a transaction
    /// that a refused message has spoiled.
    State,
}

impl Refusal {
    /// All refusals, in the order of their numbers.
    pub const ALL: [Refusal; 4] = [
        Refusal::Message,
        Refusal::Parameter,
        Refusal::Room,
        Refusal::State,
    ];

    /// The answer's number, 100 to 103.
    pub fn number(self) -> u32 {
        match self {
            Refusal::Message => 100,
            Refusal::Parameter => 101,
            Refusal::Room => 102,
            Refusal::State => 103,
        }
    }

    /// The refusal with this number, if it is one.
    pub fn from_number(number: u32) -> Option<Refusal> {
        Refusal::ALL.into_iter().find(|r| r.number() == number)
    }
}

impl fmt::Display for Refusal {
    fn fmt(&self, f: &mut fmt::Formatter<'_>) -> fmt::Result {
        f.write_str(match self {
            Refusal::Message => "unknown message",
            Refusal::Parameter => "bad parameter",
            Refusal::Room => "no room",
            Refusal::State => "bad state",
        })
    }
}

impl std::error::Error for Refusal {}

/// What became of the bytes that a client was fed.
///
/// ```
/// use infod3::{Feed, Refusal};
///
/// assert_eq!(Feed::Done(7).consumed(), 7);
/// assert_eq!(Feed::More.consumed(), 0);
/// assert_eq!(Feed::Refused(Refusal::State, 6).number(), 103);
/// ```
#[derive(Clone, Copy, Debug, PartialEq, Eq, Hash)]
#[must_use = "a feed may be refused, and what it did not consume has to be fed again"]
pub enum Feed {
    /// 0: the first message, of so many bytes, was taken and served.
    Done(usize),
    /// 1: the input holds no whole message yet. Nothing is consumed and nothing altered.
    More,
    /// 100 to 103: the first message, of so many bytes, was refused. The client is shut, unless it
    /// is one that stays open after this [`Refusal`].
    Refused(Refusal, usize),
}

impl Feed {
    /// The answer's number.
    pub fn number(self) -> u32 {
        match self {
            Feed::Done(_) => 0,
            Feed::More => 1,
            Feed::Refused(refusal, _) => refusal.number(),
        }
    }

    /// The bytes of the input that were consumed.
    pub fn consumed(self) -> usize {
        match self {
            Feed::Done(n) | Feed::Refused(_, n) => n,
            Feed::More => 0,
        }
    }
}

impl fmt::Display for Feed {
    fn fmt(&self, f: &mut fmt::Formatter<'_>) -> fmt::Result {
        match self {
            Feed::Done(n) => write!(f, "done, {n} bytes consumed"),
            Feed::More => f.write_str("more bytes wanted"),
            Feed::Refused(refusal, n) => {
                write!(f, "{refusal} ({}), {n} bytes consumed", refusal.number())
            }
        }
    }
}

/// Why a call was not served. No lent byte is altered.
///
/// ```
/// use infod3::Error;
///
/// assert_eq!(Error::Damaged.number(), 7);
/// assert_eq!(Error::from_number(7), Error::Damaged);
/// assert_eq!(Error::from_number(99), Error::Unexpected(99));
/// ```
#[derive(Clone, Copy, Debug, PartialEq, Eq, Hash)]
pub enum Error {
    /// 2: the slot number is N or more, or the slot is free (for an open: only the first).
    NoClient,
    /// 3: a feed to a client that is shut.
    Shut,
    /// 4: an open of a slot that is open, or shut but not closed yet.
    InUse,
    /// 5: a lent slice is too short: the memory of a set up, or the out slice of a take.
    TooShort,
    /// 7: the memory breaks a rule of its layout.
    Damaged,
    /// 8: a size of a set up is out of range, or a form is above 2.
    OutOfRange,
    /// A number, or a count, that the call cannot give by the rules paper.
    Unexpected(u32),
}

impl Error {
    /// The answer's number.
    pub fn number(self) -> u32 {
        match self {
            Error::NoClient => 2,
            Error::Shut => 3,
            Error::InUse => 4,
            Error::TooShort => 5,
            Error::Damaged => 7,
            Error::OutOfRange => 8,
            Error::Unexpected(number) => number,
        }
    }

    /// The error with this number; [`Error::Unexpected`] for a number that is no error's.
    pub fn from_number(number: u32) -> Error {
        match number {
            2 => Error::NoClient,
            3 => Error::Shut,
            4 => Error::InUse,
            5 => Error::TooShort,
            7 => Error::Damaged,
            8 => Error::OutOfRange,
            other => Error::Unexpected(other),
        }
    }
}

impl fmt::Display for Error {
    fn fmt(&self, f: &mut fmt::Formatter<'_>) -> fmt::Result {
        f.write_str(match self {
            Error::NoClient => "no client in this slot",
            Error::Shut => "the client is shut",
            Error::InUse => "the slot is in use",
            Error::TooShort => "the lent slice is too short",
            Error::Damaged => "the memory breaks a rule of its layout",
            Error::OutOfRange => "a size or form is out of range",
            Error::Unexpected(number) => return write!(f, "unexpected answer {number}"),
        })
    }
}

impl std::error::Error for Error {}

/// Whether a pattern matches a key, and in how many steps.
#[derive(Clone, Copy, Debug, PartialEq, Eq, Hash)]
pub struct Match {
    /// Whether it matches.
    pub matched: bool,
    /// The steps that the match took, by the rules paper's count.
    pub steps: usize,
}

/// Why a match was refused.
#[derive(Clone, Copy, Debug, PartialEq, Eq, Hash)]
pub enum MatchError {
    /// 101: the pattern is invalid.
    Invalid,
    /// 102: the pattern has over 255 bytes, or the key over 65,535.
    TooLong,
    /// A number that a match cannot give by the rules paper.
    Unexpected(u32),
}

impl MatchError {
    /// The answer's number.
    pub fn number(self) -> u32 {
        match self {
            MatchError::Invalid => 101,
            MatchError::TooLong => 102,
            MatchError::Unexpected(number) => number,
        }
    }
}

impl fmt::Display for MatchError {
    fn fmt(&self, f: &mut fmt::Formatter<'_>) -> fmt::Result {
        match self {
            MatchError::Invalid => f.write_str("the pattern is invalid"),
            MatchError::TooLong => f.write_str("the pattern or the key is too long"),
            MatchError::Unexpected(number) => write!(f, "unexpected answer {number}"),
        }
    }
}

impl std::error::Error for MatchError {}

/// The result of a call that answers 0 or an error.
pub(crate) fn done(reply: Reply) -> Result<(), Error> {
    match reply.answer {
        0 => Ok(()),
        number => Err(Error::from_number(number)),
    }
}

/// The result of a feed of `len` bytes. A count over `len` is unexpected, so that a host may use
/// the count as an index.
pub(crate) fn fed(reply: Reply, len: usize) -> Result<Feed, Error> {
    if reply.count > len {
        return Err(Error::Unexpected(reply.answer));
    }
    match (reply.answer, Refusal::from_number(reply.answer)) {
        (0, _) => Ok(Feed::Done(reply.count)),
        (1, _) => Ok(Feed::More),
        (_, Some(refusal)) => Ok(Feed::Refused(refusal, reply.count)),
        (number, None) => Err(Error::from_number(number)),
    }
}

/// The result of a take with room for `len` bytes: the message's length, or none.
pub(crate) fn taken(reply: Reply, len: usize) -> Result<Option<usize>, Error> {
    match reply.answer {
        0 if reply.count <= len => Ok(Some(reply.count)),
        6 => Ok(None),
        number => Err(Error::from_number(number)),
    }
}

#[cfg(test)]
mod tests {
    use super::*;

    fn reply(answer: u32, count: usize) -> Reply {
        Reply { answer, count }
    }

    #[test]
    fn every_number_is_a_result() {
        for n in (0..300).chain([u32::MAX - 1, u32::MAX]) {
            let feed = fed(reply(n, 0), 0);
            assert_eq!(feed.map_or_else(Error::number, Feed::number), n);
            match taken(reply(n, 0), 0) {
                Ok(Some(0)) => assert_eq!(n, 0),
                Ok(_) => assert_eq!(n, 6),
                Err(error) => assert_eq!(error.number(), n),
            }
            match done(reply(n, 0)) {
                Ok(()) => assert_eq!(n, 0),
                Err(error) => assert_eq!(error.number(), n),
            }
        }
    }

    #[test]
    fn counts_stay_inside_the_slice() {
        assert_eq!(fed(reply(0, 9), 8), Err(Error::Unexpected(0)));
        assert_eq!(fed(reply(101, 9), 8), Err(Error::Unexpected(101)));
        assert_eq!(taken(reply(0, 9), 8), Err(Error::Unexpected(0)));
    }

    #[test]
    fn numbers_round_trip() {
        for n in 0..300 {
            assert_eq!(Error::from_number(n).number(), n);
            if let Some(refusal) = Refusal::from_number(n) {
                assert_eq!(refusal.number(), n);
            }
        }
    }
}

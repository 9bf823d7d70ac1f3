//! The broker over owned or borrowed memory.

use crate::answer::{done, fed, taken, Error, Feed, Match, MatchError};
use crate::raw;
use crate::sizes::Sizes;

/// The form in which a client's bytes come.
#[derive(Clone, Copy, Debug, PartialEq, Eq, Hash)]
pub enum Form {
    /// 0: each feed is one message, an ID and a payload.
    Packets,
    /// 1: a stream of framed messages or of text lines, by the first byte of the first message. A
    /// text client stays open after a typing error (100, 101 and 103).
    Stream,
    /// 2: such a stream whose client every refusal shuts, a text client too.
    StreamHangUp,
}

impl Form {
    /// The form's number.
    pub fn number(self) -> usize {
        match self {
            Form::Packets => 0,
            Form::Stream => 1,
            Form::StreamHangUp => 2,
        }
    }
}

/// A broker over a memory `M`: a `Vec<u8>` of its own, or a `&mut [u8]` that it borrows.
///
/// ```
/// use infod3::{Broker, Feed, Form, Sizes};
///
/// let sizes = Sizes::new(4, 4096, 2048, 512)?;
/// let mut lent = vec![0xAA; sizes.memory_size() + 100];
/// let mut broker = Broker::set_up(lent.as_mut_slice(), sizes)?;
/// broker.open(3, Form::Packets)?;
/// assert_eq!(broker.feed(3, b"\x07x")?, Feed::Done(2));
/// assert_eq!(broker.take_message(3)?.as_deref(), Some(&b"\x82x"[..]));
/// # Ok::<(), Box<dyn std::error::Error>>(())
/// ```
#[derive(Clone, Debug)]
pub struct Broker<M> {
    memory: M,
    sizes: Sizes,
}

impl Broker<Vec<u8>> {
    /// A broker with a memory of its own: all slots free and the store empty.
    pub fn new(sizes: Sizes) -> Result<Broker<Vec<u8>>, Error> {
        Broker::set_up(vec![0; sizes.memory_size()], sizes)
    }
}

impl<M: AsRef<[u8]> + AsMut<[u8]>> Broker<M> {
    /// Sets a memory up, whatever it held: all slots are free and the store is empty. What is
    /// behind the first [`Sizes::memory_size`] bytes is never looked at.
    ///
    /// Errors: [`Error::TooShort`] for a memory that is shorter than that.
    ///
    /// ```
    /// use infod3::{Broker, Error, Sizes};
    ///
    /// let result = Broker::set_up(vec![0; 100], Sizes::SMALLEST);
    /// assert_eq!(result.err(), Some(Error::TooShort));
    /// ```
    pub fn set_up(mut memory: M, sizes: Sizes) -> Result<Broker<M>, Error> {
        done(raw::set_up(
            memory.as_mut(),
            sizes.slots(),
            sizes.store(),
            sizes.queue(),
            sizes.recording(),
        ))?;
        Ok(Broker { memory, sizes })
    }

    /// Takes over a memory that is in use, with its store and its clients. Nothing is altered.
    ///
    /// Errors: [`Error::Damaged`] for a memory that breaks a rule of its layout.
    ///
    /// ```
    /// use infod3::{Broker, Error, Feed, Form, Sizes};
    ///
    /// let mut broker = Broker::new(Sizes::SMALLEST)?;
    /// broker.open(0, Form::Stream)?;
    /// assert_eq!(broker.feed(0, b"WRITE k v\n")?, Feed::Done(10));
    /// let kept: Vec<u8> = broker.into_memory();
    ///
    /// let mut broker = Broker::take_over(kept)?;
    /// assert_eq!(broker.sizes(), Sizes::SMALLEST);
    /// assert_eq!(broker.feed(0, b"READ k\n")?, Feed::Done(7));
    /// let message = broker.take_message(0)?;
    /// assert_eq!(message.as_deref(), Some(&b"INFO \"k\" \"v\"\r\n"[..]));
    ///
    /// assert_eq!(Broker::take_over(vec![0; 20_000]).err(), Some(Error::Damaged));
    /// # Ok::<(), Box<dyn std::error::Error>>(())
    /// ```
    pub fn take_over(mut memory: M) -> Result<Broker<M>, Error> {
        // No broker has a slot of this number, so the answer is 2 after the check of the memory.
        match raw::close(memory.as_mut(), usize::MAX).answer {
            2 => {}
            0 => return Err(Error::Unexpected(0)),
            number => return Err(Error::from_number(number)),
        }
        match Sizes::of_memory(memory.as_ref()) {
            Some(sizes) => Ok(Broker { memory, sizes }),
            None => Err(Error::Damaged),
        }
    }

    /// The sizes of the set up.
    pub fn sizes(&self) -> Sizes {
        self.sizes
    }

    /// The memory, to be looked at or kept.
    pub fn memory(&self) -> &[u8] {
        self.memory.as_ref()
    }

    /// The memory, given back.
    pub fn into_memory(self) -> M {
        self.memory
    }

    /// Opens a client in a free slot.
    ///
    /// Errors: [`Error::Damaged`]; [`Error::NoClient`] for a slot number N or more;
    /// [`Error::InUse`] for a slot that is not free.
    ///
    /// ```
    /// use infod3::{Broker, Error, Form, Sizes};
    ///
    /// let mut broker = Broker::new(Sizes::SMALLEST)?;
    /// assert_eq!(broker.open(0, Form::Stream), Ok(()));
    /// assert_eq!(broker.open(0, Form::Stream), Err(Error::InUse));
    /// assert_eq!(broker.open(1, Form::Stream), Err(Error::NoClient));
    /// # Ok::<(), Error>(())
    /// ```
    pub fn open(&mut self, slot: usize, form: Form) -> Result<(), Error> {
        done(raw::open(self.memory.as_mut(), slot, form.number()))
    }

    /// Feeds a client its input, of which the first whole message is taken and no more.
    ///
    /// Errors: [`Error::Damaged`]; [`Error::NoClient`]; [`Error::Shut`]. A message that is refused
    /// is no error but [`Feed::Refused`]. A text client of [`Form::Stream`] that is refused stays
    /// open, but for [`Refusal::Room`](crate::Refusal::Room); a transaction that it is in is
    /// spoiled: its commands do nothing, and its COMMIT is refused and ends it.
    ///
    /// ```
    /// use infod3::{Broker, Feed, Form, Refusal, Sizes};
    ///
    /// let mut broker = Broker::new(Sizes::SMALLEST)?;
    /// broker.open(0, Form::Stream)?;
    /// assert_eq!(broker.feed(0, b"BEGIN\n")?, Feed::Done(6));
    /// assert_eq!(broker.feed(0, b"WRIET k v\n")?, Feed::Refused(Refusal::Message, 10));
    /// assert_eq!(broker.feed(0, b"WRITE k v\n")?, Feed::Done(10));
    /// assert_eq!(broker.feed(0, b"COMMIT\n")?, Feed::Refused(Refusal::State, 7));
    /// assert_eq!(broker.feed(0, b"COMMIT\n")?, Feed::Done(7));
    /// # Ok::<(), infod3::Error>(())
    /// ```
    pub fn feed(&mut self, slot: usize, input: &[u8]) -> Result<Feed, Error> {
        fed(raw::feed(self.memory.as_mut(), slot, input), input.len())
    }

    /// Takes a client's next message: writes it at the front of `out`, removes it from the queue
    /// and gives its length, or none where the queue is empty.
    ///
    /// Errors: [`Error::Damaged`]; [`Error::NoClient`]; [`Error::TooShort`] where `out` is shorter
    /// than the message, which then stays. [`Sizes::queue`] bytes are always enough.
    ///
    /// ```
    /// use infod3::{Broker, Error, Feed, Form, Sizes};
    ///
    /// let mut broker = Broker::new(Sizes::SMALLEST)?;
    /// broker.open(0, Form::Stream)?;
    /// assert_eq!(broker.feed(0, b"\x07\x00\x01x")?, Feed::Done(4));
    /// let mut out = [0; 16];
    /// assert_eq!(broker.take(0, &mut out[..3]), Err(Error::TooShort));
    /// assert_eq!(broker.take(0, &mut out), Ok(Some(4)));
    /// assert_eq!(out[..4], *b"\x82\x00\x01x");
    /// assert_eq!(broker.take(0, &mut out), Ok(None));
    /// # Ok::<(), Error>(())
    /// ```
    pub fn take(&mut self, slot: usize, out: &mut [u8]) -> Result<Option<usize>, Error> {
        let len = out.len();
        taken(raw::take(self.memory.as_mut(), slot, out), len)
    }

    /// Takes a client's next message and appends it to `out`; gives its length, or none where the
    /// queue is empty. Without a message, and with an error, `out` holds what it held.
    ///
    /// Errors: [`Error::Damaged`]; [`Error::NoClient`].
    pub fn append_message(
        &mut self,
        slot: usize,
        out: &mut Vec<u8>,
    ) -> Result<Option<usize>, Error> {
        let start = out.len();
        let most = self.sizes.queue();
        let mut room = most.min(FIRST_ROOM);
        loop {
            out.resize(start + room, 0);
            let result = self.take(slot, &mut out[start..]);
            if result == Err(Error::TooShort) && room < most {
                room = most.min(room.saturating_mul(8));
                continue;
            }
            let len = result.unwrap_or(None).unwrap_or(0);
            out.truncate(start + len);
            return result;
        }
    }

    /// Takes a client's next message as bytes of its own, or none where the queue is empty.
    ///
    /// Errors: [`Error::Damaged`]; [`Error::NoClient`].
    pub fn take_message(&mut self, slot: usize) -> Result<Option<Vec<u8>>, Error> {
        let mut out = Vec::new();
        Ok(self.append_message(slot, &mut out)?.map(|_| out))
    }

    /// Closes a client: its patterns, its recording and its queue are discarded, and its slot is
    /// free. The store stays.
    ///
    /// Errors: [`Error::Damaged`]; [`Error::NoClient`].
    pub fn close(&mut self, slot: usize) -> Result<(), Error> {
        done(raw::close(self.memory.as_mut(), slot))
    }
}

/// The room of the first try to append a message. Most messages fit, and to make it ready costs
/// little.
const FIRST_ROOM: usize = 4096;

/// Matches a pattern against a key, by bytes and over the whole key.
///
/// Errors: [`MatchError::Invalid`]; then [`MatchError::TooLong`] for a pattern of over 255 or a
/// key of over 65,535 bytes.
///
/// ```
/// use infod3::{matches, Match, MatchError};
///
/// let found = matches(b"iface.*.mtu", b"iface.eth0.mtu");
/// assert_eq!(found, Ok(Match { matched: true, steps: 14 }));
/// assert_eq!(matches(b"**", b""), Err(MatchError::Invalid));
/// ```
pub fn matches(pattern: &[u8], key: &[u8]) -> Result<Match, MatchError> {
    let found = raw::matches(pattern, key);
    match found.answer {
        0 => Ok(Match {
            matched: found.matched,
            steps: found.steps,
        }),
        101 => Err(MatchError::Invalid),
        102 => Err(MatchError::TooLong),
        number => Err(MatchError::Unexpected(number)),
    }
}

#[cfg(test)]
mod tests {
    use super::*;
    use crate::Refusal;

    fn two_text_clients() -> Broker<Vec<u8>> {
        let mut broker = Broker::new(Sizes::new(2, 1024, 1024, 256).unwrap()).unwrap();
        broker.open(0, Form::Stream).unwrap();
        broker.open(1, Form::Stream).unwrap();
        broker
    }

    #[test]
    fn script_of_the_rules_paper() {
        let script = [
            (1, "SUB site.*.state\n"),
            (0, "WRITE site.7.state alert\n"),
            (0, "BEGIN\n"),
            (0, "WRITE site.7.km 4\n"),
            (0, "WRITE site.7.state clear\n"),
            (1, "READ site.7.km\n"),
            (0, "COMMIT\n"),
            (1, "PING x\n"),
        ];
        let mut broker = two_text_clients();
        let mut output = Vec::new();
        for (slot, line) in script {
            let fed = broker.feed(slot, line.as_bytes());
            assert_eq!(fed, Ok(Feed::Done(line.len())));
            for reader in 0..2 {
                while let Some(message) = broker.take_message(reader).unwrap() {
                    output.extend(format!("{reader} ").into_bytes());
                    output.extend(message);
                }
            }
        }
        let expected = concat!(
            "1 INFO \"site.7.state\" \"alert\"\r\n",
            "1 INFO \"site.7.km\"\r\n",
            "1 INFO \"site.7.state\" \"clear\"\r\n",
            "1 PONG \"x\"\r\n"
        );
        assert_eq!(output, expected.as_bytes());
    }

    #[test]
    fn long_messages_are_appended_whole() {
        let sizes = Sizes::new(1, 70_000, 100_000, 256).unwrap();
        let mut broker = Broker::new(sizes).unwrap();
        broker.open(0, Form::Packets).unwrap();
        for len in [0, 1, 510, 511, 512, 4095, 4096, 40_000, 65_535] {
            let mut ping = vec![7];
            ping.resize(1 + len, b'x');
            assert_eq!(broker.feed(0, &ping), Ok(Feed::Done(1 + len)));
            let mut out = b"before".to_vec();
            assert_eq!(broker.append_message(0, &mut out), Ok(Some(1 + len)));
            assert_eq!(&out[..7], b"before\x82");
            assert_eq!(&out[7..], &ping[1..]);
            assert_eq!(broker.append_message(0, &mut out), Ok(None));
            assert_eq!(out.len(), 7 + len);
        }
    }

    #[test]
    fn errors_leave_the_vector_as_it_was() {
        let mut broker = two_text_clients();
        let mut out = b"kept".to_vec();
        assert_eq!(broker.append_message(2, &mut out), Err(Error::NoClient));
        assert_eq!(broker.append_message(0, &mut out), Ok(None));
        assert_eq!(out, b"kept");
    }

    #[test]
    fn a_refused_message_shuts_a_client_that_hangs_up() {
        let mut broker = Broker::new(Sizes::SMALLEST).unwrap();
        broker.open(0, Form::StreamHangUp).unwrap();
        let refused = broker.feed(0, b"SUB **\n").unwrap();
        assert_eq!(refused, Feed::Refused(Refusal::Parameter, 7));
        assert_eq!(broker.feed(0, b"PING\n"), Err(Error::Shut));
        let message = broker.take_message(0).unwrap().unwrap();
        assert_eq!(message, b"ERROR 101 \"bad parameter\"\r\n");
        assert_eq!(broker.take_message(0), Ok(None));
        assert_eq!(broker.close(0), Ok(()));
        assert_eq!(broker.close(0), Err(Error::NoClient));
    }

    #[test]
    fn a_text_client_of_a_stream_stays_open_after_a_typing_error() {
        let mut broker = two_text_clients();
        assert_eq!(broker.feed(0, b"SUB *\n"), Ok(Feed::Done(6)));
        let refused = broker.feed(0, b"SUB **\n");
        assert_eq!(refused, Ok(Feed::Refused(Refusal::Parameter, 7)));
        assert_eq!(broker.feed(1, b"WRITE k v\n"), Ok(Feed::Done(10)));
        let mut text = Vec::new();
        while broker.append_message(0, &mut text).unwrap().is_some() {}
        let expected = "ERROR 101 \"bad parameter\"\r\nINFO \"k\" \"v\"\r\n";
        assert_eq!(text, expected.as_bytes());
        // The line is too long for a pattern, and 102 shuts everyone.
        let long = format!("SUB {}\n", "a".repeat(256));
        let refused = broker.feed(0, long.as_bytes());
        assert_eq!(refused, Ok(Feed::Refused(Refusal::Room, 261)));
        assert_eq!(broker.feed(0, b"PING\n"), Err(Error::Shut));
    }

    #[test]
    fn a_slip_without_room_for_its_error_is_refused_with_102() {
        let mut broker = two_text_clients();
        // A PONG of n bytes charges n + 13 of 960; the ERROR would charge 33.
        let ping = format!("PING {}\n", "x".repeat(928 - 13));
        assert_eq!(broker.feed(0, ping.as_bytes()), Ok(Feed::Done(ping.len())));
        let refused = broker.feed(0, b"XX\n");
        assert_eq!(refused, Ok(Feed::Refused(Refusal::Room, 3)));
        assert_eq!(broker.feed(0, b"PING\n"), Err(Error::Shut));
    }

    #[test]
    fn binary_clients_are_shut_in_every_form() {
        for form in [Form::Packets, Form::Stream, Form::StreamHangUp] {
            let mut broker = Broker::new(Sizes::SMALLEST).unwrap();
            broker.open(0, form).unwrap();
            let refused = broker.feed(0, b"\x08\0\0").unwrap();
            assert_eq!(refused, Feed::Refused(Refusal::Message, 3));
            assert_eq!(broker.feed(0, b"\x07\0\0"), Err(Error::Shut));
        }
    }

    #[test]
    fn forms_have_their_numbers() {
        let forms = [Form::Packets, Form::Stream, Form::StreamHangUp];
        assert_eq!(forms.map(Form::number), [0, 1, 2]);
        let mut memory = Broker::new(Sizes::SMALLEST).unwrap().into_memory();
        assert_eq!(raw::open(&mut memory, 0, 3).answer, 8);
    }

    #[test]
    fn damage_is_answered_and_left() {
        let mut broker = two_text_clients();
        broker.memory[0] ^= 1;
        let before = broker.memory().to_vec();
        assert_eq!(broker.open(0, Form::Packets), Err(Error::Damaged));
        assert_eq!(broker.feed(0, b"PING\n"), Err(Error::Damaged));
        assert_eq!(broker.take(0, &mut [0; 9]), Err(Error::Damaged));
        assert_eq!(broker.take_message(0), Err(Error::Damaged));
        assert_eq!(broker.close(0), Err(Error::Damaged));
        assert_eq!(broker.memory(), before);
        assert!(Broker::take_over(before).is_err());
    }

    #[test]
    fn borrowed_memory_goes_on_in_the_next_broker() {
        let sizes = Sizes::SMALLEST;
        let mut lent = vec![0xFF; sizes.memory_size()];
        let mut first = Broker::set_up(&mut lent[..], sizes).unwrap();
        first.open(0, Form::Stream).unwrap();
        assert_eq!(first.feed(0, b"PING a\n"), Ok(Feed::Done(7)));
        let mut second = Broker::take_over(&mut lent[..]).unwrap();
        assert_eq!(second.sizes(), sizes);
        let message = second.take_message(0).unwrap().unwrap();
        assert_eq!(message, b"PONG \"a\"\r\n");
    }
}

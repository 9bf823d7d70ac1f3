//! The client's side of the library beside that of the reference: each call is made on both, with
//! out slices of several lengths, and every number and every lent byte is compared.
//!
//! - [`inputs`]: random commands, messages and lines, good and bad.
//! - [`seen`]: what the calls have reached.

pub mod inputs;
pub mod seen;

use infod3::raw;
use reference::client;

use crate::guard::{How, Lent, Side};
use crate::pair::shown;
use crate::random::Random;
use seen::Seen;

/// The longest input and the longest out slice that are lent.
const ROOM: usize = 400_000;

/// Both sides, and the slices that are lent to the library.
pub struct Calls {
    pub seen: Seen,
    random: Random,
    input: Lent,
    out: Lent,
    /// What the out slice holds before the call, then what it has to hold after it.
    expected: Vec<u8>,
}

impl Calls {
    /// The seed decides how slices are lent and what the out slices hold.
    pub fn new(seed: u64) -> Calls {
        Calls {
            seen: Seen::default(),
            random: Random::new(seed ^ 0x00C1_1E57),
            input: Lent::new(ROOM),
            out: Lent::new(ROOM),
            expected: Vec::new(),
        }
    }

    /// Writes a command with out slices that are longer than needed, equal, shorter by one and
    /// empty. Gives what the longer one comes to.
    #[track_caller]
    pub fn write(&mut self, form: usize, command: &[u8]) -> Result<Vec<u8>, u32> {
        let whole = client::write_command(form, command, usize::MAX);
        for room in self.rooms(command.len(), whole.as_ref().ok().map(Vec::len)) {
            let due = client::write_command(form, command, room);
            let how = self.lend(command, room);
            let given = raw::write_command(form, self.input.bytes(), self.out.slice());
            let (answer, bytes) = match &due {
                Ok(bytes) => (0, bytes.as_slice()),
                Err(answer) => (*answer, &[][..]),
            };
            let numbers = (answer, bytes.len());
            assert!(
                (given.answer, given.count) == numbers,
                "write in form {form} of {}, room {room}: due are {numbers:?}, given {given:?}",
                shown(command)
            );
            self.compare(command, bytes, how);
            self.seen.write(form, command, answer, bytes);
            if answer == 5 {
                self.seen
                    .too_short(whole.as_ref().map_or(0, Vec::len), room);
            }
        }
        whole
    }

    /// Reads a message with out slices of the same lengths. What is taken is, byte for byte, what
    /// is written for it.
    #[track_caller]
    pub fn read(&mut self, form: usize, input: &[u8]) -> client::Read {
        let whole = client::read_message(form, input, usize::MAX);
        let written = (whole.answer == 0).then_some(whole.message.len());
        for room in self.rooms(input.len(), written) {
            let due = client::read_message(form, input, room);
            let how = self.lend(input, room);
            let given = raw::read_message(form, self.input.bytes(), self.out.slice());
            let numbers = (due.answer, due.consumed, due.message.len());
            assert!(
                (given.answer, given.consumed, given.written) == numbers,
                "read in form {form} of {}, room {room}: due are {numbers:?}, given {given:?}",
                shown(input)
            );
            self.compare(input, &due.message, how);
            self.seen.read(form, input, &due);
        }
        if whole.answer == 0 {
            let written = inputs::encoded(form, &whole.message);
            assert!(written == input[..whole.consumed], "{}", shown(input));
        }
        whole
    }

    /// The lengths of the out slices for a call on so long an input: by the bytes that it writes,
    /// or, where it is refused, one in which all that could be written of the input has room.
    fn rooms(&mut self, input: usize, written: Option<usize>) -> Vec<usize> {
        let longer = written.unwrap_or(0) + self.random.between(1, 40);
        match written {
            Some(length) => vec![longer, length, length - 1, 0],
            None if input > 1_000 && !self.random.one_in(4) => vec![longer, 0],
            None => vec![longer, 0, ROOM.min(4 * input + 20)],
        }
    }

    /// Lends the input, and an out slice of random bytes.
    fn lend(&mut self, input: &[u8], room: usize) -> (How, How) {
        let random = &mut self.random;
        let mut how = || match random.below(4) {
            0 => How::Guarded(Side::Begins),
            1 => How::Guarded(Side::Ends),
            _ => How::Among(random.below(24)),
        };
        let how = (how(), how());
        self.expected.resize(room, 0);
        self.random.fill(&mut self.expected);
        self.input.load(how.0, input);
        self.out.load(how.1, &self.expected);
        how
    }

    /// The out slice holds these bytes and is otherwise as it was; the input, and what is around
    /// both, is as it was.
    #[track_caller]
    fn compare(&mut self, input: &[u8], bytes: &[u8], how: (How, How)) {
        self.expected[..bytes.len()].copy_from_slice(bytes);
        let name = || format!("{}, lent {how:?}", shown(input));
        let differs = self.out.bytes() != self.expected;
        if differs {
            let pairs = self.out.bytes().iter().zip(&self.expected);
            let at = pairs.take_while(|(given, due)| given == due).count();
            panic!(
                "out differs at {at} of {} bytes written: {}",
                bytes.len(),
                name()
            );
        }
        assert!(self.input.bytes() == input, "the input: {}", name());
        assert!(
            self.input.surroundings_are_kept() && self.out.surroundings_are_kept(),
            "bytes around a slice: {}",
            name()
        );
    }
}

//! The library and the reference, brought through the same calls.

use infod3::raw;
use reference::Server;

/// The sizes of every state: all slots, and room for the longest batch.
const SIZES: [usize; 4] = [32, 65_536, 40_960, 4_096];

/// A call of a batch.
#[derive(Clone, Debug)]
pub enum Call {
    /// Feeds these bytes to a slot.
    Feed(usize, Vec<u8>),
    /// Takes a message from a slot.
    Take(usize),
    /// Closes a slot.
    Close(usize),
}

/// A call and the answer that is due.
pub type Due = (Call, u32);

/// The state of both sides, put back before each batch.
#[derive(Clone)]
pub struct State {
    mem: Vec<u8>,
    server: Server,
}

impl State {
    /// Both sides after a set up.
    pub fn new() -> State {
        let [n, s, q, r] = SIZES;
        let mut mem = vec![0; raw::memory_size(n, s, q, r)];
        assert_eq!(raw::set_up(&mut mem, n, s, q, r).answer, 0);
        let server = Server::set_up(n, s, q, r).expect("the sizes are in their ranges");
        State { mem, server }
    }

    /// Opens a slot on both sides.
    pub fn open(&mut self, slot: usize, form: usize) {
        assert_eq!(raw::open(&mut self.mem, slot, form).answer, 0);
        assert_eq!(self.server.open(slot, form).answer, 0);
    }

    /// Feeds both sides, which have to answer 0.
    pub fn feed(&mut self, slot: usize, input: &[u8]) {
        assert_eq!(raw::feed(&mut self.mem, slot, input).answer, 0);
        assert_eq!(self.server.feed(slot, input).answer, 0);
    }

    /// Takes all messages of a slot on both sides.
    pub fn drain(&mut self, slot: usize) {
        let mut out = vec![0; SIZES[2]];
        while raw::take(&mut self.mem, slot, &mut out).answer == 0 {}
        while self.server.take(slot, SIZES[2]).0.answer == 0 {}
    }

    /// Fills a slot's queue with PONGs, up to so many bytes that stay free.
    pub fn fill(&mut self, slot: usize, free: usize) {
        let room = |server: &Server| {
            let queued = server.client(slot).map_or(0, |client| client.queued());
            SIZES[2] - 64 - queued
        };
        while room(&self.server) >= free + 207 {
            let mut ping = vec![7, 0, 200];
            ping.resize(203, b'f');
            self.feed(slot, &ping);
        }
    }
}

/// The two sides while they are measured.
pub struct Sides {
    mem: Vec<u8>,
    server: Server,
    out: Vec<u8>,
}

impl Sides {
    /// Both sides in a state.
    pub fn of(state: &State) -> Sides {
        Sides {
            mem: state.mem.clone(),
            server: state.server.clone(),
            out: vec![0; SIZES[2]],
        }
    }

    /// Puts both sides back into a state.
    pub fn restore(&mut self, state: &State) {
        self.mem.copy_from_slice(&state.mem);
        self.server = state.server.clone();
    }

    /// Makes the batch's calls of the library, and counts the answers that are not due.
    pub fn run_library(&mut self, batch: &[Due]) -> usize {
        let mut wrong = 0;
        for (call, due) in batch {
            let reply = match call {
                Call::Feed(slot, input) => raw::feed(&mut self.mem, *slot, input),
                Call::Take(slot) => raw::take(&mut self.mem, *slot, &mut self.out),
                Call::Close(slot) => raw::close(&mut self.mem, *slot),
            };
            wrong += usize::from(reply.answer != *due);
        }
        wrong
    }

    /// Makes the batch's calls of the reference, and counts the answers that are not due. A
    /// message that is taken is copied to the out slice, as the library does.
    pub fn run_reference(&mut self, batch: &[Due]) -> usize {
        let mut wrong = 0;
        for (call, due) in batch {
            let answer = match call {
                Call::Feed(slot, input) => self.server.feed(*slot, input).answer,
                Call::Take(slot) => {
                    let (reply, message) = self.server.take(*slot, self.out.len());
                    self.out[..message.len()].copy_from_slice(&message);
                    reply.answer
                }
                Call::Close(slot) => self.server.close(*slot).answer,
            };
            wrong += usize::from(answer != *due);
        }
        wrong
    }

    /// Makes the batch's calls on both sides, and compares all that is then queued.
    pub fn agree(&mut self, batch: &[Due], name: &str) {
        assert_eq!(self.run_library(batch), 0, "{name}: answers of the library");
        assert_eq!(
            self.run_reference(batch),
            0,
            "{name}: answers of the reference"
        );
        for slot in 0..SIZES[0] {
            loop {
                let reply = raw::take(&mut self.mem, slot, &mut self.out);
                let (other, message) = self.server.take(slot, self.out.len());
                assert_eq!(
                    (reply.answer, reply.count),
                    (other.answer, other.count),
                    "{name}"
                );
                if reply.answer != 0 {
                    break;
                }
                assert_eq!(self.out[..reply.count], message, "{name}");
            }
        }
    }
}

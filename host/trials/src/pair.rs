//! The library and the reference side by side: each call is made on both and compared.

use infod3::raw;
use reference::{Reply, Server};

/// The sizes of a set up.
#[derive(Clone, Copy, Debug, PartialEq, Eq)]
pub struct Sizes {
    pub n: usize,
    pub s: usize,
    pub q: usize,
    pub r: usize,
}

impl Sizes {
    pub const fn new(n: usize, s: usize, q: usize, r: usize) -> Sizes {
        Sizes { n, s, q, r }
    }

    pub fn memory_size(self) -> usize {
        raw::memory_size(self.n, self.s, self.q, self.r)
    }
}

/// One call with its arguments.
#[derive(Clone, PartialEq, Eq)]
pub enum Call {
    SetUp(Sizes),
    Open {
        slot: usize,
        form: usize,
    },
    Feed {
        slot: usize,
        input: Vec<u8>,
    },
    Take {
        slot: usize,
        room: usize,
    },
    Close {
        slot: usize,
    },
    /// The call with only the first bytes of the memory lent, fewer than the sizes ask for.
    Cut {
        call: Box<Call>,
        length: usize,
    },
}

impl Call {
    pub fn name(&self) -> &'static str {
        match self {
            Call::SetUp(_) => "set up",
            Call::Open { .. } => "open",
            Call::Feed { .. } => "feed",
            Call::Take { .. } => "take",
            Call::Close { .. } => "close",
            Call::Cut { call, .. } => call.name(),
        }
    }
}

impl std::fmt::Debug for Call {
    fn fmt(&self, f: &mut std::fmt::Formatter<'_>) -> std::fmt::Result {
        match self {
            Call::SetUp(sizes) => write!(f, "set up {sizes:?}"),
            Call::Open { slot, form } => write!(f, "open slot {slot} form {form}"),
            Call::Feed { slot, input } => write!(f, "feed slot {slot} {}", shown(input)),
            Call::Take { slot, room } => write!(f, "take slot {slot} room {room}"),
            Call::Close { slot } => write!(f, "close slot {slot}"),
            Call::Cut { call, length } => write!(f, "{call:?} in {length} bytes of memory"),
        }
    }
}

/// Bytes as a string literal, a long one cut.
pub fn shown(bytes: &[u8]) -> String {
    let head = &bytes[..bytes.len().min(400)];
    let cut = if head.len() < bytes.len() { " .." } else { "" };
    format!("b\"{}\"{cut} ({} bytes)", head.escape_ascii(), bytes.len())
}

/// What is around the lent memory and around each out slice, in bytes.
const GUARD: usize = 24;
/// What the lent memory holds before the first set up, and what stands in each out slice.
const FILL: u8 = 0xA5;

pub struct Pair {
    pub sizes: Sizes,
    pub reference: Server,
    /// A guard, the lent memory, a guard.
    backing: Vec<u8>,
    /// The lent memory's length: what the sizes ask for, and a little more.
    lent: usize,
    /// The lent memory before a call that is refused.
    before: Vec<u8>,
    /// A guard, the out slice, a guard.
    out: Vec<u8>,
}

impl Pair {
    /// Sets both up; `extra` bytes more than needed are lent, at an address off by `extra` too.
    pub fn new(sizes: Sizes, extra: usize) -> Pair {
        let lent = sizes.memory_size() + extra;
        let mut backing = vec![FILL; GUARD + extra + lent + GUARD];
        backing.drain(..extra);
        let reference = Server::set_up(sizes.n, sizes.s, sizes.q, sizes.r).expect("sizes in range");
        let memory = &mut backing[GUARD..GUARD + lent];
        let reply = raw::set_up(memory, sizes.n, sizes.s, sizes.q, sizes.r);
        assert_eq!(
            reply,
            raw::Reply {
                answer: 0,
                count: 0
            },
            "set up {sizes:?}"
        );
        Pair {
            sizes,
            reference,
            backing,
            lent,
            before: Vec::new(),
            out: Vec::new(),
        }
    }

    pub fn memory(&self) -> &[u8] {
        &self.backing[GUARD..GUARD + self.lent]
    }

    /// Makes the call on both. Gives the reply and, for a take, the message; or says in what
    /// the two differ.
    pub fn call(&mut self, call: &Call) -> Result<(Reply, Vec<u8>), String> {
        let (expected, message) = self.call_reference(call);
        let refused = (1..=8).contains(&expected.answer);
        if refused {
            self.before.clear();
            self.before
                .extend_from_slice(&self.backing[GUARD..GUARD + self.lent]);
        }
        let given = self.call_library(call, self.lent);
        if (given.answer, given.count) != (expected.answer, expected.count) {
            return Err(format!(
                "the reference gives {expected:?}, the library {given:?}"
            ));
        }
        if call.name() == "take" {
            self.compare_out(&message)?;
        }
        if refused && self.before != self.memory() {
            let at = self
                .memory()
                .iter()
                .zip(&self.before)
                .position(|(a, b)| a != b);
            return Err(format!(
                "answer {} alters the memory at {at:?}",
                given.answer
            ));
        }
        let behind = self.backing.len() - GUARD;
        if self.backing[..GUARD] != [FILL; GUARD] || self.backing[behind..] != [FILL; GUARD] {
            return Err("bytes around the memory are altered".to_string());
        }
        Ok((expected, message))
    }

    /// What has to be given. The reference has no memory: answers 5 and 7 to a memory that is
    /// too short are told here.
    fn call_reference(&mut self, call: &Call) -> (Reply, Vec<u8>) {
        let only = |answer| Reply { answer, count: 0 };
        let reply = match call {
            Call::SetUp(sizes) => match Server::set_up(sizes.n, sizes.s, sizes.q, sizes.r) {
                Err(answer) => only(answer),
                Ok(_) if sizes.memory_size() > self.lent => only(5),
                Ok(server) => {
                    self.reference = server;
                    self.sizes = *sizes;
                    only(0)
                }
            },
            Call::Open { slot, form } => self.reference.open(*slot, *form),
            Call::Feed { slot, input } => self.reference.feed(*slot, input),
            Call::Take { slot, room } => return self.reference.take(*slot, *room),
            Call::Close { slot } => self.reference.close(*slot),
            Call::Cut { .. } => only(7),
        };
        (reply, Vec::new())
    }

    /// The call with so many bytes of memory lent.
    fn call_library(&mut self, call: &Call, lent: usize) -> raw::Reply {
        let memory = &mut self.backing[GUARD..GUARD + lent];
        match call {
            Call::SetUp(sizes) => raw::set_up(memory, sizes.n, sizes.s, sizes.q, sizes.r),
            Call::Open { slot, form } => raw::open(memory, *slot, *form),
            Call::Feed { slot, input } => raw::feed(memory, *slot, input),
            Call::Take { slot, room } => {
                self.out.clear();
                self.out.resize(GUARD + room + GUARD, FILL);
                raw::take(memory, *slot, &mut self.out[GUARD..GUARD + room])
            }
            Call::Close { slot } => raw::close(memory, *slot),
            Call::Cut { call, length } => self.call_library(call, *length),
        }
    }

    /// The out slice holds the message and is otherwise as it was, and so is what is around it.
    fn compare_out(&self, message: &[u8]) -> Result<(), String> {
        let end = GUARD + message.len();
        if self.out[GUARD..end] != *message {
            let given = shown(&self.out[GUARD..end]);
            return Err(format!(
                "the reference gives {}, the library {given}",
                shown(message)
            ));
        }
        let rest = self.out[..GUARD].iter().chain(&self.out[end..]);
        if rest.into_iter().any(|&byte| byte != FILL) {
            return Err("a take alters bytes outside its message".to_string());
        }
        Ok(())
    }

    /// Whether the bytes lent beyond what the sizes ask for are as they were.
    pub fn extra_is_kept(&self) -> bool {
        self.memory()[self.sizes.memory_size()..]
            .iter()
            .all(|&byte| byte == FILL)
    }

    /// The call, which has to agree; its answer and count.
    #[track_caller]
    pub fn agree(&mut self, call: Call) -> (u32, usize) {
        match self.call(&call) {
            Ok((reply, _)) => (reply.answer, reply.count),
            Err(difference) => panic!("{call:?}: {difference}"),
        }
    }

    #[track_caller]
    pub fn open(&mut self, slot: usize, form: usize) -> u32 {
        self.agree(Call::Open { slot, form }).0
    }

    #[track_caller]
    pub fn close(&mut self, slot: usize) -> u32 {
        self.agree(Call::Close { slot }).0
    }

    #[track_caller]
    pub fn feed(&mut self, slot: usize, input: &[u8]) -> (u32, usize) {
        self.agree(Call::Feed {
            slot,
            input: input.to_vec(),
        })
    }

    /// Takes the next message with room to spare; `None` where there is none.
    #[track_caller]
    pub fn take(&mut self, slot: usize) -> Option<Vec<u8>> {
        let next = self
            .reference
            .client(slot)
            .and_then(|client| client.queue().next());
        let call = Call::Take {
            slot,
            room: next.map_or(0, <[u8]>::len) + 3,
        };
        match self.call(&call) {
            Ok((reply, message)) => (reply.answer == 0).then_some(message),
            Err(difference) => panic!("{call:?}: {difference}"),
        }
    }

    /// Takes all messages of a slot.
    #[track_caller]
    pub fn drain(&mut self, slot: usize) -> Vec<Vec<u8>> {
        let mut messages = Vec::new();
        while let Some(message) = self.take(slot) {
            messages.push(message);
        }
        messages
    }
}

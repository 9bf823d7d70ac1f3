//! What is measured: for each case a state and a batch of calls.
//!
//! In every state the slots 0 to 23 hold subscribers, each with patterns of its own that match no
//! key, and slot 24 holds the client that is fed. All of them speak frames. Slots from 25 on are
//! free, but for a client that speaks text in slot 25 of one case.

use crate::sides::{Call, Due, State};

/// The slot of the client that is fed.
const FEEDER: usize = 24;
/// The slot of the client that speaks text, in the case that has one.
const TEXT: usize = 25;
/// A slot that is free.
const FREE: usize = 31;
/// The subscribers.
const SUBSCRIBERS: usize = 24;

/// A row of the table.
pub struct Case {
    /// Its name.
    pub name: &'static str,
    /// What is measured.
    pub text: &'static str,
    /// The calls that count as one.
    pub calls_per_unit: usize,
    /// The state and the batch, for a store of so many keys.
    pub state: fn(usize) -> (State, Vec<Due>),
}

fn frame(id: u8, payload: &str) -> Vec<u8> {
    let len = (payload.len() as u16).to_be_bytes();
    [&[id, len[0], len[1]], payload.as_bytes()].concat()
}

fn key(i: usize) -> String {
    format!("site.{i:04}.state")
}

/// The state of every case, of whose subscribers `fan_out` hold a pattern that matches every key.
fn state(keys: usize, fan_out: usize) -> State {
    let mut state = State::new();
    for slot in 0..=FEEDER {
        state.open(slot, 1);
        state.feed(slot, &frame(7, ""));
        if slot < SUBSCRIBERS {
            state.feed(slot, &frame(1, &format!("own.{slot}.*")));
            state.feed(slot, &frame(1, &format!("port.(a|b|c).{slot}")));
        }
        if slot < fan_out {
            state.feed(slot, &frame(1, "site.*"));
        }
        state.drain(slot);
    }
    for i in 0..keys {
        state.feed(FEEDER, &frame(4, &format!("{}\0before!!", key(i))));
        for slot in 0..fan_out {
            state.drain(slot);
        }
    }
    state
}

/// The same with the queues of all clients full, but for the room that a batch needs.
fn full(mut state: State) -> State {
    for slot in 0..=FEEDER {
        state.fill(slot, 5000);
    }
    state
}

/// Calls that end with the test of the memory, in any state.
pub fn tests() -> Vec<Due> {
    vec![(Call::Close(FREE), 2); 400]
}

fn feeds(count: usize, input: impl Fn(usize) -> Vec<u8>) -> Vec<Due> {
    let call = |i| (Call::Feed(FEEDER, input(i)), 0);
    (0..count).map(call).collect()
}

/// WRITEs of other values of the same length, all over the store.
fn writes(keys: usize) -> Vec<Due> {
    feeds(100, |i| {
        frame(4, &format!("{}\0{i:08}", key(i * 37 % keys)))
    })
}

fn pings() -> Vec<Due> {
    feeds(100, |_| frame(7, "x"))
}

/// SUBs that are owed every entry, as many as the queue has room for.
fn subs(keys: usize) -> Vec<Due> {
    feeds((1000 / keys).max(1), |_| frame(1, "site.*"))
}

/// WRITEs of values that are longer and shorter in turn, to one key in the middle of the store.
fn moving_writes(keys: usize) -> Vec<Due> {
    let middle = key(keys / 2);
    feeds(100, |i| {
        let value = ["a value that is longer", "short"][i % 2];
        frame(4, &format!("{middle}\0{value}"))
    })
}

/// Eight clients that have recorded sixteen WRITEs each, of which slot 8 to 15 commit.
fn commits(keys: usize) -> (State, Vec<Due>) {
    let mut state = state(keys, 1);
    for slot in 8..16 {
        state.feed(slot, &frame(5, ""));
        for i in 0..16 {
            let payload = format!("{}\0{slot:04}{i:04}", key(i * 37 % keys));
            state.feed(slot, &frame(4, &payload));
        }
    }
    let batch = (8..16).map(|slot| (Call::Feed(slot, frame(6, "")), 0));
    (state, batch.collect())
}

/// Messages in the feeder's queue, few or as many as go into it.
fn queued(keys: usize, is_full: bool) -> State {
    let mut state = state(keys, 0);
    if is_full {
        state.fill(FEEDER, 0);
    } else {
        for _ in 0..100 {
            state.feed(FEEDER, &frame(7, "x"));
        }
    }
    state
}

fn takes() -> Vec<Due> {
    vec![(Call::Take(FEEDER), 0); 100]
}

/// A text client that makes typing errors, and those.
fn slips(mut state: State) -> (State, Vec<Due>) {
    state.open(TEXT, 1);
    state.feed(TEXT, b"PING\n");
    state.drain(TEXT);
    let slip = Call::Feed(TEXT, b"NONSENSE\n".to_vec());
    (state, vec![(slip, 100); 100])
}

/// PINGs that are each taken from a full queue, so that the queue's room is gone through.
fn ping_and_take() -> Vec<Due> {
    let ping = Call::Feed(FEEDER, frame(7, &"f".repeat(200)));
    let pair = [(Call::Take(FEEDER), 0), (ping, 0)];
    pair.into_iter().cycle().take(1600).collect()
}

/// All cases, in the order of the table.
pub fn cases() -> Vec<Case> {
    let case = |name, text, state| Case {
        name,
        text,
        calls_per_unit: 1,
        state,
    };
    vec![
        case(
            "close of a free slot (2)",
            "The check behind answer 7 and nothing else: the call stops right after it.",
            |keys| (state(keys, 0), vec![(Call::Close(FREE), 2); 1000]),
        ),
        case(
            "take from an empty queue (6)",
            "The check again, and the look at one queue.",
            |keys| (state(keys, 0), vec![(Call::Take(FEEDER), 6); 1000]),
        ),
        case(
            "PING, queue empty",
            "A frame is read and a PONG queued; the queue begins empty.",
            |keys| (state(keys, 0), pings()),
        ),
        case(
            "PING, queue full",
            "The same, with 35,000 bytes waiting in the queue of every client.",
            |keys| (full(state(keys, 0)), pings()),
        ),
        case("READ", "A key is looked up and an INFO queued.", |keys| {
            let reads = feeds(100, |i| frame(3, &key(i * 37 % keys)));
            (state(keys, 0), reads)
        }),
        case(
            "WRITE, equal value",
            "A WRITE of the value that the key has: nothing is owed to anyone.",
            |keys| {
                let writes = feeds(100, |i| {
                    frame(4, &format!("{}\0before!!", key(i * 37 % keys)))
                });
                (state(keys, 0), writes)
            },
        ),
        case(
            "WRITE to 0 subscribers",
            "A WRITE of another value of the same length; 24 clients are asked and none is owed.",
            |keys| (state(keys, 0), writes(keys)),
        ),
        case("WRITE to 1 subscriber", "The same with one INFO.", |keys| {
            (state(keys, 1), writes(keys))
        }),
        case("WRITE to 8 subscribers", "The same with eight.", |keys| {
            (state(keys, 8), writes(keys))
        }),
        case("WRITE to 24 subscribers", "The same with 24.", |keys| {
            (state(keys, 24), writes(keys))
        }),
        case(
            "WRITE to 24 subscribers, queues full",
            "The same, with 35,000 bytes waiting in the queue of every client.",
            |keys| (full(state(keys, 24)), writes(keys)),
        ),
        case(
            "WRITE of another length",
            "A WRITE of a longer or shorter value in the middle: half of the store is moved.",
            |keys| (state(keys, 0), moving_writes(keys)),
        ),
        case(
            "SUB, all keys match",
            "A SUB that is owed an INFO for every entry of the store.",
            |keys| (state(keys, 0), subs(keys)),
        ),
        case(
            "SUB, no key matches",
            "A SUB whose pattern begins as every key does and matches none of them.",
            |keys| (state(keys, 0), feeds(100, |_| frame(1, "site.*.x"))),
        ),
        case(
            "COMMIT of 16 WRITEs to 1 subscriber",
            "Sixteen WRITEs of other values run as one step; the time of recording is not in it.",
            commits,
        ),
        case(
            "refused text line that stays (100)",
            "A line of an unknown word from a 26th client, who speaks text: its ERROR is queued, and \
             the client stays open.",
            |keys| slips(state(keys, 0)),
        ),
        case(
            "take, 100 messages queued",
            "The first message is copied out and removed.",
            |keys| (queued(keys, false), takes()),
        ),
        case(
            "take, queue full",
            "The same from a queue of 40,000 bytes.",
            |keys| (queued(keys, true), takes()),
        ),
        Case {
            calls_per_unit: 2,
            ..case(
                "take and PING, queue kept full",
                "A take and a PING of 200 bytes together, so often that the queue's room is gone \
                 through twice: the moves to its front are in it.",
                |keys| (queued(keys, true), ping_and_take()),
            )
        },
    ]
}

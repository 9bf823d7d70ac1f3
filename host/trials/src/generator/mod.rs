//! Random lists of calls, steered by the reference's state towards every answer and limit.
//!
//! Each slot has a feeder with a plan: the messages it means to send. A plan is one command, a
//! transaction, or a way to a limit (a full queue, store or recording, 17 patterns, ..). The
//! host's part is played too: what a feed did not consume is kept and fed again with more.

pub mod messages;

use std::collections::VecDeque;

use reference::reading::Kind;
use reference::server::Transaction;
use reference::{Reply, Server};

use crate::pair::{Call, Sizes};
use crate::random::Random;
use messages::Command;

/// How a run is steered.
#[derive(Clone, Copy, Debug)]
pub struct Profile {
    pub sizes: Sizes,
    /// The longest value that is usual.
    pub longest: usize,
    /// Of 100 messages, how many are bad.
    pub bad: usize,
    /// One plan in so many is a way to a limit.
    pub limits: usize,
    /// One plan in so many is about messages of 65,535 bytes and more.
    pub huge: usize,
    /// One plan in so many is a walk to 1,024 entries and past.
    pub entries: usize,
}

/// One message that a feeder means to send. What depends on the server's state is made when
/// it is sent.
enum Planned {
    Command(Command),
    Raw(Vec<u8>),
    /// A command of the usual mix.
    Any,
    /// A refused message.
    Bad,
    /// A command of the usual mix with a few bytes altered.
    Mutated,
    Blank,
    /// A PING whose PONG leaves so many bytes of the queue's room, or passes it by one where that
    /// is none.
    FillQueue {
        free: Option<usize>,
    },
    /// A WRITE that leaves nothing of the store's room, or passes it by one.
    FillStore {
        over: bool,
    },
    /// A PING that leaves nothing of the record room, or passes it by one.
    FillRecording {
        over: bool,
    },
}

#[derive(Default)]
struct Feeder {
    plan: VecDeque<Planned>,
    /// Whether a stream whose kind is open is to become text.
    text: bool,
    /// Bytes that a feed has not consumed.
    pending: Vec<u8>,
    /// The rest of a message of which a part is in `pending`.
    unsent: Vec<u8>,
    /// How often in a row more bytes were wanted.
    waits: usize,
}

pub struct Generator {
    rng: Random,
    profile: Profile,
    feeders: Vec<Feeder>,
    /// Of 100 calls on an open slot, how many are takes; it changes from time to time.
    takes: usize,
    /// The slot that most calls are about for a while.
    favourite: usize,
    made: usize,
    /// A number for keys and patterns that are to be new.
    fresh: usize,
}

impl Generator {
    pub fn new(seed: u64, profile: Profile) -> Generator {
        let feeders = (0..profile.sizes.n).map(|_| Feeder::default()).collect();
        let rng = Random::new(seed);
        Generator {
            rng,
            profile,
            feeders,
            takes: 20,
            favourite: 0,
            made: 0,
            fresh: 0,
        }
    }

    /// The next call of the list.
    pub fn next(&mut self, server: &Server) -> Call {
        if self.made.is_multiple_of(150) {
            self.takes = *self.rng.pick(&[2, 10, 30, 55]);
            self.favourite = self.rng.below(self.profile.sizes.n);
        }
        self.made += 1;
        if self.rng.one_in(150) {
            return self.wild(server);
        }
        let n = self.profile.sizes.n;
        let slot = if self.rng.chance(40) {
            self.favourite
        } else {
            self.rng.below(n)
        };
        match server.client(slot) {
            None => self.on_free(slot),
            Some(client) if client.is_shut() => self.on_shut(server, slot),
            Some(_) => self.on_open(server, slot),
        }
    }

    /// What the host learns from a feed: the bytes consumed, and whether the client is shut. A
    /// client that stays open after a refusal goes on with its plan.
    pub fn after_feed(&mut self, slot: usize, reply: Reply, server: &Server) {
        let Some(feeder) = self.feeders.get_mut(slot) else {
            return;
        };
        let is_open = server.client(slot).is_some_and(|client| !client.is_shut());
        match reply.answer {
            1 => feeder.waits += 1,
            0 | 100..=103 if is_open => {
                let consumed = reply.count.min(feeder.pending.len());
                feeder.pending.drain(..consumed);
                feeder.waits = 0;
            }
            _ => {
                *feeder = Feeder {
                    text: feeder.text,
                    ..Feeder::default()
                }
            }
        }
    }

    /// Calls with arguments out of range or too little memory, and set ups.
    fn wild(&mut self, server: &Server) -> Call {
        let n = self.profile.sizes.n;
        let slot = *self
            .rng
            .pick(&[n, n + 1, 32, 255, 256, 1 << 32, usize::MAX]);
        let near = self.rng.below(n);
        match self.rng.below(9) {
            0 => Call::Open {
                slot,
                form: self.rng.below(4),
            },
            1 => Call::Feed {
                slot,
                input: b"\x07\0\0".to_vec(),
            },
            2 => Call::Take { slot, room: 100 },
            3 => Call::Close { slot },
            4 => Call::Open {
                slot: near,
                form: self.no_form(),
            },
            5 => Call::Open {
                slot: near,
                form: self.rng.below(3),
            },
            6 => Call::SetUp(self.other_sizes()),
            7 => {
                let size = self.profile.sizes.memory_size();
                let length = *self.rng.pick(&[0, 1, 19, 20, size / 2, size - 1]);
                match self.next(server) {
                    call @ (Call::SetUp(_) | Call::Cut { .. }) => call,
                    call => Call::Cut {
                        call: Box::new(call),
                        length,
                    },
                }
            }
            _ if self.rng.chance(20) && server.store().count() > 0 => {
                self.feeders
                    .iter_mut()
                    .for_each(|feeder| *feeder = Feeder::default());
                Call::SetUp(self.profile.sizes)
            }
            _ => Call::Take {
                slot: near,
                room: 0,
            },
        }
    }

    /// A number above every form; the lowest byte of some is that of a form.
    fn no_form(&mut self) -> usize {
        *self
            .rng
            .pick(&[3, 4, 255, 256, 257, 258, 1 << 32, (1 << 32) + 2, usize::MAX])
    }

    /// Sizes that are out of range, or that ask for more memory than is lent.
    fn other_sizes(&mut self) -> Sizes {
        let Sizes { n, s, q, r } = self.profile.sizes;
        let wild = *self.rng.pick(&[0, 33, 255, 1_048_577, 1 << 32, usize::MAX]);
        match self.rng.below(6) {
            0 => Sizes::new(*self.rng.pick(&[0, 33, 1 << 32, usize::MAX]), s, q, r),
            1 => Sizes::new(n, wild, q, r),
            2 => Sizes::new(n, s, wild, r),
            3 => Sizes::new(n, s, q, if wild == 33 { 262_145 } else { wild }),
            4 => Sizes::new(32, 1_048_576, 1_048_576, 262_144),
            _ => Sizes::new(n, s, (q + 1_024).min(1_048_576), r),
        }
    }

    /// Mostly an open; the new client's first plan is often to subscribe to everything.
    fn on_free(&mut self, slot: usize) -> Call {
        let mut feeder = Feeder {
            text: self.rng.chance(50),
            ..Feeder::default()
        };
        match self.rng.below(10) {
            0..=3 => feeder
                .plan
                .push_back(Planned::Command(Command::Sub(b"*".to_vec()))),
            4 => feeder.plan.push_back(Planned::Blank),
            5 if self.rng.chance(30) => feeder.plan.push_back(Planned::Bad),
            6 if self.rng.chance(50) => {
                let edges = b"\x07\x08\t\n\x0B\x0C\r\x0E\x1F !\"09?@A~\x7F\x80\xFF";
                let first = match self.rng.chance(50) {
                    true => *self.rng.pick(edges),
                    false => self.rng.byte(),
                };
                feeder
                    .plan
                    .push_back(Planned::Raw(vec![first, 0, 1, b'x', b'\n']));
            }
            _ => {}
        }
        self.feeders[slot] = feeder;
        match self.rng.below(20) {
            0 => Call::Feed {
                slot,
                input: Vec::new(),
            },
            1 => Call::Take { slot, room: 10 },
            2 => Call::Close { slot },
            3 => Call::Open {
                slot,
                form: self.no_form(),
            },
            _ => Call::Open {
                slot,
                form: *self.rng.pick(&[0, 1, 1, 1, 2]),
            },
        }
    }

    fn on_shut(&mut self, server: &Server, slot: usize) -> Call {
        match self.rng.below(20) {
            0 => Call::Feed {
                slot,
                input: Vec::new(),
            },
            1..=2 => Call::Feed {
                slot,
                input: b"\x07\0\0\n".to_vec(),
            },
            3 => Call::Open {
                slot,
                form: self.rng.below(3),
            },
            4..=9 => Call::Close { slot },
            _ => self.take(server, slot),
        }
    }

    fn on_open(&mut self, server: &Server, slot: usize) -> Call {
        let client = server.client(slot);
        let is_in_transaction =
            client.is_some_and(|client| !matches!(client.transaction(), Transaction::Off));
        let closes = if is_in_transaction { 80 } else { 250 };
        if self.feeders[slot].waits > 5 || self.rng.one_in(closes) {
            return Call::Close { slot };
        }
        if self.rng.one_in(200) {
            return Call::Open {
                slot,
                form: self.rng.below(3),
            };
        }
        let is_empty = client.is_some_and(|client| client.queued() == 0);
        let takes = if is_empty { 2 } else { self.takes };
        if self.rng.chance(takes) {
            return self.take(server, slot);
        }
        Call::Feed {
            slot,
            input: self.input(server, slot),
        }
    }

    /// A take, mostly with room for the next message, sometimes with a byte too little.
    fn take(&mut self, server: &Server, slot: usize) -> Call {
        let next = server.client(slot).and_then(|client| client.queue().next());
        let length = next.map_or(0, <[u8]>::len);
        let room = match self.rng.below(10) {
            0 => length.saturating_sub(1),
            1 => self.rng.below(length + 1),
            2..=5 => length,
            _ => length + self.rng.below(50),
        };
        Call::Take { slot, room }
    }

    /// The bytes of the next feed of an open slot.
    fn input(&mut self, server: &Server, slot: usize) -> Vec<u8> {
        let Some(client) = server.client(slot) else {
            return Vec::new();
        };
        if client.kind() == Kind::Packets {
            return self.message(server, slot);
        }
        if self.rng.one_in(60) {
            return Vec::new();
        }
        if !self.feeders[slot].unsent.is_empty() {
            let part = self.part(self.feeders[slot].unsent.len());
            let feeder = &mut self.feeders[slot];
            let rest = feeder.unsent.split_off(part);
            feeder.pending.append(&mut feeder.unsent);
            feeder.unsent = rest;
        } else if self.feeders[slot].pending.is_empty() || self.rng.chance(30) {
            let mut message = self.message(server, slot);
            while self.rng.chance(20) {
                message.append(&mut self.message(server, slot));
            }
            let part = self.part(message.len());
            let rest = message.split_off(part);
            let feeder = &mut self.feeders[slot];
            feeder.pending.append(&mut message);
            feeder.unsent = rest;
        }
        self.feeders[slot].pending.clone()
    }

    /// How much of so many bytes is sent at once: mostly all.
    fn part(&mut self, length: usize) -> usize {
        if self.rng.chance(85) {
            length
        } else {
            self.rng.below(length + 1)
        }
    }

    /// The next message of the slot's plan, in the client's form.
    fn message(&mut self, server: &Server, slot: usize) -> Vec<u8> {
        if self.feeders[slot].plan.is_empty() {
            let plan = self.plan(server, slot);
            self.feeders[slot].plan.extend(plan);
        }
        let planned = self.feeders[slot].plan.pop_front().unwrap_or(Planned::Any);
        let (kind, text) = match server.client(slot) {
            Some(client) => (client.kind(), self.feeders[slot].text),
            None => (Kind::Packets, false),
        };
        let rng = &mut self.rng;
        let sizes = self.profile.sizes;
        let command = match planned {
            Planned::Command(command) => command,
            Planned::Raw(bytes) => return bytes,
            Planned::Any => messages::command(rng, server, slot, self.profile.longest),
            Planned::Bad => return messages::bad_message(rng, kind, text),
            Planned::Mutated => {
                let command = messages::command(rng, server, slot, 20);
                let message = messages::encode(rng, &command, kind, text);
                return messages::mutated(rng, message);
            }
            Planned::Blank if kind == Kind::Text || (kind == Kind::Unfixed && text) => {
                return messages::blank_line(rng)
            }
            Planned::Blank => Command::Ping(Vec::new()),
            Planned::FillQueue { free } => {
                let used = server.client(slot).map_or(0, |client| client.queued());
                let head = match kind {
                    Kind::Packets => 1,
                    Kind::Framed => 3,
                    Kind::Unfixed if !text => 3,
                    _ => 9,
                };
                let room = match free {
                    Some(free) => sizes.q - 64 - free,
                    None => sizes.q - 64 + 1,
                };
                let left = room.saturating_sub(used + 4 + head);
                Command::Ping(rng.word(b"xyz", left.min(65_535)))
            }
            Planned::FillStore { over } => {
                let key = format!("fill{}", self.fresh).into_bytes();
                self.fresh += 1;
                let left = sizes
                    .s
                    .saturating_sub(server.store().used() + 8 + key.len());
                let length = (left + usize::from(over)).min(65_000);
                Command::Write(key, Some(rng.word(b"01", length)))
            }
            Planned::FillRecording { over } => {
                let recording = server.client(slot).and_then(|client| client.recording());
                let used = recording.map_or(0, |recording| recording.used());
                let left = sizes.r.saturating_sub(used + 4) + usize::from(over);
                Command::Ping(rng.word(b"r", left.min(65_535)))
            }
        };
        messages::encode(&mut self.rng, &command, kind, text)
    }

    fn plan(&mut self, server: &Server, slot: usize) -> Vec<Planned> {
        if self.rng.one_in(self.profile.entries) {
            return self.plan_of_entries(server);
        }
        if self.rng.one_in(self.profile.huge) {
            return self.huge_plan(server, slot);
        }
        if self.rng.one_in(self.profile.limits) {
            return self.limit_plan(server, slot);
        }
        if self.rng.chance(self.profile.bad) {
            return vec![Planned::Bad];
        }
        if self.stays_open(server, slot) && self.rng.chance(12) {
            return self.plan_of_slips(server, slot);
        }
        match self.rng.below(20) {
            0..=1 => {
                let length = self.rng.between(0, 12);
                self.transaction(length)
            }
            2 => vec![Planned::Blank],
            4 if self.rng.chance(30) => vec![Planned::Mutated],
            3 if self.rng.chance(30) => vec![Planned::Command(Command::Commit)],
            _ => vec![Planned::Any],
        }
    }

    /// BEGIN, so many commands, COMMIT; now and then without an end, or with something bad.
    fn transaction(&mut self, length: usize) -> Vec<Planned> {
        let mut plan = vec![Planned::Command(Command::Begin)];
        for _ in 0..length {
            plan.push(if self.rng.chance(5) {
                Planned::Blank
            } else {
                Planned::Any
            });
        }
        match self.rng.below(20) {
            0 => plan.push(Planned::Bad),
            1 => plan.push(Planned::Command(Command::Begin)),
            _ => plan.push(Planned::Command(Command::Commit)),
        }
        plan
    }

    /// Whether the slot's client is, or is to become, a text client that stays open after a
    /// typing error.
    fn stays_open(&self, server: &Server, slot: usize) -> bool {
        server.client(slot).is_some_and(|client| {
            let is_text = match client.kind() {
                Kind::Text => true,
                Kind::Unfixed => self.feeders[slot].text,
                Kind::Packets | Kind::Framed => false,
            };
            is_text && !client.hangs_up()
        })
    }

    /// Typing errors of a text client, inside and outside transactions.
    fn plan_of_slips(&mut self, server: &Server, slot: usize) -> Vec<Planned> {
        let begin = || Planned::Command(Command::Begin);
        let commit = || Planned::Command(Command::Commit);
        let mut plan = Vec::new();
        match self.rng.below(8) {
            0..=1 => (0..self.rng.between(1, 4)).for_each(|_| plan.push(Planned::Bad)),
            2 => return self.plan_of_a_full_queue(),
            3 => {
                // What would be refused with 102 in a transaction that is not spoiled.
                let over = true;
                if self.rng.chance(30) {
                    (0..16).for_each(|_| plan.push(self.fresh_pattern()));
                }
                plan.push(begin());
                plan.push(self.slip());
                match self.rng.below(4) {
                    0 => (0..66).for_each(|_| plan.push(self.small_command(server))),
                    1 => plan.push(Planned::FillRecording { over }),
                    2 => plan.push(Planned::FillStore { over }),
                    _ => (0..3).for_each(|_| plan.push(self.fresh_pattern())),
                }
                plan.push(commit());
            }
            4 => {
                // What is refused with 102 in a spoiled transaction too.
                plan.push(begin());
                plan.push(self.slip());
                plan.push(match self.rng.one_in(10) {
                    true => Planned::Raw(vec![b'l'; 262_152]),
                    false => Planned::Command(Command::Sub(self.rng.word(b"ab", 256))),
                });
            }
            _ => {
                plan.push(begin());
                (0..self.rng.below(4)).for_each(|_| plan.push(Planned::Any));
                plan.push(self.slip());
                for _ in 0..self.rng.below(6) {
                    plan.push(match self.rng.below(8) {
                        0 => Planned::Blank,
                        1 => self.slip(),
                        _ => Planned::Any,
                    });
                }
                plan.push(commit());
                match self.rng.below(4) {
                    0 => plan.push(commit()),
                    1 => plan.extend([begin(), Planned::Any, commit()]),
                    2 => plan.push(self.held_pattern(server, slot)),
                    _ => {}
                }
            }
        }
        plan
    }

    /// A message that is refused in a transaction with 100, 101 or 103.
    fn slip(&mut self) -> Planned {
        match self.rng.below(6) {
            0..=1 => Planned::Command(Command::Begin),
            2 => Planned::Raw(b"COMMIT x\n".to_vec()),
            _ => Planned::Bad,
        }
    }

    /// A text client's queue with just as much room as the ERROR of a slip charges, or a byte
    /// less; then the slip and another one.
    fn plan_of_a_full_queue(&mut self) -> Vec<Planned> {
        let begin = || Planned::Command(Command::Begin);
        let (charge, slip) = match self.rng.below(3) {
            0 => (33, Planned::Raw(b"XX\n".to_vec())),
            1 => (31, Planned::Raw(b"SUB **\n".to_vec())),
            _ => (27, begin()),
        };
        let free = Some(charge - self.rng.below(2));
        let mut plan = vec![Planned::FillQueue { free }];
        if charge == 27 || self.rng.chance(50) {
            plan.push(begin());
        }
        plan.extend([slip, self.slip()]);
        plan
    }

    fn limit_plan(&mut self, server: &Server, slot: usize) -> Vec<Planned> {
        let over = self.rng.chance(50);
        let commit = || Planned::Command(Command::Commit);
        let begin = || Planned::Command(Command::Begin);
        let ping = || Planned::Command(Command::Ping(Vec::new()));
        let mut plan = Vec::new();
        match self.rng.below(12) {
            0 => {
                let free = (!over).then_some(0);
                plan.push(Planned::FillQueue { free });
                plan.push(ping());
            }
            1 => {
                plan.push(Planned::FillStore { over });
                plan.push(Planned::Any);
            }
            2 => {
                plan.push(begin());
                (0..self.rng.below(4)).for_each(|_| plan.push(Planned::Any));
                plan.push(Planned::FillRecording { over });
                plan.push(if self.rng.chance(50) {
                    commit()
                } else {
                    ping()
                });
            }
            3 => {
                // 64 or 65 small commands.
                plan.push(begin());
                for _ in 0..64 + usize::from(over) {
                    plan.push(self.small_command(server));
                }
                plan.push(if self.rng.chance(80) {
                    commit()
                } else {
                    begin()
                });
            }
            4 => {
                // 16 patterns, one of them again, and perhaps a 17th.
                (0..16 + usize::from(over)).for_each(|_| plan.push(self.fresh_pattern()));
                let held = self.held_pattern(server, slot);
                plan.push(held);
            }
            5 => {
                // A commit with more patterns than may be held.
                plan.push(begin());
                (0..self.rng.between(14, 18)).for_each(|_| plan.push(self.fresh_pattern()));
                plan.push(commit());
            }
            6 => {
                // A commit whose last WRITE has no room, though the store has it now.
                let left = self.profile.sizes.s.saturating_sub(server.store().used());
                let half = left / 2 + usize::from(over) * 12;
                plan.push(begin());
                for _ in 0..2 {
                    let key = format!("h{}", self.fresh).into_bytes();
                    self.fresh += 1;
                    let value = self.rng.word(b"01", half.saturating_sub(8 + key.len()));
                    plan.push(Planned::Command(Command::Write(key, Some(value))));
                }
                plan.push(commit());
            }
            7 => {
                // A commit that owes a lot: the same key over and over.
                plan.push(begin());
                plan.push(Planned::Command(Command::Sub(b"*".to_vec())));
                for turn in 0..self.rng.between(5, 40) {
                    let value = format!("{turn}").into_bytes();
                    plan.push(Planned::Command(Command::Write(b"a".to_vec(), Some(value))));
                }
                plan.push(commit());
            }
            8 => {
                // A SUB that sees the recording's own WRITEs.
                let key = messages::key(&mut self.rng, server);
                let write =
                    |v: &[u8]| Planned::Command(Command::Write(key.clone(), Some(v.to_vec())));
                plan.push(begin());
                plan.push(write(b"1"));
                plan.push(Planned::Command(Command::Read(key.clone())));
                plan.push(Planned::Command(Command::Sub(b"*".to_vec())));
                plan.push(Planned::Command(Command::Write(key.clone(), None)));
                plan.push(Planned::Command(Command::Read(key.clone())));
                plan.push(write(b"2"));
                plan.push(Planned::Command(Command::Unsub(b"*".to_vec())));
                plan.push(write(b"3"));
                plan.push(commit());
            }
            9 => {
                plan.push(begin());
                plan.push(Planned::Any);
                plan.push(begin());
            }
            10 => {
                // Emptying the store makes room again.
                for (key, _) in server.store().entries().take(40) {
                    plan.push(Planned::Command(Command::Write(key.to_vec(), None)));
                }
            }
            _ => {
                let length = 254 + self.rng.below(4);
                let long = self.rng.word(b"ab?.", length);
                let long = if over {
                    Command::Sub(long)
                } else {
                    Command::Unsub(long)
                };
                plan.push(Planned::Command(long));
            }
        }
        plan
    }

    fn small_command(&mut self, server: &Server) -> Planned {
        let key = vec![*self.rng.pick(b"abk")];
        Planned::Command(match self.rng.below(5) {
            0 => Command::Ping(Vec::new()),
            1 => Command::Read(key),
            2 => Command::Unsub(key),
            3 if server.store().used() + 60 < self.profile.sizes.s => {
                Command::Write(key, Some(Vec::new()))
            }
            _ => Command::Write(key, None),
        })
    }

    fn fresh_pattern(&mut self) -> Planned {
        self.fresh += 1;
        Planned::Command(Command::Sub(format!("f{}*", self.fresh % 50).into_bytes()))
    }

    fn held_pattern(&mut self, server: &Server, slot: usize) -> Planned {
        let bytes = messages::held(&mut self.rng, server, slot).unwrap_or(b"*".to_vec());
        let again = self.rng.chance(50);
        Planned::Command(if again {
            Command::Sub(bytes)
        } else {
            Command::Unsub(bytes)
        })
    }

    /// WRITEs of new keys up to 1,024 entries and past, a few by themselves and most of them in
    /// transactions.
    fn plan_of_entries(&mut self, server: &Server) -> Vec<Planned> {
        let mut plan = Vec::new();
        let missing = 1_025usize.saturating_sub(server.store().count());
        for number in 0..missing + 3 {
            let key = format!("{:03x}", (self.fresh + number) % 4_096).into_bytes();
            let in_group = number % 32;
            if in_group == 0 && number + 32 <= missing {
                plan.push(Planned::Command(Command::Begin));
            }
            plan.push(Planned::Command(Command::Write(key, Some(Vec::new()))));
            if in_group == 31 && number < missing {
                plan.push(Planned::Command(Command::Commit));
            }
        }
        self.fresh += missing;
        plan
    }

    /// Payloads at and past 65,535 bytes, and lines at and past their limit.
    fn huge_plan(&mut self, server: &Server, slot: usize) -> Vec<Planned> {
        let length = 65_533 + self.rng.below(5);
        let kind = server.client(slot).map(|client| client.kind());
        let is_text = match kind {
            Some(Kind::Text) => true,
            Some(Kind::Unfixed) => self.feeders[slot].text,
            _ => false,
        };
        vec![match self.rng.below(7) {
            0 => Planned::Command(Command::Ping(self.rng.word(b"x\"\\\n", length))),
            1 => {
                let value = self.rng.word(b"v\0\r", length - 2);
                Planned::Command(Command::Write(b"h".to_vec(), Some(value)))
            }
            2 => Planned::Command(Command::Read(self.rng.word(b"k", length))),
            3 => Planned::Command(Command::Write(self.rng.word(b"k", length), None)),
            4 => Planned::Command(Command::Hello(0, self.rng.word(b"t", length - 1))),
            5 if kind == Some(Kind::Packets) => Planned::Raw(messages::packet(
                self.rng.below(9) as u8,
                &vec![b'a'; 70_000],
            )),
            _ if is_text => {
                let mut line = b"PING ".to_vec();
                line.resize(262_149 + self.rng.below(5), *self.rng.pick(b" x"));
                if self.rng.chance(60) {
                    line.push(b'\n');
                }
                Planned::Raw(line)
            }
            _ => Planned::Command(Command::Sub(self.rng.word(b"a", length))),
        }]
    }
}

//! The simple server: set up, open, feed, take and close, and what each command does.

use std::collections::VecDeque;

use crate::patterns::Pattern;
use crate::reading::{self, Command, Kind};
use crate::store::Store;
use crate::writing::{self, Message};

/// The most patterns that a client holds.
pub const PATTERN_COUNT_LIMIT: usize = 16;
/// The most commands in a recording.
pub const RECORDED_LIMIT: usize = 64;
/// The part of each queue that is kept back for the ERROR.
pub const KEPT_ROOM: usize = 64;
/// What a queued message charges beside its bytes, and a recorded command beside its payload.
const OVERHEAD: usize = 4;

/// The numbers that a call gives back.
#[derive(Clone, Copy, Debug, PartialEq, Eq)]
pub struct Reply {
    pub answer: u32,
    /// The bytes that a feed consumed, or the length of the message that a take gave.
    pub count: usize,
}

impl Reply {
    fn only(answer: u32) -> Reply {
        Reply { answer, count: 0 }
    }
}

/// A slot from an open answered 0 to its close.
#[derive(Clone, Debug)]
pub struct Client {
    kind: Kind,
    /// Whether every refusal shuts it, since it was opened in form 2.
    hangs_up: bool,
    shut: bool,
    patterns: Vec<Pattern>,
    transaction: Transaction,
    queue: VecDeque<Vec<u8>>,
    /// The sum of the charges of the queued messages.
    queued: usize,
}

/// What a client's BEGIN has started.
#[derive(Clone, Debug)]
pub enum Transaction {
    Off,
    Begun(Recording),
    /// A refused message has spoiled it; what was recorded is dropped.
    Spoiled,
}

#[derive(Clone, Debug, Default)]
pub struct Recording {
    commands: Vec<Command>,
    /// The sum of the charges of the commands.
    used: usize,
}

impl Recording {
    pub fn commands(&self) -> &[Command] {
        &self.commands
    }

    pub fn count(&self) -> usize {
        self.commands.len()
    }

    pub fn used(&self) -> usize {
        self.used
    }
}

impl Client {
    fn new(kind: Kind, hangs_up: bool) -> Client {
        Client {
            kind,
            hangs_up,
            shut: false,
            patterns: Vec::new(),
            transaction: Transaction::Off,
            queue: VecDeque::new(),
            queued: 0,
        }
    }

    pub fn kind(&self) -> Kind {
        self.kind
    }

    pub fn hangs_up(&self) -> bool {
        self.hangs_up
    }

    pub fn is_shut(&self) -> bool {
        self.shut
    }

    pub fn patterns(&self) -> &[Pattern] {
        &self.patterns
    }

    pub fn transaction(&self) -> &Transaction {
        &self.transaction
    }

    pub fn is_spoiled(&self) -> bool {
        matches!(self.transaction, Transaction::Spoiled)
    }

    /// What is recorded, in a transaction that is not spoiled.
    pub fn recording(&self) -> Option<&Recording> {
        match &self.transaction {
            Transaction::Begun(recording) => Some(recording),
            Transaction::Off | Transaction::Spoiled => None,
        }
    }

    /// The sum of the charges of the queued messages.
    pub fn queued(&self) -> usize {
        self.queued
    }

    /// The queued messages, the next one to be taken first.
    pub fn queue(&self) -> impl Iterator<Item = &[u8]> {
        self.queue.iter().map(Vec::as_slice)
    }

    /// Whether at least one pattern matches the key.
    fn is_interested(&self, key: &[u8]) -> bool {
        self.patterns.iter().any(|pattern| pattern.matches(key).0)
    }

    fn push(&mut self, message: Vec<u8>) {
        self.queued += message.len() + OVERHEAD;
        self.queue.push_back(message);
    }

    /// Queues the messages where all of them fit beside what is queued, and else none.
    fn push_all(&mut self, messages: Vec<Vec<u8>>, queue_room: usize) -> bool {
        let charges = messages.iter().map(|message| message.len() + OVERHEAD);
        let fits = self.queued + charges.sum::<usize>() <= queue_room - KEPT_ROOM;
        if fits {
            messages.into_iter().for_each(|message| self.push(message));
        }
        fits
    }

    fn error(&self, refusal: u32) -> Vec<u8> {
        writing::encode(Message::Error(refusal), self.kind)
    }

    /// Queues the ERROR in the kept room and drops the patterns and the transaction.
    fn shut(&mut self, refusal: u32) {
        self.push(self.error(refusal));
        self.shut = true;
        self.patterns = Vec::new();
        self.transaction = Transaction::Off;
    }

    /// Refuses the client's message, and gives the answer. A text client that was opened in form 1
    /// stays open after 100, 101 and 103 if their ERROR fits in its queue, and is shut with 102 if
    /// not; a transaction is spoiled. Every other client is shut, and so is everyone by 102.
    fn refuse(&mut self, refusal: u32, queue_room: usize) -> u32 {
        let stays = self.kind == Kind::Text && !self.hangs_up && refusal != 102;
        if !stays {
            self.shut(refusal);
            return refusal;
        }
        if !self.push_all(vec![self.error(refusal)], queue_room) {
            self.shut(102);
            return 102;
        }
        if matches!(self.transaction, Transaction::Begun(_)) {
            self.transaction = Transaction::Spoiled;
        }
        refusal
    }
}

/// What one step does beside the store: the messages it owes to each slot, and what its WRITEs
/// found, so that a refused COMMIT can be taken back.
struct Step {
    owed: Vec<Vec<Vec<u8>>>,
    found: Vec<(Vec<u8>, Option<Vec<u8>>)>,
}

#[derive(Clone, Debug)]
pub struct Server {
    store: Store,
    queue_room: usize,
    record_room: usize,
    slots: Vec<Option<Client>>,
}

impl Server {
    /// A server with N slots, store room S, queue room Q and record room R, or 8.
    pub fn set_up(n: usize, s: usize, q: usize, r: usize) -> Result<Server, u32> {
        let fine = (1..=32).contains(&n)
            && (256..=1_048_576).contains(&s)
            && (1_024..=1_048_576).contains(&q)
            && (256..=262_144).contains(&r);
        if !fine {
            return Err(8);
        }
        Ok(Server {
            store: Store::new(s),
            queue_room: q,
            record_room: r,
            slots: (0..n).map(|_| None).collect(),
        })
    }

    pub fn store(&self) -> &Store {
        &self.store
    }

    /// The client in a slot, or `None` for a free slot and for a number of N or more.
    pub fn client(&self, slot: usize) -> Option<&Client> {
        self.slots.get(slot)?.as_ref()
    }

    pub fn open(&mut self, slot: usize, form: usize) -> Reply {
        let Some(place) = self.slots.get_mut(slot) else {
            return Reply::only(2);
        };
        let client = match form {
            0 => Client::new(Kind::Packets, false),
            1 => Client::new(Kind::Unfixed, false),
            2 => Client::new(Kind::Unfixed, true),
            _ => return Reply::only(8),
        };
        if place.is_some() {
            return Reply::only(4);
        }
        *place = Some(client);
        Reply::only(0)
    }

    pub fn close(&mut self, slot: usize) -> Reply {
        match self.slots.get_mut(slot).and_then(Option::take) {
            Some(_) => Reply::only(0),
            None => Reply::only(2),
        }
    }

    /// The next message, for an out slice of `room` bytes; empty beside a refusal.
    pub fn take(&mut self, slot: usize, room: usize) -> (Reply, Vec<u8>) {
        let refused = |answer| (Reply::only(answer), Vec::new());
        let Some(client) = self.slots.get_mut(slot).and_then(Option::as_mut) else {
            return refused(2);
        };
        match client.queue.front() {
            None => refused(6),
            Some(message) if message.len() > room => refused(5),
            Some(_) => {
                let message = client.queue.pop_front().unwrap_or_default();
                client.queued -= message.len() + OVERHEAD;
                (
                    Reply {
                        answer: 0,
                        count: message.len(),
                    },
                    message,
                )
            }
        }
    }

    /// Takes the first whole message of the input and obeys it.
    pub fn feed(&mut self, slot: usize, input: &[u8]) -> Reply {
        let Some(client) = self.slots.get_mut(slot).and_then(Option::as_mut) else {
            return Reply::only(2);
        };
        if client.shut {
            return Reply::only(3);
        }
        let kind = client.kind.of_input(input);
        let Some((message, count)) = reading::cut(kind, input) else {
            return Reply::only(1);
        };
        client.kind = kind;
        let done = match reading::decode(message) {
            Ok(None) => Ok(()),
            Ok(Some(command)) => self.obey(slot, command),
            Err(refusal) => Err(refusal),
        };
        let answer = match done {
            Ok(()) => 0,
            Err(refusal) => {
                let queue_room = self.queue_room;
                self.used_slot(slot).refuse(refusal, queue_room)
            }
        };
        Reply { answer, count }
    }

    fn used_slot(&mut self, slot: usize) -> &mut Client {
        self.slots[slot]
            .as_mut()
            .expect("the slot holds the client that is served")
    }

    /// Records the command or runs it as a step; a COMMIT ends the transaction in any case.
    fn obey(&mut self, slot: usize, command: Command) -> Result<(), u32> {
        let record_room = self.record_room;
        let client = self.used_slot(slot);
        match (command, &mut client.transaction) {
            (Command::Begin, Transaction::Off) => {
                client.transaction = Transaction::Begun(Recording::default());
                Ok(())
            }
            (Command::Begin, _) => Err(103),
            (Command::Commit, transaction) => {
                match std::mem::replace(transaction, Transaction::Off) {
                    Transaction::Off => Ok(()),
                    Transaction::Begun(recording) => self.step(slot, recording.commands),
                    Transaction::Spoiled => Err(103),
                }
            }
            (_, Transaction::Spoiled) => Ok(()),
            (command, Transaction::Begun(recording)) => {
                let charge = command.payload_length() + OVERHEAD;
                if recording.count() == RECORDED_LIMIT || recording.used + charge > record_room {
                    return Err(102);
                }
                recording.used += charge;
                recording.commands.push(command);
                Ok(())
            }
            (command, Transaction::Off) => self.step(slot, vec![command]),
        }
    }

    /// Runs the commands in order as one step: all of them, or none where one is refused.
    fn step(&mut self, slot: usize, commands: Vec<Command>) -> Result<(), u32> {
        // A step of one command that is refused has changed nothing.
        let is_commit = commands.len() > 1;
        let patterns = is_commit.then(|| self.used_slot(slot).patterns.clone());
        let mut step = Step {
            owed: vec![Vec::new(); self.slots.len()],
            found: Vec::new(),
        };
        for command in commands {
            if let Err(refusal) = self.run(slot, command, &mut step) {
                for (key, value) in step.found.into_iter().rev() {
                    self.store.set(&key, value);
                }
                if let Some(patterns) = patterns {
                    self.used_slot(slot).patterns = patterns;
                }
                return Err(refusal);
            }
        }
        self.deliver(step.owed);
        Ok(())
    }

    /// Runs one command at its turn.
    fn run(&mut self, slot: usize, command: Command, step: &mut Step) -> Result<(), u32> {
        let client = self.slots[slot].as_mut().expect("the slot of the feeder");
        let kind = client.kind;
        let mut owe = |message| step.owed[slot].push(writing::encode(message, kind));
        match command {
            Command::Hello { .. } => owe(Message::Version),
            Command::Ping(identifier) => owe(Message::Pong(&identifier)),
            Command::Read(key) => owe(Message::Info {
                key: &key,
                value: self.store.get(&key),
            }),
            Command::Sub(pattern) => {
                let matching = self
                    .store
                    .entries()
                    .filter(|(key, _)| pattern.matches(key).0);
                if !client
                    .patterns
                    .iter()
                    .any(|held| held.bytes() == pattern.bytes())
                {
                    if client.patterns.len() == PATTERN_COUNT_LIMIT {
                        return Err(102);
                    }
                    client.patterns.push(pattern.clone());
                }
                matching.for_each(|(key, value)| {
                    owe(Message::Info {
                        key,
                        value: Some(value),
                    })
                });
            }
            Command::Unsub(pattern) => {
                client
                    .patterns
                    .retain(|held| held.bytes() != pattern.bytes());
            }
            Command::Write { key, value } => return self.write(key, value, step),
            Command::Begin | Command::Commit => {}
        }
        Ok(())
    }

    /// A WRITE at its turn: 102 where the store after it would break a limit; an INFO to each
    /// client with a matching pattern where value or presence changes.
    fn write(&mut self, key: Vec<u8>, value: Option<Vec<u8>>, step: &mut Step) -> Result<(), u32> {
        if self.store.get(&key) == value.as_deref() {
            return Ok(());
        }
        if value
            .as_ref()
            .is_some_and(|value| !self.store.has_room(&key, value))
        {
            return Err(102);
        }
        for (owed, place) in step.owed.iter_mut().zip(&self.slots) {
            if let Some(client) = place.as_ref().filter(|client| client.is_interested(&key)) {
                let message = Message::Info {
                    key: &key,
                    value: value.as_deref(),
                };
                owed.push(writing::encode(message, client.kind));
            }
        }
        let found = self.store.set(&key, value);
        step.found.push((key, found));
        Ok(())
    }

    /// Queues to each client all that the step owes it, or shuts it where not all fits.
    fn deliver(&mut self, owed: Vec<Vec<Vec<u8>>>) {
        for (place, messages) in self.slots.iter_mut().zip(owed) {
            let (Some(client), false) = (place, messages.is_empty()) else {
                continue;
            };
            if !client.push_all(messages, self.queue_room) {
                client.shut(102);
            }
        }
    }
}

//! The calls on damaged memory.
//!
//! Memories in use are damaged on purpose (every number set to boundary values, rows swapped,
//! slices cut short) and at random. After each damage every call has to be answered 7, with no
//! lent byte altered, exactly when the checker of the layout says that a rule is broken.
//! Otherwise it has to be served: the answer is one of its table, what the memory means
//! afterwards is what the answer says, and the rules are kept again. Slices are lent at the edge
//! of forbidden pages, so that a read or write beyond them ends the program, or among bytes that
//! have to stay.
//!
//! INFOD3_DAMAGE_SEED=n runs another seed, INFOD3_DAMAGES=n so many random damages, and
//! INFOD3_DAMAGE_TRACE=1 prints each damage before its calls.

use infod3::raw;
use reference::reading::Kind;
use std::collections::BTreeMap;
use std::sync::atomic::{AtomicU64, Ordering};
use std::sync::Arc;
use std::time::{Duration, Instant};
use trials::alter::{alter, boundaries};
use trials::edges::edges;
use trials::expected::{check_served, check_set_up, client_of, fed, Call, Fed, SITUATIONS};
use trials::guard::{Guarded, How, Lent, Side};
use trials::layout::{self, number, put_number, Client, Image, Rule, Sizes, STORE, STORE_ROOM};
use trials::random::Random;
use trials::states::{command, frame, packet, states, State};

/// No call may take longer. It is far more than any call needs, and the machine may be busy.
const LONGEST: Duration = Duration::from_secs(5);

/// The seed of a run without INFOD3_DAMAGE_SEED.
const SEED: u64 = 20_261_116;

/// Random damages of a run without INFOD3_DAMAGES.
const RANDOM_DAMAGES: u64 = 200_000;

// ---- a watch over endless calls ----

/// Ends the program where a call does not end.
struct Watch {
    origin: Instant,
    /// The time in milliseconds, plus one, at which the running call began; 0 between calls.
    began: AtomicU64,
}

impl Watch {
    fn start() -> Arc<Watch> {
        let watch = Arc::new(Watch {
            origin: Instant::now(),
            began: AtomicU64::new(0),
        });
        let watcher = Arc::clone(&watch);
        std::thread::spawn(move || loop {
            std::thread::sleep(Duration::from_millis(500));
            let began = watcher.began.load(Ordering::Relaxed);
            let limit = LONGEST.as_millis() as u64;
            if began != 0 && watcher.now() > began + limit {
                eprintln!("a call has not ended after {LONGEST:?}");
                std::process::abort();
            }
        });
        watch
    }

    fn now(&self) -> u64 {
        self.origin.elapsed().as_millis() as u64 + 1
    }

    fn time<T>(&self, call: impl FnOnce() -> T) -> (T, Duration) {
        self.began.store(self.now(), Ordering::Relaxed);
        let begin = Instant::now();
        let result = call();
        let taken = begin.elapsed();
        self.began.store(0, Ordering::Relaxed);
        (result, taken)
    }
}

/// An input in pages that can only be read, once at each side of a forbidden page.
struct Input {
    pages: [Guarded; 2],
    len: usize,
}

impl Input {
    fn new(bytes: &[u8]) -> Input {
        Input {
            pages: [Side::Begins, Side::Ends].map(|side| Guarded::read_only(bytes, side)),
            len: bytes.len(),
        }
    }

    fn bytes(&self, side: Side) -> &[u8] {
        self.pages[usize::from(side == Side::Ends)].bytes(side, self.len)
    }
}

fn inputs() -> Vec<Input> {
    let mut all: Vec<Vec<u8>> = vec![vec![], vec![0], vec![7, 0], vec![0xFF; 9], b"PIN".to_vec()];
    let payloads: [(u8, &[u8]); 16] = [
        (0, b"\0"),
        (1, b"*"),
        (1, b"(site|a|k)*"),
        (1, b"**"),
        (2, b"*"),
        (3, b"k"),
        (3, b"site.1"),
        (4, b"k\0value"),
        (4, b"site.1\0"),
        (4, b"site.1.state\0clear"),
        (4, b"a"),
        (5, b""),
        (6, b""),
        (6, b""),
        (7, b"x"),
        (9, b""),
    ];
    for (id, payload) in payloads {
        all.push(packet(id, payload));
        all.push(frame(id, payload));
    }
    let lines = [
        "OOPS",
        "SUB **",
        "COMMIT x",
        "PING x",
        "SUB *",
        "SUB (a|s*|k?)",
        "UNSUB *",
        "READ a",
        "WRITE k value",
        "WRITE a",
        "COMMIT",
        "commit",
        "BEGIN",
        "",
        "  ",
        "HELLO",
        "WHAT",
        "WRITE site.1 \"a\\040b\"",
        "PING \"",
        "R \"\"",
    ];
    all.extend(lines.iter().map(|line| format!("{line}\n").into_bytes()));
    all.push(packet(7, &[1; 2000]));
    all.push(frame(4, &[&b"long\0"[..], &[2; 60_000]].concat()));
    all.push(vec![b' '; 300_000]);
    let mut random = Random::new(7);
    all.extend((0..40).map(|_| command(&mut random)));
    all.iter().map(|bytes| Input::new(bytes)).collect()
}

// ---- one trial ----

#[derive(Default)]
struct Tally {
    damages: u64,
    damages_broken: u64,
    calls: u64,
    served: u64,
    broken: BTreeMap<Rule, u64>,
    answers: BTreeMap<(&'static str, u32), u64>,
    /// What feeds that run no step came to.
    situations: BTreeMap<&'static str, u64>,
    slowest: Duration,
}

struct Trial {
    random: Random,
    inputs: Vec<Input>,
    watch: Arc<Watch>,
    mem: Lent,
    out: Lent,
    tally: Tally,
    trace: bool,
}

impl Trial {
    fn new(seed: u64, room: usize) -> Trial {
        Trial {
            random: Random::new(seed),
            inputs: inputs(),
            watch: Watch::start(),
            mem: Lent::new(room),
            out: Lent::new(262_144),
            tally: Tally::default(),
            trace: std::env::var_os("INFOD3_DAMAGE_TRACE").is_some(),
        }
    }

    fn how(&mut self) -> How {
        match self.random.below(5) {
            0 | 1 => How::Guarded(Side::Ends),
            2 | 3 => How::Guarded(Side::Begins),
            _ => How::Among(32 + self.random.below(16)),
        }
    }

    fn slot(&mut self, image: Option<&Image>) -> usize {
        let n = image.map_or(4, |image| image.sizes.n);
        match self.random.below(24) {
            0 => *self
                .random
                .pick(&[n, n + 1, 32, 33, u32::MAX as usize + 1, usize::MAX]),
            1 => self.random.below(n),
            _ => {
                let used = |&slot: &usize| image.is_none_or(|i| client_of(i, slot).is_some());
                let used: Vec<usize> = (0..n).filter(used).collect();
                if used.is_empty() {
                    0
                } else {
                    *self.random.pick(&used)
                }
            }
        }
    }

    /// The calls that a damage is tried with: each of the five kinds, and feed twice.
    fn calls(&mut self, image: Option<&Image>, sizes: Sizes) -> Vec<Call> {
        let mut calls = Vec::with_capacity(6);
        let form = *self.random.pick(&[0, 1, 1, 2, 2, 3, 256, usize::MAX]);
        let slot = self.random.below(sizes.n + 1);
        calls.push(Call::Open { slot, form });
        for _ in 0..2 {
            let mut slot = self.slot(image);
            let is_shut = |slot| {
                image
                    .and_then(|i| client_of(i, slot))
                    .is_some_and(|c| c.shut)
            };
            if is_shut(slot) {
                slot = self.slot(image);
            }
            let client = image.and_then(|i| client_of(i, slot));
            let kind = client.map_or(Kind::Packets, |client| client.kind);
            let input = self.input(kind);
            calls.push(Call::Feed { slot, input });
        }
        let slot = self.slot(image);
        let client = image.and_then(|i| client_of(i, slot));
        let first = client
            .and_then(Client::first_message)
            .map_or(0, <[u8]>::len);
        let rooms = [
            0,
            first.saturating_sub(1),
            first,
            first,
            first + 1,
            first + 500,
        ];
        let room = *self.random.pick(&rooms);
        calls.push(Call::Take { slot, room });
        let slot = self.slot(image);
        calls.push(Call::Close { slot });
        let Sizes { n, s, q, r } = sizes;
        calls.push(match self.random.below(6) {
            0 => Call::SetUp(n + 1, s, q, r),
            1 => Call::SetUp(n, s, q + 1, r),
            2 => Call::SetUp(33, s, q, usize::MAX),
            _ => Call::SetUp(n, s, q, r),
        });
        calls
    }

    /// An input, and mostly one that a client of this kind understands.
    fn input(&mut self, kind: Kind) -> usize {
        let mut index = 0;
        for _ in 0..6 {
            index = self.random.below(self.inputs.len());
            let bytes = self.inputs[index].bytes(Side::Begins);
            let suits = match (kind, bytes.first()) {
                (_, None) => false,
                (Kind::Packets, Some(id)) => *id < 8 && bytes.get(1) != Some(&0),
                (Kind::Unfixed, _) => true,
                (Kind::Framed, Some(id)) => *id < 8,
                (Kind::Text, Some(byte)) => *byte >= 0x40,
            };
            if suits {
                break;
            }
        }
        index
    }

    /// Tries the calls on a damaged memory that was set up with these sizes.
    fn damaged(&mut self, mem: &[u8], sizes: Sizes, what: &dyn Fn() -> String) {
        if self.trace {
            eprintln!("{}", what());
        }
        let rule = layout::broken(mem);
        let image = rule.is_none().then(|| layout::image(mem));
        self.tally.damages += 1;
        if let Some(rule) = rule {
            self.tally.damages_broken += 1;
            *self.tally.broken.entry(rule).or_default() += 1;
        }
        for call in self.calls(image.as_ref(), sizes) {
            if let Err(text) = self.called(call, mem, rule, image.as_ref()) {
                let rule = rule.map_or("no rule broken".to_string(), |rule| rule.to_string());
                panic!("{}; {rule}; {call:?}: {text}", what());
            }
        }
    }

    fn called(
        &mut self,
        call: Call,
        mem: &[u8],
        rule: Option<Rule>,
        image: Option<&Image>,
    ) -> Result<(), String> {
        if let Some(image) = image {
            self.note_feed(call, image);
        }
        let (how, how_out, how_in) = (self.how(), self.how(), self.how());
        let side = if how_in == How::Guarded(Side::Begins) {
            Side::Begins
        } else {
            Side::Ends
        };
        self.mem.load(how, mem);
        let room = if let Call::Take { room, .. } = call {
            room
        } else {
            0
        };
        let blank = vec![0x5A; room];
        self.out.load(how_out, &blank);
        let (lent, out) = (self.mem.slice(), self.out.slice());
        let mut input: &[u8] = &[];
        let (reply, taken) = match call {
            Call::SetUp(n, s, q, r) => self.watch.time(|| raw::set_up(lent, n, s, q, r)),
            Call::Open { slot, form } => self.watch.time(|| raw::open(lent, slot, form)),
            Call::Feed { slot, input: index } => {
                input = self.inputs[index].bytes(side);
                self.watch.time(|| raw::feed(lent, slot, input))
            }
            Call::Take { slot, .. } => self.watch.time(|| raw::take(lent, slot, out)),
            Call::Close { slot } => self.watch.time(|| raw::close(lent, slot)),
        };
        self.tally.calls += 1;
        self.tally.slowest = self.tally.slowest.max(taken);
        *self
            .tally
            .answers
            .entry((call.name(), reply.answer))
            .or_default() += 1;

        let (after, out) = (self.mem.bytes(), self.out.bytes());
        let err = |text: String| Err(format!("answer {} {}: {text}", reply.answer, reply.count));
        if taken > LONGEST {
            return err(format!("it took {taken:?}"));
        }
        if !self.mem.surroundings_are_kept() || !self.out.surroundings_are_kept() {
            return err("bytes around a lent slice are altered".to_string());
        }
        if (1..=8).contains(&reply.answer) && (reply.count != 0 || after != mem || out != blank) {
            return err("a byte is altered or a count is given".to_string());
        }
        if let Call::SetUp(n, s, q, r) = call {
            return check_set_up(Sizes { n, s, q, r }, reply, mem, after).or_else(err);
        }
        if (reply.answer == 7) != rule.is_some() {
            return err("answer 7 and the rules disagree".to_string());
        }
        let Some(image) = image else {
            return Ok(());
        };
        self.tally.served += 1;
        let written = if reply.answer == 0 {
            reply.count.min(room)
        } else {
            0
        };
        if out[written..] != blank[written..] {
            return err("more of the out slice is altered than the message".to_string());
        }
        let size = image.sizes.memory_size();
        if after[size..] != mem[size..] {
            return err("a byte behind the slots is altered".to_string());
        }
        if let Some(rule) = layout::broken(after) {
            return err(format!("the memory it leaves breaks {rule}"));
        }
        check_served(call, reply, image, after, input, out).or_else(err)
    }

    /// Counts what a feed to an open client comes to.
    fn note_feed(&mut self, call: Call, image: &Image) {
        let Call::Feed { slot, input } = call else {
            return;
        };
        let Some(client) = client_of(image, slot).filter(|client| !client.shut) else {
            return;
        };
        let input = self.inputs[input].bytes(Side::Begins);
        if let Fed::Told { situation, .. } = fed(client, image.sizes, input) {
            assert!(SITUATIONS.contains(&situation), "{situation} is listed");
            *self.tally.situations.entry(situation).or_default() += 1;
        }
    }
}

// ---- damages on purpose ----

/// Up to eight of the fields of each name: the first and last ones, and two at random.
fn some_of_each(fields: Vec<layout::Field>, random: &mut Random) -> Vec<layout::Field> {
    let mut by_name: BTreeMap<&str, Vec<layout::Field>> = BTreeMap::new();
    for field in fields {
        by_name.entry(field.name).or_default().push(field);
    }
    let mut chosen = Vec::new();
    for mut same in by_name.into_values() {
        while same.len() > 8 {
            let at = 3 + random.below(same.len() - 6);
            same.remove(at);
        }
        chosen.extend(same);
    }
    chosen
}

fn every_number(trial: &mut Trial, state: &State) {
    let sizes = Sizes::named(&state.mem).unwrap();
    let large = state.mem.len() > 100_000;
    let mut mem = state.mem.clone();
    for field in some_of_each(layout::fields(&state.mem), &mut trial.random) {
        let present = number(&mem, field.at, field.width);
        for value in boundaries(sizes, field.width, present) {
            if value == present || (large && !trial.random.one_in(8)) {
                continue;
            }
            put_number(&mut mem, field.at, field.width, value);
            trial.damaged(&mem, sizes, &|| {
                format!("{}: {} at {} is {value}", state.name, field.name, field.at)
            });
        }
        put_number(&mut mem, field.at, field.width, present);
    }
}

fn every_length(trial: &mut Trial, state: &State) {
    let sizes = Sizes::named(&state.mem).unwrap();
    let size = state.mem.len();
    let slot = sizes.slot(sizes.n - 1);
    let mut lengths = vec![
        0,
        1,
        3,
        4,
        5,
        16,
        19,
        20,
        21,
        24,
        27,
        28,
        29,
        28 + sizes.s,
        slot,
        slot + 1,
        slot + 4104,
        sizes.queue(0),
        size - 1,
        size,
        size + 1,
        size + 7,
        size + 4096,
    ];
    lengths.extend((0..8).map(|_| trial.random.below(size)));
    for len in lengths {
        let mut mem = state.mem.clone();
        let old = mem.len();
        mem.resize(len, 0);
        if len > old {
            trial.random.fill(&mut mem[old..]);
        }
        trial.damaged(&mem, sizes, &|| {
            format!("{}: {len} bytes of {size}", state.name)
        });
    }
}

/// Every rule at its edge.
fn every_edge(trial: &mut Trial, state: &State) {
    let sizes = Sizes::named(&state.mem).unwrap();
    let large = state.mem.len() > 100_000;
    edges(&state.mem, &mut |edge, mem| {
        if !large || trial.random.one_in(4) {
            trial.damaged(mem, sizes, &|| format!("{}: {edge}", state.name));
        }
    });
}

// ---- damages at random ----

fn random_damages(trial: &mut Trial, states: &[State], damages: u64) {
    let small: Vec<&State> = states.iter().filter(|s| s.mem.len() < 100_000).collect();
    let large: Vec<&State> = states.iter().filter(|s| s.mem.len() >= 100_000).collect();
    for turn in 0..damages {
        let group = if trial.random.one_in(200) {
            &large
        } else {
            &small
        };
        let state = *trial.random.pick(group);
        let sizes = Sizes::named(&state.mem).unwrap();
        let mut mem = state.mem.clone();
        let mut how = Vec::new();
        for _ in 0..=trial.random.below(3) {
            how.push(alter(&mut mem, &mut trial.random));
        }
        trial.damaged(&mem, sizes, &|| {
            format!("{}, random damage {turn}: {}", state.name, how.join(", "))
        });
    }
}

/// Memories of nothing but random bytes behind a good head.
fn random_memories(trial: &mut Trial) {
    let sizes = Sizes {
        n: 2,
        s: 256,
        q: 1024,
        r: 256,
    };
    let mut mem = vec![0; sizes.memory_size()];
    for turn in 0..2000 {
        trial.random.fill(&mut mem);
        if turn % 4 > 0 {
            mem[..4].copy_from_slice(b"inf3");
        }
        if turn % 4 > 1 {
            for (i, size) in [sizes.n, sizes.s, sizes.q, sizes.r].into_iter().enumerate() {
                put_number(&mut mem, 4 + 4 * i, 4, size);
            }
        }
        if turn % 4 > 2 {
            mem[STORE..STORE_ROOM].fill(0);
        }
        trial.damaged(&mem, sizes, &|| format!("random memory {turn}"));
    }
}

fn print(tally: &Tally, seed: u64, begin: Instant) {
    let served = tally.damages - tally.damages_broken;
    println!(
        "damage: seed {seed}, {} damages in {:.1} s, {} of them break a rule and {served} do not",
        tally.damages,
        begin.elapsed().as_secs_f64(),
        tally.damages_broken
    );
    println!(
        "damage: {} calls, {} of them served, the slowest in {:?}",
        tally.calls, tally.served, tally.slowest
    );
    for rule in Rule::ALL {
        let count = tally.broken.get(&rule).copied().unwrap_or(0);
        println!("damage: {count:>8} damages break {rule}");
    }
    let mut line = String::new();
    for ((call, answer), count) in &tally.answers {
        line.push_str(&format!(" {call} {answer}: {count};"));
    }
    println!("damage: answers:{line}");
    let mut line = String::new();
    for (situation, count) in &tally.situations {
        line.push_str(&format!(" {situation}: {count};"));
    }
    println!("damage: feeds that run no step:{line}");
}

fn from_environment(name: &str) -> Option<u64> {
    let text = std::env::var(name).ok()?;
    Some(
        text.parse()
            .unwrap_or_else(|_| panic!("{name}={text} is no number")),
    )
}

#[test]
fn every_call_on_damaged_memory() {
    let begin = Instant::now();
    let seed = from_environment("INFOD3_DAMAGE_SEED").unwrap_or(SEED);
    let damages = from_environment("INFOD3_DAMAGES").unwrap_or(RANDOM_DAMAGES);
    let states = states(&mut Random::new(seed));
    let room = states
        .iter()
        .map(|state| state.mem.len())
        .max()
        .unwrap_or(0);
    let mut trial = Trial::new(seed, room + 100_000);
    for state in &states {
        every_length(&mut trial, state);
        every_number(&mut trial, state);
        every_edge(&mut trial, state);
    }
    random_memories(&mut trial);
    random_damages(&mut trial, &states, damages);
    print(&trial.tally, seed, begin);
    for rule in Rule::ALL {
        assert!(
            trial.tally.broken.contains_key(&rule),
            "no damage breaks {rule}"
        );
    }
    for situation in SITUATIONS {
        assert!(
            trial.tally.situations.contains_key(situation),
            "no feed comes to: {situation}"
        );
    }
    assert!(trial.tally.served > 10_000, "too few calls are served");
}

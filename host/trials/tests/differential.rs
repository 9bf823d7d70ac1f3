//! Long random lists of calls on the library and on the reference, compared call by call.
//!
//! Each call's numbers and message bytes are compared. A call answered 1 to 8 leaves the whole
//! memory and the out slice byte for byte as they were; a take alters nothing but its message's
//! bytes. At the end of each list all queues are drained and every key is read back.
//!
//! The tests run fixed seeds. Other ones are run by hand:
//!
//! ```text
//! INFOD3_SEED=7 INFOD3_CALLS=1000000 cargo test --release --test differential -- --nocapture
//! ```
//!
//! INFOD3_SEED is the seed of nine lists: eight of fixed sizes and one of random ones.
//! INFOD3_CALLS is the number of calls of each list, 20,000 if it is not set; a large memory gets
//! a twentieth of them. A mismatch prints its seed, its call and a short list that shows it. How
//! often each answer, message and notable situation was reached is printed too; with the fixed
//! seeds, one of them that was never reached is a failure.

use std::time::{Duration, Instant};

use infod3::raw;
use reference::reading::Kind;
use reference::Reply;
use trials::generator::messages;
use trials::generator::{Generator, Profile};
use trials::observed::Observed;
use trials::pair::{shown, Call, Pair, Sizes};
use trials::random::Random;

const PROFILES: [Profile; 8] = [
    profile(Sizes::new(2, 256, 1_024, 256), 40, 3, 8),
    profile(Sizes::new(3, 512, 1_100, 700), 120, 1, 25),
    profile(Sizes::new(4, 1_024, 2_048, 300), 100, 1, 15),
    profile(Sizes::new(1, 300, 1_024, 1_024), 60, 4, 10),
    profile(Sizes::new(32, 8_192, 1_500, 400), 100, 1, 40),
    Profile {
        entries: 60,
        ..profile(Sizes::new(3, 16_384, 4_096, 2_048), 30, 1, 25)
    },
    Profile {
        huge: 25,
        ..profile(Sizes::new(4, 200_000, 140_000, 70_000), 3_000, 1, 20)
    },
    Profile {
        huge: 12,
        ..profile(Sizes::new(2, 1_048_576, 1_048_576, 262_144), 60_000, 1, 20)
    },
];

const fn profile(sizes: Sizes, longest: usize, bad: usize, limits: usize) -> Profile {
    Profile {
        sizes,
        longest,
        bad,
        limits,
        huge: 400,
        entries: usize::MAX,
    }
}

/// The profiles of a seed: the fixed ones, and one of random sizes.
fn profiles(seed: u64) -> Vec<Profile> {
    let mut random = Random::new(seed);
    let sizes = Sizes::new(
        random.between(1, 32),
        256 << random.below(8) | random.below(256),
        1_024 << random.below(4) | random.below(1_024),
        256 << random.below(6) | random.below(256),
    );
    let longest = 20 << random.below(5);
    let by_chance = profile(sizes, longest, random.between(1, 4), random.between(5, 50));
    PROFILES.into_iter().chain([by_chance]).collect()
}

/// A number from the environment.
fn from_environment(name: &str) -> Option<u64> {
    std::env::var(name)
        .ok()
        .map(|text| text.parse().expect("a number"))
}

/// A list that ends with a mismatch, and the mismatch.
struct Mismatch {
    calls: Vec<Call>,
    difference: String,
}

/// The bytes lent beyond need, by the seed.
fn extra(seed: u64) -> usize {
    (seed % 4) as usize
}

/// Makes so many calls, then drains and reads back.
fn run(seed: u64, profile: Profile, calls: usize, seen: &mut Observed) -> Result<(), Mismatch> {
    let mut pair = Pair::new(profile.sizes, extra(seed));
    let mut generator = Generator::new(seed, profile);
    let mut list = Vec::new();
    for _ in 0..calls {
        let call = generator.next(&pair.reference);
        let (slot, reply) = step(&mut pair, call, &mut list, seen)?;
        if let Some(slot) = slot {
            generator.after_feed(slot, reply, &pair.reference);
        }
    }
    finish(&mut pair, &mut list, seen)
}

/// Makes one call of the list; gives the slot of a feed, and the call's numbers.
fn step(
    pair: &mut Pair,
    call: Call,
    list: &mut Vec<Call>,
    seen: &mut Observed,
) -> Result<(Option<usize>, Reply), Mismatch> {
    let before = seen.before(&call, pair);
    list.push(call);
    let call = &list[list.len() - 1];
    match pair.call(call) {
        Ok((reply, message)) => {
            seen.after(call, before, reply, &message, pair);
            let slot = match call {
                Call::Feed { slot, .. } => Some(*slot),
                _ => None,
            };
            Ok((slot, reply))
        }
        Err(difference) => Err(Mismatch {
            calls: std::mem::take(list),
            difference,
        }),
    }
}

/// Drains and closes every slot, and reads every key of the store back.
fn finish(pair: &mut Pair, list: &mut Vec<Call>, seen: &mut Observed) -> Result<(), Mismatch> {
    for slot in 0..pair.sizes.n + 1 {
        loop {
            let next = pair
                .reference
                .client(slot)
                .and_then(|client| client.queue().next());
            let room = next.map_or(0, <[u8]>::len);
            let (_, reply) = step(pair, Call::Take { slot, room }, list, seen)?;
            if reply.answer != 0 {
                break;
            }
        }
        step(pair, Call::Close { slot }, list, seen)?;
    }
    let mut keys: Vec<Vec<u8>> = pair
        .reference
        .store()
        .entries()
        .map(|(key, _)| key.to_vec())
        .collect();
    keys.push(b"nothing".to_vec());
    for key in keys {
        let input = messages::packet(3, &key);
        step(pair, Call::Open { slot: 0, form: 0 }, list, seen)?;
        step(pair, Call::Feed { slot: 0, input }, list, seen)?;
        step(
            pair,
            Call::Take {
                slot: 0,
                room: 65_600,
            },
            list,
            seen,
        )?;
        step(pair, Call::Close { slot: 0 }, list, seen)?;
    }
    if !pair.extra_is_kept() {
        let difference = "bytes behind the memory's size are altered".to_string();
        return Err(Mismatch {
            calls: std::mem::take(list),
            difference,
        });
    }
    Ok(())
}

/// The difference at the end of this list, or `None` where the two agree throughout.
fn replay(sizes: Sizes, extra: usize, calls: &[Call]) -> Option<(usize, String)> {
    let mut pair = Pair::new(sizes, extra);
    for (number, call) in calls.iter().enumerate() {
        if let Err(difference) = pair.call(call) {
            return Some((number, difference));
        }
    }
    None
}

/// Leaves out calls, in ever smaller runs, as long as the two still differ.
fn shrink(sizes: Sizes, extra: usize, mut calls: Vec<Call>) -> Vec<Call> {
    let until = Instant::now() + Duration::from_secs(20);
    let mut length = calls.len() / 2;
    while length > 0 && Instant::now() < until {
        let mut at = 0;
        while at < calls.len() && Instant::now() < until {
            let end = calls.len().min(at + length);
            let shorter = [&calls[..at], &calls[end..]].concat();
            match replay(sizes, extra, &shorter) {
                Some((last, _)) => calls = shorter[..=last].to_vec(),
                None => at += length,
            }
        }
        length /= 2;
    }
    calls
}

/// Prints a mismatch with a short list that shows it, and fails.
fn fail(seed: u64, profile: Profile, mismatch: Mismatch) -> ! {
    let Mismatch { calls, difference } = mismatch;
    let number = calls.len();
    println!("INFOD3_SEED={seed}, {:?}", profile.sizes);
    println!("call {number}: {:?}", calls[number - 1]);
    println!("{difference}");
    let short = shrink(profile.sizes, extra(seed), calls);
    println!("the same with {} calls:", short.len());
    short.iter().for_each(|call| println!("  {call:?}"));
    if let Some((_, difference)) = replay(profile.sizes, extra(seed), &short) {
        println!("{difference}");
    }
    panic!("the library and the reference differ (INFOD3_SEED={seed}, call {number})");
}

#[test]
fn random_calls() {
    let first = from_environment("INFOD3_SEED");
    let calls = from_environment("INFOD3_CALLS").unwrap_or(20_000) as usize;
    let seeds = if first.is_some() { 1 } else { 6 };
    let mut seen = Observed::default();
    let began = Instant::now();
    for seed in (0..seeds).map(|number| first.unwrap_or(1) + number) {
        for profile in profiles(seed) {
            let is_large = profile.sizes.memory_size() > 500_000;
            let calls = if is_large { calls / 20 } else { calls };
            if let Err(mismatch) = run(seed, profile, calls, &mut seen) {
                fail(seed, profile, mismatch);
            }
        }
    }
    let took = began.elapsed().as_secs_f64();
    let (calls, summary) = (seen.calls(), seen.summary());
    println!(
        "\n{}differential: {calls} calls in {took:.1} s, {summary}",
        seen.lines()
    );
    if first.is_none() {
        let missing = seen.missing();
        assert!(missing.is_empty(), "never reached: {missing:#?}");
    }
}

/// What happens to the streams of a run.
#[derive(Clone)]
enum Event {
    Arrive { slot: usize, bytes: Vec<u8> },
    Drain { slot: usize },
}

/// What a host sees: the numbers of a feed other than 1, or a message taken.
#[derive(Clone, Debug, PartialEq, Eq)]
enum Sight {
    Fed {
        slot: usize,
        answer: u32,
        count: usize,
    },
    Taken {
        slot: usize,
        message: Vec<u8>,
    },
}

/// A host with streams in all slots: it keeps what a feed has not consumed.
struct Host {
    pair: Pair,
    /// The form of each slot's clients.
    forms: Vec<usize>,
    pending: Vec<Vec<u8>>,
    sights: Vec<Sight>,
}

impl Host {
    fn new(sizes: Sizes, forms: &[usize]) -> Host {
        let mut pair = Pair::new(sizes, 1);
        for (slot, form) in forms.iter().enumerate() {
            assert_eq!(pair.open(slot, *form), 0);
        }
        Host {
            pair,
            forms: forms.to_vec(),
            pending: vec![Vec::new(); sizes.n],
            sights: Vec::new(),
        }
    }

    fn is_shut(&self, slot: usize) -> bool {
        let client = self.pair.reference.client(slot);
        client.is_some_and(|client| client.is_shut())
    }

    fn drain(&mut self, slot: usize) {
        let messages = self.pair.drain(slot);
        self.sights.extend(
            messages
                .into_iter()
                .map(|message| Sight::Taken { slot, message }),
        );
    }

    /// Adds the bytes, in pieces of these lengths, and feeds after each piece as long as there
    /// is a whole message. A shut client is drained and its slot reopened, and what is left of
    /// its bytes is dropped.
    fn arrive(&mut self, slot: usize, bytes: &[u8], pieces: &[usize]) {
        let mut rest = bytes;
        for &length in pieces.iter().chain(&[usize::MAX]) {
            let (piece, after) = rest.split_at(length.min(rest.len()));
            rest = after;
            self.pending[slot].extend_from_slice(piece);
            loop {
                let (answer, count) = self.pair.feed(slot, &self.pending[slot]);
                if answer == 1 {
                    break;
                }
                self.sights.push(Sight::Fed {
                    slot,
                    answer,
                    count,
                });
                if answer != 0 && self.is_shut(slot) {
                    self.pending[slot].clear();
                    self.drain(slot);
                    let form = self.forms[slot];
                    assert_eq!((self.pair.close(slot), self.pair.open(slot, form)), (0, 0));
                    return;
                }
                self.pending[slot].drain(..count);
            }
        }
    }

    fn finish(mut self) -> Vec<Sight> {
        (0..self.pending.len()).for_each(|slot| self.drain(slot));
        self.sights
    }
}

/// Random streams, fed whole as they come; the events and what the host saw.
fn whole_streams(rng: &mut Random, sizes: Sizes, forms: &[usize]) -> (Vec<Event>, Vec<Sight>) {
    let mut host = Host::new(sizes, forms);
    let mut unsent = vec![Vec::new(); sizes.n];
    let mut events = Vec::new();
    for _ in 0..150 {
        let slot = rng.below(sizes.n);
        if rng.chance(15) {
            host.drain(slot);
            events.push(Event::Drain { slot });
            continue;
        }
        let server = &host.pair.reference;
        let kind = server
            .client(slot)
            .map_or(Kind::Unfixed, |client| client.kind());
        let text = rng.chance(50);
        if kind == Kind::Unfixed {
            unsent[slot].clear();
        }
        let mut bytes: Vec<u8> = std::mem::take(&mut unsent[slot]);
        for _ in 0..rng.between(1, 5) {
            let command = messages::command(rng, server, slot, 60);
            let stays = kind == Kind::Text && forms[slot] == 1;
            bytes.extend(match rng.below(40) {
                0 => messages::bad_message(rng, kind, text),
                5..=7 if stays => messages::bad_message(rng, kind, text),
                1 => messages::encode(rng, &messages::Command::Begin, kind, text),
                2..=4 => messages::encode(rng, &messages::Command::Commit, kind, text),
                _ => messages::encode(rng, &command, kind, text),
            });
        }
        if kind != Kind::Unfixed && rng.chance(30) {
            unsent[slot] = bytes.split_off(rng.below(bytes.len() + 1));
        }
        host.arrive(slot, &bytes, &[]);
        events.push(Event::Arrive { slot, bytes });
    }
    (events, host.finish())
}

/// The same events with each arrival cut into random pieces.
fn cut_streams(rng: &mut Random, sizes: Sizes, forms: &[usize], events: &[Event]) -> Vec<Sight> {
    let mut host = Host::new(sizes, forms);
    for event in events {
        match event {
            Event::Drain { slot } => host.drain(*slot),
            Event::Arrive { slot, bytes } => {
                let longest = *rng.pick(&[1, 3, 10, 60]);
                let pieces: Vec<usize> = (0..20).map(|_| rng.between(0, longest)).collect();
                host.arrive(*slot, bytes, &pieces);
            }
        }
    }
    host.finish()
}

#[test]
fn streams_cut_anywhere() {
    let seeds = match from_environment("INFOD3_SEED") {
        Some(seed) => seed..seed + 1,
        None => 1..400,
    };
    let (mut fed, mut refused) = (0, 0);
    for seed in seeds {
        let mut rng = Random::new(seed);
        let sizes = if rng.chance(50) {
            Sizes::new(3, 1_024, 2_048, 512)
        } else {
            Sizes::new(2, 4_096, 8_192, 1_024)
        };
        let forms: Vec<usize> = (0..sizes.n).map(|_| *rng.pick(&[1, 1, 2])).collect();
        let (events, whole) = whole_streams(&mut rng, sizes, &forms);
        for _ in 0..2 {
            let cut = cut_streams(&mut rng, sizes, &forms, &events);
            let same = whole.iter().zip(&cut).take_while(|(a, b)| a == b).count();
            let differ = (whole.get(same), cut.get(same));
            assert!(
                whole == cut,
                "seed {seed}: sight {same}, whole and cut: {differ:?}"
            );
        }
        let count = |is_counted: fn(u32) -> bool| {
            let is_one =
                |sight: &&Sight| matches!(sight, Sight::Fed { answer, .. } if is_counted(*answer));
            whole.iter().filter(is_one).count()
        };
        fed += count(|_| true);
        refused += count(|answer| answer >= 100);
    }
    println!("\ndifferential: {fed} messages of streams, {refused} refused, each cut in two ways");
    assert!(from_environment("INFOD3_SEED").is_some() || refused > 1_000);
}

#[test]
fn streams_cut_at_every_byte() {
    let streams: [&[u8]; 11] = [
        b"SUB a*\r\nWRITE ab \"1 2\"\r\nREAD \"a\\142\"\r\nPING\r\n",
        b"\n\r \n b\nw k 1\nr k\nc\n\n",
        b"  hello 0 \"x\\000y\"\nping \"a\nb\"\nping\n",
        b"unknown word\nping\n",
        b"b\nw k 1\noops\nw k 2\n\nb\nc x\nc\nc\nr k\n",
        b"s **\rs *\rw k 1\rb\rb\rw k 2\rc\rb\rw k 3\rc\r",
        b"\x01\0\x01*\x04\0\x04k\0\0v\x03\0\x01k\x07\0\0\x04\0\x01k",
        b"\0\0\x01\x05\x05\0\0\x04\0\x02a\0\x03\0\x01a\x06\0\0\x05\0\0\x05\0\0",
        b"\x07\0\x0c0123456789\n\r\x90\0\x03abc\x07\0\0",
        b"\"\0\x01\nPING\n",
        b"\x03\0\x02a\0\x07\0\0",
    ];
    let sizes = Sizes::new(1, 256, 1_024, 256);
    for (stream, form) in streams.iter().flat_map(|stream| [(stream, 1), (stream, 2)]) {
        let seen = |pieces: &[usize]| {
            let mut host = Host::new(sizes, &[form]);
            host.arrive(0, stream, pieces);
            host.finish()
        };
        let whole = seen(&[]);
        let name = format!("{} in form {form}", shown(stream));
        for first in 0..=stream.len() {
            assert_eq!(seen(&[first]), whole, "{name} cut at {first}");
            for second in 0..=stream.len() - first {
                let pieces = [first, second];
                assert_eq!(seen(&pieces), whole, "{name} cut at {pieces:?}");
            }
        }
        assert_eq!(seen(&vec![1; stream.len()]), whole, "{name} by bytes");
    }
}

/// A packet that writes, deletes or reads one of so many keys.
fn of_some_key(rng: &mut Random, keys: usize) -> Vec<u8> {
    let key = format!("{:05}", rng.below(keys) * 64 % 65_537);
    let length = rng.below(40);
    match rng.below(10) {
        0..=5 => messages::packet(
            4,
            &[key.as_bytes(), b"\0", &rng.word(b"ab\0", length)].concat(),
        ),
        6..=7 => messages::packet(4, key.as_bytes()),
        _ => messages::packet(3, key.as_bytes()),
    }
}

/// WRITEs, deletions and READs of keys anywhere in large stores, plain and in transactions: rows
/// of other lengths come and go while a COMMIT runs. At the end every key is read back.
#[test]
fn many_keys() {
    let seeds = match from_environment("INFOD3_SEED") {
        Some(seed) => seed..seed + 1,
        None => 1..60,
    };
    let mut seen = Observed::default();
    let mut largest = 0;
    for seed in seeds {
        let mut rng = Random::new(seed);
        let mut pair = Pair::new(Sizes::new(1, 65_536, 65_536, 16_384), extra(seed));
        let keys = rng.between(20, 1_200);
        assert_eq!(pair.open(0, 0), 0);
        for _ in 0..rng.below(2 * keys) {
            pair.feed(0, &of_some_key(&mut rng, keys));
            pair.drain(0);
        }
        for _ in 0..30 {
            pair.feed(0, &messages::packet(5, b""));
            for _ in 0..rng.between(1, 64) {
                pair.feed(0, &of_some_key(&mut rng, keys));
            }
            let (answer, _) = pair.feed(0, &messages::packet(6, b""));
            pair.drain(0);
            if answer != 0 {
                assert_eq!((pair.close(0), pair.open(0, 0)), (0, 0));
            }
            largest = largest.max(pair.reference.store().entries().count());
        }
        if let Err(mismatch) = finish(&mut pair, &mut Vec::new(), &mut seen) {
            panic!("seed {seed}: {}", mismatch.difference);
        }
    }
    println!("\ndifferential: stores of up to {largest} keys, and transactions in them");
    assert!(from_environment("INFOD3_SEED").is_some() || largest > 600);
}

/// What matches have given: refused with 101, with 102, no and yes.
#[derive(Default)]
struct Matches {
    counts: [u64; 4],
}

impl Matches {
    /// Compares a match of both, and the steps with the paper's bound.
    fn compare(&mut self, pattern: &[u8], key: &[u8]) {
        let given = raw::matches(pattern, key);
        let expected = reference::matches(pattern, key);
        let numbers = (expected.answer, expected.matched, expected.steps);
        assert_eq!(
            (given.answer, given.matched, given.steps),
            numbers,
            "pattern {} key {}: the library, and the reference",
            shown(pattern),
            shown(key)
        );
        assert!(
            given.steps <= pattern.len() * (key.len() + 1),
            "steps of {}",
            shown(pattern)
        );
        self.counts[match numbers {
            (101, ..) => 0,
            (102, ..) => 1,
            (_, false, _) => 2,
            _ => 3,
        }] += 1;
    }

    fn print(&self, name: &str) {
        let [invalid, long, no, yes] = self.counts;
        println!("\ndifferential: {name}: {invalid} invalid, {long} too long, {no} no, {yes} yes");
    }
}

#[test]
fn all_short_patterns() {
    let mut matches = Matches::default();
    let keys = messages::all_words(b"ab", 3);
    for pattern in messages::all_words(b"ab(|)*?\\", 5) {
        keys.iter().for_each(|key| matches.compare(&pattern, key));
    }
    matches.print("all short patterns");
}

#[test]
fn random_patterns() {
    let mut rng = Random::new(from_environment("INFOD3_SEED").unwrap_or(1));
    let mut matches = Matches::default();
    for _ in 0..400_000 {
        let length = rng.below(14);
        let pattern = match rng.below(10) {
            0..=5 => messages::valid_pattern(&mut rng, 0),
            6 => {
                let valid = messages::valid_pattern(&mut rng, 0);
                messages::mutated(&mut rng, valid)
            }
            7 => rng.word(b"a().|*", length),
            8 => rng.word(b"ab.(|)*?\\", length),
            _ => (0..length).map(|_| rng.below(256) as u8).collect(),
        };
        for _ in 0..3 {
            let length = rng.below(9);
            let key = match rng.below(8) {
                0 => (0..length).map(|_| rng.below(256) as u8).collect(),
                1 => rng.word(b"a*(|)?\\", length),
                _ => rng.word(b"abc.", length),
            };
            matches.compare(&pattern, &key);
        }
    }
    for _ in 0..3_000 {
        let length = 240 + rng.below(30);
        let mut pattern = Vec::new();
        while pattern.len() < length {
            pattern.extend(messages::valid_pattern(&mut rng, 0));
            pattern.extend_from_slice(b"?");
        }
        pattern.truncate(length);
        let length = match rng.below(30) {
            0 => 65_533 + rng.below(5),
            _ => rng.below(600),
        };
        let key = rng.word(b"abc.", length);
        matches.compare(&pattern, &key);
        matches.compare(&pattern, &pattern);
        matches.compare(b"(*.|*b)(a|*c)*", &key);
    }
    matches.print("random patterns");
    assert!(
        matches.counts.iter().all(|&count| count > 0),
        "each outcome is reached"
    );
}

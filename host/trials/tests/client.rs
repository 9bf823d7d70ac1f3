//! The client's side of the library against that of the reference, and against the broker itself.
//!
//! Each call's numbers and every byte of the lent slices are compared, with out slices that are
//! longer than needed, equal, shorter by one and empty. Out slices hold random bytes before.
//!
//! The tests run fixed seeds. Other ones are run by hand:
//!
//! ```text
//! INFOD3_SEED=7 INFOD3_CALLS=1000000 cargo test --release --test client -- --nocapture
//! ```
//!
//! INFOD3_SEED is the seed of one list. INFOD3_CALLS is the number of inputs in each list, 20,000
//! if it is not set; the lists of the broker have a fifth of them, those of large values a
//! hundredth. How often each answer, message and notable situation was reached is printed; with the
//! fixed seeds, one of them that was never reached is a failure.

use std::collections::BTreeMap;
use std::time::Instant;

use infod3::raw;
use reference::reading::Kind;
use reference::Server;
use trials::client::seen::{message_name, FORMS};
use trials::client::{inputs, Calls};
use trials::generator::messages;
use trials::pair::{shown, Sizes};
use trials::random::Random;

/// The three forms, and numbers that are none.
const ALL_FORMS: [usize; 5] = [0, 1, 2, 3, usize::MAX];

/// A number from the environment.
fn from_environment(name: &str) -> Option<u64> {
    std::env::var(name)
        .ok()
        .map(|text| text.parse().expect("a number"))
}

/// The seeds of a test: so many from 1 on, or the one of the environment.
fn seeds(count: u64) -> std::ops::Range<u64> {
    match from_environment("INFOD3_SEED") {
        Some(seed) => seed..seed + 1,
        None => 1..count + 1,
    }
}

fn inputs_per_list() -> usize {
    from_environment("INFOD3_CALLS").unwrap_or(20_000) as usize
}

/// Payloads of every shape.
fn payloads() -> Vec<Vec<u8>> {
    let every: Vec<u8> = (0..=255).collect();
    let shapes: [&[u8]; 25] = [
        b"",
        b"\0",
        b"\0\0\0",
        b"a",
        b"k\0v",
        b"k\0",
        b"\0v",
        b"a\0b\0c",
        b"\0\n\r\"\\",
        b"\"\"",
        b"\\000",
        b" ",
        b"a b",
        b"*",
        b"**",
        b"*(a)",
        b"a\\",
        b"a|b",
        b"(a|b)*",
        b"((((a))))",
        b"(((((a)))))",
        b"a)",
        &every[0x7F..],
        &every[1..],
        &every,
    ];
    shapes.map(<[u8]>::to_vec).to_vec()
}

#[test]
fn every_id_is_written() {
    let mut calls = Calls::new(1);
    for form in ALL_FORMS {
        calls.write(form, b"").expect_err("an ID is missing");
        for id in 0..=255 {
            for payload in payloads() {
                let given = calls.write(form, &messages::packet(id, &payload));
                assert!(id < 8 || given == Err(if form > 2 { 8 } else { 100 }));
            }
        }
        for (id, byte) in (0..8).flat_map(|id| (0..=255).map(move |byte| (id, byte))) {
            let _ = calls.write(form, &[id, byte]);
            let _ = calls.write(form, &[id, b'x', byte, byte, b'y']);
        }
    }
    println!("\nclient: {} writes of all IDs", calls.seen.calls());
}

/// Every pattern of up to five bytes that matter in one.
#[test]
fn every_short_pattern_is_judged() {
    let mut calls = Calls::new(2);
    let (mut written, mut refused) = (0, 0);
    for pattern in messages::all_words(b"()|*?\\a", 5) {
        match calls.write(2, &messages::packet(1, &pattern)) {
            Ok(_) => written += 1,
            Err(_) => refused += 1,
        }
    }
    println!("\nclient: {written} short patterns written, {refused} refused");
    assert!(written > 0 && refused > 0, "both are reached");
}

#[test]
fn long_commands_are_written() {
    let mut calls = Calls::new(2);
    let mut rng = Random::new(2);
    let tails: [&[u8]; 8] = [b"", b"*", b"**", b"\\", b"(", b"(a|b)", b"|", b"\0"];
    for (length, tail) in (254..=257).flat_map(|length| tails.map(|tail| (length, tail))) {
        let pattern = [&vec![b'a'; length - tail.len()], tail].concat();
        let valid = matches!(tail, b"" | b"*" | b"(a|b)");
        for (form, id) in [0, 1, 2]
            .into_iter()
            .flat_map(|form| [(form, 1), (form, 2)])
        {
            let answer = calls.write(form, &messages::packet(id, &pattern)).err();
            let due = match (valid, length) {
                (false, _) => Some(101),
                (true, 254..=255) => None,
                (true, _) => Some(102),
            };
            assert_eq!(answer, due, "a pattern of {length} bytes with {tail:?}");
        }
    }
    for length in 65_534..=65_537 {
        let mut payloads: Vec<Vec<u8>> = b"a\0\n\r\"\\\xFF"
            .iter()
            .map(|&byte| vec![byte; length])
            .collect();
        payloads.push(rng.word(b"ab\0\n\r\"\\", length));
        for at in [0, 1, 100, length / 2, length - 1] {
            let mut payload = vec![b'"'; length];
            payload[at] = 0;
            payloads.push(payload);
        }
        for (id, payload) in (0..=8).flat_map(|id| payloads.iter().map(move |p| (id, p))) {
            for form in 0..=2 {
                let _ = calls.write(form, &messages::packet(id, payload));
            }
        }
    }
    println!("\nclient: {} writes of long commands", calls.seen.calls());
}

/// Messages of every kind, short ones.
fn short_messages() -> Vec<Vec<u8>> {
    let messages: [&[u8]; 16] = [
        b"\x80\0",
        b"\x80\x07text",
        b"\x80\xFF\0\n\r\"\\",
        b"\x81",
        b"\x81\0",
        b"\x81k",
        b"\x81k\0",
        b"\x81k\0v",
        b"\x81a \"b\"\0\0\n\r\\",
        b"\x82",
        b"\x82x",
        b"\x82\0\n\r\"\\",
        b"\x82\x7F\xC3\xBF\xFF",
        b"\x83\x64unknown message",
        b"\x83\0",
        b"\x83\x19\\\"",
    ];
    messages.map(<[u8]>::to_vec).to_vec()
}

/// Reads a good message in a form, whole and with bytes behind it, and cut at the given places.
#[track_caller]
fn read_cut(
    calls: &mut Calls,
    rng: &mut Random,
    form: usize,
    message: &[u8],
    cuts: impl Iterator<Item = usize>,
) {
    let bytes = inputs::encoded(form, message);
    let read = calls.read(form, &bytes);
    let given = (read.answer, read.consumed, read.message.as_slice());
    assert_eq!(given, (0, bytes.len(), message), "{}", shown(&bytes));
    if form > 0 {
        for _ in 0..3 {
            let mut behind = vec![0; rng.between(1, 20)];
            rng.fill(&mut behind);
            let again = calls.read(form, &[&bytes[..], &behind].concat());
            assert_eq!(again, read, "{} with bytes behind", shown(&bytes));
        }
    }
    for end in cuts.take_while(|&end| end < bytes.len()) {
        let cut = calls.read(form, &bytes[..end]);
        assert!(
            form == 0 || cut.answer == 1,
            "{} cut at {end}",
            shown(&bytes)
        );
    }
}

#[test]
fn messages_are_cut_at_every_byte() {
    let mut calls = Calls::new(3);
    let mut rng = Random::new(3);
    let random: Vec<_> = (0..300)
        .map(|_| inputs::message(&mut rng, usize::MAX))
        .collect();
    for message in short_messages().iter().chain(&random) {
        for form in 0..=2 {
            read_cut(&mut calls, &mut rng, form, message, 0..);
        }
    }
    println!("\nclient: {} reads of cut messages", calls.seen.calls());
}

#[test]
fn long_messages_are_read() {
    let mut calls = Calls::new(4);
    let mut rng = Random::new(4);
    for byte in *b"a\0\n\r\"\\\xFF" {
        for id in 0x80..=0x83 {
            for length in 65_534..=65_537 {
                let payload = vec![byte; length];
                let message = messages::packet(id, &payload);
                if length <= 65_535 {
                    for form in 0..=2 {
                        let cuts: Vec<usize> = (0..5)
                            .chain((0..3).map(|_| rng.below(65_000)))
                            .chain(65_530..65_540)
                            .collect();
                        read_cut(&mut calls, &mut rng, form, &message, cuts.into_iter());
                    }
                } else {
                    for form in [0, 2] {
                        let bytes = inputs::encoded(form, &message);
                        let read = calls.read(form, &bytes);
                        assert_eq!((read.answer, read.consumed), (102, bytes.len()));
                    }
                }
            }
        }
    }
    for length in [262_151, 262_152, 262_153, 300_000] {
        for (head, due) in [("PONG \"", 102), ("PONG x", 101), ("PANG \"", 100)] {
            let mut line = [head.as_bytes(), &vec![b'a'; length - head.len()]].concat();
            assert_eq!(calls.read(2, &line).answer, 1);
            line.truncate(length - 3);
            line.extend_from_slice(b"\"\r\n");
            let read = calls.read(2, &line);
            assert_eq!((read.answer, read.consumed), (due, length));
        }
    }
    println!("\nclient: {} reads of long messages", calls.seen.calls());
}

#[test]
fn messages_with_one_byte_damaged() {
    let mut calls = Calls::new(5);
    let mut taken = 0;
    let all = short_messages();
    for (message, form) in all.iter().flat_map(|m| [(m, 0), (m, 1), (m, 2)]) {
        let bytes = inputs::encoded(form, message);
        let mut damaged: Vec<Vec<u8>> = Vec::new();
        for at in 0..bytes.len() {
            for byte in 0..=255 {
                let mut other = bytes.clone();
                other[at] = byte;
                damaged.push(other);
            }
            let (front, back) = bytes.split_at(at);
            damaged.push([front, &back[1..]].concat());
            damaged.push([front, &back[..1], back].concat());
        }
        for input in damaged {
            let read = calls.read(form, &input);
            taken += usize::from(read.answer == 0);
        }
    }
    let count = calls.seen.calls();
    println!("\nclient: {count} reads of messages with one byte damaged, {taken} of them taken");
}

/// Every line that goes on behind one of these heads with up to four bytes of an alphabet, and ends
/// in one of these ways.
#[test]
fn lines_with_every_short_tail() {
    const HEADS: [&str; 7] = [
        "",
        "PONG",
        "PONG \"",
        "INFO \"",
        "INFO \"k\"",
        "VERSION ",
        "ERROR 1",
    ];
    let mut calls = Calls::new(7);
    let mut taken = 0;
    for tail in messages::all_words(b" \"\\012345\rx\0", 4) {
        for (head, end) in HEADS.into_iter().flat_map(|head| {
            let ends: [&[u8]; 3] = [b"\r\n", b"\"\r\n", b"\"\n"];
            ends.map(|end| (head, end))
        }) {
            let line = [head.as_bytes(), &tail, end].concat();
            taken += usize::from(calls.read(2, &line).answer == 0);
        }
    }
    let count = calls.seen.calls();
    println!("\nclient: {count} reads of lines with short tails, {taken} of the lines taken");
    assert!(taken > 0, "a line is taken");
}

/// A short list of inputs of every sort.
fn random_list(seed: u64, count: usize, calls: &mut Calls) {
    let mut rng = Random::new(seed);
    for _ in 0..count {
        let form = rng.below(3);
        match rng.below(12) {
            0..=3 => {
                let command = inputs::command(&mut rng, 150);
                let _ = calls.write(form, &command);
            }
            4 => {
                let form = *rng.pick(&[3, 4, 1 << 32, usize::MAX]);
                let _ = calls.write(form, &inputs::command(&mut rng, usize::MAX));
                calls.read(form, &inputs::message(&mut rng, usize::MAX));
            }
            5..=6 => {
                let message = inputs::message(&mut rng, 100);
                let mut bytes = inputs::encoded(form, &message);
                if form > 0 {
                    bytes.extend(inputs::rubble(&mut rng));
                }
                calls.read(form, &bytes);
                bytes.truncate(rng.below(bytes.len() + 1));
                calls.read(form, &bytes);
            }
            7 => {
                let message = inputs::message(&mut rng, usize::MAX);
                let bytes = messages::mutated(&mut rng, inputs::encoded(form, &message));
                calls.read(form, &bytes);
            }
            8..=9 => {
                let (name, due, mut line) = inputs::near_miss(&mut rng);
                let length = line.len();
                if rng.chance(30) {
                    line.extend(inputs::rubble(&mut rng));
                }
                let read = calls.read(2, &line);
                let given = (read.answer, read.consumed);
                assert_eq!(given, (due, length), "{name}: {}", shown(&line));
                calls.seen.note(name);
            }
            10 => drop(calls.read(form, &inputs::rubble(&mut rng))),
            _ => {
                let mut bytes = vec![0; rng.below(30)];
                rng.fill(&mut bytes);
                calls.read(form, &bytes);
                if let Some(first) = bytes.first_mut() {
                    *first = 0x80 | *first & 7;
                    calls.read(form, &bytes);
                }
            }
        }
        if rng.one_in(2_000) {
            let head = *rng.pick(&[&b"PONG \""[..], b"INFO \"k", b"ERROR 1 \"", b"x"]);
            let length = rng.between(262_140, 263_000);
            let tail = *rng.pick(&[&b"\"\r\n"[..], b"\"\n", b"\r\n", b""]);
            let line = [head, &inputs::long(&mut rng, length), tail].concat();
            calls.read(2, &line);
            let line = [head, &vec![b'y'; length], tail].concat();
            calls.read(2, &line);
        }
    }
}

#[test]
fn random_calls() {
    let began = Instant::now();
    let mut calls = Calls::new(6);
    for seed in seeds(6) {
        random_list(seed, inputs_per_list(), &mut calls);
    }
    let took = began.elapsed().as_secs_f64();
    let (seen, count) = (&calls.seen, calls.seen.calls());
    println!(
        "\n{}client: {count} random calls in {took:.1} s",
        seen.lines()
    );
    if from_environment("INFOD3_SEED").is_none() {
        let missing = seen.missing();
        assert!(missing.is_empty(), "never reached: {missing:#?}");
    }
}

/// The rooms of the brokers in a list of round trips, one in how many commands is huge, and
/// whether there are transactions. A queue has room for all that a step owes in any form, so that
/// a client is shut in one form where it is in the others.
#[derive(Clone, Copy)]
struct Profile {
    sizes: Sizes,
    huge: usize,
    records: bool,
}

const SMALL: Profile = Profile {
    sizes: Sizes::new(5, 600, 524_288, 1_024),
    huge: usize::MAX,
    records: true,
};
const LARGE: Profile = Profile {
    sizes: Sizes::new(5, 196_000, 1_048_576, 1_024),
    huge: 6,
    records: false,
};

/// The slot of the client that sends commands.
const SENDER: usize = 0;
/// The slots of clients that are subscribed to much: form 0, 1 and 2.
const WATCHERS: [usize; 3] = [1, 2, 3];
/// A slot that is free but for a single command.
const SPARE: usize = 4;

/// A broker of the library.
struct Broker {
    mem: Vec<u8>,
    out: Vec<u8>,
}

impl Broker {
    fn new(sizes: Sizes) -> Broker {
        let mut mem = vec![0; sizes.memory_size()];
        let reply = raw::set_up(&mut mem, sizes.n, sizes.s, sizes.q, sizes.r);
        assert_eq!(reply.answer, 0);
        Broker {
            mem,
            out: vec![0; sizes.q],
        }
    }

    /// Opens a slot for a client's side of this form.
    fn open(&mut self, slot: usize, form: usize) {
        assert_eq!(raw::open(&mut self.mem, slot, form.min(1)).answer, 0);
    }

    fn close(&mut self, slot: usize) {
        assert_eq!(raw::close(&mut self.mem, slot).answer, 0);
    }

    fn feed(&mut self, slot: usize, input: &[u8]) -> (u32, usize) {
        let reply = raw::feed(&mut self.mem, slot, input);
        (reply.answer, reply.count)
    }

    fn drain(&mut self, slot: usize) -> Vec<Vec<u8>> {
        let mut messages = Vec::new();
        loop {
            let reply = raw::take(&mut self.mem, slot, &mut self.out);
            if reply.answer != 0 {
                assert_eq!(reply.answer, 6);
                return messages;
            }
            messages.push(self.out[..reply.count].to_vec());
        }
    }
}

/// A broker whose clients send and get packets, and one with the same clients in other forms:
/// what they send is written, and what they get is read, by the client's side.
struct Twins {
    packets: Broker,
    others: Broker,
    /// The packets' broker again, by the reference: what is stored and held.
    model: Server,
    calls: Calls,
    rng: Random,
    /// The form of the sender.
    form: usize,
    /// Whether no command was sent since the sender's slot was opened.
    is_first: bool,
    counts: BTreeMap<String, u64>,
}

impl Twins {
    fn new(seed: u64, Profile { sizes, .. }: Profile, form: usize) -> Twins {
        let mut twins = Twins {
            packets: Broker::new(sizes),
            others: Broker::new(sizes),
            model: Server::set_up(sizes.n, sizes.s, sizes.q, sizes.r).expect("sizes in range"),
            calls: Calls::new(seed),
            rng: Random::new(seed),
            form,
            is_first: false,
            counts: BTreeMap::new(),
        };
        twins.open(SENDER);
        for slot in WATCHERS {
            twins.open(slot);
            let pattern = *twins.rng.pick(&[&b"\x01*"[..], b"\x01(a|b|k|site.)*"]);
            assert_eq!(twins.send(slot, pattern), Ok(0));
        }
        twins
    }

    /// The form of a slot's client in the other broker.
    fn form_of(&self, slot: usize) -> usize {
        match slot {
            SENDER => self.form,
            _ => slot - WATCHERS[0],
        }
    }

    fn open(&mut self, slot: usize) {
        self.packets.open(slot, 0);
        self.others.open(slot, self.form_of(slot));
        assert_eq!(self.model.open(slot, 0).answer, 0);
        self.is_first = true;
    }

    fn close(&mut self, slot: usize) {
        self.packets.close(slot);
        self.others.close(slot);
        assert_eq!(self.model.close(slot).answer, 0);
    }

    fn count(&mut self, name: String) {
        *self.counts.entry(name).or_default() += 1;
    }

    /// Sends a command to both brokers, in the other one with anything behind it. Gives the answer
    /// of both, or the writer's refusal: a new client that sends the packet has the same one.
    fn send(&mut self, slot: usize, command: &[u8]) -> Result<u32, u32> {
        let form = self.form_of(slot);
        let written = match self.calls.write(form, command) {
            Ok(written) => written,
            Err(refusal) => {
                self.packets.open(SPARE, 0);
                let fed = self.packets.feed(SPARE, command);
                assert_eq!(fed, (refusal, command.len()), "{}", shown(command));
                self.packets.close(SPARE);
                self.count(format!("refused with {refusal}"));
                return Err(refusal);
            }
        };
        let mut input = written.clone();
        if form > 0 && self.rng.chance(70) {
            let behind = match self.rng.below(3) {
                0 => inputs::rubble(&mut self.rng),
                1 => written.clone(),
                _ => vec![self.rng.byte()],
            };
            input.extend_from_slice(&behind);
            self.count(format!("bytes behind a command in {}", FORMS[form]));
        }
        let (answer, count) = self.packets.feed(slot, command);
        assert_eq!(count, command.len());
        assert_eq!(self.model.feed(slot, command).answer, answer);
        let given = self.others.feed(slot, &input);
        assert_eq!(
            given,
            (answer, written.len()),
            "{} for {}",
            shown(&input),
            shown(command)
        );
        let name = message_name(command);
        self.count(format!("{name} in {} answered {answer}", FORMS[form]));
        if self.is_first && slot == SENDER {
            self.count(format!("first of a stream in {}", FORMS[form]));
            self.is_first = false;
        }
        Ok(answer)
    }

    /// Takes all messages of a slot from both brokers: those of the other one, read one behind the
    /// other, are those of the packets'.
    fn drain(&mut self, slot: usize) {
        let form = self.form_of(slot);
        let due = self.packets.drain(slot);
        while self.model.take(slot, usize::MAX).0.answer == 0 {}
        let taken = self.others.drain(slot);
        assert_eq!(taken.len(), due.len(), "messages of slot {slot}");
        let mut stream = if form > 0 { taken.concat() } else { Vec::new() };
        for (message, bytes) in due.iter().zip(&taken) {
            let input = if form > 0 { &stream } else { bytes };
            let read = self.calls.read(form, input);
            let given = (read.answer, read.consumed, read.message.as_slice());
            assert_eq!(
                given,
                (0, bytes.len(), message.as_slice()),
                "{}",
                shown(bytes)
            );
            let name = message_name(message);
            self.count(format!("{name} in {}", FORMS[form]));
            if form > 0 {
                stream.drain(..bytes.len());
            }
        }
    }

    /// Both stores, seen by a client in a spare slot, have the same entries.
    fn compare_stores(&mut self) {
        let [packets, others] = [&mut self.packets, &mut self.others].map(|broker| {
            broker.open(SPARE, 0);
            assert_eq!(broker.feed(SPARE, b"\x01*").0, 0);
            let entries = broker.drain(SPARE);
            broker.close(SPARE);
            entries
        });
        assert!(packets == others, "the stores differ");
        assert_eq!(packets.len(), self.model.store().count());
    }

    /// A command that mostly is good where the model is.
    fn command(&mut self, profile: Profile) -> Vec<u8> {
        let Twins { rng, model, .. } = self;
        match rng.below(20) {
            0 if profile.records => vec![5],
            1..=2 if profile.records => vec![6],
            3..=4 => inputs::command(rng, profile.huge),
            5..=6 if !profile.records => {
                let length = inputs::limit(rng);
                messages::packet(4, &[b"k\0", &inputs::long(rng, length - 2)[..]].concat())
            }
            _ => {
                let command = messages::command(rng, model, SENDER, 60);
                messages::encode(rng, &command, Kind::Packets, false)
            }
        }
    }

    /// Sends a command and looks at all that it brings.
    fn step(&mut self, command: &[u8]) -> Result<u32, u32> {
        let answer = self.send(SENDER, command);
        for slot in [SENDER].into_iter().chain(WATCHERS) {
            self.drain(slot);
        }
        answer
    }

    fn run(&mut self, profile: Profile, commands: usize) {
        for number in 0..17 {
            let command = messages::packet(1, format!("p{number}*").as_bytes());
            let due = if number < 16 { 0 } else { 102 };
            assert_eq!(self.step(&command), Ok(due), "pattern {number}");
        }
        self.close(SENDER);
        self.open(SENDER);
        for number in 0..commands {
            let command = self.command(profile);
            let _ = self.step(&command);
            let client = self.model.client(SENDER);
            if client.is_some_and(|client| client.is_shut()) || self.rng.one_in(40) {
                self.close(SENDER);
                self.open(SENDER);
            }
            if number % 16 == 0 {
                self.compare_stores();
            }
        }
        self.compare_stores();
    }
}

/// What the lists of round trips have to reach.
fn due_counts() -> Vec<String> {
    let mut due: Vec<String> = [100, 101, 102]
        .map(|refusal| format!("refused with {refusal}"))
        .to_vec();
    for form in FORMS {
        for name in ["HELLO", "SUB", "UNSUB", "READ", "BEGIN", "COMMIT", "PING"] {
            due.push(format!("{name} in {form} answered 0"));
        }
        for name in ["WRITE with a value", "WRITE without a value"] {
            due.push(format!("{name} in {form} answered 0"));
        }
        due.push(format!("WRITE with a value in {form} answered 102"));
        due.push(format!("SUB in {form} answered 102"));
        due.push(format!("COMMIT in {form} answered 102"));
        due.push(format!("BEGIN in {form} answered 103"));
        due.push(format!("first of a stream in {form}"));
        for name in ["VERSION", "PONG", "ERROR"] {
            due.push(format!("{name} in {form}"));
        }
        for name in ["INFO with a value", "INFO without a value"] {
            due.push(format!("{name} in {form}"));
        }
    }
    due.push("bytes behind a command in framed".to_string());
    due.push("bytes behind a command in text".to_string());
    due
}

#[test]
fn round_trips_with_the_broker() {
    let began = Instant::now();
    let mut counts: BTreeMap<String, u64> = BTreeMap::new();
    let commands = inputs_per_list() / 5;
    for seed in seeds(4) {
        for form in 0..=2 {
            for (profile, commands) in [(SMALL, commands), (LARGE, commands / 20)] {
                let mut twins = Twins::new(3 * seed + form as u64, profile, form);
                twins.run(profile, commands);
                for (name, count) in twins.counts {
                    *counts.entry(name).or_default() += count;
                }
            }
        }
    }
    for (name, count) in &counts {
        println!("{name}: {count}");
    }
    let took = began.elapsed().as_secs_f64();
    println!("client: round trips with the broker in {took:.1} s");
    if from_environment("INFOD3_SEED").is_none() {
        let due = due_counts();
        let missing: Vec<_> = due
            .iter()
            .filter(|name| !counts.contains_key(*name))
            .collect();
        assert!(missing.is_empty(), "never reached: {missing:#?}");
    }
}

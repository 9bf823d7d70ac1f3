//! Memories in use, made by calls of the library: one for each state that a broker can be in.

use crate::random::Random;
use infod3::raw;

/// A memory and what is special about it.
#[derive(Clone, Debug)]
pub struct State {
    /// What is special about it.
    pub name: String,
    /// The memory, of exactly the size that it needs.
    pub mem: Vec<u8>,
}

/// A broker that is brought into a state. Every call has to be answered as it is said to be.
struct Maker {
    mem: Vec<u8>,
}

impl Maker {
    fn new(n: usize, s: usize, q: usize, r: usize) -> Maker {
        let mut mem = vec![0xA7; raw::memory_size(n, s, q, r)];
        assert_eq!(raw::set_up(&mut mem, n, s, q, r).answer, 0, "set up");
        Maker { mem }
    }

    fn open(&mut self, slot: usize, form: usize) {
        assert_eq!(
            raw::open(&mut self.mem, slot, form).answer,
            0,
            "open {slot}"
        );
    }

    fn feed(&mut self, slot: usize, input: &[u8]) -> u32 {
        raw::feed(&mut self.mem, slot, input).answer
    }

    fn serve(&mut self, slot: usize, input: &[u8]) {
        let shown = String::from_utf8_lossy(&input[..input.len().min(40)]).into_owned();
        assert_eq!(self.feed(slot, input), 0, "feed of {shown} to slot {slot}");
    }

    fn line(&mut self, slot: usize, line: &str) {
        self.serve(slot, format!("{line}\n").as_bytes());
    }

    fn take(&mut self, slot: usize) -> bool {
        let mut out = vec![0; self.mem.len()];
        raw::take(&mut self.mem, slot, &mut out).answer == 0
    }

    fn drain(&mut self, slot: usize) {
        while self.take(slot) {}
    }

    fn named(self, name: &str) -> State {
        State {
            name: name.to_string(),
            mem: self.mem,
        }
    }
}

/// A framed message.
pub fn frame(id: u8, payload: &[u8]) -> Vec<u8> {
    let len = (payload.len() as u16).to_be_bytes();
    [&[id, len[0], len[1]], payload].concat()
}

/// A packet.
pub fn packet(id: u8, payload: &[u8]) -> Vec<u8> {
    [&[id], payload].concat()
}

/// The states: each of them small, a few with many entries, long values or all 32 slots, and
/// brokers after random commands.
pub fn states(random: &mut Random) -> Vec<State> {
    let mut all = vec![
        Maker::new(1, 256, 1024, 256).named("fresh, the smallest"),
        opened(),
        subscribed(),
        refused(),
        slipped(),
        recording(),
        full_recording(),
        full_queues(),
        moved_queues(),
        full_store(),
        many_entries(),
        committed(),
        reopened(),
        all_slots(),
        long_values(),
    ];
    all.extend((0..12).map(|i| wandered(random, i)));
    all
}

/// One client of each kind.
fn one_of_each(s: usize, r: usize) -> Maker {
    let mut maker = Maker::new(5, s, 1024, r);
    maker.open(0, 0);
    maker.open(1, 1);
    maker.open(2, 1);
    maker.open(3, 1);
    maker.serve(0, &packet(7, b"a"));
    maker.serve(2, &frame(7, b"b"));
    maker.line(3, "PING c");
    maker
}

fn opened() -> State {
    one_of_each(256, 256).named("a client of each kind")
}

fn subscribed() -> State {
    let mut maker = one_of_each(1024, 256);
    for i in 0..9 {
        maker.line(3, &format!("WRITE site.{i}.state v{i}"));
    }
    for i in 0..16 {
        maker.line(3, &format!("SUB site.{i}.*"));
    }
    maker.serve(0, &packet(1, b"(site|s).?.st*"));
    maker.serve(2, &frame(1, b"*"));
    maker.serve(2, &frame(1, b"\\**"));
    maker.line(3, "WRITE site.3.state changed");
    maker.line(3, "WRITE \"\" \"an empty key\"");
    maker.line(3, "WRITE site.5.state");
    maker.named("patterns, entries and messages queued")
}

fn refused() -> State {
    let mut maker = Maker::new(6, 256, 1024, 256);
    for (slot, form) in [0, 2, 1, 2, 1].into_iter().enumerate() {
        maker.open(slot, form);
    }
    maker.serve(0, &packet(7, b"kept"));
    assert_eq!(maker.feed(0, &packet(9, b"")), 100);
    maker.line(1, "SUB gone.*");
    assert_eq!(maker.feed(1, b"SUB **\n"), 101);
    maker.serve(2, &frame(5, b""));
    maker.serve(2, &frame(7, b"recorded"));
    assert_eq!(maker.feed(2, &frame(4, &[b'k'; 300])), 102);
    maker.line(3, "BEGIN");
    assert_eq!(maker.feed(3, b"BEGIN\n"), 103);
    maker.drain(3);
    maker.line(4, "WRITE k v");
    maker.named("clients shut by each refusal")
}

/// Text clients of form 1 after typing errors, and clients of form 2 of each kind.
fn slipped() -> State {
    let mut maker = Maker::new(7, 512, 1024, 256);
    for (slot, form) in [1, 1, 1, 1, 2, 2, 2].into_iter().enumerate() {
        maker.open(slot, form);
    }
    assert_eq!(maker.feed(0, b"FIRST\n"), 100);
    maker.line(1, "SUB k*");
    assert_eq!(maker.feed(1, b"SUB **\n"), 101);
    maker.line(1, "BEGIN");
    maker.line(1, "WRITE k v");
    assert_eq!(maker.feed(1, b"BEGIN\n"), 103);
    maker.line(1, "WRITE k w");
    maker.line(2, "BEGIN");
    assert_eq!(maker.feed(2, b"OOPS\n"), 100);
    assert_eq!(maker.feed(2, b"COMMIT\n"), 103);
    maker.line(2, "BEGIN");
    maker.line(2, "WRITE k x");
    // 960 bytes exactly: the ERROR charges 33 of them.
    maker.line(3, &format!("PING {}", "x".repeat(914)));
    assert_eq!(maker.feed(3, b"OOPS\n"), 100);
    maker.serve(5, &frame(7, b"framed"));
    maker.line(6, "SUB k");
    maker.line(6, "BEGIN");
    maker.line(6, "PING x");
    maker.named("text clients that have slipped, and clients of form 2")
}

fn recording() -> State {
    let mut maker = one_of_each(1024, 1024);
    maker.line(3, "WRITE a 1");
    maker.line(3, "SUB a*");
    maker.line(3, "BEGIN");
    for line in [
        "HELLO",
        "SUB b*",
        "UNSUB a*",
        "READ a",
        "WRITE b 2",
        "WRITE a",
        "PING x",
    ] {
        maker.line(3, line);
    }
    maker.serve(0, &packet(5, b""));
    maker.serve(2, &frame(5, b""));
    maker.serve(2, &frame(1, b"(a|b|c)"));
    maker.serve(2, &frame(4, b"c\0value"));
    maker.serve(2, &frame(4, b"c\0another"));
    maker.serve(2, &frame(3, b"c"));
    maker.named("three clients that record")
}

fn full_recording() -> State {
    let mut maker = Maker::new(3, 256, 1024, 256);
    for slot in 0..3 {
        maker.open(slot, 0);
        maker.serve(slot, &packet(5, b""));
    }
    for _ in 0..64 {
        maker.serve(0, &packet(7, b""));
    }
    maker.serve(1, &packet(4, &[b'w'; 252]));
    for _ in 0..63 {
        maker.serve(2, &packet(3, b""));
    }
    maker.named("recordings full by count and by room")
}

fn full_queues() -> State {
    let mut maker = Maker::new(4, 256, 1024, 256);
    for slot in 0..4 {
        maker.open(slot, usize::from(slot > 1));
    }
    // 960 bytes exactly, in one message and in many.
    maker.serve(0, &packet(7, &[b'x'; 955]));
    for _ in 0..192 {
        maker.serve(1, &packet(7, b""));
    }
    // One byte over: the client is shut, with the ERROR in the room kept back.
    maker.serve(2, &frame(7, &[b'y'; 953]));
    maker.serve(3, &frame(7, &[b'z'; 953]));
    maker.serve(3, &frame(7, b""));
    maker.named("full queues, and one that overflowed")
}

fn moved_queues() -> State {
    let mut maker = Maker::new(2, 256, 1024, 256);
    maker.open(0, 0);
    maker.open(1, 1);
    for _ in 0..5 {
        maker.serve(0, &packet(7, &[b'x'; 200]));
        maker.take(0);
    }
    maker.serve(0, &packet(7, &[b'x'; 300]));
    for _ in 0..4 {
        maker.line(1, &format!("PING {}", "y".repeat(235)));
        maker.take(1);
    }
    for _ in 0..3 {
        maker.line(1, &format!("PING {}", "z".repeat(250)));
    }
    maker.named("queues that begin in the middle of their room")
}

fn full_store() -> State {
    let mut maker = Maker::new(2, 256, 1024, 256);
    maker.open(0, 0);
    maker.open(1, 1);
    maker.line(1, "SUB *");
    // 8 + 1 + 23 is 32, eight times.
    for key in b"abcdefgh" {
        let value = [b'v'; 23];
        maker.serve(0, &packet(4, &[&[*key, 0], &value[..]].concat()));
    }
    maker.named("a store full by room")
}

fn many_entries() -> State {
    let mut maker = Maker::new(2, 16_384, 2048, 256);
    maker.open(0, 0);
    maker.open(1, 1);
    for i in 0..1024 {
        maker.serve(0, &packet(4, format!("{:04}\0", i * 7 % 1024).as_bytes()));
    }
    maker.line(1, "SUB 00??");
    maker.named("a store full by entries")
}

fn committed() -> State {
    let mut maker = one_of_each(1024, 1024);
    maker.line(3, "SUB k*");
    maker.serve(2, &frame(1, b"k?"));
    maker.serve(0, &packet(5, b""));
    for i in 0..8 {
        maker.serve(0, &packet(4, format!("k{i}\0{i}").as_bytes()));
    }
    maker.serve(0, &packet(1, b"k*"));
    maker.serve(0, &packet(6, b""));
    maker.named("after a commit")
}

fn reopened() -> State {
    let mut maker = one_of_each(512, 256);
    maker.line(3, "SUB k*");
    maker.line(3, "WRITE k v");
    maker.line(3, "BEGIN");
    maker.line(3, "WRITE k w");
    for slot in [0, 3] {
        assert_eq!(raw::close(&mut maker.mem, slot).answer, 0);
    }
    maker.open(3, 0);
    maker.serve(3, &packet(3, b"k"));
    maker.named("a slot closed and one opened again")
}

fn all_slots() -> State {
    let mut maker = Maker::new(32, 4096, 1024, 256);
    for slot in 0..32 {
        maker.open(slot, slot % 2);
        let sub = b"site.*";
        match slot % 4 {
            0 | 2 => maker.serve(slot, &packet(1, sub)),
            1 => maker.serve(slot, &frame(1, sub)),
            _ => maker.line(slot, "SUB site.*"),
        }
    }
    for i in 0..40 {
        maker.serve(
            i % 32 / 4 * 4,
            &packet(4, format!("site.{i}\0{i}").as_bytes()),
        );
        maker.drain((i + 7) % 32);
    }
    maker.line(3, "BEGIN");
    maker.line(3, "WRITE site.1 x");
    assert_eq!(maker.feed(7, b"NONSENSE\n"), 100);
    maker.named("all 32 slots in use")
}

fn long_values() -> State {
    let mut maker = Maker::new(2, 200_000, 150_000, 80_000);
    maker.open(0, 0);
    maker.open(1, 1);
    maker.line(1, "SUB *");
    for key in b"abc" {
        let mut payload = vec![*key, 0];
        payload.resize(65_535, b'v');
        maker.serve(0, &packet(4, &payload));
        maker.take(1);
    }
    maker.serve(0, &packet(4, &[&[b'k'; 300][..], b"\0long key"].concat()));
    maker.serve(0, &packet(7, &[0; 65_535]));
    maker.serve(0, &packet(5, b""));
    maker.serve(0, &packet(4, &[b'w'; 65_535]));
    maker.named("values and keys of the greatest length")
}

/// A broker after some hundred random commands.
fn wandered(random: &mut Random, number: usize) -> State {
    let mut maker = Maker::new(4, 512 + random.below(1024), 1024, 256 + random.below(512));
    for _ in 0..300 {
        let slot = random.below(4);
        match random.below(12) {
            0 => {
                raw::open(&mut maker.mem, slot, random.below(3));
            }
            1 if random.one_in(8) => {
                raw::close(&mut maker.mem, slot);
            }
            2 | 3 => {
                maker.take(slot);
            }
            _ => {
                let input = command(random);
                maker.feed(slot, &input);
            }
        }
    }
    maker.named(&format!("after random commands {number}"))
}

/// A command in one of the forms, of which most are good, or a line that is refused.
pub fn command(random: &mut Random) -> Vec<u8> {
    const KEYS: [&str; 8] = ["", "a", "ab", "b", "site.1", "site.2", "site.10", "z"];
    const PATTERNS: [&str; 8] = ["*", "a*", "site.*", "(a|b)", "?", "site.(1|2)", "a", "\\**"];
    if random.one_in(16) {
        return random
            .pick(&[&b"OOPS\n"[..], b"SUB **\n", b"COMMIT x\n", b"BEGIN x\n"])
            .to_vec();
    }
    let key = *random.pick(&KEYS);
    let pattern = *random.pick(&PATTERNS);
    let value = "v".repeat(random.below(40));
    let (id, payload, line) = match random.below(12) {
        0 => (0, "\0text".to_string(), "HELLO 0 text".to_string()),
        1 => (
            1,
            pattern.to_string(),
            format!("SUB \"{}\"", escaped(pattern)),
        ),
        2 => (
            2,
            pattern.to_string(),
            format!("UNSUB \"{}\"", escaped(pattern)),
        ),
        3 => (3, key.to_string(), format!("READ \"{key}\"")),
        4 => (4, key.to_string(), format!("WRITE \"{key}\"")),
        5 => (5, String::new(), "BEGIN".to_string()),
        6 => (6, String::new(), "COMMIT".to_string()),
        7 => (7, value.clone(), format!("PING \"{value}\"")),
        _ => (
            4,
            format!("{key}\0{value}"),
            format!("WRITE \"{key}\" \"{value}\""),
        ),
    };
    match random.below(3) {
        0 => packet(id, payload.as_bytes()),
        1 => frame(id, payload.as_bytes()),
        _ => format!("{line}\n").into_bytes(),
    }
}

fn escaped(pattern: &str) -> String {
    pattern.replace('\\', "\\134")
}

#[cfg(test)]
mod tests {
    use super::*;
    use crate::layout::{self, Transaction};

    #[test]
    fn states_keep_the_rules() {
        let all = states(&mut Random::new(1));
        for state in &all {
            assert_eq!(layout::broken(&state.mem), None, "{}", state.name);
        }
        let clients = |state: &State| layout::image(&state.mem).clients;
        let used = all.iter().flat_map(clients).flatten();
        let mut kinds = [0; 8];
        let (mut shut, mut full) = (0, 0);
        let (mut begun, mut spoiled) = (0, 0);
        for client in used {
            kinds[client.kind as usize + 4 * usize::from(client.hangs_up)] += 1;
            shut += usize::from(client.shut);
            full += usize::from(client.queue.len() == 960);
            match client.transaction {
                Transaction::Off => {}
                Transaction::Begun(_) => begun += 1,
                Transaction::Spoiled => spoiled += 1,
            }
        }
        // No packet client is opened in form 2.
        let packets_that_hang_up = kinds[4];
        assert_eq!(packets_that_hang_up, 0);
        let reached = kinds.iter().filter(|&&count| count > 0).count();
        assert_eq!(reached, 7, "{kinds:?}");
        assert!(shut > 3 && full >= 3, "{shut} {full}");
        assert!(begun > 5 && spoiled > 2, "{begun} {spoiled}");
    }
}

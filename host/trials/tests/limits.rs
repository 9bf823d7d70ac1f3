//! Sizes at and past every limit of document 01, and the examples that it has run by a program.
//!
//! Every call is made on the library and on the reference and compared; the numbers that the
//! paper gives are written out here as well.

use infod3::raw;
use reference::Server;
use trials::pair::{shown, Call, Pair, Sizes};

const SMALL: Sizes = Sizes::new(2, 256, 1_024, 256);
const LARGE: Sizes = Sizes::new(2, 1_048_576, 1_048_576, 262_144);

/// The ways to speak to the library.
#[derive(Clone, Copy, Debug, PartialEq, Eq)]
enum Form {
    Packet,
    Frame,
    Line,
    /// A line of a client that was opened in form 2.
    HangUp,
}

const FORMS: [Form; 4] = [Form::Packet, Form::Frame, Form::Line, Form::HangUp];

const WORDS: [&[u8]; 8] = [
    b"HELLO 0", b"SUB", b"UNSUB", b"READ", b"WRITE", b"BEGIN", b"COMMIT", b"PING",
];

impl Form {
    fn number(self) -> usize {
        match self {
            Form::Packet => 0,
            Form::Frame | Form::Line => 1,
            Form::HangUp => 2,
        }
    }

    fn is_text(self) -> bool {
        matches!(self, Form::Line | Form::HangUp)
    }

    /// Whether a client stays open after this refusal.
    fn stays_open(self, number: u8) -> bool {
        self == Form::Line && number != 102
    }

    /// A message of this ID; HELLO's version is 0 and not in `fields`. `None` where the form
    /// has no such message.
    fn message(self, id: u8, fields: &[&[u8]]) -> Option<Vec<u8>> {
        if self.is_text() {
            let quoted = fields.iter().map(|field| [b" \"", *field, b"\""].concat());
            return Some(
                [
                    WORDS[usize::from(id)].to_vec(),
                    quoted.collect::<Vec<_>>().concat(),
                    b"\n".to_vec(),
                ]
                .concat(),
            );
        }
        let mut payload = if id == 0 { vec![0] } else { Vec::new() };
        payload.extend(fields.join(&0));
        match self {
            Form::Packet => Some([vec![id], payload].concat()),
            _ => {
                let length = u16::try_from(payload.len()).ok()?;
                Some([vec![id], length.to_be_bytes().to_vec(), payload].concat())
            }
        }
    }

    /// What an ERROR is in this form.
    fn error(self, number: u8, text: &str) -> Vec<u8> {
        let payload = [&[number], text.as_bytes()].concat();
        match self {
            Form::Packet => [&[0x83], &payload[..]].concat(),
            Form::Frame => [&[0x83, 0, payload.len() as u8], &payload[..]].concat(),
            Form::Line | Form::HangUp => format!("ERROR {number} \"{text}\"\r\n").into_bytes(),
        }
    }
}

fn message(form: Form, id: u8, fields: &[&[u8]]) -> Vec<u8> {
    form.message(id, fields).expect("the form has this message")
}

/// A pair of these sizes with all slots open in a form.
fn opened(sizes: Sizes, form: Form) -> Pair {
    let mut pair = Pair::new(sizes, 0);
    (0..sizes.n).for_each(|slot| assert_eq!(pair.open(slot, form.number()), 0));
    pair
}

/// Feeds a message, which has to be consumed whole.
#[track_caller]
fn feed(pair: &mut Pair, slot: usize, input: &[u8]) -> u32 {
    let (answer, count) = pair.feed(slot, input);
    assert_eq!(count, input.len(), "consumed of {}", shown(input));
    answer
}

/// Feeds a command in a form.
#[track_caller]
fn send(pair: &mut Pair, slot: usize, form: Form, id: u8, fields: &[&[u8]]) -> u32 {
    feed(pair, slot, &message(form, id, fields))
}

/// The slot is shut: it takes no more, and its last message is this ERROR.
#[track_caller]
fn assert_shut(pair: &mut Pair, slot: usize, form: Form, number: u8, text: &str) {
    assert_eq!(pair.feed(slot, b""), (3, 0));
    assert_eq!(pair.drain(slot).pop(), Some(form.error(number, text)));
}

/// The slot's last message is this ERROR; it is shut, or it stays open and takes more.
#[track_caller]
fn assert_refused(pair: &mut Pair, slot: usize, form: Form, number: u8, text: &str) {
    if form.stays_open(number) {
        assert_eq!(pair.feed(slot, b""), (1, 0));
        assert_eq!(pair.drain(slot).pop(), Some(form.error(number, text)));
    } else {
        assert_shut(pair, slot, form, number, text);
    }
}

// The sizes of set up.

/// Document 01's bound on the memory's size.
fn bound(sizes: Sizes) -> usize {
    2 * (sizes.n * (sizes.q + sizes.r + 32_768) + sizes.s + 65_536)
}

/// Set up on exactly so much memory as is asked for, and on a byte less.
fn check_sizes(sizes: Sizes, in_range: bool) {
    let Sizes { n, s, q, r } = sizes;
    let size = sizes.memory_size();
    assert_eq!(size != 0, in_range, "memory size of {sizes:?}");
    assert_eq!(
        Server::set_up(n, s, q, r).err(),
        (!in_range).then_some(8),
        "{sizes:?}"
    );
    let fill = |length| vec![0x5A; length];
    if !in_range {
        for length in [0, 1, 1_000, 2_000_000] {
            let mut memory = fill(length);
            let reply = raw::set_up(&mut memory, n, s, q, r);
            assert_eq!((reply.answer, reply.count), (8, 0), "{sizes:?}");
            assert!(memory == fill(length), "8 alters nothing");
        }
        return;
    }
    assert!(size <= bound(sizes), "size of {sizes:?} is {size}");
    for length in [0, 1, size / 2, size - 1] {
        let mut memory = fill(length);
        let reply = raw::set_up(&mut memory, n, s, q, r);
        assert_eq!(
            (reply.answer, reply.count),
            (5, 0),
            "{sizes:?} in {length} bytes"
        );
        assert!(memory == fill(length), "5 alters nothing");
    }
    let mut memory = fill(size);
    let reply = raw::set_up(&mut memory, n, s, q, r);
    assert_eq!(
        (reply.answer, reply.count),
        (0, 0),
        "{sizes:?} in {size} bytes"
    );
    for slot in [0, n - 1] {
        assert_eq!(raw::open(&mut memory, slot, 0).answer, 0);
        assert_eq!(raw::feed(&mut memory, slot, b"\x07x").answer, 0);
        let mut out = [0; 2];
        assert_eq!(raw::take(&mut memory, slot, &mut out).count, 2);
        assert_eq!(out, *b"\x82x");
        assert_eq!(raw::close(&mut memory, slot).answer, 0);
    }
    assert_eq!(raw::open(&mut memory, n, 0).answer, 2);
}

#[test]
fn set_up_sizes() {
    let ranges = [
        (1, 32),
        (256, 1_048_576),
        (1_024, 1_048_576),
        (256, 262_144),
    ];
    let low = ranges.map(|(low, _)| low);
    let sizes = |parts: [usize; 4]| Sizes::new(parts[0], parts[1], parts[2], parts[3]);
    for (index, (least, most)) in ranges.into_iter().enumerate() {
        for (size, in_range) in [
            (least, true),
            (least - 1, false),
            (least + 1, true),
            (most, true),
            (most - 1, true),
            (most + 1, false),
            (0, false),
            (1 << 32, false),
            ((1 << 32) + least, false),
            (usize::MAX, false),
        ] {
            let mut parts = low;
            parts[index] = size;
            check_sizes(sizes(parts), in_range);
        }
    }
    check_sizes(Sizes::new(32, 1_048_576, 1_048_576, 262_144), true);
    check_sizes(
        Sizes::new(usize::MAX, usize::MAX, usize::MAX, usize::MAX),
        false,
    );
    check_sizes(Sizes::new(0, 0, 0, 0), false);
}

#[test]
fn set_up_refuses_8_before_5() {
    let mut memory = [0; 3];
    assert_eq!(raw::set_up(&mut memory, 33, 256, 1_024, 256).answer, 8);
    assert_eq!(raw::set_up(&mut memory, 32, 256, 1_024, 256).answer, 5);
}

#[test]
fn set_up_empties_memory_in_use() {
    let mut pair = opened(SMALL, Form::Packet);
    send(&mut pair, 0, Form::Packet, 1, &[b"*"]);
    send(&mut pair, 1, Form::Packet, 4, &[b"k", b"v"]);
    assert_eq!(pair.agree(Call::SetUp(SMALL)), (0, 0));
    for slot in 0..2 {
        assert_eq!(pair.feed(slot, b"\x07"), (2, 0));
        assert_eq!(pair.open(slot, 0), 0);
    }
    assert_eq!(send(&mut pair, 0, Form::Packet, 3, &[b"k"]), 0);
    assert_eq!(pair.drain(0), [b"\x81k"]);
    assert_eq!(pair.drain(1), [[0; 0]; 0]);
}

#[test]
fn wild_slots_and_forms() {
    let mut pair = Pair::new(SMALL, 0);
    for slot in [2, 3, 32, 33, 256, 1 << 32, (1 << 32) + 1, usize::MAX] {
        for form in [0, 1, 2, 3, 256, usize::MAX] {
            assert_eq!(pair.agree(Call::Open { slot, form }), (2, 0));
        }
        assert_eq!(
            pair.agree(Call::Feed {
                slot,
                input: b"\x07".to_vec()
            }),
            (2, 0)
        );
        assert_eq!(
            pair.agree(Call::Feed {
                slot,
                input: Vec::new()
            }),
            (2, 0)
        );
        assert_eq!(pair.agree(Call::Take { slot, room: 0 }), (2, 0));
        assert_eq!(pair.agree(Call::Close { slot }), (2, 0));
    }
    for form in [3, 4, 255, 256, 257, 258, 1 << 32, (1 << 32) + 2, usize::MAX] {
        assert_eq!(pair.agree(Call::Open { slot: 1, form }), (8, 0));
    }
    for form in 0..3 {
        assert_eq!(pair.agree(Call::Open { slot: 1, form }), (0, 0));
        assert_eq!(pair.close(1), 0);
    }
    assert_eq!(pair.agree(Call::Open { slot: 1, form: 1 }), (0, 0));
    assert_eq!(pair.agree(Call::Open { slot: 1, form: 256 }), (8, 0));
    assert_eq!(pair.agree(Call::Open { slot: 1, form: 0 }), (4, 0));
    assert_eq!(pair.agree(Call::Take { slot: 1, room: 0 }), (6, 0));
    assert_eq!(
        pair.agree(Call::Feed {
            slot: 0,
            input: Vec::new()
        }),
        (2, 0)
    );
}

// The store.

#[test]
fn store_of_256_bytes() {
    for form in FORMS {
        let mut pair = opened(SMALL, form);
        assert_eq!(send(&mut pair, 0, form, 4, &[b"k", &[b'v'; 247]]), 0);
        assert_eq!(send(&mut pair, 0, form, 4, &[b"k", &[b'v'; 247]]), 0);
        assert_eq!(send(&mut pair, 0, form, 4, &[b"k", &[b'w'; 247]]), 0);
        assert_eq!(send(&mut pair, 0, form, 4, &[b"", b""]), 102);
        assert_shut(&mut pair, 0, form, 102, "no room");
        assert_eq!(send(&mut pair, 1, form, 4, &[b"k", &[b'v'; 248]]), 102);
        assert_shut(&mut pair, 1, form, 102, "no room");
    }
    let mut pair = opened(SMALL, Form::Frame);
    assert_eq!(send(&mut pair, 0, Form::Frame, 4, &[b"", &[b'v'; 248]]), 0);
    assert_eq!(send(&mut pair, 0, Form::Frame, 4, &[b""]), 0);
    assert_eq!(send(&mut pair, 0, Form::Frame, 4, &[&[b'k'; 248], b""]), 0);
    assert_eq!(send(&mut pair, 0, Form::Frame, 4, &[&[b'k'; 248]]), 0);
    assert_eq!(
        send(&mut pair, 0, Form::Frame, 4, &[&[b'k'; 249], b""]),
        102
    );
}

/// The key of an entry of a full store.
fn entry_key(number: usize) -> Vec<u8> {
    format!("{number:04}").into_bytes()
}

#[test]
fn entries_1024_and_1025() {
    let form = Form::Frame;
    let mut pair = opened(Sizes::new(3, 65_536, 65_536, 4_096), form);
    for number in 0..1_024 {
        assert_eq!(
            send(&mut pair, 0, form, 4, &[&entry_key(number), b""]),
            0,
            "{number}"
        );
    }
    assert_eq!(pair.reference.store().count(), 1_024);
    // An entry may change, and one gives its place to another.
    assert_eq!(send(&mut pair, 0, form, 4, &[&entry_key(7), b"other"]), 0);
    assert_eq!(send(&mut pair, 0, form, 4, &[&entry_key(8)]), 0);
    assert_eq!(send(&mut pair, 0, form, 4, &[b"new", b""]), 0);
    // The same within one commit, in either order.
    assert_eq!(send(&mut pair, 0, form, 5, &[]), 0);
    assert_eq!(send(&mut pair, 0, form, 4, &[&entry_key(9)]), 0);
    assert_eq!(send(&mut pair, 0, form, 4, &[b"newer", b""]), 0);
    assert_eq!(send(&mut pair, 0, form, 6, &[]), 0);
    assert_eq!(send(&mut pair, 0, form, 5, &[]), 0);
    assert_eq!(send(&mut pair, 0, form, 4, &[b"newest", b""]), 0);
    assert_eq!(send(&mut pair, 0, form, 4, &[&entry_key(10)]), 0);
    assert_eq!(send(&mut pair, 0, form, 6, &[]), 102);
    assert_shut(&mut pair, 0, form, 102, "no room");
    assert_eq!(send(&mut pair, 1, form, 4, &[b"1025th", b""]), 102);
    assert_shut(&mut pair, 1, form, 102, "no room");
    assert_eq!(send(&mut pair, 2, form, 1, &[b"*"]), 0);
    assert_eq!(pair.drain(2).len(), 1_024);
}

// Patterns.

#[test]
fn patterns_16_and_17() {
    for form in FORMS {
        let mut pair = opened(SMALL, form);
        for number in 0..16 {
            assert_eq!(send(&mut pair, 0, form, 1, &[&[b'a' + number; 255]]), 0);
        }
        assert_eq!(send(&mut pair, 0, form, 1, &[&[b'a'; 255]]), 0);
        assert_eq!(send(&mut pair, 0, form, 2, &[&[b'z'; 255]]), 0);
        assert_eq!(send(&mut pair, 0, form, 2, &[&[b'b'; 255]]), 0);
        assert_eq!(send(&mut pair, 0, form, 1, &[b"(16th|)*"]), 0);
        assert_eq!(send(&mut pair, 0, form, 1, &[b"17th"]), 102);
        assert_shut(&mut pair, 0, form, 102, "no room");
    }
}

#[test]
fn patterns_17_in_a_commit() {
    let form = Form::Line;
    for (count, answer) in [(16, 0), (17, 102)] {
        let mut pair = opened(Sizes::new(1, 256, 1_024, 1_024), form);
        assert_eq!(send(&mut pair, 0, form, 5, &[]), 0);
        for number in 0..count {
            assert_eq!(send(&mut pair, 0, form, 1, &[&[b'a' + number]]), 0);
        }
        assert_eq!(send(&mut pair, 0, form, 6, &[]), answer);
        let held = pair
            .reference
            .client(0)
            .map(|client| client.patterns().len());
        assert_eq!(held, Some(if answer == 0 { 16 } else { 0 }));
    }
}

#[test]
fn patterns_of_255_and_256_bytes() {
    for form in FORMS {
        for id in [1, 2] {
            let answer = |pattern: &[u8]| send(&mut opened(SMALL, form), 0, form, id, &[pattern]);
            assert_eq!(answer(&[b'a'; 255]), 0);
            assert_eq!(answer(&[b'a'; 256]), 102);
            assert_eq!(answer(&[b'*'; 256]), 101);
            assert_eq!(answer(&[[b'a'; 253].as_slice(), b"**"].concat()), 101);
            assert_eq!(answer(&[[b'a'; 254].as_slice(), b"**"].concat()), 101);
        }
    }
    let numbers = |pattern: &[u8], key: &[u8]| {
        let given = raw::matches(pattern, key);
        let expected = reference::matches(pattern, key);
        let numbers = (given.answer, given.matched, given.steps);
        assert_eq!(numbers, (expected.answer, expected.matched, expected.steps));
        numbers
    };
    assert_eq!(numbers(&[b'?'; 255], &[0; 255]), (0, true, 255));
    assert_eq!(numbers(&[b'?'; 256], &[0; 256]), (102, false, 0));
    assert_eq!(numbers(&[b'*'; 256], &[0; 256]), (101, false, 0));
    assert_eq!(numbers(b"*", &[b'a'; 65_535]), (0, true, 1));
    assert_eq!(numbers(b"*b", &[b'a'; 65_535]), (0, false, 65_536));
    assert_eq!(numbers(b"*", &[b'a'; 65_536]), (102, false, 0));
    assert_eq!(numbers(b"a|b", &[b'a'; 65_536]), (101, false, 0));
    assert_eq!(numbers(&[b'('; 70_000], b""), (101, false, 0));
    assert_eq!(numbers(&[b'a'; 70_000], b""), (102, false, 0));
}

#[test]
fn groups_four_and_five_deep() {
    for (pattern, is_valid) in [
        (&b"((((a))))"[..], true),
        (b"(((((a)))))", false),
        (b"(((((", false),
        (b"((((a))))((((b))))", true),
        (b"(a(b(c(d)e)f)g)", true),
        (b"(a(b(c(d(e)))))", false),
        (b"((((\\(a))))", true),
        (b"\\(((((a))))", true),
        (b"((((a|(b)))))", false),
    ] {
        let given = raw::matches(pattern, b"a");
        let expected = reference::matches(pattern, b"a");
        assert_eq!(
            (given.answer, given.steps),
            (expected.answer, expected.steps)
        );
        assert_eq!(
            given.answer,
            if is_valid { 0 } else { 101 },
            "{}",
            shown(pattern)
        );
        let field = pattern.escape_ascii().to_string().replace("\\\\", "\\134");
        for form in FORMS {
            for id in [1, 2] {
                let field = if form.is_text() {
                    field.as_bytes()
                } else {
                    pattern
                };
                let answer = send(&mut opened(SMALL, form), 0, form, id, &[field]);
                assert_eq!(answer, if is_valid { 0 } else { 101 }, "{}", shown(pattern));
            }
        }
    }
}

// Recordings.

#[test]
fn recorded_64_and_65() {
    for form in FORMS {
        // The record room is far from full, so that only the number of commands counts.
        let full = || {
            let mut pair = opened(Sizes::new(1, 256, 1_024, 1_024), form);
            assert_eq!(send(&mut pair, 0, form, 5, &[]), 0);
            for _ in 0..64 {
                assert_eq!(send(&mut pair, 0, form, 2, &[b"a"]), 0);
            }
            pair
        };
        // The 65th is refused, a BEGIN is 103 and a COMMIT runs the 64.
        let mut pair = full();
        assert_eq!(send(&mut pair, 0, form, 7, &[b""]), 102);
        assert_shut(&mut pair, 0, form, 102, "no room");
        let mut pair = full();
        assert_eq!(send(&mut pair, 0, form, 5, &[]), 103);
        assert_refused(&mut pair, 0, form, 103, "bad state");
        let mut pair = full();
        assert_eq!(send(&mut pair, 0, form, 6, &[]), 0);
        assert_eq!(send(&mut pair, 0, form, 7, &[b"x"]), 0);
        assert_eq!(pair.drain(0).len(), 1);
    }
}

#[test]
fn record_room_full_and_passed() {
    for form in FORMS {
        for room in [256, 262_144] {
            // What is left after one PING of 30 bytes, in payloads of at most 60,000.
            let fill = |extra: usize| {
                let mut pair = opened(Sizes::new(1, 256, 1_048_576, room), form);
                assert_eq!(send(&mut pair, 0, form, 5, &[]), 0);
                assert_eq!(send(&mut pair, 0, form, 7, &[&[b'a'; 30]]), 0);
                let mut left = room - 34;
                while left > 60_004 {
                    assert_eq!(send(&mut pair, 0, form, 7, &[&[b'b'; 60_000]]), 0);
                    left -= 60_004;
                }
                let answer = send(&mut pair, 0, form, 7, &[&vec![b'c'; left - 4 + extra]]);
                (pair, answer)
            };
            let (mut pair, answer) = fill(0);
            assert_eq!(answer, 0);
            let used = pair
                .reference
                .client(0)
                .and_then(|client| client.recording());
            assert_eq!(used.map(|recording| recording.used()), Some(room));
            assert_eq!(send(&mut pair, 0, form, 6, &[]), 0);
            assert!(pair.drain(0).len() >= 2);
            let (mut pair, answer) = fill(1);
            assert_eq!(answer, 102);
            assert_shut(&mut pair, 0, form, 102, "no room");
            let (mut pair, _) = fill(0);
            assert_eq!(send(&mut pair, 0, form, 7, &[b""]), 102);
        }
    }
}

#[test]
fn text_hello_without_a_version_charges_5() {
    for (length, answer) in [(247, 0), (248, 102)] {
        let mut pair = opened(SMALL, Form::Line);
        assert_eq!(feed(&mut pair, 0, b"b\n"), 0);
        assert_eq!(send(&mut pair, 0, Form::Line, 7, &[&vec![b'a'; length]]), 0);
        assert_eq!(feed(&mut pair, 0, b"hello\n"), answer);
    }
}

// Payloads and lines.

#[test]
fn payloads_of_65535_and_65536_bytes() {
    for form in FORMS {
        for (length, past) in [(65_535, false), (65_536, true)] {
            // HELLO, READ, a deletion, a WRITE and a PING.
            let shapes: [(u8, Vec<Vec<u8>>); 6] = [
                (0, vec![vec![b't'; length - 1]]),
                (3, vec![vec![b'k'; length]]),
                (4, vec![vec![b'k'; length]]),
                (4, vec![vec![b'k'; 100], vec![b'v'; length - 101]]),
                (4, vec![vec![b'k'; length - 1], vec![]]),
                (7, vec![vec![b'p'; length]]),
            ];
            for (id, fields) in shapes {
                let fields: Vec<&[u8]> = fields.iter().map(Vec::as_slice).collect();
                let Some(input) = form.message(id, &fields) else {
                    assert!(past && form == Form::Frame);
                    continue;
                };
                let mut pair = opened(LARGE, form);
                let answer = feed(&mut pair, 0, &input);
                assert_eq!(answer, if past { 102 } else { 0 }, "{form:?} ID {id}");
                if past {
                    assert_shut(&mut pair, 0, form, 102, "no room");
                } else {
                    let messages = pair.drain(0);
                    assert_eq!(messages.len(), usize::from(id != 4));
                    assert_eq!(
                        pair.feed(0, b"").0,
                        if form == Form::Packet { 100 } else { 1 }
                    );
                }
            }
            // A pattern of that length is too long whether or not the payload is.
            for id in [1, 2] {
                if let Some(input) = form.message(id, &[&vec![b'a'; length]]) {
                    assert_eq!(feed(&mut opened(LARGE, form), 0, &input), 102);
                }
                if let Some(input) = form.message(id, &[&vec![b'('; length]]) {
                    assert_eq!(feed(&mut opened(LARGE, form), 0, &input), 101);
                }
            }
        }
    }
}

#[test]
fn refusals_before_length() {
    let fed = |input: Vec<u8>| feed(&mut opened(LARGE, Form::Packet), 0, &input);
    let packet = |id: u8, fill: u8| [vec![id], vec![fill; 70_000]].concat();
    assert_eq!(fed(packet(0x08, b'a')), 100);
    assert_eq!(fed(packet(0x80, b'a')), 100);
    assert_eq!(fed(packet(0x05, b'a')), 101);
    assert_eq!(fed(packet(0x06, b'a')), 101);
    assert_eq!(fed(packet(0x03, 0)), 101);
    assert_eq!(fed(packet(0x01, 0)), 101);
    assert_eq!(fed(packet(0x00, 0)), 102);
    assert_eq!(fed(packet(0x04, 0)), 102);
    assert_eq!(fed(packet(0x07, 0)), 102);
    let line = |head: &[u8], tail: &[u8]| [head, &[b'a'; 70_000], tail, b"\n"].concat();
    let fed = |input: Vec<u8>| feed(&mut opened(LARGE, Form::Line), 0, &input);
    assert_eq!(fed(line(b"x ", b"")), 100);
    assert_eq!(fed(line(b"x", b"")), 100);
    assert_eq!(fed(line(b"PING ", b" b")), 101);
    assert_eq!(fed(line(b"PING \"", b"")), 101);
    assert_eq!(fed(line(b"PING ", b"")), 102);
    assert_eq!(fed(line(b"SUB ", b"|")), 101);
    assert_eq!(fed(line(b"BEGIN ", b"")), 101);
    assert_eq!(fed(line(b"WRITE b ", b"")), 102);
    assert_eq!(fed(line(b"WRITE \"\\000\" ", b"")), 101);
    assert_eq!(fed(line(b"HELLO ", b"")), 101);
}

#[test]
fn text_lengths_are_counted_after_unescaping() {
    // Every byte as an octal escape: the line is 262,148 bytes long.
    let escaped = |length: usize| b"\\170".repeat(length);
    let mut pair = opened(LARGE, Form::Line);
    let input = message(Form::Line, 7, &[&escaped(65_535)]);
    assert_eq!(input.len(), 262_148);
    assert_eq!(feed(&mut pair, 0, &input), 0);
    let pong = [b"PONG \"", &[b'x'; 65_535][..], b"\"\r\n"].concat();
    assert_eq!(pair.drain(0), [pong]);
    // One more is a line of exactly 262,152 bytes, whose payload is too long.
    let input = message(Form::Line, 7, &[&escaped(65_536)]);
    assert_eq!(input.len(), 262_152);
    assert_eq!(feed(&mut pair, 0, &input), 102);
    // A PONG of 65,535 bytes that are all escaped is 262,150 bytes long.
    let mut pair = opened(LARGE, Form::Line);
    assert_eq!(
        send(&mut pair, 0, Form::Line, 7, &[&b"\\134".repeat(65_535)]),
        0
    );
    let pong = pair.take(0).expect("a PONG");
    assert_eq!(pong.len(), 5 + 2 + 4 * 65_535 + 2);
}

#[test]
fn lines_of_262151_to_262153_bytes() {
    // The line's first bytes, what fills it up, and the answer where it is a whole line.
    let contents: [(&[u8], u8, u32); 5] = [
        (b"", b' ', 0),
        (b"PING", b' ', 0),
        (b"x", b'x', 100),
        (b"PING ", b'x', 102),
        (b"PING \"", b'x', 101),
    ];
    for (head, fill, answer) in contents {
        let line = |length: usize, end: &[u8]| {
            let mut line = head.to_vec();
            line.resize(length - end.len(), fill);
            [line, end.to_vec()].concat()
        };
        let fed = |input: &[u8]| opened(SMALL, Form::Line).feed(0, input);
        assert_eq!(fed(&line(262_151, b"")), (1, 0));
        assert_eq!(fed(&line(262_152, b"")), (102, 262_152));
        assert_eq!(fed(&line(262_153, b"")), (102, 262_152));
        for end in [b"\n", b"\r"] {
            assert_eq!(fed(&line(262_151, end)), (answer, 262_151));
            assert_eq!(fed(&line(262_152, end)), (answer, 262_152));
            assert_eq!(fed(&line(262_153, end)), (102, 262_152));
        }
        assert_eq!(fed(&line(400_000, b"\n")), (102, 262_152));
        // A first line that is too long fixes the kind as text.
        let mut pair = opened(SMALL, Form::Line);
        assert_eq!(pair.feed(0, &line(262_152, b"")), (102, 262_152));
        assert_shut(&mut pair, 0, Form::Line, 102, "no room");
    }
}

#[test]
fn first_byte_of_a_stream() {
    for first in 0..=255 {
        // As a frame this has a payload of one byte; as a line it is blank or of an unknown word.
        let input = [first, 0, 1, b'*', b'\n'];
        let mut pair = opened(SMALL, Form::Frame);
        let given = pair.feed(0, &input);
        let messages = pair.drain(0);
        match first {
            0x0A | 0x0D => {
                assert_eq!(given, (0, 1));
                assert_eq!(feed(&mut pair, 0, b"PING\n"), 0);
                assert_eq!(pair.drain(0), [b"PONG \"\"\r\n"]);
            }
            0x20 | 0x40..=0x7E => {
                assert_eq!(given, (100, 5), "first byte {first}");
                assert_eq!(messages, [Form::Line.error(100, "unknown message")]);
            }
            0x05 | 0x06 => {
                assert_eq!(given, (101, 4));
                assert_eq!(messages, [Form::Frame.error(101, "bad parameter")]);
            }
            0x00..=0x07 => assert_eq!(given, (0, 4)),
            _ => {
                assert_eq!(given, (100, 4), "first byte {first}");
                assert_eq!(messages, [Form::Frame.error(100, "unknown message")]);
            }
        }
    }
}

#[test]
fn frames_wait_for_their_length() {
    for id in [0x07, 0x90] {
        let mut pair = opened(LARGE, Form::Frame);
        let frame = [vec![id, 0xFF, 0xFF], vec![b'a'; 65_535]].concat();
        for length in [0, 1, 2, 3, 4, 65_537] {
            assert_eq!(pair.feed(0, &frame[..length]), (1, 0));
        }
        let answer = if id == 0x07 { 0 } else { 100 };
        let longer = [&frame[..], b"more"].concat();
        assert_eq!(pair.feed(0, &longer), (answer, 65_538));
    }
}

// Queues.

/// What a PONG of no bytes charges in a form: its encoded length plus 4.
fn pong_charge(form: Form) -> usize {
    match form {
        Form::Packet => 5,
        Form::Frame => 7,
        Form::Line | Form::HangUp => 13,
    }
}

#[test]
fn queue_full_and_passed() {
    for form in FORMS {
        for room in [1_024, 1_500, 65_536] {
            let sizes = Sizes::new(1, 256, room, 256);
            let fits = room - 64 - pong_charge(form);
            // One message that fills the queue to Q - 64; then none fits.
            let mut pair = opened(sizes, form);
            assert_eq!(send(&mut pair, 0, form, 7, &[&vec![b'p'; fits]]), 0);
            assert_eq!(
                pair.reference.client(0).map(|c| c.queued()),
                Some(room - 64)
            );
            assert_eq!(send(&mut pair, 0, form, 2, &[b"a"]), 0);
            assert_eq!(send(&mut pair, 0, form, 7, &[b""]), 0);
            assert_eq!(pair.feed(0, b""), (3, 0));
            let messages = pair.drain(0);
            assert_eq!(messages.len(), 2);
            assert_eq!(messages[0].len(), room - 64 - 4);
            assert_eq!(messages[1], form.error(102, "no room"));
            // One byte more never fits.
            let mut pair = opened(sizes, form);
            assert_eq!(send(&mut pair, 0, form, 7, &[&vec![b'p'; fits + 1]]), 0);
            assert_eq!(pair.drain(0), [form.error(102, "no room")]);
            assert_eq!(pair.feed(0, b""), (3, 0));
            // Taken messages no longer count.
            let mut pair = opened(sizes, form);
            for _ in 0..5 {
                assert_eq!(send(&mut pair, 0, form, 7, &[&vec![b'p'; fits]]), 0);
                assert!(pair.take(0).is_some());
            }
        }
    }
}

#[test]
fn queue_takes_all_of_a_commit_or_none() {
    for form in FORMS {
        // Two PONGs that fill the queue just so, or pass it by one byte.
        for (extra, fits) in [(0, true), (1, false)] {
            let mut pair = opened(Sizes::new(1, 256, 1_024, 2_048), form);
            let left = 1_024 - 64 - 2 * pong_charge(form) - 400;
            assert_eq!(send(&mut pair, 0, form, 5, &[]), 0);
            assert_eq!(send(&mut pair, 0, form, 4, &[b"k", b"v"]), 0);
            assert_eq!(send(&mut pair, 0, form, 7, &[&[b'p'; 400]]), 0);
            assert_eq!(send(&mut pair, 0, form, 7, &[&vec![b'q'; left + extra]]), 0);
            assert_eq!(send(&mut pair, 0, form, 6, &[]), 0);
            assert_eq!(pair.reference.store().get(b"k"), Some(&b"v"[..]));
            let messages = pair.drain(0);
            assert_eq!(messages.len(), if fits { 2 } else { 1 });
            if !fits {
                assert_eq!(messages[0], form.error(102, "no room"));
            }
        }
    }
}

#[test]
fn queue_of_another_client() {
    for form in FORMS {
        // What an INFO of a key of one byte charges beside its value.
        let head = match form {
            Form::Packet => 7,
            Form::Frame => 9,
            Form::Line | Form::HangUp => 17,
        };
        for (extra, fits) in [(0, true), (1, false)] {
            let mut pair = opened(Sizes::new(2, 2_048, 1_024, 256), form);
            assert_eq!(send(&mut pair, 0, form, 1, &[b"*"]), 0);
            let value = vec![b'v'; 1_024 - 64 - head + extra];
            assert_eq!(send(&mut pair, 1, form, 4, &[b"k", &value]), 0);
            let messages = pair.drain(0);
            assert_eq!(messages.len(), 1);
            assert_eq!(messages[0] == form.error(102, "no room"), !fits);
            assert_eq!(pair.reference.store().get(b"k"), Some(&value[..]));
            assert_eq!(pair.drain(1).len(), 0);
        }
    }
}

#[test]
fn error_that_shuts_fits_in_the_kept_room_of_a_full_queue() {
    for form in FORMS {
        let cases: [(u8, &[&[u8]], u8, &str); 3] = [
            (1, &[b"**"], 101, "bad parameter"),
            (1, &[&[b'a'; 256]], 102, "no room"),
            (5, &[], 103, "bad state"),
        ];
        for (id, fields, number, text) in cases {
            let mut pair = opened(SMALL, form);
            let fits = 1_024 - 64 - pong_charge(form);
            assert_eq!(send(&mut pair, 0, form, 7, &[&vec![b'p'; fits]]), 0);
            assert_eq!(send(&mut pair, 0, form, 5, &[]), 0);
            // The ERROR of a client that would stay open has no room there.
            let (number, text) = match form.stays_open(number) {
                true => (102, "no room"),
                false => (number, text),
            };
            assert_eq!(send(&mut pair, 0, form, id, fields), u32::from(number));
            assert_shut(&mut pair, 0, form, number, text);
        }
    }
}

#[test]
fn take_room() {
    for form in FORMS {
        let mut pair = opened(SMALL, form);
        assert_eq!(send(&mut pair, 0, form, 7, &[b"abc"]), 0);
        let length = pong_charge(form) - 4 + 3;
        for room in 0..length {
            assert_eq!(pair.agree(Call::Take { slot: 0, room }), (5, 0));
        }
        assert_eq!(
            pair.agree(Call::Take {
                slot: 0,
                room: length
            }),
            (0, length)
        );
        assert_eq!(
            pair.agree(Call::Take {
                slot: 0,
                room: length
            }),
            (6, 0)
        );
    }
}

// Typing errors.

/// A line that is refused in a transaction, the refusal, its text and what its ERROR charges.
const SLIPS: [(&[u8], u8, &str, usize); 3] = [
    (b"XX\n", 100, "unknown message", 33),
    (b"SUB **\n", 101, "bad parameter", 31),
    (b"BEGIN\n", 103, "bad state", 27),
];

/// Feeds the lines to slot 0, each of which has to get its answer.
#[track_caller]
fn lines(pair: &mut Pair, expected: &[(&str, u32)]) {
    for (number, (text, answer)) in expected.iter().enumerate() {
        let given = feed(pair, 0, format!("{text}\n").as_bytes());
        assert_eq!(given, *answer, "line {number}: {text}");
    }
}

/// A PING whose PONG charges so many bytes as a line.
fn ping_charging(charge: usize) -> String {
    format!("PING {}", "p".repeat(charge - pong_charge(Form::Line)))
}

#[test]
fn error_of_a_slip_fits_to_the_byte() {
    for room in [1_024, 1_025, 1_500, 60_000] {
        for (line, number, text, charge) in SLIPS {
            for in_transaction in [false, true] {
                if number == 103 && !in_transaction {
                    continue;
                }
                let charged = |free: usize| {
                    let mut pair = opened(Sizes::new(1, 256, room, 256), Form::Line);
                    lines(&mut pair, &[(&ping_charging(room - 64 - free), 0)]);
                    if in_transaction {
                        lines(&mut pair, &[("BEGIN", 0), ("WRITE k v", 0)]);
                    }
                    pair
                };
                let mut pair = charged(charge);
                assert_eq!(feed(&mut pair, 0, line), u32::from(number));
                let client = pair.reference.client(0).expect("a client");
                assert_eq!(client.queued(), room - 64);
                assert_eq!(client.is_spoiled(), in_transaction);
                assert_eq!(pair.feed(0, b""), (1, 0));
                // Not one more has room, and the 102 in its place goes to the kept room.
                let mut full = charged(charge);
                assert_eq!(feed(&mut full, 0, line), u32::from(number));
                assert_eq!(feed(&mut full, 0, b"XX\n"), 102);
                assert_shut(&mut full, 0, Form::Line, 102, "no room");
                // Once a message is taken there is room again.
                assert!(pair.take(0).is_some());
                assert_eq!(feed(&mut pair, 0, b"XX\n"), 100);
                let errors = [
                    Form::Line.error(number, text),
                    Form::Line.error(100, "unknown message"),
                ];
                assert_eq!(pair.drain(0), errors);
                let commit = if in_transaction { 103 } else { 0 };
                lines(&mut pair, &[("COMMIT", commit), ("COMMIT", 0)]);
                assert_eq!(pair.reference.store().count(), 0);

                let mut pair = charged(charge - 1);
                assert_eq!(feed(&mut pair, 0, line), 102);
                assert_eq!(pair.feed(0, b"PING\n"), (3, 0));
                let messages = pair.drain(0);
                assert_eq!(messages.len(), 2);
                assert_eq!(messages[1], Form::Line.error(102, "no room"));
            }
        }
    }
}

#[test]
fn error_of_a_spoiled_commit_fits_to_the_byte() {
    for (free, answer) in [(27, 103), (26, 102)] {
        let mut pair = opened(SMALL, Form::Line);
        let ping = ping_charging(960 - 33 - free);
        lines(&mut pair, &[(&ping, 0), ("BEGIN", 0), ("XX", 100)]);
        lines(&mut pair, &[("WRITE k v", 0), ("COMMIT", answer)]);
        if answer == 103 {
            assert_eq!(pair.drain(0).len(), 3);
            lines(&mut pair, &[("COMMIT", 0), ("BEGIN", 0), ("COMMIT", 0)]);
        } else {
            assert_shut(&mut pair, 0, Form::Line, 102, "no room");
        }
        assert_eq!(pair.reference.store().count(), 0);
    }
}

#[test]
fn spoiled_transaction_has_no_limits() {
    let mut pair = opened(SMALL, Form::Line);
    for number in 0..16 {
        lines(&mut pair, &[(&format!("SUB {number}"), 0)]);
    }
    lines(&mut pair, &[("BEGIN", 0), ("XX", 100)]);
    assert_eq!(pair.drain(0).len(), 1);
    // No 65th command, no record room, no 17th pattern and no store room.
    for _ in 0..70 {
        lines(&mut pair, &[("PING x", 0), ("", 0)]);
    }
    let long = "r".repeat(60_000);
    lines(&mut pair, &[(&format!("PING {long}"), 0), ("SUB 17th", 0)]);
    lines(&mut pair, &[(&format!("WRITE k {long}"), 0), ("READ k", 0)]);
    lines(&mut pair, &[("UNSUB 3", 0), ("HELLO", 0), ("WRITE k v", 0)]);
    assert_eq!(pair.drain(0).len(), 0);
    lines(&mut pair, &[("COMMIT", 103), ("READ k", 0)]);
    let messages: [&[u8]; 2] = [b"ERROR 103 \"bad state\"\r\n", b"INFO \"k\"\r\n"];
    assert_eq!(pair.drain(0), messages);
    // The patterns are those of before, so that one of them may be held anew and no other.
    lines(&mut pair, &[("SUB 3", 0), ("SUB 17th", 102)]);
}

#[test]
fn lengths_shut_in_a_spoiled_transaction_too() {
    let too_long = [
        message(Form::Line, 1, &[&[b'a'; 256]]),
        message(Form::Line, 7, &[&[b'a'; 65_536]]),
        vec![b'x'; 262_152],
        vec![b' '; 262_153],
    ];
    for input in too_long {
        for before in [&[][..], &[("BEGIN", 0)], &[("BEGIN", 0), ("XX", 100)]] {
            let mut pair = opened(SMALL, Form::Line);
            lines(&mut pair, before);
            assert_eq!(pair.feed(0, &input), (102, input.len().min(262_152)));
            assert_shut(&mut pair, 0, Form::Line, 102, "no room");
        }
    }
}

#[test]
fn bad_begins_and_commits() {
    let mut pair = opened(SMALL, Form::Line);
    let commands = [
        ("BEGIN", 0),
        ("BEGIN", 103),
        ("BEGIN", 103),
        ("COMMIT", 103),
        ("BEGIN", 0),
        ("WRITE k v", 0),
        ("COMMIT x", 101),
        ("COMMIT x", 101),
        ("BEGIN x", 101),
        ("  ", 0),
        ("COMMIT", 103),
        ("COMMIT", 0),
        ("COMMIT x", 101),
        ("BEGIN x", 101),
        ("BEGIN", 0),
        ("WRITE k w", 0),
        ("COMMIT", 0),
    ];
    lines(&mut pair, &commands);
    assert_eq!(pair.reference.store().get(b"k"), Some(&b"w"[..]));
}

#[test]
fn first_line_refused() {
    for form in [Form::Line, Form::HangUp] {
        for (line, number, text) in [
            (&b"XX\n"[..], 100, "unknown message"),
            (b" x\r", 100, "unknown message"),
            (b"SUB **\n", 101, "bad parameter"),
            (b"COMMIT x\n", 101, "bad parameter"),
        ] {
            let mut pair = opened(SMALL, form);
            assert_eq!(feed(&mut pair, 0, line), u32::from(number));
            assert_refused(&mut pair, 0, form, number, text);
            if form.stays_open(number) {
                // The kind is text from there on: as a frame this would be a PING.
                assert_eq!(pair.feed(0, b"\x07\0\0\n"), (100, 4));
            }
        }
        let mut pair = opened(SMALL, form);
        assert_eq!(feed(&mut pair, 0, b"\x08\0\0"), 100);
        assert_shut(&mut pair, 0, Form::Frame, 100, "unknown message");
    }
}

#[test]
fn reopened_slots_go_by_their_own_form() {
    // What the slot's client before has done, in form 1 and in form 2.
    let before: [&[(&str, u32)]; 4] = [
        &[],
        &[("SUB *", 0)],
        &[("BEGIN", 0), ("WRITE k v", 0)],
        &[("BEGIN", 0), ("WRITE k v", 0), ("XX", 100)],
    ];
    for (old, new) in [(1, 1), (1, 2), (2, 1), (2, 2)] {
        for commands in before {
            let mut pair = Pair::new(SMALL, 0);
            assert_eq!(pair.open(0, old), 0);
            lines(&mut pair, commands);
            assert_eq!((pair.close(0), pair.open(0, new)), (0, 0));
            lines(&mut pair, &[("COMMIT", 0), ("BEGIN", 0), ("PING x", 0)]);
            lines(&mut pair, &[("COMMIT", 0), ("XX", 100)]);
            assert_eq!(pair.feed(0, b"PING y\n").0, if new == 1 { 0 } else { 3 });
            assert_eq!(pair.drain(0).len(), if new == 1 { 3 } else { 2 });
        }
    }
}

#[test]
fn slips_leave_others_alone() {
    let mut pair = opened(Sizes::new(2, 256, 1_024, 256), Form::Line);
    assert_eq!(feed(&mut pair, 1, b"BEGIN\n"), 0);
    assert_eq!(feed(&mut pair, 1, b"WRITE k v\n"), 0);
    lines(&mut pair, &[("SUB *", 0), ("BEGIN", 0), ("XX", 100)]);
    assert_eq!(feed(&mut pair, 1, b"COMMIT\n"), 0);
    // The patterns of a client in a spoiled transaction are asked as ever.
    let messages = [
        Form::Line.error(100, "unknown message"),
        b"INFO \"k\" \"v\"\r\n".to_vec(),
    ];
    assert_eq!(pair.drain(0), messages);
    // A client in a spoiled transaction that does not take is shut by others' WRITEs.
    lines(&mut pair, &[(&ping_charging(900), 0)]);
    assert_eq!(pair.drain(0).len(), 0);
    for number in 0..60 {
        assert_eq!(
            feed(&mut pair, 1, format!("WRITE k {number}\n").as_bytes()),
            0
        );
    }
    assert_shut(&mut pair, 0, Form::Line, 102, "no room");
}

// Run by a program and compared.

#[test]
fn examples_of_invalid_patterns() {
    for pattern in ["(((((a)))))", "**", "*(a)", "a\\", "a|b"] {
        let given = raw::matches(pattern.as_bytes(), b"a");
        assert_eq!(
            (given.answer, given.matched, given.steps),
            (101, false, 0),
            "{pattern}"
        );
        for id in [1, 2] {
            let mut pair = opened(SMALL, Form::Frame);
            assert_eq!(
                send(&mut pair, 0, Form::Frame, id, &[pattern.as_bytes()]),
                101
            );
            assert_shut(&mut pair, 0, Form::Frame, 101, "bad parameter");
        }
    }
}

#[test]
fn examples_of_frames() {
    let mut pair = opened(SMALL, Form::Frame);
    assert_eq!(pair.feed(0, &[0x07, 0x00, 0x01, 0x78]), (0, 4));
    assert_eq!(pair.drain(0), [[0x82, 0x00, 0x01, 0x78]]);
    assert_eq!(pair.feed(0, &[0x00, 0x00, 0x01, 0x05]), (0, 4));
    assert_eq!(pair.drain(0), [[0x80, 0x00, 0x01, 0x00]]);
    assert_eq!(pair.feed(0, &[0x04, 0x00, 0x02, 0x6B, 0x00]), (0, 5));
    assert_eq!(pair.feed(0, &[0x03, 0x00, 0x01, 0x6B]), (0, 4));
    assert_eq!(pair.drain(0), [[0x81, 0x00, 0x02, 0x6B, 0x00]]);
    assert_eq!(pair.feed(0, &[0x04, 0x00, 0x01, 0x6B]), (0, 4));
    assert_eq!(pair.feed(0, &[0x03, 0x00, 0x01, 0x6B]), (0, 4));
    assert_eq!(pair.drain(0), [[0x81, 0x00, 0x01, 0x6B]]);
}

#[test]
fn examples_of_text() {
    let mut pair = opened(SMALL, Form::Line);
    assert_eq!(feed(&mut pair, 0, b"w k \"a\\040b\"\n"), 0);
    assert_eq!(feed(&mut pair, 0, b"r k\n"), 0);
    assert_eq!(pair.drain(0), [b"INFO \"k\" \"a b\"\r\n"]);
    for field in ["\"\\400\"", "\"\\8\""] {
        let mut pair = opened(SMALL, Form::Line);
        assert_eq!(feed(&mut pair, 0, format!("w k {field}\n").as_bytes()), 101);
        assert_eq!(pair.drain(0), [b"ERROR 101 \"bad parameter\"\r\n"]);
    }
}

#[test]
fn script() {
    let input = "1 SUB site.*.state\n0 WRITE site.7.state alert\n0 BEGIN\n0 WRITE site.7.km 4\n\
                 0 WRITE site.7.state clear\n1 READ site.7.km\n0 COMMIT\n1 PING x\n";
    let output = "1 INFO \"site.7.state\" \"alert\"\r\n1 INFO \"site.7.km\"\r\n\
                  1 INFO \"site.7.state\" \"clear\"\r\n1 PONG \"x\"\r\n";
    let mut pair = opened(Sizes::new(2, 1_024, 1_024, 256), Form::Line);
    let mut printed = Vec::new();
    for line in input.split_inclusive('\n') {
        let slot = usize::from(line.as_bytes()[0] - b'0');
        assert_eq!(feed(&mut pair, slot, &line.as_bytes()[2..]), 0);
        for slot in 0..2 {
            for message in pair.drain(slot) {
                printed.extend(format!("{slot} ").bytes().chain(message));
            }
        }
    }
    assert_eq!(String::from_utf8(printed).expect("text"), output);
}

#[test]
fn table_of_matches() {
    let table: [(&[u8], &[u8], bool, usize); 12] = [
        (b"iface.*.mtu", b"iface.eth0.mtu", true, 14),
        (b"iface.*.mtu", b"iface.bridge0.port1.mtu", false, 15),
        (b"iface.*", b"iface.bridge0.port1.mtu", true, 7),
        (b"iface.*", b"iface.", true, 7),
        (b"(a|ab)c", b"abc", false, 2),
        (b"(ab|a)c", b"ac", true, 4),
        (b"", b"", true, 0),
        (b"", b"a", false, 0),
        (b"*?", b"xy", false, 1),
        (b"*.b", b"a.x.b", false, 3),
        (b"*", b"", true, 1),
        (b"((((a))))", b"a", true, 1),
    ];
    for (pattern, key, matched, steps) in table {
        let given = raw::matches(pattern, key);
        assert_eq!(
            (given.answer, given.matched, given.steps),
            (0, matched, steps)
        );
    }
}

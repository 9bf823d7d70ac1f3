//! Damages: ways to alter the bytes of a memory, at random or to boundary values.

use crate::layout::{self, number, put_number, Sizes};
use crate::layout::{RECORDING, STORE, STORE_ROOM, SUBSCRIPTIONS};
use crate::random::Random;

/// Boundary values for a number of `width` bytes that now is `present`.
pub fn boundaries(sizes: Sizes, width: usize, present: usize) -> Vec<usize> {
    if width == 1 {
        return (0..256).collect();
    }
    let size = sizes.memory_size();
    let mut values = vec![0, 1, 2, 3, 4, 7, 31, 32, 33, usize::MAX, usize::MAX - 1];
    let middle = [
        16,
        64,
        255,
        256,
        1024,
        65_535,
        65_536,
        262_144,
        1_048_576,
        1 << 31,
        present,
        size,
        sizes.s,
        sizes.q,
        sizes.q - 64,
        2 * sizes.q,
        sizes.r,
    ];
    for value in middle {
        values.extend([value.wrapping_sub(1), value, value + 1]);
    }
    for value in &mut values {
        *value &= (1 << (8 * width)) - 1;
    }
    values.sort_unstable();
    values.dedup();
    values
}

/// Where the store's rows stand, and the end of the last one.
fn row_places(mem: &[u8]) -> Vec<usize> {
    let mut at = STORE_ROOM;
    let mut places = vec![at];
    for _ in 0..number(mem, STORE + 4, 4) {
        at += 7 + number(mem, at, 4);
        places.push(at);
    }
    places
}

/// Alters a memory that keeps the rules in one way, and says how.
pub fn alter(mem: &mut Vec<u8>, random: &mut Random) -> &'static str {
    let Some(sizes) = Sizes::named(mem) else {
        return "nothing to alter";
    };
    let fine = layout::broken(mem).is_none();
    let slot = if fine {
        sizes.slot(random.below(sizes.n))
    } else {
        0
    };
    match random.below(if fine { 22 } else { 4 }) {
        0 => flip_bits(mem, random),
        1 => overwrite(mem, random),
        2 => copy_range(mem, random),
        3 => {
            let at = random.below(mem.len());
            mem[at] = *random.pick(&[0, 1, 2, 0x7F, 0x80, 0xFF]);
            "a byte set"
        }
        4..=6 => set_number(mem, sizes, random),
        7 => swap_rows(mem, random),
        8 => drop_last_entry(mem),
        9 => repeat_key(mem, random),
        10 => alter_bodies(mem, random),
        11 => add_entry(mem, sizes, random),
        12 | 13 => move_queue(mem, sizes, slot, random),
        14 => {
            mem[slot] = *random.pick(&[0, 1, 2]);
            mem[slot + 1] = random.below(8) as u8;
            "another phase and kind"
        }
        15 => new_patterns(mem, slot, random),
        16 | 17 => new_recording(mem, sizes, slot, random),
        18 | 19 => spoil_by_hand(mem, slot, random),
        20 => {
            let from = sizes.slot(random.below(sizes.n));
            mem.copy_within(from..from + sizes.slot_size(), slot);
            "a slot copied over another"
        }
        _ => {
            let at = *random.pick(&[4, 8, 12, 16]);
            let size = number(mem, at, 4);
            put_number(mem, at, 4, (size + random.below(9)).saturating_sub(4));
            mem.resize(mem.len() + 4096, 0);
            "another size, and a longer slice"
        }
    }
}

fn flip_bits(mem: &mut [u8], random: &mut Random) -> &'static str {
    for _ in 0..=random.below(4) {
        let at = if random.one_in(2) {
            random.below(mem.len())
        } else {
            random.below(mem.len().min(64))
        };
        mem[at] ^= 1 << random.below(8);
    }
    "bits flipped"
}

fn overwrite(mem: &mut [u8], random: &mut Random) -> &'static str {
    let from = random.below(mem.len());
    let most = (mem.len() - from).min(1 << random.below(14));
    let len = 1 + random.below(most);
    match random.below(3) {
        0 => mem[from..from + len].fill(0),
        1 => mem[from..from + len].fill(0xFF),
        _ => random.fill(&mut mem[from..from + len]),
    }
    "a range overwritten"
}

fn copy_range(mem: &mut [u8], random: &mut Random) -> &'static str {
    let len = 1 + random.below(mem.len().min(300));
    let from = random.below(mem.len() - len + 1);
    let to = random.below(mem.len() - len + 1);
    mem.copy_within(from..from + len, to);
    "a range copied"
}

fn set_number(mem: &mut [u8], sizes: Sizes, random: &mut Random) -> &'static str {
    let fields = layout::fields(mem);
    let field = random.pick(&fields);
    let present = number(mem, field.at, field.width);
    let value = *random.pick(&boundaries(sizes, field.width, present));
    put_number(mem, field.at, field.width, value);
    "a number set"
}

fn swap_rows(mem: &mut [u8], random: &mut Random) -> &'static str {
    let places = row_places(mem);
    if places.len() > 2 {
        let i = random.below(places.len() - 2);
        let second = places[i + 2] - places[i + 1];
        mem[places[i]..places[i + 2]].rotate_right(second);
    }
    "two rows swapped"
}

fn drop_last_entry(mem: &mut [u8]) -> &'static str {
    let places = row_places(mem);
    if let [.., last, _] = places[..] {
        put_number(mem, STORE, 4, last - STORE_ROOM);
        put_number(mem, STORE + 4, 4, places.len() - 2);
    }
    "the last entry dropped"
}

fn repeat_key(mem: &mut [u8], random: &mut Random) -> &'static str {
    let places = row_places(mem);
    if places.len() > 2 {
        let i = random.below(places.len() - 2);
        let (one, two) = (places[i], places[i + 1]);
        let len = number(mem, one + 4, 2);
        if len == number(mem, two + 4, 2) {
            mem.copy_within(one + 7..one + 7 + len, two + 7);
        }
    }
    "a key repeated"
}

/// Overwrites bytes of a key or value, which no rule reads but for the order of keys.
fn alter_bodies(mem: &mut [u8], random: &mut Random) -> &'static str {
    let places = row_places(mem);
    if places.len() > 1 {
        let i = random.below(places.len() - 1);
        let key = number(mem, places[i] + 4, 2);
        let value = places[i] + 8 + key;
        random.fill(&mut mem[value..places[i + 1]]);
        if key > 0 && random.one_in(2) {
            mem[places[i] + 6 + key] = random.byte();
        }
    }
    "a body overwritten"
}

/// Adds an entry behind the others, also one with a wrong row.
fn add_entry(mem: &mut [u8], sizes: Sizes, random: &mut Random) -> &'static str {
    let (used, entries) = (number(mem, STORE, 4), number(mem, STORE + 4, 4));
    let (key, value) = (random.below(6), random.below(20));
    let (at, row) = (STORE_ROOM + used, 8 + key + value);
    if used + row <= sizes.s {
        mem[at..at + row].fill(0xFF);
        let body = key + 1 + value + usize::from(random.one_in(6));
        put_number(mem, at, 4, body);
        put_number(mem, at + 4, 2, key);
        mem[at + 6] = u8::from(random.one_in(6));
        mem[at + 7 + key] = u8::from(random.one_in(6));
        put_number(mem, STORE, 4, used + row);
        put_number(mem, STORE + 4, 4, entries + 1);
    }
    "an entry added by hand"
}

/// Sets where a queue begins and ends, mostly within the rules.
fn move_queue(mem: &mut [u8], sizes: Sizes, slot: usize, random: &mut Random) -> &'static str {
    let queue = slot + 4116 + sizes.r;
    let q = sizes.q;
    let ends = [0, 1, 3, 4, 5, 100, q - 65, q - 64, q - 63, q - 1, q, q + 1];
    // What is left is just what the ERROR of 100, 101 or 103 charges as a line, or a byte less.
    let before_slip = [33, 32, 31, 30, 27, 26].map(|left| q - 64 - left);
    let is_before_slip = random.one_in(3);
    let len = *random.pick(if is_before_slip {
        &before_slip[..]
    } else {
        &ends
    });
    let head = *random.pick(&[0, 1, 7, q - 1, q, q + 1, 2 * q - len.min(2 * q), 2 * q]);
    let tail = head + len;
    put_number(mem, queue, 4, head);
    put_number(mem, queue + 4, 4, tail);
    put_number(mem, queue + 8, 4, tail + usize::from(random.one_in(8)));
    put_number(mem, queue + 12, 4, usize::from(random.one_in(16)));
    if random.one_in(2) {
        random.fill(&mut mem[queue + 16..queue + 16 + 2 * q]);
    }
    "another head and tail"
}

/// Puts patterns into the cells, invalid ones too.
fn new_patterns(mem: &mut [u8], slot: usize, random: &mut Random) -> &'static str {
    const BYTES: &[u8] = b"()|*?\\as.k";
    let cells = slot + SUBSCRIPTIONS + 4;
    for cell in 0..16 {
        let at = cells + 256 * cell;
        mem[at] = if random.one_in(4) {
            255
        } else {
            random.below(9) as u8
        };
        for byte in &mut mem[at + 1..at + 256] {
            *byte = *random.pick(BYTES);
        }
    }
    put_number(mem, slot + SUBSCRIPTIONS, 4, random.below(18));
    "patterns overwritten"
}

/// Records commands by hand, also ones that no client could record.
fn new_recording(mem: &mut [u8], sizes: Sizes, slot: usize, random: &mut Random) -> &'static str {
    const IDS: [u8; 9] = [0, 1, 2, 3, 4, 4, 4, 4, 7];
    const BAD: [u8; 4] = [5, 6, 8, 0x81];
    const BYTES: &[u8] = b"*(|)ak\0\0.?";
    let recording = slot + RECORDING;
    let room = recording + 12;
    let (mut used, mut commands) = (0, 0);
    let many = random.below(70);
    while commands < many {
        let payload = if random.one_in(20) {
            *random.pick(&[254, 255, 256, 300])
        } else {
            random.below(8)
        };
        if used + 4 + payload > sizes.r {
            break;
        }
        let bad = random.one_in(200);
        mem[room + used] = if bad {
            *random.pick(&BAD)
        } else {
            *random.pick(&IDS)
        };
        put_number(mem, room + used + 1, 3, payload);
        for byte in &mut mem[room + used + 4..room + used + 4 + payload] {
            *byte = *random.pick(BYTES);
        }
        used += 4 + payload;
        commands += 1;
    }
    let wrong = random.one_in(8);
    put_number(mem, recording, 4, if wrong { random.below(4) } else { 1 });
    put_number(mem, recording + 4, 4, used);
    put_number(mem, recording + 8, 4, commands);
    "a recording by hand"
}

/// Makes a client one in a spoiled transaction, mostly an open text client, now and then with
/// something recorded.
fn spoil_by_hand(mem: &mut [u8], slot: usize, random: &mut Random) -> &'static str {
    let recording = slot + RECORDING;
    if random.one_in(8) {
        put_number(mem, recording, 4, 2);
        return "another state of a recording";
    }
    mem[slot] = if random.one_in(8) { 2 } else { 1 };
    mem[slot + 1] = *random.pick(&[3, 3, 3, 7, 7, 0, 1, 2, 4, 5, 6]);
    mem[recording..recording + 12].fill(0);
    put_number(mem, recording, 4, 2);
    "a transaction spoiled by hand"
}

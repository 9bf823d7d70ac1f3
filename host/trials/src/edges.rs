//! Memories altered by hand so that one rule is at its edge, just inside it or just outside, and
//! every other rule is kept.

use crate::layout::{number, put_number, Sizes, RECORDING, STORE, STORE_ROOM, SUBSCRIPTIONS};

/// The kind of a framed client.
const FRAMED: u8 = 2;
/// The kind of a text client.
const TEXT: u8 = 3;
/// What is added to the kind of a client that was opened in form 2.
const HANGS_UP: u8 = 4;

/// What is done with each altered memory: it gets what was altered, and the memory.
pub type Visit<'a> = &'a mut dyn FnMut(&str, &[u8]);

/// Visits the edges that a memory which keeps the rules can be brought to.
pub fn edges(mem: &[u8], visit: Visit) {
    let sizes = Sizes::named(mem).expect("a memory that keeps the rules");
    key_pairs(mem, sizes, visit);
    one_more_entry(mem, sizes, visit);
    body_lengths(mem, sizes, visit);
    let slot = sizes.slot(sizes.n - 1);
    kinds(mem, sizes, slot, visit);
    queue_lengths(mem, sizes, slot, visit);
    numbers_of_commands(mem, sizes, slot, visit);
    commands(mem, sizes, slot, visit);
}

/// Makes the slot one of a client in this phase and of this kind, with nothing in it.
fn bare(mem: &mut [u8], sizes: Sizes, slot: usize, phase: u8, kind: u8) {
    mem[slot] = phase;
    mem[slot + 1] = kind;
    put_number(mem, slot + SUBSCRIPTIONS, 4, 0);
    mem[slot + RECORDING..slot + RECORDING + 12].fill(0);
    let queue = slot + 4116 + sizes.r;
    mem[queue..queue + 16].fill(0);
}

/// The room of a store that holds just these rows.
fn set_rows(mem: &mut [u8], rows: &[(&[u8], &[u8])]) {
    let mut at = STORE_ROOM;
    for (key, value) in rows {
        put_number(mem, at, 4, key.len() + 1 + value.len());
        put_number(mem, at + 4, 2, key.len());
        mem[at + 6] = 0;
        at += 7;
        for part in [key, &b"\0"[..], value] {
            mem[at..at + part.len()].copy_from_slice(part);
            at += part.len();
        }
    }
    put_number(mem, STORE, 4, at - STORE_ROOM);
    put_number(mem, STORE + 4, 4, rows.len());
}

/// Two keys that ascend or do not: equal ones, prefixes, and ones that differ at one place.
fn key_pairs(mem: &[u8], sizes: Sizes, visit: Visit) {
    let long = b"abcdefghijklmnopqrstuvwxyz";
    let mut pairs: Vec<(Vec<u8>, Vec<u8>)> = Vec::new();
    for len in [0, 1, 7, 8, 9, 15, 16, 17, 26] {
        let key = long[..len].to_vec();
        pairs.push((key.clone(), key.clone()));
        pairs.push((key.clone(), long[..(len + 1).min(26)].to_vec()));
        for at in 0..len {
            for byte in [0x00, 0x7F, 0x80, 0xFF] {
                let mut other = key.clone();
                other[at] = byte;
                pairs.push((key.clone(), other));
            }
        }
    }
    for (one, two) in pairs {
        for (first, second) in [(&one, &two), (&two, &one)] {
            if 16 + first.len() + second.len() > sizes.s {
                continue;
            }
            let mut altered = mem.to_vec();
            set_rows(&mut altered, &[(first, b""), (second, b"")]);
            visit(&format!("keys {first:02x?} and {second:02x?}"), &altered);
        }
    }
}

/// One entry more than there are, behind the others.
fn one_more_entry(mem: &[u8], sizes: Sizes, visit: Visit) {
    let (used, entries) = (number(mem, STORE, 4), number(mem, STORE + 4, 4));
    if used + 9 > sizes.s {
        return;
    }
    let mut altered = mem.to_vec();
    let at = STORE_ROOM + used;
    altered[at..at + 9].copy_from_slice(b"\0\0\0\x02\0\x01\0\xFF\0");
    put_number(&mut altered, STORE, 4, used + 9);
    put_number(&mut altered, STORE + 4, 4, entries + 1);
    visit(&format!("entry {}", entries + 1), &altered);
}

/// One entry whose body is about as long as a body may be, or whose key is as long as its body.
fn body_lengths(mem: &[u8], sizes: Sizes, visit: Visit) {
    for (key, body) in [
        (1, 65_534),
        (0, 65_535),
        (1, 65_536),
        (65_534, 65_535),
        (9, 10),
        (9, 9),
    ] {
        if 7 + body > sizes.s {
            continue;
        }
        let mut altered = mem.to_vec();
        set_rows(&mut altered, &[]);
        altered[STORE_ROOM..STORE_ROOM + 7 + body].fill(0);
        put_number(&mut altered, STORE_ROOM, 4, body);
        put_number(&mut altered, STORE_ROOM + 4, 2, key);
        put_number(&mut altered, STORE, 4, 7 + body);
        put_number(&mut altered, STORE + 4, 4, 1);
        visit(&format!("a body of {body} and a key of {key}"), &altered);
    }
}

/// Each kind, and more than there are, in each phase and in each state of a recording that holds
/// nothing.
fn kinds(mem: &[u8], sizes: Sizes, slot: usize, visit: Visit) {
    for phase in 0..4 {
        for kind in (0..10).chain([0x7F, 0x80, 0xFF]) {
            for state in 0..4 {
                let mut altered = mem.to_vec();
                bare(&mut altered, sizes, slot, phase, kind);
                put_number(&mut altered, slot + RECORDING, 4, state);
                visit(
                    &format!("phase {phase}, kind {kind}, state {state}"),
                    &altered,
                );
            }
        }
    }
}

/// Queues about as long as they may be, of an open and of a shut client, at both ends of the room.
fn queue_lengths(mem: &[u8], sizes: Sizes, slot: usize, visit: Visit) {
    let (q, queue) = (sizes.q, slot + 4116 + sizes.r);
    for phase in [1, 2] {
        for len in [0, 1, 4, q - 65, q - 64, q - 63, q - 1, q, q + 1] {
            for head in [0, 1, 2 * q - len - 1, 2 * q - len, 2 * q - len + 1] {
                let mut altered = mem.to_vec();
                bare(&mut altered, sizes, slot, phase, FRAMED);
                put_number(&mut altered, queue, 4, head);
                put_number(&mut altered, queue + 4, 4, head + len);
                put_number(&mut altered, queue + 8, 4, head + len);
                visit(
                    &format!("phase {phase}, queue {head} to {}", head + len),
                    &altered,
                );
            }
        }
    }
}

/// As many commands as may be recorded, one fewer and one more; and commands, or used bytes
/// without one, where nothing is recorded.
fn numbers_of_commands(mem: &[u8], sizes: Sizes, slot: usize, visit: Visit) {
    let numbers = [
        (0, 0, 0),
        (0, 1, 4),
        (0, 0, 4),
        (1, 0, 0),
        (1, 0, 4),
        (1, 63, 252),
        (1, 64, 256),
        (1, 65, 260),
        (2, 0, 0),
        (2, 1, 4),
        (2, 1, 0),
        (2, 0, 1),
        (2, 0, 4),
        (3, 0, 0),
        (3, 1, 4),
    ];
    for (state, count, used) in numbers {
        if used > sizes.r {
            continue;
        }
        for kind in [FRAMED, TEXT, TEXT + HANGS_UP] {
            let mut altered = mem.to_vec();
            bare(&mut altered, sizes, slot, 1, kind);
            let recording = slot + RECORDING;
            for i in 0..count {
                put_number(&mut altered, recording + 12 + 4 * i, 4, 0x0700_0000);
            }
            put_number(&mut altered, recording, 4, state);
            put_number(&mut altered, recording + 4, 4, used);
            put_number(&mut altered, recording + 8, 4, count);
            visit(
                &format!("kind {kind}, state {state}, {count} commands in {used} bytes"),
                &altered,
            );
        }
    }
}

/// A command of each ID, with a payload about as long as it may be.
fn commands(mem: &[u8], sizes: Sizes, slot: usize, visit: Visit) {
    for id in (0..10).chain([0x80, 0x81, 0xFF]) {
        for payload in [0, 1, 254, 255, 256, 65_535, 65_536] {
            if 4 + payload > sizes.r {
                continue;
            }
            let mut altered = mem.to_vec();
            bare(&mut altered, sizes, slot, 1, FRAMED);
            let recording = slot + RECORDING;
            altered[recording + 16..recording + 16 + payload].fill(b'p');
            put_number(&mut altered, recording + 12, 4, payload);
            altered[recording + 12] = id;
            put_number(&mut altered, recording, 4, 1);
            put_number(&mut altered, recording + 4, 4, 4 + payload);
            put_number(&mut altered, recording + 8, 4, 1);
            visit(&format!("command {id} with {payload} bytes"), &altered);
        }
    }
}

#[cfg(test)]
mod tests {
    use super::*;
    use crate::layout::{broken, Rule};
    use crate::random::Random;
    use crate::states::states;

    #[test]
    fn edges_are_on_both_sides() {
        let mut inside = 0;
        let mut outside = std::collections::BTreeMap::new();
        let all = states(&mut Random::new(1));
        for state in all.iter().filter(|state| state.mem.len() < 100_000) {
            edges(&state.mem, &mut |_, mem| match broken(mem) {
                None => inside += 1,
                Some(rule) => *outside.entry(rule).or_insert(0) += 1,
            });
        }
        assert!(inside > 1000, "{inside}");
        for rule in [
            Rule::StoreCounts,
            Rule::StoreRows,
            Rule::KeyOrder,
            Rule::PhaseAndKind,
            Rule::Recording,
            Rule::Queue,
            Rule::ShutIsBare,
        ] {
            assert!(outside.contains_key(&rule), "{rule}");
        }
    }
}

//! The memory's layout, read from docs/layout.md: its rules ([`broken`]), where each number
//! of it stands ([`fields`]), and what its bytes mean ([`image`]).

use std::fmt;

use reference::reading::Kind;

/// One of the rules, by its number on the page.
#[derive(Clone, Copy, Debug, PartialEq, Eq, PartialOrd, Ord, Hash)]
pub enum Rule {
    /// 1: at least 20 bytes, and the mark.
    Mark,
    /// 2: the sizes are in their ranges.
    Sizes,
    /// 3: the slice is as long as its sizes ask.
    Length,
    /// 4: the store's used bytes and number of entries.
    StoreCounts,
    /// 5: the store's rows.
    StoreRows,
    /// 6: the keys ascend.
    KeyOrder,
    /// 7: phase and kind of a client.
    PhaseAndKind,
    /// 8: the number of patterns.
    Patterns,
    /// 9: the recording.
    Recording,
    /// 10: the queue.
    Queue,
    /// 11: a shut client has no patterns, and its recording's state is 0.
    ShutIsBare,
}

impl Rule {
    /// All rules, in the order of their numbers.
    pub const ALL: [Rule; 11] = [
        Rule::Mark,
        Rule::Sizes,
        Rule::Length,
        Rule::StoreCounts,
        Rule::StoreRows,
        Rule::KeyOrder,
        Rule::PhaseAndKind,
        Rule::Patterns,
        Rule::Recording,
        Rule::Queue,
        Rule::ShutIsBare,
    ];

    /// The rule's number.
    pub fn number(self) -> usize {
        1 + Rule::ALL.iter().position(|&rule| rule == self).unwrap_or(0)
    }
}

impl fmt::Display for Rule {
    fn fmt(&self, f: &mut fmt::Formatter<'_>) -> fmt::Result {
        write!(f, "rule {} ({:?})", self.number(), self)
    }
}

/// The sizes of set up.
#[derive(Clone, Copy, Debug, PartialEq, Eq)]
pub struct Sizes {
    /// N, the number of slots.
    pub n: usize,
    /// S, the store room.
    pub s: usize,
    /// Q, the queue room of each slot.
    pub q: usize,
    /// R, the record room of each slot.
    pub r: usize,
}

/// Where the store begins.
pub const STORE: usize = 20;
/// Where the store's room begins.
pub const STORE_ROOM: usize = STORE + 8;
/// Where, in a slot, the subscriptions begin.
pub const SUBSCRIPTIONS: usize = 4;
/// Where, in a slot, the recording begins.
pub const RECORDING: usize = 4104;

impl Sizes {
    /// The bytes that the memory takes up.
    pub fn memory_size(&self) -> usize {
        28 + self.s + self.n * self.slot_size()
    }

    /// The bytes of one slot.
    pub fn slot_size(&self) -> usize {
        4132 + self.r + 2 * self.q
    }

    /// Where a slot begins.
    pub fn slot(&self, slot: usize) -> usize {
        28 + self.s + slot * self.slot_size()
    }

    /// Where a slot's queue begins.
    pub fn queue(&self, slot: usize) -> usize {
        self.slot(slot) + 4116 + self.r
    }

    /// The sizes that the header names, whatever they are. None without 20 bytes.
    pub fn named(mem: &[u8]) -> Option<Sizes> {
        if mem.len() < 20 {
            return None;
        }
        Some(Sizes {
            n: number(mem, 4, 4),
            s: number(mem, 8, 4),
            q: number(mem, 12, 4),
            r: number(mem, 16, 4),
        })
    }

    fn in_range(&self) -> bool {
        (1..=32).contains(&self.n)
            && (256..=1_048_576).contains(&self.s)
            && (1024..=1_048_576).contains(&self.q)
            && (256..=262_144).contains(&self.r)
    }
}

/// The number in `width` bytes from `at` on, the highest byte first.
pub fn number(bytes: &[u8], at: usize, width: usize) -> usize {
    bytes[at..at + width]
        .iter()
        .fold(0, |n, &byte| n * 256 + usize::from(byte))
}

/// Stores the lowest `width` bytes of a number from `at` on, the highest byte first.
pub fn put_number(bytes: &mut [u8], at: usize, width: usize, number: usize) {
    let all = (number as u64).to_be_bytes();
    bytes[at..at + width].copy_from_slice(&all[8 - width..]);
}

/// The first rule that the memory breaks, or none. Rules 1 to 6 come first, then rules 7 to 11 of
/// each slot.
pub fn broken(mem: &[u8]) -> Option<Rule> {
    let sizes = match Sizes::named(mem) {
        Some(sizes) if mem[..4] == *b"inf3" => sizes,
        _ => return Some(Rule::Mark),
    };
    if !sizes.in_range() {
        return Some(Rule::Sizes);
    }
    if mem.len() < sizes.memory_size() {
        return Some(Rule::Length);
    }
    broken_store(&mem[STORE..STORE_ROOM + sizes.s]).or_else(|| {
        (0..sizes.n).find_map(|slot| {
            let start = sizes.slot(slot);
            broken_slot(&mem[start..start + sizes.slot_size()], sizes)
        })
    })
}

fn broken_store(store: &[u8]) -> Option<Rule> {
    let room = &store[8..];
    let (used, entries) = (number(store, 0, 4), number(store, 4, 4));
    if used > room.len() || entries > 1024 {
        return Some(Rule::StoreCounts);
    }
    let Some(rows) = store_rows(&room[..used], entries) else {
        return Some(Rule::StoreRows);
    };
    let ascend = rows.windows(2).all(|pair| pair[0].key < pair[1].key);
    (!ascend).then_some(Rule::KeyOrder)
}

/// An entry of the store and where its row stands in the room.
struct Row<'a> {
    at: usize,
    key: &'a [u8],
    value: &'a [u8],
}

/// The rows of the used bytes, or none where they are not exactly so many good rows.
fn store_rows(used: &[u8], entries: usize) -> Option<Vec<Row<'_>>> {
    let mut rows = Vec::with_capacity(entries);
    let mut at = 0;
    for _ in 0..entries {
        let rest = &used[at..];
        if rest.len() < 7 {
            return None;
        }
        let (body, key) = (number(rest, 0, 4), number(rest, 4, 2));
        let whole = rest.len() >= 7 + body;
        if body > 65_535 || body <= key || rest[6] != 0 || !whole || rest[7 + key] != 0 {
            return None;
        }
        rows.push(Row {
            at,
            key: &rest[7..7 + key],
            value: &rest[8 + key..7 + body],
        });
        at += 7 + body;
    }
    (at == used.len()).then_some(rows)
}

fn broken_slot(slot: &[u8], sizes: Sizes) -> Option<Rule> {
    let (phase, kind) = (slot[0], slot[1]);
    if phase == 0 {
        return None;
    }
    if phase > 2 || kind > 7 {
        return Some(Rule::PhaseAndKind);
    }
    let patterns = number(slot, SUBSCRIPTIONS, 4);
    if patterns > 16 {
        return Some(Rule::Patterns);
    }
    let recording = &slot[RECORDING..RECORDING + 12 + sizes.r];
    if !recording_is_fine(recording) {
        return Some(Rule::Recording);
    }
    if !queue_is_fine(&slot[4116 + sizes.r..], sizes.q, phase) {
        return Some(Rule::Queue);
    }
    let bare = patterns == 0 && number(recording, 0, 4) == 0;
    (phase == 2 && !bare).then_some(Rule::ShutIsBare)
}

fn recording_is_fine(recording: &[u8]) -> bool {
    let state = number(recording, 0, 4);
    let used = number(recording, 4, 4);
    let commands = number(recording, 8, 4);
    let room = &recording[12..];
    if state > 2 || used > room.len() || commands > 64 || (state != 1 && commands > 0) {
        return false;
    }
    recorded_rows(&room[..used], commands).is_some()
}

/// A recorded command: where its row stands in the room, its ID and its payload.
type Recorded<'a> = (usize, u8, &'a [u8]);

/// The rows of the used bytes, or none where they are not exactly so many good rows.
fn recorded_rows(used: &[u8], commands: usize) -> Option<Vec<Recorded<'_>>> {
    let mut rows = Vec::with_capacity(commands);
    let mut at = 0;
    for _ in 0..commands {
        let rest = &used[at..];
        if rest.len() < 4 {
            return None;
        }
        let (id, payload) = (rest[0], number(rest, 1, 3));
        let most = match id {
            1 | 2 => 255,
            0 | 3 | 4 | 7 => 65_535,
            _ => return None,
        };
        if payload > most || rest.len() < 4 + payload {
            return None;
        }
        rows.push((at, id, &rest[4..4 + payload]));
        at += 4 + payload;
    }
    (at == used.len()).then_some(rows)
}

fn queue_is_fine(queue: &[u8], q: usize, phase: u8) -> bool {
    let (head, tail) = (number(queue, 0, 4), number(queue, 4, 4));
    let (owed, flag) = (number(queue, 8, 4), number(queue, 12, 4));
    let most = if phase == 1 { q - 64 } else { q };
    head <= tail && tail <= 2 * q && tail - head <= most && owed == tail && flag == 0
}

/// A number of the memory: where it stands and how many bytes it has.
#[derive(Clone, Debug, PartialEq, Eq)]
pub struct Field {
    /// What it is.
    pub name: &'static str,
    /// The offset in the memory.
    pub at: usize,
    /// The bytes that it has: 1 to 4.
    pub width: usize,
}

/// Every number that a rule reads in a memory that keeps the rules: those of the header, of the
/// store and its rows, and of every slot, of the free ones too.
pub fn fields(mem: &[u8]) -> Vec<Field> {
    let sizes = Sizes::named(mem).expect("a memory that keeps the rules");
    let mut all = Vec::new();
    let mut add = |name, at, width| all.push(Field { name, at, width });
    for (i, name) in ["mark", "N", "S", "Q", "R"].into_iter().enumerate() {
        add(name, 4 * i, 4);
    }
    add("store used", STORE, 4);
    add("entries", STORE + 4, 4);
    let used = number(mem, STORE, 4);
    let rows = store_rows(
        &mem[STORE_ROOM..STORE_ROOM + used],
        number(mem, STORE + 4, 4),
    );
    for row in rows.unwrap_or_default() {
        let at = STORE_ROOM + row.at;
        add("body length", at, 4);
        add("key length", at + 4, 2);
        add("owner", at + 6, 1);
        add("byte behind the key", at + 7 + row.key.len(), 1);
    }
    for slot in 0..sizes.n {
        let start = sizes.slot(slot);
        add("phase", start, 1);
        add("kind", start + 1, 1);
        add("unused", start + 2, 2);
        add("patterns", start + SUBSCRIPTIONS, 4);
        for cell in 0..16 {
            add("pattern length", start + SUBSCRIPTIONS + 4 + 256 * cell, 1);
        }
        add("recording state", start + RECORDING, 4);
        add("recording used", start + RECORDING + 4, 4);
        add("commands", start + RECORDING + 8, 4);
        let room = start + RECORDING + 12;
        let used = number(mem, start + RECORDING + 4, 4).min(sizes.r);
        let commands = number(mem, start + RECORDING + 8, 4).min(64);
        for (at, _, _) in recorded_rows(&mem[room..room + used], commands).unwrap_or_default() {
            add("command ID", room + at, 1);
            add("payload length", room + at + 1, 3);
        }
        let queue = sizes.queue(slot);
        for (i, name) in ["head", "tail", "owed end", "overflow flag"]
            .into_iter()
            .enumerate()
        {
            add(name, queue + 4 * i, 4);
        }
        let (head, tail) = (number(mem, queue, 4), number(mem, queue + 4, 4));
        if tail <= 2 * sizes.q && head + 4 <= tail {
            add("first message's length", queue + 16 + head, 4);
        }
    }
    all
}

/// What the state of a recording means.
#[derive(Clone, Debug, PartialEq, Eq)]
pub enum Transaction {
    /// 0: the client is in no transaction.
    Off,
    /// 1: the recorded commands, ID and payload.
    Begun(Vec<(u8, Vec<u8>)>),
    /// 2: a refused message has spoiled it.
    Spoiled,
}

/// What a client's slot means.
#[derive(Clone, Debug, PartialEq, Eq)]
pub struct Client {
    /// Whether the client is shut.
    pub shut: bool,
    /// The kind's byte, 4 not counted: 0 packets, 1 a stream whose kind is not fixed, 2 framed,
    /// 3 text.
    pub kind: Kind,
    /// Whether 4 is added to the kind: every refusal shuts the client.
    pub hangs_up: bool,
    /// The patterns in the order of their cells.
    pub patterns: Vec<Vec<u8>>,
    /// The transaction that the client is in.
    pub transaction: Transaction,
    /// What is queued: the length of each message in four bytes, then its bytes.
    pub queue: Vec<u8>,
}

impl Client {
    /// A client that was just opened.
    pub fn opened(kind: Kind, hangs_up: bool) -> Client {
        Client {
            shut: false,
            kind,
            hangs_up,
            patterns: Vec::new(),
            transaction: Transaction::Off,
            queue: Vec::new(),
        }
    }

    /// The first message of the queue, or none where the queue is empty: as many bytes as its
    /// length says, or as many as there are; fewer than four bytes are one empty message.
    pub fn first_message(&self) -> Option<&[u8]> {
        if self.queue.is_empty() {
            return None;
        }
        if self.queue.len() < 4 {
            return Some(&[]);
        }
        let len = number(&self.queue, 0, 4).min(self.queue.len() - 4);
        Some(&self.queue[4..4 + len])
    }

    /// What is queued behind the first message.
    pub fn rest(&self) -> &[u8] {
        match self.first_message() {
            Some(first) => &self.queue[self.queue.len().min(4 + first.len())..],
            None => &[],
        }
    }
}

/// What a memory means.
#[derive(Clone, Debug, PartialEq, Eq)]
pub struct Image {
    /// The sizes of set up.
    pub sizes: Sizes,
    /// The entries, key and value, in the store's order.
    pub entries: Vec<(Vec<u8>, Vec<u8>)>,
    /// The client of each slot, or none for a free slot.
    pub clients: Vec<Option<Client>>,
}

/// What a memory that keeps the rules means.
pub fn image(mem: &[u8]) -> Image {
    let sizes = Sizes::named(mem).expect("a memory that keeps the rules");
    let used = number(mem, STORE, 4);
    let room = &mem[STORE_ROOM..STORE_ROOM + used];
    let entries = store_rows(room, number(mem, STORE + 4, 4))
        .expect("a memory that keeps the rules")
        .iter()
        .map(|row| (row.key.to_vec(), row.value.to_vec()))
        .collect();
    let clients = (0..sizes.n).map(|slot| client(mem, sizes, slot)).collect();
    Image {
        sizes,
        entries,
        clients,
    }
}

fn client(mem: &[u8], sizes: Sizes, slot: usize) -> Option<Client> {
    let start = sizes.slot(slot);
    let bytes = &mem[start..start + sizes.slot_size()];
    if bytes[0] == 0 {
        return None;
    }
    let pattern = |cell: usize| {
        let at = SUBSCRIPTIONS + 4 + 256 * cell;
        bytes[at + 1..at + 1 + usize::from(bytes[at])].to_vec()
    };
    let used = number(bytes, RECORDING + 4, 4);
    let room = &bytes[RECORDING + 12..RECORDING + 12 + used];
    let rows = recorded_rows(room, number(bytes, RECORDING + 8, 4)).unwrap_or_default();
    let commands = rows.iter().map(|&(_, id, payload)| (id, payload.to_vec()));
    let queue = &bytes[4116 + sizes.r..];
    Some(Client {
        shut: bytes[0] == 2,
        kind: match bytes[1] % 4 {
            0 => Kind::Packets,
            1 => Kind::Unfixed,
            2 => Kind::Framed,
            _ => Kind::Text,
        },
        hangs_up: bytes[1] >= 4,
        patterns: (0..number(bytes, SUBSCRIPTIONS, 4)).map(pattern).collect(),
        transaction: match number(bytes, RECORDING, 4) {
            0 => Transaction::Off,
            1 => Transaction::Begun(commands.collect()),
            _ => Transaction::Spoiled,
        },
        queue: queue[16 + number(queue, 0, 4)..16 + number(queue, 4, 4)].to_vec(),
    })
}

#[cfg(test)]
mod tests {
    use super::*;

    /// A memory of one slot by hand: an open text client and one entry, `k` with `v`.
    fn by_hand() -> Vec<u8> {
        let sizes = Sizes {
            n: 1,
            s: 256,
            q: 1024,
            r: 256,
        };
        let mut mem = vec![0xEE; sizes.memory_size()];
        mem[..4].copy_from_slice(b"inf3");
        for (i, size) in [1, 256, 1024, 256].into_iter().enumerate() {
            put_number(&mut mem, 4 + 4 * i, 4, size);
        }
        put_number(&mut mem, STORE, 4, 10);
        put_number(&mut mem, STORE + 4, 4, 1);
        mem[STORE_ROOM..STORE_ROOM + 10].copy_from_slice(b"\0\0\0\x03\0\x01\0k\0v");
        let slot = sizes.slot(0);
        mem[slot] = 1;
        mem[slot + 1] = 3;
        put_number(&mut mem, slot + SUBSCRIPTIONS, 4, 0);
        mem[slot + RECORDING..slot + RECORDING + 12].fill(0);
        let queue = sizes.queue(0);
        mem[queue..queue + 16].fill(0);
        mem
    }

    #[test]
    fn the_page_s_size() {
        let sizes = Sizes {
            n: 2,
            s: 1024,
            q: 1024,
            r: 256,
        };
        assert_eq!(sizes.memory_size(), 13_924);
    }

    #[test]
    fn each_rule_is_broken_alone() {
        let mem = by_hand();
        assert_eq!(broken(&mem), None);
        let sizes = Sizes::named(&mem).unwrap();
        let (slot, queue) = (sizes.slot(0), sizes.queue(0));
        let with = |at: usize, width: usize, number: usize| {
            let mut mem = by_hand();
            put_number(&mut mem, at, width, number);
            broken(&mem)
        };
        assert_eq!(broken(&mem[..19]), Some(Rule::Mark));
        assert_eq!(broken(&mem[..20]), Some(Rule::Length));
        assert_eq!(broken(&mem[..mem.len() - 1]), Some(Rule::Length));
        assert_eq!(with(3, 1, 0x34), Some(Rule::Mark));
        assert_eq!(with(4, 4, 33), Some(Rule::Sizes));
        assert_eq!(with(STORE, 4, 257), Some(Rule::StoreCounts));
        assert_eq!(with(STORE, 4, 11), Some(Rule::StoreRows));
        assert_eq!(with(STORE + 4, 4, 0), Some(Rule::StoreRows));
        assert_eq!(with(STORE_ROOM + 6, 1, 1), Some(Rule::StoreRows));
        assert_eq!(with(slot, 1, 3), Some(Rule::PhaseAndKind));
        for kind in 0..256 {
            let due = (kind > 7).then_some(Rule::PhaseAndKind);
            assert_eq!(with(slot + 1, 1, kind), due, "kind {kind}");
        }
        assert_eq!(with(slot + SUBSCRIPTIONS, 4, 17), Some(Rule::Patterns));
        for state in 0..9 {
            let due = (state > 2).then_some(Rule::Recording);
            assert_eq!(with(slot + RECORDING, 4, state), due, "state {state}");
        }
        assert_eq!(with(slot + RECORDING + 4, 4, 4), Some(Rule::Recording));
        assert_eq!(with(slot + RECORDING + 8, 4, 1), Some(Rule::Recording));
        // One command: its row is its ID and a payload of no bytes.
        for state in 0..3 {
            let mut recorded = by_hand();
            for (i, value) in [state, 4, 1, 0x0700_0000].into_iter().enumerate() {
                put_number(&mut recorded, slot + RECORDING + 4 * i, 4, value);
            }
            let due = (state != 1).then_some(Rule::Recording);
            assert_eq!(broken(&recorded), due, "a command in state {state}");
        }
        assert_eq!(with(queue, 4, 1), Some(Rule::Queue));
        assert_eq!(with(queue + 12, 4, 1), Some(Rule::Queue));
        assert_eq!(with(slot, 1, 2), None);
        let mut shut = by_hand();
        shut[slot] = 2;
        put_number(&mut shut, slot + SUBSCRIPTIONS, 4, 1);
        assert_eq!(broken(&shut), Some(Rule::ShutIsBare));
        for state in [1, 2] {
            let mut shut = by_hand();
            shut[slot] = 2;
            put_number(&mut shut, slot + RECORDING, 4, state);
            assert_eq!(broken(&shut), Some(Rule::ShutIsBare), "state {state}");
        }
        assert_eq!(with(slot, 1, 0), None);
    }

    #[test]
    fn what_a_memory_means() {
        let found = image(&by_hand());
        assert_eq!(found.entries, [(b"k".to_vec(), b"v".to_vec())]);
        let client = found.clients[0].as_ref().unwrap();
        assert_eq!(*client, Client::opened(Kind::Text, false));
        assert_eq!(client.first_message(), None);
        assert!(fields(&by_hand()).iter().any(|field| field.name == "tail"));
    }

    #[test]
    fn what_kinds_and_states_mean() {
        let kinds = [Kind::Packets, Kind::Unfixed, Kind::Framed, Kind::Text];
        let slot = Sizes::named(&by_hand()).unwrap().slot(0);
        for (number, kind) in kinds.into_iter().chain(kinds).enumerate() {
            let mut mem = by_hand();
            mem[slot + 1] = number as u8;
            let client = Client::opened(kind, number > 3);
            assert_eq!(image(&mem).clients, [Some(client)]);
        }
        let states = [
            Transaction::Off,
            Transaction::Begun(Vec::new()),
            Transaction::Spoiled,
        ];
        for (state, transaction) in states.into_iter().enumerate() {
            let mut mem = by_hand();
            put_number(&mut mem, slot + RECORDING, 4, state);
            let client = Client {
                transaction,
                ..Client::opened(Kind::Text, false)
            };
            assert_eq!(image(&mem).clients, [Some(client)]);
        }
    }
}

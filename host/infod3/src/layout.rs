//! Where the numbers lie that this crate reads from the lent memory: the offsets of
//! docs/layout.md, all of them here. N, S, Q and R are the sizes of the set up.
//!
//! [`View`](crate::View) compares them with the calls, and a test compares the whole with the
//! library's own size of a memory.

use crate::sizes::Sizes;

/// N, the number of slots, in the header.
pub const SLOTS: usize = 4;
/// S, the store room, in the header.
pub const STORE_ROOM: usize = 8;
/// Q, the queue room, in the header.
pub const QUEUE_ROOM: usize = 12;
/// R, the record room, in the header.
pub const RECORD_ROOM: usize = 16;
/// The store, behind the header.
pub const STORE: usize = 20;

/// The number of entries, in the store.
pub const STORE_ENTRIES: usize = 4;
/// The store's room, behind its two numbers.
pub const STORE_ENTRY_ROOM: usize = 8;

/// The phase, in a slot.
pub const PHASE: usize = 0;
/// The phase of a client that is shut.
pub const PHASE_SHUT: u8 = 2;
/// The queue, in a slot, less R.
pub const QUEUE: usize = 4_116;

/// Where what is queued begins, in a queue.
pub const QUEUE_HEAD: usize = 0;
/// Where it ends, in a queue.
pub const QUEUE_TAIL: usize = 4;
/// The queue's room, behind its four numbers.
pub const QUEUE_MESSAGES: usize = 16;

/// Where a slot begins; for N it is where the memory ends.
pub fn slot(sizes: &Sizes, slot: usize) -> usize {
    let slots = STORE + STORE_ENTRY_ROOM + sizes.store();
    slots + slot * (QUEUE + sizes.recording() + QUEUE_MESSAGES + 2 * sizes.queue())
}

/// Where a slot's queue begins.
pub fn queue(sizes: &Sizes, index: usize) -> usize {
    slot(sizes, index) + QUEUE + sizes.recording()
}

/// The number of four bytes there, the highest byte first; none behind the end of the memory.
pub fn number(memory: &[u8], at: usize) -> Option<u32> {
    let bytes: [u8; 4] = memory.get(at..at.checked_add(4)?)?.try_into().ok()?;
    Some(u32::from_be_bytes(bytes))
}

#[cfg(test)]
mod tests {
    use super::*;

    #[test]
    fn the_slots_end_where_the_memory_ends() {
        let odd = Sizes::new(3, 999, 1_025, 257).unwrap();
        for sizes in [Sizes::SMALLEST, Sizes::LARGEST, odd] {
            assert_eq!(slot(&sizes, sizes.slots()), sizes.memory_size());
        }
    }
}

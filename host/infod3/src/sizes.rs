//! The sizes of a set up.

use crate::{layout, raw};
use std::fmt;
use std::ops::RangeInclusive;

/// One of the four sizes.
#[derive(Clone, Copy, Debug, PartialEq, Eq, Hash)]
pub enum Size {
    /// N, the number of client slots.
    Slots,
    /// S, the room of the store in bytes.
    Store,
    /// Q, the room of each slot's queue in bytes.
    Queue,
    /// R, the room of each slot's recording in bytes.
    Recording,
}

impl Size {
    /// The numbers that this size may have.
    ///
    /// ```
    /// assert_eq!(infod3::Size::Slots.range(), 1..=32);
    /// ```
    pub fn range(self) -> RangeInclusive<usize> {
        match self {
            Size::Slots => 1..=32,
            Size::Store => 256..=1_048_576,
            Size::Queue => 1_024..=1_048_576,
            Size::Recording => 256..=262_144,
        }
    }
}

impl fmt::Display for Size {
    fn fmt(&self, f: &mut fmt::Formatter<'_>) -> fmt::Result {
        f.write_str(match self {
            Size::Slots => "number of slots",
            Size::Store => "store room",
            Size::Queue => "queue room",
            Size::Recording => "record room",
        })
    }
}

/// A size that is out of its range.
#[derive(Clone, Copy, Debug, PartialEq, Eq, Hash)]
pub struct SizeError {
    /// Which size.
    pub size: Size,
    /// What was given for it.
    pub given: usize,
}

impl fmt::Display for SizeError {
    fn fmt(&self, f: &mut fmt::Formatter<'_>) -> fmt::Result {
        let range = self.size.range();
        write!(
            f,
            "the {} {} is not {} to {}",
            self.size,
            self.given,
            range.start(),
            range.end()
        )
    }
}

impl std::error::Error for SizeError {}

/// The sizes of a broker, each in its range.
///
/// ```
/// use infod3::{Size, Sizes};
///
/// let sizes = Sizes::new(2, 1024, 1024, 256)?;
/// assert_eq!(sizes.memory_size(), 13_924);
///
/// let error = Sizes::new(33, 1024, 1024, 256).unwrap_err();
/// assert_eq!(error.size, Size::Slots);
/// assert_eq!(error.to_string(), "the number of slots 33 is not 1 to 32");
/// # Ok::<(), infod3::SizeError>(())
/// ```
#[derive(Clone, Copy, Debug, PartialEq, Eq, Hash)]
pub struct Sizes {
    slots: usize,
    store: usize,
    queue: usize,
    recording: usize,
}

impl Sizes {
    /// The smallest broker: one slot and the least room everywhere.
    pub const SMALLEST: Sizes = Sizes {
        slots: 1,
        store: 256,
        queue: 1_024,
        recording: 256,
    };

    /// The largest broker.
    pub const LARGEST: Sizes = Sizes {
        slots: 32,
        store: 1_048_576,
        queue: 1_048_576,
        recording: 262_144,
    };

    /// Sizes of `slots` slots, `store` bytes of store room, and for each slot `queue` bytes of
    /// queue room and `recording` bytes of record room. The first one out of its range is the
    /// error.
    pub fn new(
        slots: usize,
        store: usize,
        queue: usize,
        recording: usize,
    ) -> Result<Sizes, SizeError> {
        let given = [
            (Size::Slots, slots),
            (Size::Store, store),
            (Size::Queue, queue),
            (Size::Recording, recording),
        ];
        for (size, given) in given {
            if !size.range().contains(&given) {
                return Err(SizeError { size, given });
            }
        }
        Ok(Sizes {
            slots,
            store,
            queue,
            recording,
        })
    }

    /// The sizes that the header of a memory names.
    pub(crate) fn of_memory(mem: &[u8]) -> Option<Sizes> {
        let number = |at| usize::try_from(layout::number(mem, at)?).ok();
        Sizes::new(
            number(layout::SLOTS)?,
            number(layout::STORE_ROOM)?,
            number(layout::QUEUE_ROOM)?,
            number(layout::RECORD_ROOM)?,
        )
        .ok()
    }

    /// N, the number of slots.
    pub fn slots(&self) -> usize {
        self.slots
    }

    /// S, the room of the store.
    pub fn store(&self) -> usize {
        self.store
    }

    /// Q, the room of each queue. No message is longer, so an out slice of Q bytes is always
    /// long enough.
    pub fn queue(&self) -> usize {
        self.queue
    }

    /// R, the room of each recording.
    pub fn recording(&self) -> usize {
        self.recording
    }

    /// The bytes that a memory of these sizes takes up.
    pub fn memory_size(&self) -> usize {
        raw::memory_size(self.slots, self.store, self.queue, self.recording)
    }
}

#[cfg(test)]
mod tests {
    use super::*;

    #[test]
    fn ranges_are_those_of_the_library() {
        let ends = |size: Size| {
            let (low, high) = size.range().into_inner();
            [low - 1, low, high, high + 1, usize::MAX]
        };
        for n in ends(Size::Slots) {
            for s in ends(Size::Store) {
                for q in ends(Size::Queue) {
                    for r in ends(Size::Recording) {
                        let known = raw::memory_size(n, s, q, r);
                        let typed = Sizes::new(n, s, q, r).map_or(0, |sizes| sizes.memory_size());
                        assert_eq!(known, typed, "{n} {s} {q} {r}");
                    }
                }
            }
        }
    }

    #[test]
    fn sizes_are_within_the_bound() {
        for sizes in [Sizes::SMALLEST, Sizes::LARGEST] {
            let per_slot = sizes.queue() + sizes.recording() + 32_768;
            let bound = 2 * (sizes.slots() * per_slot + sizes.store() + 65_536);
            assert!(sizes.memory_size() > 0 && sizes.memory_size() <= bound);
        }
    }
}

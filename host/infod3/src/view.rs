//! Numbers of the lent memory that the calls do not give.

use crate::answer::{Error, Feed};
use crate::broker::{Broker, Form};
use crate::layout;
use crate::sizes::Sizes;

/// A view into a memory, read by docs/layout.md: the keys in the store, and whether a client is
/// shut or has messages to take.
///
/// It gives what the calls would give at a higher price: every call tests the whole memory, and
/// without the view a host has to try a take from each client after each feed. The view is
/// compared with the calls before it is given; a memory of another layout has none, and a host
/// then goes by the calls alone. It only reads, and for a memory or a slot that it does not fit it
/// gives none.
///
/// ```
/// use infod3::{Broker, Feed, Form, Sizes, View};
///
/// let mut broker = Broker::new(Sizes::SMALLEST)?;
/// let view = View::of(&mut broker)?.expect("the layout is known");
/// broker.open(0, Form::Packets)?;
/// assert_eq!(broker.feed(0, b"\x04k\0v")?, Feed::Done(4));
/// assert_eq!(view.keys(broker.memory()), Some(1));
/// assert_eq!(view.waiting(broker.memory(), 0), Some(false));
/// assert_eq!(broker.feed(0, b"\x07x")?, Feed::Done(2));
/// // A message of two bytes, and four for its length.
/// assert_eq!(view.queued(broker.memory(), 0), Some(6));
/// assert_eq!(view.shut(broker.memory(), 0), Some(false));
/// assert_eq!(view.queued(broker.memory(), 1), None);
/// # Ok::<(), infod3::Error>(())
/// ```
#[derive(Clone, Copy, Debug)]
pub struct View {
    sizes: Sizes,
}

/// What the view gives at one moment: keys, bytes queued, shut.
type Seen = (Option<u32>, Option<usize>, Option<bool>);

impl View {
    /// The view of a broker that was just set up, if its memory has the layout. The slots are
    /// free before and after, and the store is empty.
    ///
    /// Errors: those of the calls that it is compared with.
    pub fn of<M: AsRef<[u8]> + AsMut<[u8]>>(broker: &mut Broker<M>) -> Result<Option<View>, Error> {
        let view = View {
            sizes: broker.sizes(),
        };
        for slot in [0, view.sizes.slots() - 1] {
            if !view.agrees(broker, slot)? {
                return Ok(None);
            }
        }
        Ok(Some(view))
    }

    /// Goes through the states of a client in this slot and compares.
    fn agrees<M: AsRef<[u8]> + AsMut<[u8]>>(
        &self,
        broker: &mut Broker<M>,
        slot: usize,
    ) -> Result<bool, Error> {
        let seen = |broker: &Broker<M>| self.seen(broker.memory(), slot);
        let expected = |keys, queued, shut| (Some(keys), Some(queued), Some(shut));
        let mut out = [0; 64];
        broker.open(slot, Form::Packets)?;
        let mut fine = seen(broker) == expected(0, 0, false);
        let steps = [
            (&b"\x04k\0v"[..], 1, 0),
            (b"\x03k", 1, 8),
            (b"\x07abc", 1, 16),
        ];
        for (message, keys, queued) in steps {
            fine &= broker.feed(slot, message)? == Feed::Done(message.len());
            fine &= seen(broker) == expected(keys, queued, false);
        }
        for queued in [8, 0] {
            fine &= broker.take(slot, &mut out)? == Some(4);
            fine &= seen(broker) == expected(1, queued, false);
        }
        fine &= broker.feed(slot, b"\x04k")? == Feed::Done(2);
        fine &= seen(broker) == expected(0, 0, false);
        fine &= broker.feed(slot, b"\xFF")?.number() == 100;
        let (keys, queued, shut) = seen(broker);
        let error = broker.take(slot, &mut out)?.map(|len| len + 4);
        fine &= (keys, shut) == (Some(0), Some(true)) && queued == error;
        fine &= seen(broker) == expected(0, 0, true);
        broker.close(slot)?;
        Ok(fine)
    }

    fn seen(&self, memory: &[u8], slot: usize) -> Seen {
        let queued = self.queued(memory, slot);
        (self.keys(memory), queued, self.shut(memory, slot))
    }

    /// The number of keys in the store.
    pub fn keys(&self, memory: &[u8]) -> Option<u32> {
        layout::number(memory, layout::STORE + layout::STORE_ENTRIES)
    }

    /// The bytes that a client's queue holds, if the client is not closed: for each message its
    /// length and four more.
    pub fn queued(&self, memory: &[u8], slot: usize) -> Option<usize> {
        if slot >= self.sizes.slots() {
            return None;
        }
        let queue = layout::queue(&self.sizes, slot);
        let head = layout::number(memory, queue + layout::QUEUE_HEAD)?;
        let tail = layout::number(memory, queue + layout::QUEUE_TAIL)?;
        usize::try_from(tail.checked_sub(head)?).ok()
    }

    /// Whether a client that is not closed has messages to take.
    pub fn waiting(&self, memory: &[u8], slot: usize) -> Option<bool> {
        self.queued(memory, slot).map(|queued| queued > 0)
    }

    /// Whether a client that is not closed is shut.
    pub fn shut(&self, memory: &[u8], slot: usize) -> Option<bool> {
        if slot >= self.sizes.slots() {
            return None;
        }
        let phase = memory.get(layout::slot(&self.sizes, slot) + layout::PHASE)?;
        Some(*phase == layout::PHASE_SHUT)
    }
}

#[cfg(test)]
mod tests {
    use super::*;

    fn broker(n: usize, s: usize, q: usize, r: usize) -> Broker<Vec<u8>> {
        Broker::new(Sizes::new(n, s, q, r).unwrap()).unwrap()
    }

    #[test]
    fn the_layout_is_that_of_the_library() {
        for (n, s, q, r) in [
            (1, 256, 1024, 256),
            (32, 4096, 70_000, 512),
            (3, 999, 1025, 257),
        ] {
            let mut broker = broker(n, s, q, r);
            assert!(View::of(&mut broker).unwrap().is_some());
            let again = View::of(&mut broker).unwrap();
            assert!(again.is_some(), "the slots are free again");
        }
    }

    #[test]
    fn a_client_that_stays_open_after_a_refusal_is_not_shut() {
        for (form, shut) in [(Form::Stream, false), (Form::StreamHangUp, true)] {
            let mut broker = broker(1, 256, 1024, 256);
            let view = View::of(&mut broker).unwrap().unwrap();
            broker.open(0, form).unwrap();
            assert_eq!(broker.feed(0, b"XX\n").map(Feed::number), Ok(100));
            // The ERROR is a line of 29 bytes.
            let seen = view.seen(broker.memory(), 0);
            assert_eq!(seen, (Some(0), Some(33), Some(shut)), "{form:?}");
        }
    }

    /// Offsets that are not those of the memory are found out, each by itself.
    #[test]
    fn a_view_of_another_layout_does_not_agree() {
        for (s, q, r) in [(999, 1025, 258), (1000, 1025, 257), (999, 1026, 257)] {
            let sizes = Sizes::new(3, s, q, r).unwrap();
            let view = View { sizes };
            assert_eq!(view.agrees(&mut broker(3, 999, 1025, 257), 2), Ok(false));
        }
    }
}

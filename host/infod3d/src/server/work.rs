//! A turn's work: who is served next, and for how long.
//!
//! Each client pays for the processor time that is spent on it, and the one that has cost least of
//! late is next: who asks little is answered at once, however much others ask. What it cost is
//! halved every second. Who comes counts as having cost what the others did on average, so that
//! nobody gets rid of a cost by connecting again. After a call that took long, those are first who
//! had none of late, by their age: so many who come with long calls do not have them run one behind
//! the other. A turn ends after [`SPAN`], and the sockets are looked at again.

use super::{Failure, Server};
use crate::sys;
use std::time::{Duration, Instant};

/// How long a turn works. One call of the library may take longer.
const SPAN: Duration = Duration::from_micros(500);
/// How long one client is served before another's turn comes.
const STRETCH: Duration = Duration::from_micros(200);
/// How often the costs are halved.
const HALVED: Duration = Duration::from_secs(1);
/// What a new client counts as having cost at least, so that many who come do not go before those
/// who are there and ask little.
const NEW: Duration = Duration::from_millis(20);
/// A stretch of more than this is long.
const LONG: Duration = Duration::from_millis(2);
/// Bytes of a dead client's input that are looked through at once.
const SURVEY: usize = 65_536;

/// What was spent on each slot of late.
#[derive(Debug)]
pub(super) struct Costs {
    costs: Vec<Duration>,
    /// The longest stretch of each slot of late.
    longest: Vec<Duration>,
    /// When each slot's client came, since the start.
    came: Vec<Duration>,
    /// Whether the last stretch of all was long.
    long: bool,
    start: Instant,
    halved: Instant,
}

impl Costs {
    pub(super) fn new(slots: usize, now: Instant) -> Costs {
        Costs {
            costs: vec![Duration::ZERO; slots],
            longest: vec![Duration::ZERO; slots],
            came: vec![Duration::ZERO; slots],
            long: false,
            start: now,
            halved: now,
        }
    }

    /// Notes that a client has come, beside those in these other slots.
    pub(super) fn come(&mut self, slot: usize, others: &[usize], now: Instant) {
        let sum: Duration = others.iter().map(|&other| self.costs[other]).sum();
        let count = u32::try_from(others.len()).unwrap_or(u32::MAX);
        let average = sum.checked_div(count).unwrap_or(Duration::ZERO);
        self.costs[slot] = average.max(NEW);
        self.longest[slot] = Duration::ZERO;
        self.came[slot] = now.saturating_duration_since(self.start);
    }

    /// Notes what a client's stretch took.
    fn stretch(&mut self, slot: usize, spent: Duration) {
        self.long = spent > LONG;
        self.longest[slot] = self.longest[slot].max(spent);
        self.add(slot, spent);
    }

    /// Who is first: the least of these.
    fn place(&self, slot: usize) -> (bool, Duration, usize) {
        match self.long {
            true => (self.longest[slot] > LONG, self.came[slot], slot),
            false => (false, self.costs[slot], slot),
        }
    }

    fn add(&mut self, slot: usize, spent: Duration) {
        self.costs[slot] += spent;
    }

    /// Halves the costs when it is time.
    fn age(&mut self, now: Instant) {
        if now >= self.halved + HALVED {
            self.halved = now;
            let all = self.costs.iter_mut().chain(&mut self.longest);
            all.for_each(|time| *time /= 2);
        }
    }
}

impl Server {
    /// Feeds and takes until nothing is left to do or the turn has lasted its time.
    pub(super) fn work(&mut self) -> Result<(), Failure> {
        let begin = Instant::now();
        self.costs.age(begin);
        let mut time = sys::thread_time();
        loop {
            let now = Instant::now();
            let slot = self.next_client(now).filter(|_| now < begin + SPAN);
            let Some(slot) = slot else {
                return Ok(());
            };
            self.work_for(slot, now)?;
            let before = std::mem::replace(&mut time, sys::thread_time());
            let paid = std::mem::take(&mut self.paid);
            let spent = (time - before).saturating_sub(paid);
            self.costs.stretch(slot, spent);
        }
    }

    /// The client with work that has cost least of late.
    fn next_client(&mut self, now: Instant) -> Option<usize> {
        let mut least = None;
        for slot in 0..self.clients.len() {
            self.look(slot, now);
            let has_work = self.clients[slot].as_mut().map(|client| client.has_work());
            if has_work == Some(true) {
                let place = self.costs.place(slot);
                least = least.filter(|least| *least < place).or(Some(place));
            }
        }
        least.map(|(_, _, slot)| slot)
    }

    /// Lets a client pay for the time that was spent on it.
    pub(super) fn charge(&mut self, slot: usize, spent: Duration) {
        self.costs.add(slot, spent);
    }

    /// Serves one client for a stretch and writes what there is for it, in one write where the
    /// socket takes it.
    fn work_for(&mut self, slot: usize, now: Instant) -> Result<(), Failure> {
        while now.elapsed() < STRETCH && self.step(slot, now)? {}
        if let Some(client) = &mut self.clients[slot] {
            if !client.output.is_stuck() {
                self.counters.bytes_out += client.write(now) as u64;
            }
        }
        Ok(())
    }

    /// Takes some messages of a client, or else feeds one; false where neither can be done now.
    fn step(&mut self, slot: usize, now: Instant) -> Result<bool, Failure> {
        let Some(client) = &mut self.clients[slot] else {
            return Ok(false);
        };
        if client.can_take() {
            self.take_some(slot, now)?;
        } else if !client.can_be_fed() {
            return Ok(false);
        } else if !client.is_dead() || client.input.keep_effects(client.kind, SURVEY) {
            self.feed(slot, now)?;
        }
        Ok(true)
    }
}

#[cfg(test)]
mod tests {
    use super::*;

    #[test]
    fn after_a_long_stretch_those_without_one_are_first() {
        let start = Instant::now();
        let millis = Duration::from_millis;
        let mut costs = Costs::new(3, start);
        let first = |costs: &Costs| (0..3).min_by_key(|&slot| costs.place(slot));
        costs.come(0, &[], start);
        costs.stretch(0, millis(1));
        costs.add(0, millis(50));
        costs.come(1, &[], start + millis(1));
        costs.come(2, &[], start + millis(2));
        assert_eq!(first(&costs), Some(1), "who has cost least");
        costs.stretch(1, millis(100));
        assert_eq!(
            first(&costs),
            Some(0),
            "and not another who may take as long"
        );
        costs.stretch(0, millis(1));
        assert_eq!(first(&costs), Some(2));
    }

    #[test]
    fn costs_are_forgotten_and_nobody_gets_rid_of_them() {
        let start = Instant::now();
        let millis = Duration::from_millis;
        let mut costs = Costs::new(3, start);
        costs.come(0, &[], start);
        costs.come(1, &[0], start);
        costs.add(0, millis(80));
        costs.add(1, millis(180));
        costs.come(2, &[0, 1], start);
        assert_eq!(costs.costs, [100, 200, 150].map(millis));
        costs.age(start + millis(999));
        assert_eq!(costs.costs, [100, 200, 150].map(millis));
        costs.age(start + millis(1000));
        costs.age(start + millis(1500));
        assert_eq!(costs.costs, [50, 100, 75].map(millis));
        costs.come(1, &[0, 2], start);
        assert_eq!(costs.costs[1], Duration::from_micros(62_500));
    }
}

//! What one subscriber has seen, and what was wrong with it.
//!
//! Each value begins with its key's own number, which counts up by one with each report, and the
//! moment at which the report was due. So a subscriber can tell by itself what is missing.

use std::collections::BTreeMap;
use std::time::{Duration, Instant};

/// The counts that must be 0.
#[derive(Clone, Copy, Debug, Default, PartialEq, Eq)]
pub struct Faults {
    /// Numbers that never came, and connections that were lost.
    pub lost: u64,
    /// Numbers that came twice.
    pub doubled: u64,
    /// Numbers that came too late, and commits whose messages were apart.
    pub out_of_order: u64,
    /// Keys whose last message does not hold the present value.
    pub stale: u64,
}

impl Faults {
    /// Adds others.
    pub fn add(&mut self, other: Faults) {
        self.lost += other.lost;
        self.doubled += other.doubled;
        self.out_of_order += other.out_of_order;
        self.stale += other.stale;
    }
}

/// A value: the key's number, the number of the commit or 0, when it was due, and a filler.
pub fn value(number: u64, commit: u64, due: Duration) -> Vec<u8> {
    let filler = "#".repeat(160);
    format!("{number} {commit} {} {filler}", due.as_micros()).into_bytes()
}

struct Parts {
    number: u64,
    commit: u64,
    due: Duration,
}

fn parts(value: &[u8]) -> Option<Parts> {
    let text = std::str::from_utf8(value).ok()?;
    let mut fields = text.split(' ');
    Some(Parts {
        number: fields.next()?.parse().ok()?,
        commit: fields.next()?.parse().ok()?,
        due: Duration::from_micros(fields.next()?.parse().ok()?),
    })
}

/// A subscriber's record.
pub struct Record {
    begin: Instant,
    /// The last number of each key, and whether the next may repeat or pass it because the
    /// pattern is new.
    last: BTreeMap<Vec<u8>, (u64, bool)>,
    /// The key and commit that must come next: the second half of a commit.
    awaited: Option<(Vec<u8>, u64)>,
    /// The messages that were checked.
    pub deliveries: u64,
    /// Microseconds from when a report was due until it was here.
    pub latencies: Vec<u32>,
    /// What was wrong.
    pub faults: Faults,
}

impl Record {
    /// A record; times are counted from `begin`.
    pub fn new(begin: Instant) -> Record {
        Record {
            begin,
            last: BTreeMap::new(),
            awaited: None,
            deliveries: 0,
            latencies: Vec::new(),
            faults: Faults::default(),
        }
    }

    /// The pattern is new: the next message of a key may be any that is not older.
    pub fn subscribed(&mut self) {
        self.awaited = None;
        self.last.values_mut().for_each(|(_, fresh)| *fresh = true);
    }

    /// A message came.
    pub fn info(&mut self, key: &[u8], value: &[u8]) {
        let now = self.begin.elapsed();
        let Some(parts) = parts(value) else {
            self.faults.lost += 1;
            return;
        };
        self.deliveries += 1;
        let fresh = self.number(key, parts.number);
        self.order(key, &parts, fresh);
        if !fresh {
            let micros = now.saturating_sub(parts.due).as_micros();
            self.latencies
                .push(u32::try_from(micros).unwrap_or(u32::MAX));
        }
    }

    /// Compares a key's number with its last one; true for the first since the pattern is new.
    fn number(&mut self, key: &[u8], number: u64) -> bool {
        let Some((last, fresh)) = self.last.get_mut(key) else {
            self.last.insert(key.to_vec(), (number, false));
            return true;
        };
        let first = std::mem::replace(fresh, false);
        match number {
            n if first && n >= *last => {}
            _ if first => self.faults.stale += 1,
            n if n == *last => self.faults.doubled += 1,
            n if n < *last => self.faults.out_of_order += 1,
            n => self.faults.lost += n - *last - 1,
        }
        *last = number.max(*last);
        first
    }

    /// Compares with what has to follow the message before. The two halves of a commit, `km` and
    /// then `state` of a site with the commit's number in both, come one behind the other.
    fn order(&mut self, key: &[u8], parts: &Parts, fresh: bool) {
        let here = (key.to_vec(), parts.commit);
        if self.awaited.take().is_some_and(|awaited| awaited != here) {
            self.faults.out_of_order += 1;
        }
        if let Some(site) = key.strip_suffix(b".km") {
            if parts.commit > 0 && !fresh {
                self.awaited = Some(([site, b".state"].concat(), parts.commit));
            }
        }
    }

    /// Compares the last numbers with those that were written last.
    pub fn finish(&mut self, written: impl Iterator<Item = (Vec<u8>, u64)>) {
        for (key, number) in written {
            let last = self.last.get(&key).map(|(last, _)| *last);
            if last != Some(number) {
                self.faults.stale += 1;
            }
        }
    }
}

#[cfg(test)]
mod tests {
    use super::*;

    fn faults(numbers: &[u64]) -> Faults {
        let mut record = Record::new(Instant::now());
        for &n in numbers {
            match n {
                0 => record.subscribed(),
                n => record.info(b"a.state", &value(n, 0, Duration::ZERO)),
            }
        }
        record.finish([(b"a.state".to_vec(), 9)].into_iter());
        record.faults
    }

    #[test]
    fn every_fault_is_seen() {
        let counts = |f: Faults| (f.lost, f.doubled, f.out_of_order, f.stale);
        assert_eq!(counts(faults(&[7, 8, 9])), (0, 0, 0, 0));
        assert_eq!(counts(faults(&[5, 6, 9])), (2, 0, 0, 0));
        assert_eq!(counts(faults(&[8, 8, 9])), (0, 1, 0, 0));
        assert_eq!(counts(faults(&[8, 7, 9])), (0, 0, 1, 0));
        assert_eq!(counts(faults(&[7, 8])), (0, 0, 0, 1));
        assert_eq!(counts(faults(&[4, 0, 4, 5, 0, 9])), (0, 0, 0, 0));
        assert_eq!(counts(faults(&[8, 9, 0, 8, 9])), (0, 1, 0, 1));
    }

    #[test]
    fn a_commit_that_is_torn_is_seen() {
        let mut record = Record::new(Instant::now());
        for (key, number, commit) in [
            ("a.km", 1, 0),
            ("a.km", 2, 5),
            ("a.state", 1, 5),
            ("b.state", 1, 0),
            ("a.km", 3, 6),
        ] {
            record.info(key.as_bytes(), &value(number, commit, Duration::ZERO));
        }
        assert_eq!(record.faults, Faults::default());
        record.info(b"b.state", &value(2, 0, Duration::ZERO));
        record.info(b"a.state", &value(2, 6, Duration::ZERO));
        assert_eq!(record.faults.out_of_order, 1);
    }
}

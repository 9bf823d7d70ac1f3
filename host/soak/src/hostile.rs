//! The hostile night: phases in which clients do their worst, each against a server of its own.
//!
//! In each phase a feed writes fifty reports a second, a site's controller and an analyst receive
//! them, and one more client pings. The figure is that client's latency; its bound fails the
//! phase. So does a message that is lost, doubled, out of order or stale, a slot that is not free
//! again a second after the hostile ones have gone, and a server that does not stop.

use crate::attack::{long_key, write_frame, Attack, Plan, LONG, LONG_KEYS};
use crate::check::{Faults, Record};
use crate::figures::Spread;
use crate::night::{feed, finish, joined, spawn, subscribe, Night, Written, ANALYSTS, SITES};
use crate::ping::{greet, Pinger, Pings};
use crate::server::{Log, Server};
use crate::table;
use infod3_cli::{Address, Trouble};
use std::error::Error;
use std::io::{Read, Write};
use std::net::SocketAddr;
use std::os::unix::net::UnixStream;
use std::path::Path;
use std::sync::atomic::Ordering;
use std::sync::Arc;
use std::thread::{self, JoinHandle};
use std::time::{Duration, Instant};

/// The keys of the store, at most.
const KEYS: usize = 1_024;
/// The subscribers: the controller of site 7, and an analyst.
const WATCHERS: [usize; 2] = [7, ANALYSTS + 1];
/// The most hostile clients at once: what the others of 32 leave.
const MANY: usize = 27;
/// The bounds of the latency's p99 with one hostile client and with many, in milliseconds.
const BOUNDS: (f64, f64) = (3.0, 25.0);
/// How long slots may take to be free, and the server to stop.
const FREE: Duration = Duration::from_secs(1);
const STOP: Duration = Duration::from_secs(5);

/// What is in the store beside the reports.
#[derive(Clone, Copy, Debug, PartialEq, Eq)]
enum Keys {
    /// Short values under all keys that are left.
    Many,
    /// 24 long values.
    Long,
    /// Long values, and short ones under the keys that are left.
    Both,
}

/// A phase.
#[derive(Clone, Copy, Debug)]
pub struct Phase {
    /// What it is called.
    pub name: &'static str,
    keys: Keys,
    /// Who is hostile.
    pub plan: Plan,
    log: Log,
}

impl Phase {
    /// Its name and the number of hostile clients that keep a slot.
    pub fn title(&self) -> String {
        format!("{} ({})", self.name, self.plan.clients())
    }

    /// The bound of the latency's p99 in milliseconds.
    pub fn bound(&self) -> f64 {
        match self.plan.clients() {
            0 | 1 if !self.plan.flood => BOUNDS.0,
            _ => BOUNDS.1,
        }
    }
}

/// All phases.
fn phases() -> Vec<Phase> {
    let none = Plan::default();
    let pipelining = |clients| Plan {
        pipelining: clients,
        ..none
    };
    let slipping = |clients| Plan {
        slipping: clients,
        ..none
    };
    let (stuck, resetting) = (8, 8);
    let churn = true;
    let flood = true;
    let together = Plan {
        pipelining: 10,
        stuck: 4,
        resetting: 5,
        slipping: 3,
        churn,
        flood,
    };
    let phase = |name, keys, plan, log| Phase {
        name,
        keys,
        plan,
        log,
    };
    vec![
        phase("nobody hostile", Keys::Many, none, Log::Read),
        phase("SUB *, many keys", Keys::Many, pipelining(1), Log::Read),
        phase("SUB *, many keys", Keys::Many, pipelining(MANY), Log::Read),
        phase("SUB *, long values", Keys::Long, pipelining(1), Log::Read),
        phase(
            "SUB *, long values",
            Keys::Long,
            pipelining(MANY),
            Log::Read,
        ),
        phase(
            "stuck readers",
            Keys::Long,
            Plan {
                stuck,
                churn,
                ..none
            },
            Log::Read,
        ),
        phase("resets", Keys::Many, Plan { resetting, ..none }, Log::Read),
        phase("typing errors", Keys::Many, slipping(1), Log::Read),
        phase("typing errors", Keys::Many, slipping(MANY), Log::Read),
        phase(
            "stalled log, connects",
            Keys::Many,
            Plan { flood, ..none },
            Log::Stalled,
        ),
        phase("all together", Keys::Both, together, Log::Stalled),
    ]
}

/// The number of phases.
pub fn count() -> usize {
    phases().len()
}

/// The least number of seconds: five for each phase, so that the p99 is not a single hiccup of the
/// machine, or two for the only one.
pub fn least(phase: Option<usize>) -> u64 {
    phase.map_or(5 * count() as u64, |_| 2)
}

/// The phases with their numbers, a line for each.
pub fn list() -> String {
    let line = |(i, phase): (usize, Phase)| format!("  {} {}\n", i + 1, phase.title());
    phases().into_iter().enumerate().map(line).collect()
}

/// What a phase found.
#[derive(Debug)]
pub struct Row {
    /// The phase.
    pub phase: Phase,
    /// The latency.
    pub pings: Pings,
    /// How long it took until the slots were free; none where it took too long.
    pub free: Option<Duration>,
    /// How long the stop took; none where it took too long, or the server did not end well.
    pub stop: Option<Duration>,
    /// The counts that must be 0.
    pub faults: Faults,
    /// Reports that were checked at a subscriber.
    pub deliveries: u64,
    /// Connections of hostile clients that keep a slot, those of the flood, and the bytes that
    /// all of them sent and received.
    pub done: [u64; 4],
}

impl Row {
    /// The figures of the latency.
    pub fn spread(&self) -> Spread {
        Spread::of(&self.pings.micros)
    }

    /// What fails the phase, as words.
    pub fn failures(&self, slack: f64) -> Vec<String> {
        let mut failures = Vec::new();
        let mut fail = |yes: bool, words: String| {
            if yes {
                failures.push(words);
            }
        };
        let (p99, bound) = (self.spread().p99, self.phase.bound() * slack);
        fail(
            p99 > bound,
            format!("PING p99 {p99:.2} ms is above {bound:.2} ms"),
        );
        let unanswered = self.pings.unanswered;
        fail(unanswered > 0, format!("{unanswered} PINGs had no answer"));
        let late = |time: Option<Duration>, bound: Duration| {
            time.is_none_or(|time| time > bound.mul_f64(slack))
        };
        fail(
            late(self.free, FREE),
            format!("slots were free after {}", said(self.free)),
        );
        fail(
            late(self.stop, STOP),
            format!("the stop took {}", said(self.stop)),
        );
        let faults = self.faults;
        fail(faults != Faults::default(), format!("{faults:?}"));
        fail(self.deliveries == 0, "no report was received".to_owned());
        let clients = self.phase.plan.clients() as u64;
        fail(
            self.done[0] < clients,
            format!("{} of {clients} hostile clients got in", self.done[0]),
        );
        failures
    }
}

fn said(time: Option<Duration>) -> String {
    time.map_or("too long".to_owned(), |time| {
        format!("{:.2} s", time.as_secs_f64())
    })
}

/// Plays all phases, or one of them by its number, in so many seconds and prints what came of it;
/// false where one fails.
pub fn night(seconds: u64, only: Option<usize>, slack: f64) -> Result<bool, Box<dyn Error>> {
    let numbered = (1..).zip(phases());
    let phases = numbered.filter(|(number, _)| only.is_none_or(|only| only == *number));
    let phases: Vec<Phase> = phases.map(|(_, phase)| phase).collect();
    let length = Duration::from_secs(seconds) / phases.len() as u32;
    let mut failed = Vec::new();
    table::head();
    for phase in phases {
        let row = play(phase, length, slack)?;
        table::row(&row, slack);
        let failures = row.failures(slack);
        failed.extend(
            failures
                .iter()
                .map(|words| format!("{}: {words}", phase.title())),
        );
    }
    for words in &failed {
        println!("failed: {words}");
    }
    println!("{} failures", failed.len());
    Ok(failed.is_empty())
}

/// Plays one phase.
fn play(phase: Phase, length: Duration, slack: f64) -> Result<Row, Box<dyn Error>> {
    let patience = Duration::from_secs(10).mul_f64(slack.max(1.0));
    let server = Server::start(phase.log)?;
    fill(&server.unix, phase.keys, patience)?;
    let unix = Address::Unix(server.unix.clone());
    let mut night = Night::new(length, [unix.clone(), unix]);
    (night.feeds, night.rate, night.patience) = (1, 50, patience);
    let night = Arc::new(night);
    let watching = WATCHERS.map(|who| spawn(&night, move |night| subscribe(night, who)));
    let feed = spawn(&night, |night| feed(night, 0));
    let pinger = Pinger::start(server.tcp, night.end, patience)?;
    let attack = Attack::start(phase.plan, server.tcp, &server.unix);

    thread::sleep(night.end.saturating_duration_since(Instant::now()));
    attack.end(patience);
    let free = slots_free(server.tcp, MANY, patience);
    let written = feed.join().map_err(|_| "the feed failed")?;
    night.written.store(true, Ordering::Release);
    let seen = gather(written, watching, night.begin);
    let pings = pinger.join();
    let stop = server.stop(patience);
    Ok(Row {
        phase,
        pings,
        free,
        stop,
        faults: seen.faults,
        deliveries: seen.deliveries,
        done: attack.join(),
    })
}

/// What the subscribers saw, together.
fn gather(
    written: Result<(Written, u64), Trouble>,
    watching: [JoinHandle<Record>; WATCHERS.len()],
    begin: Instant,
) -> Record {
    let mut seen = Record::new(begin);
    let (written, _) = written.unwrap_or_else(|trouble| {
        eprintln!("soak: feed: {trouble}");
        seen.faults.lost += 1;
        (Written::new(), 0)
    });
    for (who, thread) in WATCHERS.into_iter().zip(watching) {
        let mut record = joined(thread, begin);
        finish(&mut record, who, &written);
        seen.faults.add(record.faults);
        seen.deliveries += record.deliveries;
    }
    seen
}

/// Fills the store, and waits until that is done.
fn fill(unix: &Path, keys: Keys, patience: Duration) -> std::io::Result<()> {
    let mut frames = Vec::new();
    let long = match keys {
        Keys::Many => 0,
        Keys::Long | Keys::Both => LONG_KEYS,
    };
    for number in 0..long {
        frames.extend(write_frame(&long_key(number), &[b'.'; LONG]));
    }
    let short = match keys {
        Keys::Long => 0,
        Keys::Many | Keys::Both => KEYS - 2 * SITES - long,
    };
    for number in 0..short {
        frames.extend(write_frame(&format!("load.{number:04}"), b"12345678"));
    }
    frames.extend([7, 0, 0]);
    let mut stream = UnixStream::connect(unix)?;
    stream.set_read_timeout(Some(patience))?;
    stream.set_write_timeout(Some(patience))?;
    stream.write_all(&frames)?;
    stream.read_exact(&mut [0; 3])
}

/// How long it takes until so many clients have a slot at once; none after `limit`.
fn slots_free(tcp: SocketAddr, count: usize, limit: Duration) -> Option<Duration> {
    let begin = Instant::now();
    let mut held = Vec::new();
    while held.len() < count {
        let left = limit
            .checked_sub(begin.elapsed())
            .filter(|left| !left.is_zero())?;
        match greet(tcp, left) {
            Ok(stream) => held.push(stream),
            Err(_) => thread::sleep(Duration::from_millis(10)),
        }
    }
    Some(begin.elapsed())
}

#[cfg(test)]
mod tests {
    use super::*;

    fn row(change: impl FnOnce(&mut Row)) -> Vec<String> {
        let phase = phases()[1];
        let mut row = Row {
            phase,
            pings: Pings {
                micros: vec![2_900; 99],
                unanswered: 0,
            },
            free: Some(FREE),
            stop: Some(STOP),
            faults: Faults::default(),
            deliveries: 1,
            done: [1, 0, 0, 0],
        };
        change(&mut row);
        row.failures(1.0)
    }

    #[test]
    fn every_bound_fails_the_phase() {
        assert!(row(|_| ()).is_empty());
        let late = row(|row| row.pings.micros.extend([4_000; 2]));
        assert_eq!(late, ["PING p99 4.00 ms is above 3.00 ms"]);
        assert_eq!(
            row(|row| row.pings.unanswered = 1),
            ["1 PINGs had no answer"]
        );
        let held = row(|row| row.free = Some(2 * FREE));
        assert_eq!(held, ["slots were free after 2.00 s"]);
        assert_eq!(row(|row| row.stop = None), ["the stop took too long"]);
        assert_eq!(row(|row| row.faults.lost = 1).len(), 1);
        assert_eq!(row(|row| row.deliveries = 0), ["no report was received"]);
        assert_eq!(
            row(|row| row.done[0] = 0),
            ["0 of 1 hostile clients got in"]
        );
    }

    #[test]
    fn bounds_go_by_how_many_are_hostile() {
        let phases = phases();
        let bounds: Vec<f64> = phases.iter().map(Phase::bound).collect();
        let (one, many) = BOUNDS;
        let expected = [one, one, many, one, many, many, many, one, many, many, many];
        assert_eq!(bounds, expected);
        assert!(phases.iter().all(|phase| phase.plan.clients() <= MANY));
    }
}

//! A storm night's feeds and subscribers, which check all that they receive.

use crate::check::{value, Record};
use infod3_cli::{Address, Command, Connection, Message, Trouble, Wire};
use std::sync::atomic::{AtomicBool, AtomicU64, Ordering};
use std::sync::Arc;
use std::thread::{self, JoinHandle};
use std::time::{Duration, Instant};

/// The sites that the feeds report of.
pub const SITES: usize = 24;
/// Subscribers from this number on are analysts, who watch everything.
pub const ANALYSTS: usize = 20;
/// Subscribers with a number below this one reconnect now and then.
pub const RECONNECTING: usize = 6;

/// What all threads share.
pub struct Night {
    /// When it began; all reports are due by this clock.
    pub begin: Instant,
    /// When the feeds end.
    pub end: Instant,
    /// Where the clients with even and with odd numbers connect.
    pub addresses: [Address; 2],
    /// The number of feeds.
    pub feeds: usize,
    /// Reports of all feeds together in a second.
    pub rate: u32,
    /// How long anything may take.
    pub patience: Duration,
    /// The feeds have written all they will, and the server has done it.
    pub written: AtomicBool,
    /// Connections that were left and made again.
    pub reconnects: AtomicU64,
    /// Slow readers that were shut.
    pub shut: AtomicU64,
    /// Typing errors that were answered.
    pub slips: AtomicU64,
    /// Visits.
    pub visits: AtomicU64,
    /// Connections that found no free slot and were tried again.
    pub retries: AtomicU64,
}

impl Night {
    /// A night of so long that begins now, with two feeds and 200 reports a second.
    pub fn new(length: Duration, addresses: [Address; 2]) -> Night {
        let begin = Instant::now();
        Night {
            begin,
            end: begin + length,
            addresses,
            feeds: 2,
            rate: 200,
            patience: Duration::from_secs(60),
            written: AtomicBool::new(false),
            reconnects: AtomicU64::new(0),
            shut: AtomicU64::new(0),
            slips: AtomicU64::new(0),
            visits: AtomicU64::new(0),
            retries: AtomicU64::new(0),
        }
    }

    /// Connects the client with this number. One that gets no slot tries again, and the answer to
    /// a PING shows that it has one.
    pub fn connect(&self, who: usize) -> Result<Connection, Trouble> {
        self.connect_in(Wire::Framed, who)
    }

    /// Connects the client with this number, which speaks so.
    pub fn connect_in(&self, wire: Wire, who: usize) -> Result<Connection, Trouble> {
        let address = &self.addresses[who % 2];
        let until = Instant::now() + self.patience;
        loop {
            let made = Connection::open_in(wire, address, self.patience);
            let tried = made.and_then(|mut connection| {
                connection.synchronise(self.patience)?;
                Ok(connection)
            });
            match tried {
                Err(Trouble::Connect(_)) if Instant::now() < until => {
                    self.retries.fetch_add(1, Ordering::Relaxed);
                    thread::sleep(Duration::from_millis(20));
                }
                tried => return tried,
            }
        }
    }

    /// Whether the feeds still write.
    pub fn is_on(&self) -> bool {
        Instant::now() < self.end
    }
}

/// The last numbers that a feed wrote, by key.
pub type Written = Vec<(Vec<u8>, u64)>;

/// Writes the reports of its sites when they are due; gives the last numbers and how many reports
/// there were.
pub fn feed(night: &Night, who: usize) -> Result<(Written, u64), Trouble> {
    let mut connection = night.connect(who)?;
    let period = Duration::from_secs(1) * night.feeds as u32 / night.rate;
    let mut numbers = vec![(0u64, 0u64); SITES];
    let mut reports = 0u64;
    let mut due = period;
    while night.begin + due < night.end {
        thread::sleep((night.begin + due).saturating_duration_since(Instant::now()));
        let site = (reports as usize * night.feeds + who) % SITES;
        report(&mut connection, site, &mut numbers[site], reports, due)?;
        reports += 1;
        due += period;
    }
    connection.synchronise(night.patience)?;
    Ok((last_numbers(numbers), reports))
}

/// Writes one report; every fourth is a transaction of two keys.
fn report(
    connection: &mut Connection,
    site: usize,
    (km, state): &mut (u64, u64),
    number: u64,
    due: Duration,
) -> Result<(), Trouble> {
    let (km_key, state_key) = keys(site);
    *km += 1;
    if (number + number / 12) % 4 != 3 {
        return connection.send(Command::Write(&km_key, &value(*km, 0, due)));
    }
    *state += 1;
    connection.send_all(&[
        Command::Begin,
        Command::Write(&km_key, &value(*km, number, due)),
        Command::Write(&state_key, &value(*state, number, due)),
        Command::Commit,
    ])
}

fn last_numbers(numbers: Vec<(u64, u64)>) -> Written {
    let mut written = Vec::new();
    for (site, (km, state)) in numbers.into_iter().enumerate() {
        let (km_key, state_key) = keys(site);
        let both = [(km_key, km), (state_key, state)];
        written.extend(both.into_iter().filter(|(_, n)| *n > 0));
    }
    written
}

fn keys(site: usize) -> (Vec<u8>, Vec<u8>) {
    let key = |what| format!("site.{site:02}.{what}").into_bytes();
    (key("km"), key("state"))
}

/// Watches a site, or everything, until all is written and seen.
pub fn subscribe(night: &Night, who: usize) -> Record {
    let mut record = Record::new(night.begin);
    let stay = match who < RECONNECTING {
        true => Duration::from_millis(700 + 300 * who as u64),
        false => night.patience * 100_000,
    };
    loop {
        match watch(night, who, &mut record, stay) {
            Ok(true) => return record,
            Ok(false) => night.reconnects.fetch_add(1, Ordering::Relaxed),
            Err(trouble) => {
                eprintln!("soak: subscriber {who}: {trouble}");
                record.faults.lost += 1;
                return record;
            }
        };
    }
}

/// One connection of a subscriber; true where it has seen the end of the night.
fn watch(night: &Night, who: usize, record: &mut Record, stay: Duration) -> Result<bool, Trouble> {
    let mut connection = night.connect(who)?;
    let pattern = match who < ANALYSTS {
        true => format!("site.{who:02}.*"),
        false => "site.*".to_owned(),
    };
    record.subscribed();
    connection.send(Command::Sub(pattern.as_bytes()))?;
    let leave = Instant::now() + stay;
    let mut asked: Option<Instant> = None;
    loop {
        if asked.is_none() && night.written.load(Ordering::Acquire) {
            connection.send(Command::Ping(b"last"))?;
            asked = Some(Instant::now());
        }
        match connection.receive(Some(Duration::from_millis(100))) {
            Ok(Message::Info {
                key,
                value: Some(value),
            }) => record.info(&key, &value),
            Ok(Message::Pong(_)) => return Ok(true),
            Ok(_) => record.faults.lost += 1,
            Err(Trouble::Late) if asked.is_some_and(|at| at.elapsed() > night.patience) => {
                return Err(Trouble::Late)
            }
            Err(Trouble::Late) => {}
            Err(trouble) => return Err(trouble),
        }
        if asked.is_none() && Instant::now() > leave {
            return Ok(false);
        }
    }
}

/// Compares what a subscriber has seen last with what was written last.
pub fn finish(record: &mut Record, who: usize, written: &Written) {
    let (km, state) = keys(who);
    let watched = |key: &Vec<u8>| who >= ANALYSTS || *key == km || *key == state;
    record.finish(written.iter().filter(|(key, _)| watched(key)).cloned());
}

/// Does something of the night in a thread of its own.
pub fn spawn<T: Send + 'static>(
    night: &Arc<Night>,
    work: impl FnOnce(&Night) -> T + Send + 'static,
) -> JoinHandle<T> {
    let night = night.clone();
    thread::spawn(move || work(&night))
}

/// A thread that panicked has no result: that counts as a loss.
pub fn joined(thread: JoinHandle<Record>, begin: Instant) -> Record {
    thread.join().unwrap_or_else(|_| {
        let mut record = Record::new(begin);
        record.faults.lost += 1;
        record
    })
}

//! The storm night: two feeds with 200 reports a second for 24 sites, every fourth of them a
//! transaction of two keys. Of 24 subscribers twenty watch a site each, six of them over
//! connections that come and go, and four analysts watch everything. Three slow readers subscribe
//! to everything, do not read until they are shut, and come again; one client connects, asks and
//! leaves, again and again; and somebody types, with errors, and must miss nothing for them. That
//! makes 31 of the server's 32 slots; a client that finds none free, since a slow reader is still on
//! its way out, tries again.

use crate::check::{Faults, Record};
use crate::figures::{sorted, Spread};
use crate::night::{feed, finish, joined, spawn, subscribe, Night, Written, ANALYSTS};
use crate::typist::type_on;
use infod3_cli::{Address, Command, Message, Trouble};
use infod3d::process::{cpu_seconds, Process};
use std::error::Error;
use std::sync::atomic::{AtomicU64, Ordering};
use std::sync::Arc;
use std::thread::{self, JoinHandle};
use std::time::{Duration, Instant};

const SUBSCRIBERS: usize = 24;
const SLOW_READERS: usize = 3;

/// Subscribes to everything, sleeps until the server must have shut it, reads what it got up to
/// its ERROR, and comes again.
fn read_slowly(night: &Night, who: usize) -> Record {
    let mut record = Record::new(night.begin);
    while night.is_on() {
        match dawdle(night, who, &mut record) {
            Ok(()) => {}
            Err(Trouble::Error(102, _)) => {
                night.shut.fetch_add(1, Ordering::Relaxed);
            }
            Err(trouble) => {
                eprintln!("soak: slow reader {who}: {trouble}");
                record.faults.lost += 1;
            }
        }
    }
    record.latencies.clear();
    record
}

fn dawdle(night: &Night, who: usize, record: &mut Record) -> Result<(), Trouble> {
    // A Unix socket holds less than a TCP connection, so that the queue's turn comes sooner.
    let mut connection = night.connect(2 * who + 1)?;
    record.subscribed();
    connection.send(Command::Sub(b"site.*"))?;
    let wake = Instant::now() + Duration::from_millis(5_000 + 700 * who as u64);
    while night.is_on() && Instant::now() < wake {
        thread::sleep(Duration::from_millis(20));
    }
    loop {
        match connection.receive(Some(Duration::from_millis(200))) {
            Ok(Message::Info {
                key,
                value: Some(value),
            }) => record.info(&key, &value),
            Ok(_) => record.faults.lost += 1,
            Err(Trouble::Late) if !night.is_on() => return Ok(()),
            Err(Trouble::Late) => {}
            Err(trouble) => return Err(trouble),
        }
    }
}

/// Connects, asks and leaves, again and again; gives how often that failed.
fn visit(night: &Night) -> u64 {
    let mut failed = 0;
    let mut who = 0;
    while night.is_on() {
        who += 1;
        match night.connect(who) {
            Ok(_) => night.visits.fetch_add(1, Ordering::Relaxed),
            Err(trouble) => {
                eprintln!("soak: visitor: {trouble}");
                failed += 1;
                0
            }
        };
        thread::sleep(Duration::from_millis(20));
    }
    failed
}

/// What the threads of a night found.
#[derive(Default)]
struct Found {
    faults: Faults,
    deliveries: u64,
    latencies: Vec<u32>,
    to_slow: u64,
}

/// Plays the night for so many seconds and prints what came of it; false where a count that must
/// be 0 is not.
pub fn soak(seconds: u64) -> Result<bool, Box<dyn Error>> {
    // A short queue, so that slow readers are shut within seconds.
    let server = Process::start(&Process::beside()?, &["--quiet", "--queue", "32768"])?;
    let addresses = [
        Address::Tcp(server.tcp.to_string()),
        Address::Unix(server.unix.clone()),
    ];
    let night = Arc::new(Night::new(Duration::from_secs(seconds), addresses));
    let watching = (0..SUBSCRIBERS).map(|who| spawn(&night, move |night| subscribe(night, who)));
    let watching: Vec<_> = watching.collect();
    let slow = (0..SLOW_READERS).map(|who| spawn(&night, move |night| read_slowly(night, who)));
    let slow: Vec<_> = slow.collect();
    let typist = spawn(&night, type_on);
    let visitor = spawn(&night, visit);
    let feeds = (0..night.feeds).map(|who| spawn(&night, move |night| feed(night, who)));

    let mut written = Vec::new();
    let mut reports = 0;
    for feed in feeds.collect::<Vec<_>>() {
        let (keys, count) = feed.join().map_err(|_| "a feed failed")??;
        written.extend(keys);
        reports += count;
    }
    night.written.store(true, Ordering::Release);
    let cpu = cpu_seconds(server.id()).unwrap_or(0.0);

    let mut found = gather(watching, slow, &written, night.begin);
    // Whoever types has watched what an analyst watches.
    let mut typed = joined(typist, night.begin);
    finish(&mut typed, ANALYSTS, &written);
    found.faults.add(typed.faults);
    found.faults.lost += visitor.join().map_err(|_| "the visitor failed")?;
    print(&night, seconds, reports, cpu, &mut found);
    let slips = night.slips.load(Ordering::Relaxed);
    Ok(found.faults == Faults::default() && found.deliveries > 0 && slips > 0)
}

fn gather(
    watching: Vec<JoinHandle<Record>>,
    slow: Vec<JoinHandle<Record>>,
    written: &Written,
    begin: Instant,
) -> Found {
    let mut found = Found::default();
    for (who, thread) in watching.into_iter().enumerate() {
        let mut record = joined(thread, begin);
        finish(&mut record, who, written);
        found.faults.add(record.faults);
        found.deliveries += record.deliveries;
        found.latencies.append(&mut record.latencies);
    }
    for thread in slow {
        let record = joined(thread, begin);
        found.faults.add(record.faults);
        found.to_slow += record.deliveries;
    }
    found
}

fn print(night: &Night, seconds: u64, reports: u64, cpu: f64, found: &mut Found) {
    let count = |number: &AtomicU64| number.load(Ordering::Relaxed);
    let spread = Spread::of(sorted(&mut found.latencies));
    let deliveries = found.deliveries;
    println!("seconds {seconds}  reports {reports}  deliveries {deliveries}");
    println!(
        "to slow readers {}  shut {}  slips {}  reconnects {}  visits {}  without slot {}",
        found.to_slow,
        count(&night.shut),
        count(&night.slips),
        count(&night.reconnects),
        count(&night.visits),
        count(&night.retries)
    );
    println!(
        "latency in ms: p50 {:.2}  p90 {:.2}  p99 {:.2}  max {:.2}",
        spread.p50, spread.p90, spread.p99, spread.max
    );
    println!("server CPU {:.1} %", 100.0 * cpu / seconds as f64);
    println!("lost {}", found.faults.lost);
    println!("doubled {}", found.faults.doubled);
    println!("out of order {}", found.faults.out_of_order);
    println!("stale last value {}", found.faults.stale);
}

//! The table of a hostile night.

use crate::hostile::Row;
use std::time::Duration;

/// Prints the head.
pub fn head() {
    println!("PING latency of another client in ms; slots: seconds until they are free again");
    println!(
        "{:22} {:>7} {:>8} {:>8} {:>8} {:>6} {:>6} {:>6} {:>6} {:>7} {:>6} {:>5} {:>9} {:>7} {:>7}",
        "phase",
        "hostile",
        "p50",
        "p99",
        "max",
        "bound",
        "slots",
        "stop",
        "lost",
        "doubled",
        "order",
        "stale",
        "connects",
        "sent MB",
        "got MB"
    );
}

/// Prints a phase.
pub fn row(row: &Row, slack: f64) {
    let spread = row.spread();
    let [connects, flood, sent, received] = row.done;
    let faults = row.faults;
    println!(
        "{:22} {:>7} {:>8.2} {:>8.2} {:>8.2} {:>6} {:>6} {:>6} {:>6} {:>7} {:>6} {:>5} {:>9} {:>7.1} {:>7.1}",
        row.phase.name,
        row.phase.plan.clients(),
        spread.p50,
        spread.p99,
        spread.max,
        row.phase.bound() * slack,
        seconds(row.free),
        seconds(row.stop),
        faults.lost,
        faults.doubled,
        faults.out_of_order,
        faults.stale,
        connects + flood,
        sent as f64 / 1e6,
        received as f64 / 1e6,
    );
}

fn seconds(time: Option<Duration>) -> String {
    time.map_or("never".to_owned(), |time| {
        format!("{:.2}", time.as_secs_f64())
    })
}

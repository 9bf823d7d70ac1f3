//! What the server counts, and its names in the log and for Prometheus.

use infod3::Refusal;
use std::fmt::{self, Write};

/// The counters since the start.
#[derive(Clone, Debug, Default, PartialEq, Eq)]
pub struct Counters {
    /// Clients that got a slot.
    pub clients_ever: u64,
    /// Clients that found no free slot.
    pub without_slot: u64,
    /// Messages that were fed, refused ones included.
    pub messages_in: u64,
    /// Messages that were taken for a client whose socket was open.
    pub messages_out: u64,
    /// Bytes that were read.
    pub bytes_in: u64,
    /// Bytes that were written.
    pub bytes_out: u64,
    /// Messages that were refused with 100, 101, 102 and 103.
    pub refusals: [u64; 4],
    /// Those of them that left their client open: typing errors of text clients.
    pub slips: u64,
    /// Clients whose queue overflowed.
    pub overflows: u64,
    /// WRITE commands on a read-only listener.
    pub read_only: u64,
    /// HELP pages.
    pub help: u64,
    /// Messages and keys that were too long for their listener.
    pub too_long: u64,
    /// Clients that sent no message in time.
    pub silent: u64,
    /// Messages of dead clients that would only have brought them answers.
    pub skipped: u64,
    /// Lines of the log that were left out.
    pub log_omitted: u64,
}

/// A counter: its name, what it counts, and its value.
type Counter = (&'static str, &'static str, fn(&Counters) -> u64);

/// All counters but the refusals, which have a number. The line in the log and the page for
/// Prometheus are made from this list.
const COUNTERS: [Counter; 15] = [
    ("clients_ever", "Clients that got a slot.", |c| {
        c.clients_ever
    }),
    ("without_slot", "Clients that found no free slot.", |c| {
        c.without_slot
    }),
    (
        "messages_in",
        "Messages that were fed, refused ones included.",
        |c| c.messages_in,
    ),
    (
        "messages_out",
        "Messages that were taken for clients.",
        |c| c.messages_out,
    ),
    ("bytes_in", "Bytes that were read.", |c| c.bytes_in),
    ("bytes_out", "Bytes that were written.", |c| c.bytes_out),
    ("shut", "Clients that were shut.", Counters::shut),
    ("overflows", "Clients whose queue overflowed.", |c| {
        c.overflows
    }),
    (
        "slips",
        "Messages that were refused and left their client open.",
        |c| c.slips,
    ),
    (
        "read_only",
        "WRITE commands on a read-only listener.",
        |c| c.read_only,
    ),
    ("help", "HELP pages.", |c| c.help),
    (
        "too_long",
        "Messages and keys that were too long for their listener.",
        |c| c.too_long,
    ),
    ("silent", "Clients that sent no message in time.", |c| {
        c.silent
    }),
    (
        "skipped",
        "Messages of dead clients that would only have brought them answers.",
        |c| c.skipped,
    ),
    ("log_omitted", "Lines of the log that were left out.", |c| {
        c.log_omitted
    }),
];

impl Counters {
    /// Counts a refused message.
    pub fn refused(&mut self, refusal: Refusal) {
        for (known, count) in Refusal::ALL.into_iter().zip(&mut self.refusals) {
            *count += u64::from(known == refusal);
        }
    }

    /// Clients that were shut: for a refused message or for a queue that overflowed.
    pub fn shut(&self) -> u64 {
        let refused: u64 = self.refusals.iter().sum();
        refused - self.slips + self.overflows
    }
}

/// The counters as fields of one line, without those that are not since the start.
impl fmt::Display for Counters {
    fn fmt(&self, f: &mut fmt::Formatter<'_>) -> fmt::Result {
        for (index, (name, _, value)) in COUNTERS.into_iter().enumerate() {
            let space = if index == 0 { "" } else { " " };
            write!(f, "{space}{name}={}", value(self))?;
        }
        for (refusal, count) in Refusal::ALL.into_iter().zip(self.refusals) {
            write!(f, " refused_{}={count}", refusal.number())?;
        }
        Ok(())
    }
}

/// What holds at one moment.
#[derive(Clone, Copy, Debug, PartialEq, Eq)]
pub struct Gauges {
    /// Seconds since the start.
    pub seconds: u64,
    /// Clients that are connected.
    pub clients: usize,
    /// All slots, free ones included.
    pub slots: usize,
    /// Keys in the store, if they are known.
    pub keys: Option<u32>,
}

impl Gauges {
    /// Each with its name and what it is.
    fn named(&self) -> [(&'static str, &'static str, Option<u64>); 4] {
        let (clients, slots) = (self.clients as u64, self.slots as u64);
        [
            ("up_seconds", "Seconds since the start.", Some(self.seconds)),
            ("clients", "Clients that are connected.", Some(clients)),
            ("slots", "Slots, free ones included.", Some(slots)),
            ("keys", "Keys in the store.", self.keys.map(u64::from)),
        ]
    }
}

/// The counters and what holds now as one page in the text format of Prometheus.
pub fn page(counters: &Counters, now: &Gauges) -> String {
    let mut page = String::new();
    for (name, help, value) in now.named() {
        if let Some(value) = value {
            head(&mut page, name, help, "gauge");
            line(&mut page, name, value);
        }
    }
    for (name, help, value) in COUNTERS {
        let name = format!("{name}_total");
        head(&mut page, &name, help, "counter");
        line(&mut page, &name, value(counters));
    }
    let help = "Messages that were refused.";
    head(&mut page, "refused_total", help, "counter");
    for (refusal, count) in Refusal::ALL.into_iter().zip(counters.refusals) {
        let name = format!("refused_total{{number=\"{}\"}}", refusal.number());
        line(&mut page, &name, count);
    }
    page
}

fn head(page: &mut String, name: &str, help: &str, sort: &str) {
    // Writing to a string cannot fail.
    let _ = writeln!(
        page,
        "# HELP infod3_{name} {help}\n# TYPE infod3_{name} {sort}"
    );
}

fn line(page: &mut String, name: &str, value: u64) {
    let _ = writeln!(page, "infod3_{name} {value}");
}

#[cfg(test)]
mod tests {
    use super::*;

    fn counters() -> Counters {
        Counters {
            clients_ever: 1,
            without_slot: 2,
            messages_in: 3,
            messages_out: 4,
            bytes_in: 5,
            bytes_out: 6,
            refusals: [7, 8, 9, 10],
            overflows: 11,
            slips: 18,
            read_only: 12,
            help: 13,
            too_long: 14,
            silent: 15,
            skipped: 16,
            log_omitted: 17,
        }
    }

    #[test]
    fn the_line_has_every_counter() {
        let expected = "clients_ever=1 without_slot=2 messages_in=3 messages_out=4 bytes_in=5 \
                        bytes_out=6 shut=27 overflows=11 slips=18 read_only=12 help=13 too_long=14 silent=15 \
                        skipped=16 log_omitted=17 refused_100=7 refused_101=8 refused_102=9 refused_103=10";
        assert_eq!(counters().to_string(), expected);
    }

    #[test]
    fn the_page_is_in_the_format_of_prometheus() {
        let now = Gauges {
            seconds: 20,
            clients: 21,
            slots: 22,
            keys: Some(23),
        };
        let page = page(&counters(), &now);
        let mut names = Vec::new();
        for three in page.split("# HELP ").skip(1) {
            let mut lines = three.lines();
            let (name, help) = lines.next().unwrap().split_once(' ').unwrap();
            assert!(name.starts_with("infod3_") && help.ends_with('.'));
            let sort = if name.ends_with("_total") {
                "counter"
            } else {
                "gauge"
            };
            assert_eq!(lines.next(), Some(&*format!("# TYPE {name} {sort}")));
            for line in lines {
                let (sample, value) = line.split_once(' ').unwrap();
                assert!(sample == name || sample.starts_with(&format!("{name}{{")));
                assert!(value.parse::<u64>().is_ok());
            }
            names.push(name);
        }
        let once = names.iter().collect::<std::collections::BTreeSet<_>>();
        assert_eq!((names.len(), once.len()), (20, 20));
        assert!(page.ends_with('\n') && page.contains("\ninfod3_keys 23\n"));
        assert!(page.contains("\ninfod3_messages_in_total 3\n"));
        assert!(page.contains("\ninfod3_refused_total{number=\"103\"} 10\n"));
    }

    #[test]
    fn unknown_keys_have_no_line() {
        let now = Gauges {
            seconds: 0,
            clients: 0,
            slots: 1,
            keys: None,
        };
        assert!(!page(&Counters::default(), &now).contains("infod3_keys"));
    }
}

//! The log: one line per event, with the time in UTC.
//!
//! The loop never waits for it. A thread of the log's own writes the lines, so that a pipe nobody
//! reads, a stopped terminal or a slow disk holds up that thread alone; lines that find no room
//! are counted and left out. Lines about clients are bounded in rate, so that a flood of clients is
//! no flood of lines. How many were left out is said before the next line.

use std::fmt;
use std::io::Write;
use std::sync::mpsc::{sync_channel, Receiver, SyncSender};
use std::time::{Duration, Instant, SystemTime, UNIX_EPOCH};

/// Lines that may wait to be written.
const WAITING: usize = 1024;
/// Lines about clients that may come at once.
const BURST: u32 = 1000;
/// Lines about clients that may come in a second, in the long run.
const PER_SECOND: u32 = 50;
/// How long the end of the log is waited for when it is dropped.
const LAST: Duration = Duration::from_millis(500);

/// Where the lines go.
pub struct Log {
    lines: Option<SyncSender<String>>,
    /// Ends when all lines are written.
    written: Receiver<()>,
    quiet: bool,
    rate: Rate,
    /// Lines that were left out and not spoken of yet.
    omitted: u64,
    /// Lines that were left out since the start.
    omitted_ever: u64,
}

impl Log {
    /// A log that writes to `sink`; a quiet one leaves out what single clients do. A sink that
    /// blocks blocks nobody else.
    pub fn new(sink: Box<dyn Write + Send>, quiet: bool) -> Log {
        let (lines, waiting) = sync_channel(WAITING);
        let (done, written) = sync_channel(0);
        // Where no thread can be had the channel has no reader, and every line counts as left out.
        let _ = std::thread::Builder::new()
            .name("log".to_owned())
            .spawn(move || write_lines(sink, &waiting, &done));
        Log {
            lines: Some(lines),
            written,
            quiet,
            rate: Rate::new(Instant::now()),
            omitted: 0,
            omitted_ever: 0,
        }
    }

    /// A line that is always written if there is room: start, stop, counters and trouble of the
    /// server itself.
    pub fn notice(&mut self, event: fmt::Arguments<'_>) {
        self.say_omitted();
        self.line(event);
    }

    /// A line about one client.
    pub fn client(&mut self, event: fmt::Arguments<'_>) {
        if self.quiet {
            return;
        }
        match self.rate.allows(Instant::now()) {
            true => self.notice(event),
            false => self.omit(1),
        }
    }

    /// The number of lines that were left out since the start.
    pub fn omitted_ever(&self) -> u64 {
        self.omitted_ever
    }

    fn say_omitted(&mut self) {
        let count = self.omitted;
        if count > 0 && self.line(format_args!("log {count} lines left out")) {
            self.omitted -= count;
        }
    }

    /// Hands a line on, and counts it where there is no room for it.
    fn line(&mut self, event: fmt::Arguments<'_>) -> bool {
        let line = format!("{} {event}\n", utc(SystemTime::now()));
        let handed = self.lines.as_ref().map(|lines| lines.try_send(line));
        let fine = matches!(handed, Some(Ok(())));
        if !fine {
            self.omit(1);
        }
        fine
    }

    fn omit(&mut self, count: u64) {
        self.omitted += count;
        self.omitted_ever += count;
    }
}

impl Drop for Log {
    /// Waits a short time for the lines to be written. A sink that blocks is left behind.
    fn drop(&mut self) {
        self.lines = None;
        let _ = self.written.recv_timeout(LAST);
    }
}

/// Writes lines until none can come any more; dropping `done` tells the end.
fn write_lines(mut sink: Box<dyn Write + Send>, lines: &Receiver<String>, done: &SyncSender<()>) {
    let _end = done;
    for line in lines {
        // A log that cannot be written to must not stop the broker, and there is nowhere to say it.
        let _ = sink.write_all(line.as_bytes());
    }
    let _ = sink.flush();
}

/// How many lines may still come: [`BURST`] at most, and [`PER_SECOND`] more each second.
struct Rate {
    left: u32,
    counted: Instant,
}

impl Rate {
    fn new(now: Instant) -> Rate {
        Rate {
            left: BURST,
            counted: now,
        }
    }

    /// Whether one more line may come.
    fn allows(&mut self, now: Instant) -> bool {
        let period = Duration::from_secs(1) / PER_SECOND;
        let periods = now.saturating_duration_since(self.counted).as_micros() / period.as_micros();
        let more = u32::try_from(periods).unwrap_or(BURST).min(BURST);
        if more > 0 {
            self.left = (self.left + more).min(BURST);
            self.counted = match self.left {
                BURST => now,
                _ => self.counted + period * more,
            };
        }
        let allowed = self.left > 0;
        self.left -= u32::from(allowed);
        allowed
    }
}

/// A time as `2026-01-31T23:59:59.123Z`.
pub fn utc(time: SystemTime) -> String {
    let since = time.duration_since(UNIX_EPOCH).unwrap_or(Duration::ZERO);
    let seconds = since.as_secs();
    let (year, month, day) = date(seconds / 86_400);
    let (hour, minute) = (seconds / 3_600 % 24, seconds / 60 % 60);
    let (second, milli) = (seconds % 60, since.subsec_millis());
    format!("{year:04}-{month:02}-{day:02}T{hour:02}:{minute:02}:{second:02}.{milli:03}Z")
}

/// The date of a day by its number, 1 January 1970 being 0.
fn date(mut days: u64) -> (u64, u64, u64) {
    let leap = |year: u64| {
        year.is_multiple_of(4) && (!year.is_multiple_of(100) || year.is_multiple_of(400))
    };
    let mut year = 1970;
    while days >= 365 + u64::from(leap(year)) {
        days -= 365 + u64::from(leap(year));
        year += 1;
    }
    let february = 28 + u64::from(leap(year));
    let mut month = 1;
    for length in [31, february, 31, 30, 31, 30, 31, 31, 30, 31, 30, 31] {
        if days < length {
            break;
        }
        days -= length;
        month += 1;
    }
    (year, month, days + 1)
}

#[cfg(test)]
mod tests {
    use super::*;

    #[test]
    fn times_are_written_in_utc() {
        let at = |seconds: u64| utc(UNIX_EPOCH + Duration::from_millis(seconds * 1000 + 7));
        assert_eq!(at(0), "1970-01-01T00:00:00.007Z");
        assert_eq!(at(951_782_399), "2000-02-28T23:59:59.007Z");
        assert_eq!(at(951_782_400), "2000-02-29T00:00:00.007Z");
        assert_eq!(at(1_798_761_599), "2026-12-31T23:59:59.007Z");
        assert_eq!(at(4_107_542_400), "2100-03-01T00:00:00.007Z");
    }

    #[test]
    fn the_rate_is_bounded_and_recovers() {
        let start = Instant::now();
        let mut rate = Rate::new(start);
        let count = |rate: &mut Rate, millis: u64, tries: u32| {
            let now = start + Duration::from_millis(millis);
            (0..tries).filter(|_| rate.allows(now)).count()
        };
        assert_eq!(count(&mut rate, 0, 5000), 1000);
        assert_eq!(count(&mut rate, 10, 5000), 0);
        assert_eq!(count(&mut rate, 1010, 5000), 50);
        let slowly: usize = (1010..3010).map(|at| count(&mut rate, at, 3)).sum();
        assert_eq!(slowly, 100, "a line every 20 ms, whenever it is asked for");
        assert_eq!(count(&mut rate, 3_600_000, 5000), 1000);
    }
}

//! The counters in a file that Prometheus reads.
//!
//! A page is written under another name and moved to its own, so that a reader never finds half of
//! it. The loop never waits for a disk: a thread of its own writes, and a page that comes while
//! the one before still waits is dropped.

use crate::shown;
use std::fs::OpenOptions;
use std::io::{self, Write};
use std::path::{Path, PathBuf};
use std::sync::mpsc::{
    channel, sync_channel, Receiver, RecvTimeoutError, SyncSender, TrySendError,
};
use std::time::{Duration, Instant};

/// How often the stop tries to hand the last page over.
const RETRY: Duration = Duration::from_millis(5);

/// The file and its thread.
#[derive(Debug)]
pub struct Metrics {
    period: Duration,
    next: Instant,
    pages: SyncSender<String>,
    results: Receiver<io::Result<()>>,
    said: Said,
}

impl Metrics {
    /// Starts the thread. The first page is due at once.
    pub fn start(path: &Path, period: Duration, now: Instant) -> io::Result<Metrics> {
        let target = path.to_owned();
        let write = move |page: &str| write_page(&target, page);
        Metrics::start_with(write, path, period, now)
    }

    fn start_with(
        mut write: impl FnMut(&str) -> io::Result<()> + Send + 'static,
        path: &Path,
        period: Duration,
        now: Instant,
    ) -> io::Result<Metrics> {
        let (pages, to_write) = sync_channel::<String>(1);
        let (done, results) = channel();
        let name = "metrics".to_owned();
        std::thread::Builder::new().name(name).spawn(move || {
            let mut written = to_write.iter().map(|page| write(&page));
            written.try_for_each(|result| done.send(result))
        })?;
        Ok(Metrics {
            period,
            next: now,
            pages,
            results,
            said: Said::new(path),
        })
    }

    /// When the next page is due.
    pub fn due(&self) -> Instant {
        self.next
    }

    /// Hands over a page, if there is one, and gives what is to be said of those before. It never
    /// waits: a thread that is busy with one page and has another waiting gets no third.
    pub fn tick(&mut self, now: Instant, page: Option<String>) -> Option<String> {
        if let Some(page) = page {
            self.next = now + self.period;
            let _ = self.pages.try_send(page);
        }
        let mut news = None;
        while let Ok(result) = self.results.try_recv() {
            news = self.said.news(result).or(news);
        }
        news
    }

    /// Writes the last page, waits for it for `patience` at most, and gives what is to be said of
    /// it.
    pub fn finish(self, mut page: String, patience: Duration) -> Option<String> {
        let Metrics {
            pages,
            results,
            mut said,
            ..
        } = self;
        let until = Instant::now() + patience;
        while let Err(TrySendError::Full(again)) = pages.try_send(page) {
            if Instant::now() >= until {
                break;
            }
            std::thread::sleep(RETRY);
            page = again;
        }
        // The thread ends when it has written all that it was given.
        drop(pages);
        let mut news = None;
        loop {
            let left = until.saturating_duration_since(Instant::now());
            match results.recv_timeout(left) {
                Ok(result) => news = said.news(result).or(news),
                Err(RecvTimeoutError::Disconnected) => return news,
                Err(RecvTimeoutError::Timeout) => return Some(said.line("not written in time")),
            }
        }
    }
}

/// What was said of the file last.
#[derive(Debug)]
struct Said {
    path: PathBuf,
    /// The error, if it was one.
    error: Option<String>,
}

impl Said {
    fn new(path: &Path) -> Said {
        Said {
            path: path.to_owned(),
            error: None,
        }
    }

    /// What is to be said of a result: an error that is not said yet, or the end of one.
    fn news(&mut self, result: io::Result<()>) -> Option<String> {
        let error = result.err().map(|error| error.to_string());
        if error == self.error {
            return None;
        }
        let news = self.line(error.as_deref().unwrap_or("written again"));
        self.error = error;
        Some(news)
    }

    fn line(&self, text: &str) -> String {
        format!("metrics {}: {text}", shown::path(&self.path))
    }
}

/// Writes a page under another name in the same folder and moves it to its own, unless something
/// other than a file is there.
fn write_page(path: &Path, page: &str) -> io::Result<()> {
    if std::fs::symlink_metadata(path).is_ok_and(|data| !data.is_file()) {
        return Err(io::Error::other("something other than a file is there"));
    }
    let mut name = path.as_os_str().to_owned();
    name.push(format!(".tmp.{}", std::process::id()));
    let other = PathBuf::from(name);
    // One may be left by a process of the same number; whatever it is, it is not written to.
    let _ = std::fs::remove_file(&other);
    let mut options = OpenOptions::new();
    let mut file = options.write(true).create_new(true).open(&other)?;
    let written = file.write_all(page.as_bytes());
    let moved = written.and_then(|()| std::fs::rename(&other, path));
    moved.inspect_err(|_| {
        let _ = std::fs::remove_file(&other);
    })
}

#[cfg(test)]
mod tests {
    use super::*;

    const PATIENCE: Duration = Duration::from_secs(30);

    /// Ticks without a page until something is to be said.
    fn news(metrics: &mut Metrics) -> String {
        let until = Instant::now() + PATIENCE;
        loop {
            if let Some(news) = metrics.tick(Instant::now(), None) {
                return news;
            }
            assert!(Instant::now() < until, "nothing is said");
            std::thread::sleep(Duration::from_millis(1));
        }
    }

    #[test]
    fn a_reader_finds_whole_pages_only() {
        let name = format!("infod3d-metrics-{}", std::process::id());
        let folder = std::env::temp_dir().join(name);
        std::fs::create_dir_all(&folder).unwrap();
        let path = folder.join("page");
        let pages = ["a", "b"].map(|letter| letter.repeat(300_000));
        write_page(&path, &pages[0]).unwrap();
        let target = path.clone();
        let writer = std::thread::spawn(move || {
            for round in 0..100 {
                let page = ["a", "b"][round % 2].repeat(300_000);
                write_page(&target, &page).unwrap();
            }
        });
        while !writer.is_finished() {
            let found = std::fs::read_to_string(&path).unwrap();
            assert!(pages.contains(&found), "{} bytes", found.len());
        }
        writer.join().unwrap();
        assert_eq!(std::fs::read_dir(&folder).unwrap().count(), 1);
        std::fs::remove_dir_all(&folder).unwrap();
    }

    #[test]
    fn an_error_is_said_once() {
        let results = [
            Ok(()),
            Err("full"),
            Err("full"),
            Err("gone"),
            Ok(()),
            Ok(()),
        ];
        let mut results = results.into_iter();
        let write = move |_: &str| results.next().unwrap().map_err(io::Error::other);
        let now = Instant::now();
        let mut metrics = Metrics::start_with(write, Path::new("m"), PATIENCE, now).unwrap();
        let mut said = Vec::new();
        for _ in 0..6 {
            // Each page is written before the next one is handed over.
            metrics.pages.send(String::new()).unwrap();
            let result = metrics.results.recv_timeout(PATIENCE).unwrap();
            said.extend(metrics.said.news(result));
        }
        let expected = ["full", "gone", "written again"];
        assert_eq!(said, expected.map(|text| format!("metrics m: {text}")));
    }

    #[test]
    fn a_page_that_cannot_be_written_is_said() {
        let path = Path::new("/no/such/folder/page");
        let now = Instant::now();
        let mut metrics = Metrics::start(path, PATIENCE, now).unwrap();
        assert_eq!(metrics.due(), now, "the first page is due at once");
        assert_eq!(metrics.tick(now, Some("page".to_owned())), None);
        assert_eq!(metrics.due(), now + PATIENCE);
        assert!(news(&mut metrics).starts_with("metrics /no/such/folder/page: No such file"));
    }

    #[test]
    fn a_disk_that_does_not_answer_holds_nothing_up() {
        let (_keep, never) = channel::<()>();
        let write = move |_: &str| never.recv().map_err(io::Error::other);
        let now = Instant::now();
        let mut metrics = Metrics::start_with(write, Path::new("m"), PATIENCE, now).unwrap();
        for _ in 0..1000 {
            assert_eq!(metrics.tick(now, Some("page".to_owned())), None);
        }
        let said = metrics.finish("last".to_owned(), Duration::from_millis(20));
        assert_eq!(said.as_deref(), Some("metrics m: not written in time"));
        assert!(now.elapsed() < PATIENCE);
    }

    #[test]
    fn the_last_page_waits_for_the_one_before() {
        let (written, pages) = channel();
        let (go, gate) = channel::<()>();
        let write = move |page: &str| {
            let _ = gate.recv();
            let _ = written.send(page.to_owned());
            Ok(())
        };
        let now = Instant::now();
        let mut metrics = Metrics::start_with(write, Path::new("m"), PATIENCE, now).unwrap();
        for _ in 0..3 {
            metrics.tick(now, Some("page".to_owned()));
        }
        // From now on the disk answers.
        drop(go);
        let _ = metrics.finish("last".to_owned(), PATIENCE);
        let mut found = std::iter::from_fn(|| pages.recv_timeout(PATIENCE).ok());
        assert!(found.any(|page| page == "last"));
    }
}

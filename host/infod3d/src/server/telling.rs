//! What the server says of itself: to the log, to Prometheus and to the service manager.

use super::Server;
use crate::counters::{self, Gauges};
use crate::metrics::Metrics;
use crate::notify::Manager;
use std::io;
use std::time::{Duration, Instant};

/// How long the stop waits for the last page of the metrics.
const LAST_PAGE: Duration = Duration::from_millis(500);

impl Server {
    /// Says with which sizes it starts and where it listens.
    pub(super) fn announce(&mut self) {
        let (sizes, pid) = (self.broker.sizes(), std::process::id());
        self.log.notice(format_args!(
            "start pid={pid} slots={} store={} queue={} record={}",
            sizes.slots(),
            sizes.store(),
            sizes.queue(),
            sizes.recording()
        ));
        for listener in &self.listeners {
            self.log.notice(format_args!("listen {}", listener.options));
            if listener.options.place.is_remote() {
                let place = &listener.options.place;
                self.log.notice(format_args!(
                    "remote {place}: whoever reaches this port is let in, without authentication"
                ));
            }
        }
    }

    /// Tells the service manager, where the environment names one, that this server listens, and
    /// from now on that it turns and that it stops.
    pub fn tell_manager(&mut self) {
        match Manager::of_environment(Instant::now()) {
            Ok(manager) => self.manager = manager,
            Err(error) => self.log.notice(format_args!("notify: {error}")),
        }
        let (listeners, slots) = (self.listeners.len(), self.clients.len());
        self.tell(|manager| manager.ready(&format!("{listeners} listeners, {slots} slots")));
    }

    /// Tells the manager something.
    pub(super) fn tell(&mut self, what: impl FnOnce(&mut Manager) -> io::Result<()>) {
        if let Some(Err(error)) = self.manager.as_mut().map(what) {
            self.log.notice(format_args!("notify: {error}"));
        }
    }

    /// What holds now.
    fn gauges(&self) -> Gauges {
        Gauges {
            seconds: self.started.elapsed().as_secs(),
            clients: self.clients.iter().flatten().count(),
            slots: self.clients.len(),
            keys: self.view.and_then(|view| view.keys(self.broker.memory())),
        }
    }

    /// Writes the counters to the log.
    pub(super) fn write_counters(&mut self) {
        self.counters.log_omitted = self.log.omitted_ever();
        let now = self.gauges();
        let (seconds, clients) = (now.seconds, now.clients);
        let keys = now.keys.map_or("unknown".to_owned(), |n| n.to_string());
        self.log.notice(format_args!(
            "counters seconds={seconds} clients={clients} keys={keys} {}",
            self.counters
        ));
    }

    /// When the counters, the metrics or the watchdog are due next.
    pub(super) fn due(&self) -> Option<Instant> {
        let stats = self.stats.map(|(_, next)| next);
        let metrics = self.metrics.as_ref().map(Metrics::due);
        let watchdog = self.manager.as_ref().and_then(Manager::due);
        [stats, metrics, watchdog].into_iter().flatten().min()
    }

    /// Writes the counters and the metrics and tells the watchdog, each if it is time.
    pub(super) fn write_stats(&mut self, now: Instant) {
        if let Some((period, _)) = self.stats.filter(|(_, next)| *next <= now) {
            self.stats = Some((period, now + period));
            self.write_counters();
        }
        self.write_metrics(now);
        self.tell(|manager| manager.tick(now));
    }

    fn write_metrics(&mut self, now: Instant) {
        self.counters.log_omitted = self.log.omitted_ever();
        let due = self.metrics.as_ref().is_some_and(|m| m.due() <= now);
        let page = due.then(|| counters::page(&self.counters, &self.gauges()));
        let news = self.metrics.as_mut().and_then(|m| m.tick(now, page));
        if let Some(news) = news {
            self.log.notice(format_args!("{news}"));
        }
    }

    /// Writes the last page of the metrics.
    pub(super) fn finish_metrics(&mut self) {
        if let Some(metrics) = self.metrics.take() {
            let page = counters::page(&self.counters, &self.gauges());
            if let Some(news) = metrics.finish(page, LAST_PAGE) {
                self.log.notice(format_args!("{news}"));
            }
        }
    }
}

//! How the server stops: it listens and reads no more, feeds what it has read, gives every client
//! what is queued for it, and closes. Nobody can hold that up for long.

use super::{Failure, Server};
use crate::client::Reason;
use std::time::{Duration, Instant};

/// How long messages that were read before the stop are fed.
const FEEDING: Duration = Duration::from_secs(1);
/// How long a client may take no byte of what is left for it.
const PATIENCE: Duration = Duration::from_secs(1);
/// How long the stop may last.
const LONGEST: Duration = Duration::from_secs(10);
/// How long the peers of closed clients have to close their ends.
const PARTING: Duration = Duration::from_millis(300);

/// A stop that has begun.
#[derive(Debug)]
pub(super) struct Stopping {
    /// Nothing is fed from then on.
    fed_until: Instant,
    /// All are closed then.
    until: Instant,
    /// Whether all clients are closed, and only their peers are waited for.
    parting: bool,
}

impl Stopping {
    /// The next moment at which something is due.
    pub(super) fn next(&self) -> Instant {
        self.fed_until.min(self.until)
    }
}

impl Server {
    /// Begins the stop; a second request ends it at once.
    pub(super) fn begin_stop(&mut self, number: i32, now: Instant) {
        self.log.notice(format_args!("stop signal={number}"));
        let again = self.stopping.is_some();
        self.tell(|manager| manager.stopping());
        self.stopping = Some(Stopping {
            fed_until: now + FEEDING,
            until: if again { now } else { now + LONGEST },
            parting: false,
        });
        for client in self.clients.iter_mut().flatten() {
            client.end(now);
        }
    }

    /// How long a client that is to be closed may take no byte.
    pub(super) fn patience(&self) -> Duration {
        match self.stopping {
            Some(_) => self.patience.min(PATIENCE),
            None => self.patience,
        }
    }

    /// Whether the stop is over: all clients are closed and their peers know it, or time is up.
    pub(super) fn has_stopped(&mut self) -> bool {
        let Some(stopping) = &mut self.stopping else {
            return false;
        };
        let now = Instant::now();
        if stopping.fed_until <= now {
            stopping.fed_until = stopping.until;
            for client in self.clients.iter_mut().flatten() {
                client.leave(Reason::Stop, now);
            }
        }
        if !stopping.parting && self.clients.iter().all(Option::is_none) {
            stopping.parting = true;
            stopping.until = stopping.until.min(now + PARTING);
        }
        stopping.until <= now || (stopping.parting && self.partings.is_empty())
    }

    /// Closes all clients that are left.
    pub(super) fn close_all(&mut self) {
        let now = Instant::now();
        for slot in 0..self.clients.len() {
            if let Some(client) = &mut self.clients[slot] {
                client.leave(Reason::Stop, now);
            }
            // The server ends in any case, so a failure of the library changes nothing here.
            let _: Result<(), Failure> = self.close(slot, now);
        }
    }
}

//! How clients come and go.

use super::{Failure, Server};
use crate::client::{Client, Reason};
use crate::help;
use crate::socket::{Found, Socket};
use std::io;
use std::time::{Duration, Instant};

/// Clients that are accepted from one listener in one turn.
const ACCEPTS_PER_TURN: usize = 16;
/// How long a listener rests after an error, such as too many open files.
const REST: Duration = Duration::from_millis(200);
/// How long a closed client's last bytes are read and dropped, so that what was written to it is
/// not lost by a reset.
const PARTING: Duration = Duration::from_secs(2);
/// Bytes of such a client that are read in one turn.
const DROPPED: usize = 16_384;
/// The most sockets in that state; the oldest go first.
const PARTINGS: usize = 64;

impl Server {
    /// Accepts clients into free slots and turns those away that find none.
    pub(super) fn accept(&mut self, index: usize, now: Instant) -> Result<(), Failure> {
        for _ in 0..ACCEPTS_PER_TURN {
            match self.listeners[index].accept() {
                Ok(Some((socket, peer))) => self.welcome(socket, peer, index, now)?,
                Ok(None) => break,
                Err(error) => {
                    let place = &self.listeners[index].options.place;
                    self.log.notice(format_args!("accept {place}: {error}"));
                    self.listeners[index].paused = Some(now + REST);
                    break;
                }
            }
        }
        Ok(())
    }

    /// Gives a client of this listener a slot, or turns it away.
    pub(super) fn welcome(
        &mut self,
        socket: Socket,
        peer: String,
        index: usize,
        now: Instant,
    ) -> Result<(), Failure> {
        let Some(slot) = self.free_slot(index) else {
            self.turn_away(socket, &peer, now);
            return Ok(());
        };
        let listener = &self.listeners[index].options;
        self.broker.open(slot, listener.form())?;
        self.counters.clients_ever += 1;
        self.log.client(format_args!("open slot={slot} {peer}"));
        self.clients[slot] = Some(Client::new(socket, peer, listener, now));
        self.origins[slot] = index;
        let others: Vec<usize> = (0..self.clients.len())
            .filter(|&other| other != slot && self.clients[other].is_some())
            .collect();
        self.costs.come(slot, &others, now);
        Ok(())
    }

    /// A free slot for a client of this listener, unless all that are free are reserved for
    /// clients of other listeners.
    fn free_slot(&self, index: usize) -> Option<usize> {
        let free = self.clients.iter().filter(|client| client.is_none());
        let others = (0..self.listeners.len()).filter(|&other| other != index);
        let reserved: usize = others.map(|other| self.unused_reserve(other)).sum();
        match free.count() > reserved {
            true => self.clients.iter().position(Option::is_none),
            false => None,
        }
    }

    /// The slots that are reserved for a listener and not in use by its clients.
    fn unused_reserve(&self, index: usize) -> usize {
        let clients = self.clients.iter().zip(&self.origins);
        let own = clients.filter(|(client, &origin)| client.is_some() && origin == index);
        let reserve = self.listeners[index].options.reserve;
        reserve.saturating_sub(own.count())
    }

    /// Says to a client that there is no slot for it.
    fn turn_away(&mut self, mut socket: Socket, peer: &str, now: Instant) {
        self.counters.without_slot += 1;
        let clients = self.clients.iter().flatten().count();
        let note = match self.clients.len() - clients {
            0 => String::new(),
            free => format!(" reserved={free}"),
        };
        self.log.client(format_args!("full {peer}{note}"));
        // The line fits into the empty buffer of a new socket; a peer that is gone needs none.
        let line = help::no_slot(clients);
        self.counters.bytes_out += socket.write(line.as_bytes()).unwrap_or(0) as u64;
        self.part(socket, now);
    }

    /// Ends the output of a socket and keeps it for a while, so that a reset for input that was
    /// never read does not overtake what was written.
    pub(super) fn part(&mut self, socket: Socket, now: Instant) {
        socket.end_output();
        if self.partings.len() >= PARTINGS {
            self.partings.remove(0);
        }
        self.partings.push((socket, now + PARTING));
    }

    /// Reads and drops what the peer of a closed client still sends.
    pub(super) fn drop_input(&mut self, index: usize, now: Instant) {
        let Some((socket, until)) = self.partings.get_mut(index) else {
            return;
        };
        match socket.read(&mut self.read_room[..DROPPED]) {
            Ok(Found::Bytes(_) | Found::Nothing) => {}
            Ok(Found::End) | Err(_) => *until = now,
        }
    }

    /// Closes the clients that are done. One that is waited for and takes no byte is waited for
    /// no longer: what it sent is still fed, what is left for it is dropped.
    pub(super) fn close_done(&mut self, now: Instant) -> Result<(), Failure> {
        let patience = self.patience();
        for slot in 0..self.clients.len() {
            self.look(slot, now);
            self.turn_away_silent(slot, now);
            let Some(client) = &mut self.clients[slot] else {
                continue;
            };
            if client.is_to_be_retried(now) {
                self.counters.bytes_out += client.write(now) as u64;
            }
            if client.is_overdue(patience, now) {
                client.lose(Some(&io::ErrorKind::TimedOut.into()));
            }
            if client.is_done() {
                self.close(slot, now)?;
            }
        }
        Ok(())
    }

    /// Turns a client away that has sent no whole message in time.
    fn turn_away_silent(&mut self, slot: usize, now: Instant) {
        let (Some(limit), Some(client)) = (self.first_message, &mut self.clients[slot]) else {
            return;
        };
        let has_spoken = client.has_spoken || client.has_message();
        if !has_spoken && !client.is_waiting() && client.came + limit <= now {
            self.counters.silent += 1;
            let seconds = limit.as_secs();
            self.log.client(format_args!(
                "silent slot={slot} no message within {seconds} s"
            ));
            client.turn_away(&help::silent(seconds), Reason::Silent, now);
        }
    }

    pub(super) fn close(&mut self, slot: usize, now: Instant) -> Result<(), Failure> {
        if let Some(client) = self.clients[slot].take() {
            let view = self.view.filter(|_| !client.drained);
            let queued = view.and_then(|view| view.queued(self.broker.memory(), slot));
            self.broker.close(slot)?;
            let lost = client.lost.map(Reason::Lost);
            let quietly = match self.stopping {
                Some(_) => Reason::Stop,
                None => Reason::Ended,
            };
            let reason = client.leaving.or(lost).unwrap_or(quietly);
            let mut note = match client.slips {
                0 => String::new(),
                count => format!(", slips={count}"),
            };
            let untaken = client.dropped + queued.unwrap_or(0);
            for (bytes, what) in [(client.input.len(), "fed"), (untaken, "taken")] {
                if bytes > 0 {
                    note.push_str(&format!(", {bytes} bytes not {what}"));
                }
            }
            let peer = &client.peer;
            self.log
                .client(format_args!("close slot={slot} {peer}: {reason}{note}"));
            if !client.gone && !client.peer_ended {
                self.part(client.socket, now);
            }
        }
        Ok(())
    }
}

//! From the library's queues to the sockets.

use super::{Failure, Server};
use crate::client::{Client, Reason};
use crate::command::is_error;
use crate::cut::Kind;
use crate::sys;
use infod3::{Error, Feed};
use std::time::Instant;

/// Messages that are taken for a client at once, and bytes from which on no further one is.
const TAKES: usize = 16;
const TAKEN_BYTES: usize = 65_536;
/// Bytes of its room that a queue keeps for an ERROR.
const ERROR_ROOM: usize = 64;

impl Server {
    /// Looks into the memory whether a client has messages and whether it is shut.
    pub(super) fn look(&mut self, slot: usize, now: Instant) {
        let (Some(view), Some(client)) = (self.view, &mut self.clients[slot]) else {
            return;
        };
        let memory = self.broker.memory();
        client.queued = !client.drained && view.waiting(memory, slot) != Some(false);
        if client.leaving.is_none() && view.shut(memory, slot) == Some(true) {
            self.note_overflow(slot, now);
        }
    }

    /// Whether the library has shut a client. Where the memory does not tell, a feed of nothing
    /// does: it alters nothing unless the client speaks in packets and is open. So this is asked
    /// only where there is an ERROR, which shuts every client with packets.
    pub(super) fn is_shut(&mut self, slot: usize) -> Result<bool, Failure> {
        let memory = self.broker.memory();
        if let Some(shut) = self.view.and_then(|view| view.shut(memory, slot)) {
            return Ok(shut);
        }
        match self.broker.feed(slot, b"") {
            Ok(Feed::More) => Ok(false),
            Ok(other) => Err(Failure::Library(Error::Unexpected(other.number()))),
            Err(Error::Shut) => Ok(true),
            Err(error) => Err(error.into()),
        }
    }

    /// Notes after a feed that every client may have messages, where the memory does not tell.
    pub(super) fn expect_messages(&mut self) {
        if self.view.is_none() {
            for client in self.clients.iter_mut().flatten() {
                client.queued = !client.drained;
            }
        }
    }

    /// Takes some messages of a client while its output has room, and writes when that is full.
    pub(super) fn take_some(&mut self, slot: usize, now: Instant) -> Result<(), Failure> {
        let mut bytes = 0;
        for _ in 0..TAKES {
            let client = self.clients[slot].as_mut().filter(|c| c.can_take());
            let Some(client) = client.filter(|_| bytes < TAKEN_BYTES) else {
                return Ok(());
            };
            let Some(len) = self.broker.take(slot, &mut self.take_room)? else {
                client.queued = false;
                client.drained = client.leaving.is_some();
                return Ok(());
            };
            bytes += len;
            let message = &self.take_room[..len];
            if !client.gone {
                client.output.push(message, client.kind == Kind::Packets);
                self.counters.messages_out += 1;
            }
            if client.output.is_full() {
                self.counters.bytes_out += client.write(now) as u64;
            }
            if is_error(client.kind, message) && self.is_shut(slot)? {
                self.note_overflow(slot, now);
            }
            self.look(slot, now);
        }
        Ok(())
    }

    /// Before a message is fed that may owe others so many bytes each: whether their queues have
    /// room for that, or their sockets take no more. If not, some messages are taken for one of
    /// them, at its own cost. So a client that reads is never shut because the server did not take
    /// for it in time, and nobody waits for all of it at once.
    pub(super) fn makes_room(
        &mut self,
        slot: usize,
        owed: usize,
        now: Instant,
    ) -> Result<bool, Failure> {
        for other in (0..self.clients.len()).filter(|&other| other != slot) {
            if !self.has_room(other, owed, now) {
                let begin = sys::thread_time();
                self.take_some(other, now)?;
                let spent = sys::thread_time() - begin;
                self.charge(other, spent);
                self.paid += spent;
                return Ok(false);
            }
        }
        Ok(true)
    }

    /// Whether a client's queue has room for so many bytes, or nothing can be taken from it now, or
    /// nothing more is owed to it.
    fn has_room(&mut self, slot: usize, owed: usize, now: Instant) -> bool {
        self.look(slot, now);
        let owes = |client: &&Client| client.can_take() && client.leaving.is_none();
        if self.clients[slot].as_ref().filter(owes).is_none() {
            return true;
        }
        let memory = self.broker.memory();
        let queued = self.view.and_then(|view| view.queued(memory, slot));
        let room = self.broker.sizes().queue() - ERROR_ROOM;
        queued.is_some_and(|queued| queued + owed <= room)
    }

    /// Notes that a client is shut. Unless a refused message is why, its queue overflowed.
    pub(super) fn note_overflow(&mut self, slot: usize, now: Instant) {
        if let Some(client) = self.clients[slot].as_mut().filter(|c| c.leaving.is_none()) {
            self.counters.overflows += 1;
            self.log
                .client(format_args!("shut slot={slot} 102 its queue overflowed"));
            client.leave(Reason::Overflow, now);
        }
    }

    /// Writes what the sockets take of all output.
    pub(super) fn write_all(&mut self, now: Instant) {
        for slot in 0..self.clients.len() {
            let waits = |c: &&mut Client| !c.output.is_empty() && !c.output.is_stuck();
            if let Some(client) = self.clients[slot].as_mut().filter(waits) {
                let begin = sys::thread_time();
                self.counters.bytes_out += client.write(now) as u64;
                self.charge(slot, sys::thread_time() - begin);
            }
        }
    }
}

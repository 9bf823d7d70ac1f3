//! From a client's bytes to the library.

use super::{Failure, Server};
use crate::client::Reason;
use crate::command::{first_length, hello_text, Command};
use crate::help;
use crate::options::Access;
use crate::shown;
use infod3::{Error, Feed, Refusal};
use std::time::Instant;

impl Server {
    /// Feeds a client's first message, which is whole or too long.
    pub(super) fn feed(&mut self, slot: usize, now: Instant) -> Result<(), Failure> {
        let Some(client) = &mut self.clients[slot] else {
            return Ok(());
        };
        if client.is_too_long() {
            let limit = client.limits.message;
            self.refuse_long(slot, "message", limit, now);
            return Ok(());
        }
        let Some(len) = client.input.whole(client.kind) else {
            return Ok(());
        };
        if client.passes_over(len, self.changes) {
            self.counters.skipped += u64::from(client.gone);
            return Ok(());
        }
        client.has_spoken = true;
        let command = Command::of(client.kind, client.input.front(len));
        if command == Command::Help {
            return self.help(slot, len);
        }
        if let Some((what, limit)) = self.excess(slot, command, len) {
            self.refuse_long(slot, what, limit, now);
            return Ok(());
        }
        match (
            command,
            self.clients[slot].as_ref().map(|client| client.access),
        ) {
            (Command::Write, Some(Access::ReadOnly)) => {
                self.refuse_write(slot, now);
                Ok(())
            }
            _ => self.feed_message(slot, command, len, now),
        }
    }

    /// Feeds the library a client's first message, if there is room for what it owes others.
    fn feed_message(
        &mut self,
        slot: usize,
        command: Command,
        len: usize,
        now: Instant,
    ) -> Result<(), Failure> {
        let owed = self.clients[slot]
            .as_mut()
            .map_or(0, |client| client.may_owe(command, len));
        if owed > 0 && !self.makes_room(slot, owed, now)? {
            return Ok(());
        }
        let Some(client) = &mut self.clients[slot] else {
            return Ok(());
        };
        let fed = self.broker.feed(slot, client.input.front(len));
        match fed {
            Ok(Feed::Done(n)) if n == len => {
                self.counters.messages_in += 1;
                let changed = client.note_accepted(command, len, self.changes);
                self.changes += u64::from(changed);
                if command == Command::Hello {
                    let text = shown::quoted(&hello_text(client.kind, client.input.front(len)));
                    self.log.client(format_args!("hello slot={slot} {text}"));
                }
            }
            Ok(Feed::Refused(refusal, n)) if n == len => {
                self.counters.messages_in += 1;
                self.note_refused(slot, command, refusal, len, now)?;
            }
            // Its queue overflowed by what another client sent, or by its own last message.
            Err(Error::Shut) => self.note_overflow(slot, now),
            Ok(_) => return Err(Failure::Library(Error::Unexpected(1))),
            Err(error) => return Err(error.into()),
        }
        if let Some(client) = &mut self.clients[slot] {
            client.remove(len);
        }
        self.expect_messages();
        self.look(slot, now);
        Ok(())
    }

    /// Notes that a client's first message was refused. A text client goes on after a typing error;
    /// any other is shut, and leaves.
    fn note_refused(
        &mut self,
        slot: usize,
        command: Command,
        refusal: Refusal,
        len: usize,
        now: Instant,
    ) -> Result<(), Failure> {
        let shut = self.is_shut(slot)?;
        let Some(client) = &mut self.clients[slot] else {
            return Ok(());
        };
        self.counters.refused(refusal);
        let number = refusal.number();
        if shut {
            client.leave(Reason::Refused(refusal), now);
            self.log
                .client(format_args!("refused slot={slot} {number} {refusal}"));
            return Ok(());
        }
        self.counters.slips += 1;
        client.note_slip(command, refusal, len, self.changes);
        if client.is_slip_told(now) {
            let slips = client.slips;
            self.log.client(format_args!(
                "slip slot={slot} {number} {refusal} slips={slips}"
            ));
        }
        Ok(())
    }

    /// Answers HELP; all that was queued before it is taken. The library gets a blank line in its
    /// place, so that the client's kind is fixed as by any first message.
    fn help(&mut self, slot: usize, len: usize) -> Result<(), Failure> {
        let Some(client) = &mut self.clients[slot] else {
            return Ok(());
        };
        let fed = self.broker.feed(slot, b"\n");
        client.note_accepted(Command::Help, len, self.changes);
        client.remove(len);
        match fed {
            Ok(Feed::Done(1)) => {}
            Ok(other) => return Err(Failure::Library(Error::Unexpected(other.number()))),
            // Another's message has shut it meanwhile, and that is found where it is looked at.
            Err(Error::Shut) => return Ok(()),
            Err(error) => return Err(error.into()),
        }
        let listener = &self.listeners[self.origins[slot]].options;
        client.say(&help::page(listener.hang_up));
        self.counters.help += 1;
        self.log.client(format_args!("help slot={slot}"));
        Ok(())
    }

    /// Closes a client that sent WRITE to a read-only listener, behind the answers to all that it
    /// sent before. No ERROR comes, since the library saw nothing.
    fn refuse_write(&mut self, slot: usize, now: Instant) {
        if let Some(client) = &mut self.clients[slot] {
            self.counters.read_only += 1;
            self.log
                .client(format_args!("read-only slot={slot} WRITE refused"));
            client.turn_away(help::READ_ONLY, Reason::ReadOnly, now);
        }
    }

    /// What of a message is longer than its listener takes, and the limit.
    fn excess(&self, slot: usize, command: Command, len: usize) -> Option<(&'static str, usize)> {
        let client = self.clients[slot].as_ref()?;
        let limits = client.limits;
        let (what, limit) = match command {
            Command::Read | Command::Write => ("key", limits.key),
            Command::Sub | Command::Unsub => ("pattern", limits.pattern),
            _ => ("", usize::MAX),
        };
        let length = || first_length(client.kind, client.input.front(len));
        if limit < usize::MAX && length() > limit {
            return Some((what, limit));
        }
        let recorded = client
            .recorded
            .as_ref()
            .filter(|_| command != Command::Commit);
        let full = recorded.is_some_and(|recorded| recorded.commands >= limits.transaction);
        full.then_some(("transaction", limits.transaction))
    }

    /// Closes a client that sends more than its listener takes.
    fn refuse_long(&mut self, slot: usize, what: &str, limit: usize, now: Instant) {
        if let Some(client) = &mut self.clients[slot] {
            self.counters.too_long += 1;
            let unit = help::unit(what);
            self.log.client(format_args!(
                "too-long slot={slot} a {what} of over {limit} {unit}"
            ));
            client.turn_away(&help::too_long(what, limit), Reason::TooLong, now);
        }
    }
}

//! Watching keys for as long as anybody likes, over as many connections as that takes.

use crate::options::Options;
use crate::output::{say, Output};
use crate::show::{self, Form};
use crate::End;
use infod3_cli::{written, Command, Connection, Message, Trouble};
use std::collections::BTreeSet;
use std::os::fd::AsFd;
use std::time::{Duration, Instant};

/// The first pause before another connection is tried; each further one is twice as long.
const FIRST_PAUSE: Duration = Duration::from_millis(100);
/// The longest pause.
const LONGEST_PAUSE: Duration = Duration::from_secs(5);
/// How long a connection has to live for the next pause to be the first again.
const LIVED: Duration = Duration::from_secs(5);
/// How long the server may be silent until it is asked for an answer, unless it is said.
const KEEPALIVE: Duration = Duration::from_secs(20);
/// How often in a row a reader that was too slow tries again before it has had all keys once.
const SLOW_TRIES: u32 = 5;
/// The identifier of the PING behind the subscriptions.
const SUBSCRIBED: &[u8] = b"subscribed";

/// What is known of the keys over all connections.
pub struct Watch<'a> {
    options: &'a Options,
    /// The SUB of each pattern and the PING behind them, as they are sent.
    subscription: Vec<u8>,
    output: &'a mut Output,
    form: Form,
    /// Lines to print until the end.
    left: Option<u64>,
    /// The keys whose last line shows a value.
    present: BTreeSet<Vec<u8>>,
    /// All keys of a new subscription were received at least once.
    settled: bool,
    /// A key was received over the last connection.
    informed: bool,
    /// Connections in a row that were too slow to receive all keys.
    slow: u32,
    /// Since when there is no connection, and the last pause.
    outage: Option<Instant>,
    pause: Duration,
}

impl<'a> Watch<'a> {
    /// Watches the keys that match the patterns. A wrong pattern is found before any connection.
    pub fn new(
        options: &'a Options,
        patterns: &[Vec<u8>],
        output: &'a mut Output,
    ) -> Result<Watch<'a>, Trouble> {
        let mut commands: Vec<Command> = patterns.iter().map(|p| Command::Sub(p)).collect();
        commands.push(Command::Ping(SUBSCRIBED));
        Ok(Watch {
            options,
            subscription: written(options.command_wire(), &commands)?,
            output,
            form: options.form.unwrap_or(Form::Fields),
            left: options.count,
            present: BTreeSet::new(),
            settled: false,
            informed: false,
            slow: 0,
            outage: None,
            pause: Duration::ZERO,
        })
    }

    /// Prints lines until there are as many as were asked for, or until it cannot go on.
    pub fn run(mut self) -> Result<End, End> {
        loop {
            let begin = Instant::now();
            match self.connection() {
                Err(End::Trouble(trouble)) if self.goes_on_after(&trouble) => {
                    if begin.elapsed() >= LIVED && self.outage.is_none() {
                        self.pause = Duration::ZERO;
                    }
                    self.rest(&trouble)?;
                }
                end => return end,
            }
        }
    }

    /// Whether another connection may help. What a server refuses at the first time it refuses
    /// again; but one that was content before has only lost a slow reader.
    fn goes_on_after(&mut self, trouble: &Trouble) -> bool {
        !self.options.once
            && match trouble {
                Trouble::Connect(_) | Trouble::Lost(_) | Trouble::Late => true,
                Trouble::Error(102, _) => self.settled || self.was_slow(),
                Trouble::Refused(_) => self.settled,
                _ => false,
            }
    }

    /// Whether the reader was too slow before it had all keys. A subscription gives all its keys
    /// or is refused, so that a key shows that it was not; of several patterns another may be
    /// refused, for which it does not try for ever.
    fn was_slow(&mut self) -> bool {
        self.slow += 1;
        self.informed && self.slow <= SLOW_TRIES
    }

    /// Says once that there is no connection, and pauses.
    fn rest(&mut self, trouble: &Trouble) -> Result<(), End> {
        if self.outage.is_none() {
            say(format_args!("{trouble}; trying again"));
            self.outage = Some(Instant::now());
        }
        self.pause = (self.pause * 2).clamp(FIRST_PAUSE, LONGEST_PAUSE);
        self.output.wait_for(None, self.pause)
    }

    /// Says that there is a connection again, once the server has said something.
    fn connected(&mut self) {
        if let Some(begin) = self.outage.take() {
            let again = if self.settled { " again" } else { "" };
            let seconds = begin.elapsed().as_secs_f64();
            say(format_args!("connected{again} after {seconds:.1} s"));
        }
    }

    /// Subscribes over one connection and prints what comes. The PONG of the PING behind the
    /// subscriptions comes when all matching keys have: those which are missing by then were
    /// deleted before.
    fn connection(&mut self) -> Result<End, End> {
        self.informed = false;
        let mut connection = crate::connect(self.options, self.options.command_wire())?;
        connection.send_bytes(&self.subscription)?;
        let mut missing = Some(self.present.clone());
        while self.left != Some(0) {
            let message = self.receive(&mut connection, missing.is_some())?;
            self.connected();
            match message {
                Message::Info { key, value } => {
                    self.informed = true;
                    if let Some(missing) = &mut missing {
                        missing.remove(&key);
                    }
                    self.show(&key, value.as_deref())?;
                }
                Message::Pong(id) if id == SUBSCRIBED => {
                    self.settled = true;
                    self.show_deleted(missing.take().unwrap_or_default())?;
                }
                _ => {}
            }
        }
        Ok(End::Done)
    }

    /// The next message. A server that is silent for long is asked for an answer, so that a dead
    /// one is found out.
    fn receive(&self, connection: &mut Connection, answer_is_due: bool) -> Result<Message, End> {
        let timeout = self.options.timeout;
        if answer_is_due {
            return self.receive_within(connection, timeout);
        }
        let keepalive = self.options.keepalive.unwrap_or(KEEPALIVE);
        match self.receive_within(connection, keepalive) {
            Err(End::Trouble(Trouble::Late)) => {
                let wire = self.options.command_wire();
                let ping = written(wire, &[Command::Ping(b"alive")])?;
                // Where the server has closed, what it sent before is still to be received.
                let _ = connection.send_some(&ping);
                self.receive_within(connection, timeout)
            }
            received => received,
        }
    }

    /// The next message; ends too when nobody can read the output any more.
    fn receive_within(
        &self,
        connection: &mut Connection,
        timeout: Duration,
    ) -> Result<Message, End> {
        let begin = Instant::now();
        loop {
            match connection.receive(Some(Duration::ZERO)) {
                Err(Trouble::Late) => {}
                received => return Ok(received?),
            }
            let left = timeout.saturating_sub(begin.elapsed());
            if left.is_zero() {
                return Err(Trouble::Late.into());
            }
            self.output.wait_for(Some(connection.as_fd()), left)?;
        }
    }

    fn show(&mut self, key: &[u8], value: Option<&[u8]>) -> Result<(), End> {
        if self.left == Some(0) {
            return Ok(());
        }
        self.output.write(&show::info(self.form, key, value))?;
        self.left = self.left.map(|n| n - 1);
        match value {
            Some(_) => self.present.insert(key.to_vec()),
            None => self.present.remove(key),
        };
        Ok(())
    }

    fn show_deleted(&mut self, keys: BTreeSet<Vec<u8>>) -> Result<(), End> {
        keys.iter().try_for_each(|key| self.show(key, None))
    }
}

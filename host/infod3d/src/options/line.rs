//! The arguments, one behind the other.

use super::listeners::{listener, Said};
use super::{values, Access, ListenerOptions, Options, Request};
use crate::folder;
use crate::listener::Place;
use infod3::Sizes;
use std::ffi::{OsStr, OsString};
use std::net::SocketAddr;
use std::os::unix::ffi::OsStrExt;

/// Reads the arguments, without the program's name. The error is one line.
pub fn parse(arguments: impl IntoIterator<Item = OsString>) -> Result<Request, String> {
    let mut line = Line::new(arguments.into_iter());
    let mut found = Found::default();
    while line.next() {
        match line.name.as_str() {
            "--help" | "-h" => return line.alone(Request::Help),
            "--version" | "-V" => return line.alone(Request::Version),
            "--man" => return line.alone(Request::Man),
            _ => {}
        }
        let known = found.listening(&mut line)? || found.other(&mut line)?;
        if !known {
            return Err(format!("unknown option {}; --help shows all", line.name));
        }
    }
    found
        .options()
        .map(|options| Request::Serve(Box::new(options)))
}

/// The arguments and where the reading is.
struct Line<I> {
    arguments: I,
    /// The option that is read.
    name: String,
    /// What stands behind `=` in the same argument.
    attached: Option<OsString>,
}

impl<I: Iterator<Item = OsString>> Line<I> {
    fn new(arguments: I) -> Line<I> {
        Line {
            arguments,
            name: String::new(),
            attached: None,
        }
    }

    /// Goes to the next option; false at the end.
    fn next(&mut self) -> bool {
        let Some(argument) = self.arguments.next() else {
            return false;
        };
        let bytes = argument.as_bytes();
        let equals = bytes.iter().position(|&byte| byte == b'=');
        let (name, value) = match equals.filter(|_| bytes.starts_with(b"--")) {
            Some(at) => (&bytes[..at], Some(OsStr::from_bytes(&bytes[at + 1..]))),
            None => (bytes, None),
        };
        self.name = OsStr::from_bytes(name).to_string_lossy().into_owned();
        self.attached = value.map(OsStr::to_owned);
        true
    }

    /// The option's value.
    fn value(&mut self) -> Result<OsString, String> {
        let value = self.attached.take().or_else(|| self.arguments.next());
        value.ok_or_else(|| format!("{} wants a value behind it", self.name))
    }

    /// The option's value as text.
    fn text(&mut self) -> Result<String, String> {
        let value = self.value()?;
        values::text(&self.name, value)
    }

    fn number(&mut self) -> Result<usize, String> {
        let text = self.text()?;
        values::number(&self.name, &text)
    }

    fn limit(&mut self) -> Result<usize, String> {
        let text = self.text()?;
        values::limit(&self.name, &text)
    }

    /// Gives `meaning` for an option that has no value.
    fn alone<T>(&self, meaning: T) -> Result<T, String> {
        match &self.attached {
            None => Ok(meaning),
            Some(_) => Err(format!("{} takes no value", self.name)),
        }
    }
}

/// What is read so far.
#[derive(Default)]
struct Found {
    options: Options,
    listeners: Vec<(Place, Said)>,
    /// What holds for TCP, Unix stream and Unix seqpacket listeners.
    sorts: [Said; 3],
    /// Slots, store, queue and record.
    sizes: [Option<usize>; 4],
    remote: bool,
}

impl Found {
    /// Reads an option about listeners; false if it is none.
    fn listening<I: Iterator<Item = OsString>>(
        &mut self,
        line: &mut Line<I>,
    ) -> Result<bool, String> {
        let [tcp, unix, packets] = &mut self.sorts;
        match line.name.as_str() {
            "--tcp" | "--unix" | "--seqpacket" => {
                let value = line.value()?;
                self.listeners.push(listener(&line.name, value)?);
            }
            "--allow-remote" => self.remote = line.alone(true)?,
            "--read-only-tcp" => tcp.access = line.alone(Some(Access::ReadOnly))?,
            "--read-only-unix" => unix.access = line.alone(Some(Access::ReadOnly))?,
            "--read-only-seqpacket" => packets.access = line.alone(Some(Access::ReadOnly))?,
            "--reserve-tcp" => tcp.reserve = Some(line.number()?),
            "--reserve-unix" => unix.reserve = Some(line.number()?),
            "--reserve-seqpacket" => packets.reserve = Some(line.number()?),
            "--unix-mode" => {
                let mode = values::mode("--unix-mode", &line.text()?)?;
                (unix.mode, packets.mode) = (Some(mode), Some(mode));
            }
            "--unix-owner" => {
                let owner = values::owner(&line.text()?)?;
                (unix.owner, packets.owner) = (Some(owner), Some(owner));
            }
            "--longest-key" => {
                let limit = Some(line.limit()?);
                self.sorts.iter_mut().for_each(|sort| sort.key = limit);
            }
            "--longest-pattern" => {
                let limit = Some(line.limit()?);
                self.sorts.iter_mut().for_each(|sort| sort.pattern = limit);
            }
            "--longest-transaction" => {
                let limit = Some(line.limit()?);
                self.sorts
                    .iter_mut()
                    .for_each(|sort| sort.transaction = limit);
            }
            "--longest-message" => {
                let limit = Some(line.limit()?);
                self.sorts.iter_mut().for_each(|sort| sort.message = limit);
            }
            _ => return Ok(false),
        }
        Ok(true)
    }

    /// Reads any other option; false if there is none of that name.
    fn other<I: Iterator<Item = OsString>>(&mut self, line: &mut Line<I>) -> Result<bool, String> {
        match line.name.as_str() {
            "--slots" => self.sizes[0] = Some(line.number()?),
            "--store" => self.sizes[1] = Some(line.number()?),
            "--queue" => self.sizes[2] = Some(line.number()?),
            "--record" => self.sizes[3] = Some(line.number()?),
            "--first-message" => {
                let limit = values::seconds("--first-message", 0, &line.text()?)?;
                self.options.first_message = Some(limit).filter(|limit| !limit.is_zero());
            }
            "--quiet" => self.options.quiet = line.alone(true)?,
            "--stats" => {
                let period = values::seconds("--stats", 1, &line.text()?)?;
                self.options.stats = Some(period);
                self.options.metrics_period = period;
            }
            "--metrics" => match line.value()? {
                path if path.is_empty() => return Err("--metrics wants a path".to_owned()),
                path => self.options.metrics = Some(path.into()),
            },
            _ => return Ok(false),
        }
        Ok(true)
    }

    /// The options, if all fits together.
    fn options(mut self) -> Result<Options, String> {
        self.options.sizes = sizes(self.sizes)?;
        if self.listeners.is_empty() {
            self.listen_by_default();
        }
        let listeners = self.listeners.into_iter().map(|(place, said)| {
            let sort = match &place {
                Place::Tcp(_) => &self.sorts[0],
                Place::Unix(_) => &self.sorts[1],
                Place::Packets(_) => &self.sorts[2],
            };
            said.complete(place, sort)
        });
        self.options.listeners = listeners.collect();
        check_loopback(&self.options.listeners, self.remote)?;
        check_reserved(&self.options)?;
        Ok(self.options)
    }

    fn listen_by_default(&mut self) {
        let loopback = Place::Tcp(SocketAddr::from(([127, 0, 0, 1], 7070)));
        let default = folder::default();
        let unix = Place::Unix(default.path.join("infod3.sock"));
        let places = [loopback, unix];
        self.listeners = places.map(|place| (place, Said::default())).into();
        self.options.private_folder = default.to_make.then_some(default.path);
    }
}

fn sizes(given: [Option<usize>; 4]) -> Result<Sizes, String> {
    let largest = Sizes::LARGEST;
    let [slots, store, queue, record] = given;
    Sizes::new(
        slots.unwrap_or(largest.slots()),
        store.unwrap_or(largest.store()),
        queue.unwrap_or(largest.queue()),
        record.unwrap_or(largest.recording()),
    )
    .map_err(|error| error.to_string())
}

fn check_loopback(listeners: &[ListenerOptions], remote: bool) -> Result<(), String> {
    match listeners.iter().find(|l| !remote && l.place.is_remote()) {
        Some(ListenerOptions {
            place: Place::Tcp(other),
            ..
        }) => Err(format!("{other} is not loopback; --allow-remote allows it")),
        _ => Ok(()),
    }
}

fn check_reserved(options: &Options) -> Result<(), String> {
    let reserves = options.listeners.iter().map(|listener| listener.reserve);
    let sum = reserves.fold(0, usize::saturating_add);
    match options.sizes.slots() {
        slots if sum > slots => Err(format!(
            "the listeners reserve {sum} slots and there are {slots}"
        )),
        _ => Ok(()),
    }
}

#[cfg(test)]
mod tests;

//! The listeners of the options: a place, words behind commas, and what holds for a whole sort.

use super::values::{self, Owner};
use super::{Access, Limits, ListenerOptions, UnixRights};
use crate::listener::Place;
use std::ffi::{OsStr, OsString};
use std::os::unix::ffi::{OsStrExt, OsStringExt};
use std::path::Path;

/// What may be said of a listener, of one by its words or of all of a sort.
#[derive(Clone, Debug, Default, PartialEq, Eq)]
pub struct Said {
    /// What its clients may do.
    pub access: Option<Access>,
    /// That every refusal shuts its clients.
    pub hang_up: Option<()>,
    /// The mode of the socket's file.
    pub mode: Option<u32>,
    /// The owner of the socket's file.
    pub owner: Option<Owner>,
    /// Slots that are kept free for its clients.
    pub reserve: Option<usize>,
    /// The longest key.
    pub key: Option<usize>,
    /// The longest message.
    pub message: Option<usize>,
    /// The longest pattern.
    pub pattern: Option<usize>,
    /// The most commands in a transaction.
    pub transaction: Option<usize>,
}

impl Said {
    /// The options of a listener that has said this itself, with `sort` for what it left open.
    pub fn complete(self, place: Place, sort: &Said) -> ListenerOptions {
        let plain = UnixRights::default();
        let (uid, gid) = self.owner.or(sort.owner).unwrap_or((plain.uid, plain.gid));
        let limit = |own: Option<usize>, sort: Option<usize>| own.or(sort).unwrap_or(usize::MAX);
        ListenerOptions {
            place,
            access: self.access.or(sort.access).unwrap_or(Access::Full),
            hang_up: self.hang_up.is_some(),
            rights: UnixRights {
                mode: self.mode.or(sort.mode).unwrap_or(plain.mode),
                uid,
                gid,
            },
            reserve: self.reserve.or(sort.reserve).unwrap_or(0),
            limits: Limits {
                key: limit(self.key, sort.key),
                message: limit(self.message, sort.message),
                pattern: limit(self.pattern, sort.pattern),
                transaction: limit(self.transaction, sort.transaction),
            },
        }
    }

    /// Takes one word behind a comma. What is said twice is an error, since one of the two would
    /// not hold.
    fn word(&mut self, option: &str, word: OsString) -> Result<(), String> {
        let word = values::text(option, word)?;
        let (name, value) = match word.split_once('=') {
            Some((name, value)) => (name, Some(value)),
            None => (word.as_str(), None),
        };
        let full = format!("{option} ..,{name}");
        let new = match (name, value) {
            ("read-only", None) => once(&mut self.access, Access::ReadOnly),
            ("read-write", None) => once(&mut self.access, Access::Full),
            ("hang-up", None) => once(&mut self.hang_up, ()),
            ("mode", Some(text)) => once(&mut self.mode, values::mode(&full, text)?),
            ("owner", Some(text)) => once(&mut self.owner, values::owner(text)?),
            ("reserve", Some(text)) => once(&mut self.reserve, values::number(&full, text)?),
            ("longest-key", Some(text)) => once(&mut self.key, values::limit(&full, text)?),
            ("longest-message", Some(text)) => once(&mut self.message, values::limit(&full, text)?),
            ("longest-pattern", Some(text)) => once(&mut self.pattern, values::limit(&full, text)?),
            ("longest-transaction", Some(text)) => {
                once(&mut self.transaction, values::limit(&full, text)?)
            }
            _ => return Err(unknown(option, &word)),
        };
        new.then_some(())
            .ok_or_else(|| format!("{option}: {word} stands behind another word for the same"))
    }
}

/// Sets what is not said yet; false where it is.
fn once<T>(said: &mut Option<T>, value: T) -> bool {
    said.replace(value).is_none()
}

fn unknown(option: &str, word: &str) -> String {
    let own = match option {
        "--tcp" => "hang-up, ",
        "--unix" => "hang-up, mode=, owner=, ",
        _ => "mode=, owner=, ",
    };
    format!(
        "{option}: {word:?} is none of the words read-only, read-write, {own}reserve= and \
         longest-key=, -message=, -pattern= and -transaction=; a comma in a path is written ,,"
    )
}

/// A listener as `option` names it: its place, and what it says itself.
pub fn listener(option: &str, value: OsString) -> Result<(Place, Said), String> {
    let mut words = split(&value).into_iter();
    let place = words.next().unwrap_or_default();
    if place.is_empty() {
        return Err(format!("{option} wants a place to listen at"));
    }
    let mut said = Said::default();
    for word in words {
        said.word(option, word)?;
    }
    let place = match option {
        "--tcp" => Place::Tcp(values::address(&values::text(option, place)?)?),
        "--unix" => Place::Unix(place.into()),
        _ => Place::Packets(place.into()),
    };
    check(&place, &said)?;
    Ok((place, said))
}

/// That all of it can be said of a listener there.
fn check(place: &Place, said: &Said) -> Result<(), String> {
    let has_file = said.mode.is_some() || said.owner.is_some();
    match place {
        Place::Tcp(_) if has_file => {
            Err("--tcp: a port has no file, so no mode= and no owner=".to_owned())
        }
        Place::Packets(_) if said.hang_up.is_some() => Err(
            "--seqpacket: hang-up is for text lines; with packets every refusal closes the client"
                .to_owned(),
        ),
        _ => Ok(()),
    }
}

/// The parts between single commas; two commas are one within a part.
fn split(value: &OsStr) -> Vec<OsString> {
    let mut parts = vec![Vec::new()];
    let mut bytes = value.as_bytes().iter().copied().peekable();
    while let Some(byte) = bytes.next() {
        match (byte, parts.last_mut()) {
            (b',', _) if bytes.next_if_eq(&b',').is_none() => parts.push(Vec::new()),
            (_, Some(part)) => part.push(byte),
            (_, None) => {}
        }
    }
    parts.into_iter().map(OsString::from_vec).collect()
}

/// A path as it stands behind `--unix` and `--seqpacket`: each comma twice.
pub fn escaped(path: &Path) -> OsString {
    let bytes = path.as_os_str().as_bytes().iter();
    let twice = bytes.flat_map(|&byte| std::iter::repeat_n(byte, 1 + usize::from(byte == b',')));
    OsString::from_vec(twice.collect())
}

#[cfg(test)]
mod tests {
    use super::*;

    #[test]
    fn two_commas_are_one_of_the_path() {
        let parts = |text: &str| split(OsStr::new(text));
        assert_eq!(parts("a"), ["a"]);
        assert_eq!(parts("a,b,c=d"), ["a", "b", "c=d"]);
        assert_eq!(parts("a,,b"), ["a,b"]);
        assert_eq!(parts(",,,b"), [",", "b"]);
        assert_eq!(parts("a,,,,b,"), ["a,,b", ""]);
        for path in ["a,b", ",", "a,,b,", "plain"] {
            assert_eq!(split(&escaped(Path::new(path))), [path]);
        }
        let bytes = OsString::from_vec(b"/x\xFF,,y,read-only".to_vec());
        let (place, said) = listener("--unix", bytes).unwrap();
        let path = OsString::from_vec(b"/x\xFF,y".to_vec());
        assert_eq!(place, Place::Unix(path.into()));
        assert_eq!(said.access, Some(Access::ReadOnly));
    }
}

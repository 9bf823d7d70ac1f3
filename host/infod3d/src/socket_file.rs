//! The file of a Unix socket: it comes under its name only when all is right with it.
//!
//! The socket is made in a folder beside its place that nobody else can enter. There it gets its
//! mode and its owner and listens; then it is moved to its name, if that is free. So nobody
//! connects before mode and owner are right, nothing that somebody puts at the name is altered,
//! and two servers that start at once do not take each other for dead.

use crate::options::UnixRights;
use crate::sys::{self, Folder};
use std::ffi::{OsStr, OsString};
use std::fs::{File, Metadata};
use std::io;
use std::os::unix::ffi::OsStrExt;
use std::os::unix::fs::{FileTypeExt, MetadataExt};
use std::path::{Path, PathBuf};
use std::sync::atomic::{AtomicU32, Ordering};
use std::time::{Duration, Instant};

/// Device and number of a file, by which it is known again.
pub type FileNumber = (u64, u64);

/// How often the name is tried for, while others come and go there.
const ATTEMPTS: usize = 8;
/// How long a lock is waited for.
const LOCKING: Duration = Duration::from_secs(1);
/// The longest path that the address of a Unix socket holds.
const LONGEST_PATH: usize = 107;

/// Makes a socket that listens at the path. `make` is given another path for it, at which nobody
/// else can reach it. A file that a dead server left is replaced; all else at the path stays and
/// is an error.
pub fn publish<T>(
    path: &Path,
    rights: &UnixRights,
    make: impl FnOnce(&Path) -> io::Result<T>,
) -> io::Result<(T, FileNumber)> {
    let (folder, name) = parts(path)?;
    if judge(path)? == Judgement::InUse {
        return Err(in_use());
    }
    let private = Private::beside(folder, name)?;
    let made = make(&private.reach(name))?;
    let file = private.finish(rights)?;
    for _ in 0..ATTEMPTS {
        match private.folder.move_to(name, &private.parent, name) {
            Err(error) if error.kind() == io::ErrorKind::AlreadyExists => private.clear(path)?,
            other => return other.map(|()| (made, file)),
        }
    }
    Err(in_use())
}

/// Device and number of the file at a path; a link is not followed.
pub fn file_number(path: &Path) -> Option<FileNumber> {
    std::fs::symlink_metadata(path)
        .ok()
        .map(|data| number_of(&data))
}

fn number_of(data: &Metadata) -> FileNumber {
    (data.dev(), data.ino())
}

/// The folder and the name of a path.
fn parts(path: &Path) -> io::Result<(&Path, &OsStr)> {
    let invalid = |text| io::Error::new(io::ErrorKind::InvalidInput, text);
    if path.as_os_str().len() > LONGEST_PATH {
        return Err(invalid("the path of a Unix socket has at most 107 bytes"));
    }
    let ends_as_folder = path.as_os_str().as_bytes().ends_with(b"/");
    let name = path.file_name().filter(|_| !ends_as_folder);
    let name = name.ok_or_else(|| invalid("the path names no file"))?;
    match path.parent() {
        Some(folder) if !folder.as_os_str().is_empty() => Ok((folder, name)),
        _ => Ok((Path::new("."), name)),
    }
}

fn in_use() -> io::Error {
    io::Error::new(io::ErrorKind::AddrInUse, "a server listens there already")
}

#[derive(Clone, Copy, Debug, PartialEq, Eq)]
enum Judgement {
    /// Nothing is there.
    Free,
    /// A socket at which nobody listens.
    Stale,
    /// A socket at which somebody listens.
    InUse,
}

/// What is at a path. Another file than a socket is an error.
fn judge(path: &Path) -> io::Result<Judgement> {
    let other = || {
        io::Error::new(
            io::ErrorKind::AddrInUse,
            "the path is taken by another file",
        )
    };
    match std::fs::symlink_metadata(path) {
        Err(error) if error.kind() == io::ErrorKind::NotFound => Ok(Judgement::Free),
        Err(error) => Err(error),
        Ok(data) if !data.file_type().is_socket() => Err(other()),
        Ok(_) => match sys::somebody_listens(path) {
            Ok(true) => Ok(Judgement::InUse),
            Ok(false) => Ok(Judgement::Stale),
            Err(error) if error.kind() == io::ErrorKind::NotFound => Ok(Judgement::Free),
            Err(error) => Err(error),
        },
    }
}

/// A folder for this user alone in which a socket is made, removed at the end with what is left.
struct Private {
    parent: Folder,
    folder: Folder,
    /// Its name in the parent.
    name: OsString,
    /// Its path.
    path: PathBuf,
    /// The name of the socket, in here and later in the parent.
    socket: OsString,
    /// The name, in here, of what was at the socket's place.
    before: OsString,
}

impl Private {
    /// Makes the folder beside the place of a socket.
    fn beside(parent: &Path, socket: &OsStr) -> io::Result<Private> {
        let (path, parent) = (parent, Folder::open(parent)?);
        let name = make_folder(&parent)?;
        let folder = own_folder(&parent, &name).inspect_err(|_| {
            // It is empty, or not the one that was made.
            let _ = parent.remove_folder(&name);
        })?;
        let mut before = socket.to_owned();
        before.push("~");
        Ok(Private {
            path: path.join(&name),
            parent,
            folder,
            name,
            socket: socket.to_owned(),
            before,
        })
    }

    /// A path to a file in here that is short enough for an address.
    fn reach(&self, name: &OsStr) -> PathBuf {
        let path = self.path.join(name);
        match path.as_os_str().len() {
            0..=LONGEST_PATH => path,
            _ => Path::new("/proc/self/fd")
                .join(self.folder.number().to_string())
                .join(name),
        }
    }

    /// Gives the socket its mode and its owner.
    fn finish(&self, rights: &UnixRights) -> io::Result<FileNumber> {
        self.folder.set_mode(&self.socket, rights.mode)?;
        if rights.uid.is_some() || rights.gid.is_some() {
            let (uid, gid) = (rights.uid, rights.gid);
            self.folder.set_owner(&self.socket, uid, gid)?;
        }
        Ok(number_of(&self.folder.data_of(&self.socket)?))
    }

    /// Removes what a dead server left at the socket's place. One server at a time does so in a
    /// folder: what is found stale then cannot become another server's file before it is removed.
    fn clear(&self, place: &Path) -> io::Result<()> {
        let _lock = lock(parts(place)?.0);
        match judge(place)? {
            Judgement::Free => Ok(()),
            Judgement::InUse => Err(in_use()),
            Judgement::Stale => self.clear_stale(),
        }
    }

    /// Takes what was found stale away from the socket's place, judges it once more in here, where
    /// nobody can exchange it, and removes it. What is in use after all is put back.
    fn clear_stale(&self) -> io::Result<()> {
        match self
            .parent
            .move_to(&self.socket, &self.folder, &self.before)
        {
            Err(error) if error.kind() == io::ErrorKind::NotFound => return Ok(()),
            other => other?,
        }
        let judged = judge(&self.reach(&self.before));
        if matches!(judged, Ok(Judgement::Stale)) {
            return self.folder.remove(&self.before);
        }
        self.folder
            .move_to(&self.before, &self.parent, &self.socket)?;
        judged.and_then(|_| Err(in_use()))
    }
}

impl Drop for Private {
    /// What is not there needs no removing, and a folder that cannot be removed does no harm.
    fn drop(&mut self) {
        for name in [&self.socket, &self.before] {
            let _ = self.folder.remove(name);
        }
        let _ = self.parent.remove_folder(&self.name);
    }
}

/// Locks a folder against other servers, until the lock is dropped. There is none where the folder
/// may not be read or somebody keeps it locked: nobody can keep a server from starting by it.
fn lock(folder: &Path) -> Option<File> {
    let file = File::open(folder).ok()?;
    let until = Instant::now() + LOCKING;
    while file.try_lock().is_err() {
        if Instant::now() >= until {
            return None;
        }
        std::thread::sleep(Duration::from_millis(1));
    }
    Some(file)
}

/// Makes a folder under a name that is free, and gives the name.
fn make_folder(parent: &Folder) -> io::Result<OsString> {
    static COUNT: AtomicU32 = AtomicU32::new(0);
    let mut result = Err(in_use());
    for _ in 0..ATTEMPTS {
        let count = COUNT.fetch_add(1, Ordering::Relaxed);
        let name = OsString::from(format!(".infod3d-{}-{count}", std::process::id()));
        result = parent.make_folder(&name).map(|()| name);
        match &result {
            Err(error) if error.kind() == io::ErrorKind::AlreadyExists => {}
            _ => break,
        }
    }
    result
}

/// The folder that was just made, and not one that somebody put in its place.
fn own_folder(parent: &Folder, name: &OsStr) -> io::Result<Folder> {
    let folder = parent.folder(name)?;
    let data = folder.data()?;
    match data.uid() == sys::user() && data.mode() & 0o077 == 0 {
        true => Ok(folder),
        false => Err(io::Error::new(
            io::ErrorKind::PermissionDenied,
            "somebody else changes the folder of the socket",
        )),
    }
}

#[cfg(test)]
mod tests;

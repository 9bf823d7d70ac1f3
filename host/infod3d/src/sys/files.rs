//! Folders by descriptor, so that no name can be swapped between two calls.

use super::{checked, owned};
use std::ffi::{c_char, c_int, c_uint, CString, OsStr};
use std::fs::{File, Metadata};
use std::io;
use std::os::fd::{AsRawFd, OwnedFd, RawFd};
use std::os::unix::ffi::OsStrExt;
use std::path::Path;

const AT_FDCWD: c_int = -100;
const AT_REMOVEDIR: c_int = 0x200;
const AT_SYMLINK_NOFOLLOW: c_int = 0x100;
const O_CLOEXEC: c_int = 0o2_000_000;
const O_PATH: c_int = 0o10_000_000;
const RENAME_NOREPLACE: c_uint = 1;

/// `O_DIRECTORY` and `O_NOFOLLOW`, which are two of the few that depend on the processor.
#[cfg(not(any(target_arch = "aarch64", target_arch = "arm")))]
const FOLDER_AND_NO_LINK: [c_int; 2] = [0o200_000, 0o400_000];
#[cfg(any(target_arch = "aarch64", target_arch = "arm"))]
const FOLDER_AND_NO_LINK: [c_int; 2] = [0o40_000, 0o100_000];

extern "C" {
    /// `open(2)`; the mode behind the flags is only there for files that are made.
    fn openat(folder: c_int, name: *const c_char, flags: c_int, ...) -> c_int;
    /// `mkdir(2)`
    fn mkdirat(folder: c_int, name: *const c_char, mode: c_uint) -> c_int;
    /// `unlink(2)`
    fn unlinkat(folder: c_int, name: *const c_char, flags: c_int) -> c_int;
    /// `rename(2)`
    fn renameat2(
        folder: c_int,
        name: *const c_char,
        new_folder: c_int,
        new_name: *const c_char,
        flags: c_uint,
    ) -> c_int;
    /// `chmod(2)`
    fn fchmodat(folder: c_int, name: *const c_char, mode: c_uint, flags: c_int) -> c_int;
    /// `chown(2)`; the number -1 leaves user or group as it is.
    fn fchownat(
        folder: c_int,
        name: *const c_char,
        user: c_uint,
        group: c_uint,
        flags: c_int,
    ) -> c_int;
}

/// A folder by its descriptor. Names are those of files in it.
#[derive(Debug)]
pub struct Folder(OwnedFd);

impl Folder {
    /// The folder at a path; a link to one will do.
    pub fn open(path: &Path) -> io::Result<Folder> {
        let [folder, _] = FOLDER_AND_NO_LINK;
        open(AT_FDCWD, path.as_os_str(), folder).map(Folder)
    }

    /// The folder of this name, which is no link.
    pub fn folder(&self, name: &OsStr) -> io::Result<Folder> {
        let [folder, no_link] = FOLDER_AND_NO_LINK;
        open(self.number(), name, folder | no_link).map(Folder)
    }

    /// The descriptor's number.
    pub fn number(&self) -> RawFd {
        self.0.as_raw_fd()
    }

    /// What the system knows of the folder itself.
    pub fn data(&self) -> io::Result<Metadata> {
        File::from(self.0.try_clone()?).metadata()
    }

    /// What the system knows of a file; a link is not followed.
    pub fn data_of(&self, name: &OsStr) -> io::Result<Metadata> {
        let [_, no_link] = FOLDER_AND_NO_LINK;
        File::from(open(self.number(), name, no_link)?).metadata()
    }

    /// Makes a folder for this user alone.
    pub fn make_folder(&self, name: &OsStr) -> io::Result<()> {
        let name = c_string(name)?;
        // SAFETY: the name ends with NUL and lives during the call.
        checked(unsafe { mkdirat(self.number(), name.as_ptr(), 0o700) }).map(|_| ())
    }

    /// Sets the mode of a file, which must be no link.
    pub fn set_mode(&self, name: &OsStr, mode: u32) -> io::Result<()> {
        let name = c_string(name)?;
        // SAFETY: the name ends with NUL and lives during the call.
        checked(unsafe { fchmodat(self.number(), name.as_ptr(), mode, 0) }).map(|_| ())
    }

    /// Sets the owner of a file, as far as it is named.
    pub fn set_owner(&self, name: &OsStr, uid: Option<u32>, gid: Option<u32>) -> io::Result<()> {
        let (name, [uid, gid]) = (c_string(name)?, [uid, gid].map(|id| id.unwrap_or(u32::MAX)));
        let (folder, flags) = (self.number(), AT_SYMLINK_NOFOLLOW);
        // SAFETY: the name ends with NUL and lives during the call.
        checked(unsafe { fchownat(folder, name.as_ptr(), uid, gid, flags) }).map(|_| ())
    }

    /// Moves a file to a name that is free; one that is not is an error, and nothing is moved.
    pub fn move_to(&self, name: &OsStr, folder: &Folder, new_name: &OsStr) -> io::Result<()> {
        let (name, new_name) = (c_string(name)?, c_string(new_name)?);
        let (from, to) = (self.number(), folder.number());
        // SAFETY: both names end with NUL and live during the call.
        let answer =
            unsafe { renameat2(from, name.as_ptr(), to, new_name.as_ptr(), RENAME_NOREPLACE) };
        checked(answer).map(|_| ())
    }

    /// Removes a file.
    pub fn remove(&self, name: &OsStr) -> io::Result<()> {
        self.unlink(name, 0)
    }

    /// Removes a folder, which must be empty.
    pub fn remove_folder(&self, name: &OsStr) -> io::Result<()> {
        self.unlink(name, AT_REMOVEDIR)
    }

    fn unlink(&self, name: &OsStr, flags: c_int) -> io::Result<()> {
        let name = c_string(name)?;
        // SAFETY: the name ends with NUL and lives during the call.
        checked(unsafe { unlinkat(self.number(), name.as_ptr(), flags) }).map(|_| ())
    }
}

/// Opens a file only as a place in the file system.
fn open(folder: RawFd, name: &OsStr, flags: c_int) -> io::Result<OwnedFd> {
    let name = c_string(name)?;
    // SAFETY: the name ends with NUL and lives during the call; no file is made, so no mode
    // stands behind the flags.
    owned(unsafe { openat(folder, name.as_ptr(), O_PATH | O_CLOEXEC | flags) })
}

fn c_string(name: &OsStr) -> io::Result<CString> {
    let wrong = |_| io::Error::new(io::ErrorKind::InvalidInput, "a path holds no NUL");
    CString::new(name.as_bytes()).map_err(wrong)
}

//! The folder of the Unix socket where none is named: one in which nobody else can take the name.

use crate::sys;
use std::ffi::OsString;
use std::io;
use std::os::unix::fs::{DirBuilderExt, MetadataExt};
use std::path::{Path, PathBuf};

/// A folder for the socket.
#[derive(Clone, Debug, PartialEq, Eq)]
pub struct Choice {
    /// Where it is.
    pub path: PathBuf,
    /// It has to be made by [`make_private`] before it is used.
    pub to_make: bool,
}

/// The folder: that of the environment variable XDG_RUNTIME_DIR or else /run/user/UID, if it is
/// this user's own and nobody else may write in it, or else /tmp/infod3-UID.
pub fn default() -> Choice {
    choice(std::env::var_os("XDG_RUNTIME_DIR"), sys::user())
}

fn choice(runtime: Option<OsString>, user: u32) -> Choice {
    let named = runtime.map(PathBuf::from).filter(|path| path.is_absolute());
    let usual = PathBuf::from(format!("/run/user/{user}"));
    let mut known = named.into_iter().chain([usual]);
    match known.find(|path| is_own(path, user)) {
        Some(path) => Choice {
            path,
            to_make: false,
        },
        None => Choice {
            path: PathBuf::from(format!("/tmp/infod3-{user}")),
            to_make: true,
        },
    }
}

/// Whether the path is a folder of this user in which nobody else may write.
fn is_own(path: &Path, user: u32) -> bool {
    let data = std::fs::metadata(path);
    data.is_ok_and(|data| data.is_dir() && data.uid() == user && data.mode() & 0o022 == 0)
}

/// Makes a folder for this user alone. One that is there already has to be just that: no link,
/// this user's own, and of mode 0700.
pub fn make_private(path: &Path) -> io::Result<()> {
    match std::fs::DirBuilder::new().mode(0o700).create(path) {
        Err(error) if error.kind() == io::ErrorKind::AlreadyExists => check_private(path),
        other => other,
    }
}

fn check_private(path: &Path) -> io::Result<()> {
    let data = std::fs::symlink_metadata(path)?;
    let (owner, mode) = (data.uid(), data.mode() & 0o7777);
    let wrong = match () {
        () if data.is_symlink() => "is a link".to_owned(),
        () if !data.is_dir() => "is no folder".to_owned(),
        () if owner != sys::user() => format!("belongs to the user {owner}"),
        () if mode != 0o700 => format!("has the mode {mode:04o} and not 0700"),
        () => return Ok(()),
    };
    let text = format!("{} {wrong}", path.display());
    Err(io::Error::new(io::ErrorKind::PermissionDenied, text))
}

#[cfg(test)]
mod tests {
    use super::*;
    use std::fs::{set_permissions, Permissions};
    use std::os::unix::fs::PermissionsExt;

    fn folder(name: &str) -> PathBuf {
        let name = format!("infod3d-folder-{}-{name}", std::process::id());
        std::env::temp_dir().join(name)
    }

    #[test]
    fn a_folder_that_others_may_write_in_is_not_chosen() {
        let path = folder("choice");
        make_private(&path).unwrap();
        let user = sys::user();
        let chosen = |user| choice(Some(path.clone().into()), user);
        let own = Choice {
            path: path.clone(),
            to_make: false,
        };
        assert_eq!(chosen(user), own);
        set_permissions(&path, Permissions::from_mode(0o755)).unwrap();
        assert_eq!(chosen(user), own);
        for mode in [0o720, 0o702, 0o777] {
            set_permissions(&path, Permissions::from_mode(mode)).unwrap();
            assert_ne!(chosen(user), own);
        }
        set_permissions(&path, Permissions::from_mode(0o700)).unwrap();
        // The number of nobody's account.
        let other = 4_000_000_001;
        let last = Choice {
            path: "/tmp/infod3-4000000001".into(),
            to_make: true,
        };
        assert_eq!(chosen(other), last);
        for unusable in [None, Some("".into()), Some("relative".into())] {
            assert_eq!(choice(unusable, other), last);
        }
        std::fs::remove_dir(&path).unwrap();
    }

    #[test]
    fn a_private_folder_is_made_or_found_and_never_borrowed() {
        let path = folder("private");
        let refusal = || make_private(&path).unwrap_err().to_string();
        let shown = path.display();
        make_private(&path).unwrap();
        assert_eq!(std::fs::metadata(&path).unwrap().mode() & 0o7777, 0o700);
        make_private(&path).unwrap();
        set_permissions(&path, Permissions::from_mode(0o755)).unwrap();
        let expected = format!("{shown} has the mode 0755 and not 0700");
        assert_eq!(refusal(), expected);
        std::fs::remove_dir(&path).unwrap();
        std::os::unix::fs::symlink("/", &path).unwrap();
        assert_eq!(refusal(), format!("{shown} is a link"));
        std::fs::remove_file(&path).unwrap();
        std::fs::write(&path, "").unwrap();
        assert_eq!(refusal(), format!("{shown} is no folder"));
        std::fs::remove_file(&path).unwrap();
    }
}

use super::*;
use std::fs::Permissions;
use std::os::unix::fs::PermissionsExt;
use std::os::unix::net::{UnixListener, UnixStream};

/// A folder of a test's own, removed at its end.
struct TestFolder(PathBuf);

impl TestFolder {
    fn new(name: &str) -> TestFolder {
        let name = format!("infod3d-file-{}-{name}", std::process::id());
        let path = std::env::temp_dir().join(name);
        std::fs::create_dir_all(&path).unwrap();
        TestFolder(path)
    }

    /// The names of all that is there.
    fn names(&self) -> Vec<OsString> {
        let files = std::fs::read_dir(&self.0).unwrap();
        files.map(|file| file.unwrap().file_name()).collect()
    }
}

impl Drop for TestFolder {
    fn drop(&mut self) {
        let _ = std::fs::remove_dir_all(&self.0);
    }
}

fn rights(mode: u32) -> UnixRights {
    UnixRights {
        mode,
        ..UnixRights::default()
    }
}

fn listen(path: &Path) -> io::Result<UnixListener> {
    UnixListener::bind(path)
}

#[test]
fn the_socket_is_made_where_nobody_reaches_it() {
    let folder = TestFolder::new("private");
    let path = folder.0.join("socket");
    // Only root can give a file away.
    let user = match sys::user() {
        0 => 65_534,
        user => user,
    };
    let rights = UnixRights {
        uid: Some(user),
        ..rights(0o606)
    };
    let (_made, file) = publish(&path, &rights, |there| {
        assert!(!path.exists(), "the name is not there yet");
        let data = std::fs::symlink_metadata(there.parent().unwrap()).unwrap();
        assert_eq!((data.mode() & 0o777, data.uid()), (0o700, sys::user()));
        UnixListener::bind(there)
    })
    .unwrap();
    let data = std::fs::symlink_metadata(&path).unwrap();
    assert_eq!((data.mode() & 0o777, data.uid()), (0o606, user));
    assert_eq!(file_number(&path), Some(file));
    assert_eq!(folder.names(), ["socket"]);
}

#[test]
fn what_comes_in_between_is_judged_again() {
    let folder = TestFolder::new("between");
    let path = folder.0.join("socket");
    // A dead server's file, before and in between.
    drop(UnixListener::bind(&path).unwrap());
    let first = publish(&path, &rights(0o600), |there| {
        std::fs::remove_file(&path).unwrap();
        drop(UnixListener::bind(&path).unwrap());
        UnixListener::bind(there)
    });
    drop(first.unwrap());
    // Another server, in between and before.
    let mut other = None;
    std::fs::remove_file(&path).unwrap();
    let second = publish(&path, &rights(0o600), |there| {
        other = Some(UnixListener::bind(&path).unwrap());
        UnixListener::bind(there)
    });
    assert_eq!(second.unwrap_err().to_string(), in_use().to_string());
    UnixStream::connect(&path).expect("the other one is where it was");
    let third = publish(&path, &rights(0o600), listen);
    assert_eq!(third.unwrap_err().to_string(), in_use().to_string());
    // A file that is no socket, in between.
    drop(other);
    std::fs::remove_file(&path).unwrap();
    let fourth = publish(&path, &rights(0o600), |there| {
        std::fs::write(&path, "precious")?;
        UnixListener::bind(there)
    });
    assert!(fourth.unwrap_err().to_string().contains("another file"));
    assert_eq!(std::fs::read(&path).unwrap(), b"precious");
    assert_eq!(folder.names(), ["socket"]);
}

#[test]
fn what_lives_after_all_is_put_back() {
    let folder = TestFolder::new("back");
    let path = folder.0.join("socket");
    let private = Private::beside(&folder.0, OsStr::new("socket")).unwrap();
    let live = UnixListener::bind(&path).unwrap();
    let error = private.clear_stale().unwrap_err();
    assert_eq!(error.to_string(), in_use().to_string());
    UnixStream::connect(&path).expect("it is where it was");
    drop(live);
    private.clear_stale().unwrap();
    assert!(!path.exists());
    drop(private);
    assert!(folder.names().is_empty());
}

#[test]
fn a_folder_that_somebody_exchanges_is_not_used() {
    let folder = TestFolder::new("exchanged");
    let parent = Folder::open(&folder.0).unwrap();
    let name = make_folder(&parent).unwrap();
    assert!(own_folder(&parent, &name).is_ok());
    let path = folder.0.join(&name);
    std::fs::set_permissions(&path, Permissions::from_mode(0o711)).unwrap();
    assert!(own_folder(&parent, &name).is_err(), "others can enter it");
    std::fs::remove_dir(&path).unwrap();
    std::os::unix::fs::symlink("/root", &path).unwrap();
    assert!(own_folder(&parent, &name).is_err(), "it is a link");
}

#[test]
fn the_longest_path_of_an_address_will_do() {
    let folder = TestFolder::new("long");
    let rest = LONGEST_PATH - folder.0.as_os_str().len() - 1;
    let path = folder.0.join("x".repeat(rest));
    let _made = publish(&path, &rights(0o600), listen).unwrap();
    UnixStream::connect(&path).expect("connected");
    let longer = folder.0.join("x".repeat(rest + 1));
    assert!(publish(&longer, &rights(0o600), listen).is_err());
    for name in ["", "..", "new/"] {
        let error = publish(&folder.0.join(name), &rights(0o600), listen).unwrap_err();
        assert_eq!(error.to_string(), "the path names no file");
    }
    assert_eq!(folder.names().len(), 1);
}

#[test]
fn a_lock_that_somebody_keeps_does_not_stop_a_server() {
    let folder = TestFolder::new("locked");
    let path = folder.0.join("socket");
    drop(UnixListener::bind(&path).unwrap());
    let kept = File::open(&folder.0).unwrap();
    kept.lock().unwrap();
    let _made = publish(&path, &rights(0o600), listen).unwrap();
    UnixStream::connect(&path).expect("connected");
}

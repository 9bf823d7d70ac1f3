//! Listeners with rights of their own, slots that are kept for them, and the files of Unix sockets.

mod common;

use common::{start, Client, Folder, Running, PATIENCE};
use infod3::Sizes;
use infod3d::listener::Listener;
use infod3d::options::{Access, ListenerOptions};
use std::os::unix::fs::PermissionsExt;
use std::os::unix::net::{UnixListener, UnixStream};
use std::path::Path;
use std::sync::atomic::{AtomicBool, Ordering};
use std::sync::Barrier;
use std::time::Instant;

fn connect(path: &Path) -> Client {
    let stream = UnixStream::connect(path).expect("connected");
    stream.set_read_timeout(Some(PATIENCE)).expect("a timeout");
    stream.set_write_timeout(Some(PATIENCE)).expect("a timeout");
    Client::new(Box::new(stream))
}

#[test]
fn two_sockets_of_one_sort_have_their_own_access() {
    let folder = Folder::new();
    let path = folder.0.join("read-only");
    let server = start(|options| {
        let mut second = ListenerOptions::unix(&path);
        second.access = Access::ReadOnly;
        second.rights.mode = 0o666;
        options.listeners.push(second);
    });
    let (mut writer, mut reader) = (server.over_unix(), connect(&path));
    writer.send("WRITE k v\n");
    writer.synchronise();
    reader.send("READ k\n");
    assert_eq!(reader.line(), "INFO \"k\" \"v\"");
    reader.send("WRITE k w\n");
    let rest = String::from_utf8(reader.rest()).expect("UTF-8");
    assert!(!rest.contains("INFO"), "closed after {rest:?}");
    writer.send("READ k\n");
    assert_eq!(writer.line(), "INFO \"k\" \"v\"");
    let mode = |path: &Path| {
        let data = std::fs::metadata(path).expect("the file");
        data.permissions().mode() & 0o777
    };
    assert_eq!((mode(&server.unix), mode(&path)), (0o600, 0o666));
    let listen = format!("listen unix {} read-only\n", path.display());
    server.log.wait_for_count(&listen, 1);
    assert_eq!(server.stop().read_only, 1);
}

/// Four slots, of which two are kept for the Unix socket and one for the packets.
fn reserving() -> Running {
    start(|options| {
        options.sizes = Sizes::new(4, 4096, 4096, 256).expect("sizes in range");
        options.listeners[1].reserve = 2;
        options.listeners[2].reserve = 1;
    })
}

const NO_SLOT: &str = "# no free slot: 1 clients are connected, try again later\r\n";

#[test]
fn reserved_slots_are_kept_for_their_listener() {
    let server = reserving();
    let mut first = server.over_tcp();
    first.synchronise();
    // Three slots are free, and all of them are kept for others.
    for _ in 0..3 {
        let mut other = server.over_tcp();
        assert_eq!(other.rest(), NO_SLOT.as_bytes());
    }
    let mut feed = [server.over_unix(), server.over_unix()];
    feed.iter_mut().for_each(Client::synchronise);
    // The last one is kept for the packets, for a third client of the Unix socket too.
    let mut third = server.over_unix();
    assert!(third.rest().starts_with(b"# no free slot: 3 clients"));
    let packets = server.over_packets();
    packets.send(b"\x07x");
    assert_eq!(packets.packet(), b"\x82x");
    server.log.wait_for_count(" reserved=3\n", 3);
    assert_eq!(server.stop().without_slot, 4);
}

#[test]
fn a_reserved_slot_that_is_left_is_kept_again() {
    let server = reserving();
    let mut first = server.over_tcp();
    first.synchronise();
    for round in 1..=3 {
        let mut feed = server.over_unix();
        feed.synchronise();
        feed.stream.end();
        assert_eq!(feed.rest(), b"");
        drop(feed);
        let until = Instant::now() + PATIENCE;
        while server.log.count("ended by the client") < round {
            assert!(Instant::now() < until, "the slot is free");
            std::thread::yield_now();
        }
        let mut other = server.over_tcp();
        assert_eq!(other.rest(), NO_SLOT.as_bytes());
    }
    // A slot that was never reserved serves any listener.
    drop(first);
    server.log.wait_for("close slot=0 tcp");
    server.over_tcp().synchronise();
}

/// Whoever looks at the path at any moment finds nothing or a file of the right mode.
#[test]
fn a_socket_has_its_mode_from_the_first_moment() {
    let folder = Folder::new();
    let path = folder.0.join("socket");
    let mut options = ListenerOptions::unix(&path);
    options.rights.mode = 0o666;
    let done = AtomicBool::new(false);
    std::thread::scope(|scope| {
        let looking = scope.spawn(|| {
            let mut wrong = 0;
            while !done.load(Ordering::Relaxed) {
                let mode = std::fs::metadata(&path).map(|data| data.permissions().mode());
                wrong += u32::from(mode.is_ok_and(|mode| mode & 0o777 != 0o666));
            }
            wrong
        });
        for _ in 0..400 {
            drop(Listener::new(&options).expect("a listener"));
        }
        done.store(true, Ordering::Relaxed);
        assert_eq!(looking.join().expect("a count"), 0);
    });
    let left = std::fs::read_dir(&folder.0).expect("the folder").count();
    assert_eq!(left, 0, "nothing is left in the folder");
}

#[test]
fn of_many_that_start_at_once_one_gets_the_path() {
    let folder = Folder::new();
    let path = folder.0.join("socket");
    let options = ListenerOptions::unix(&path);
    for round in 0..200 {
        drop(UnixListener::bind(&path).expect("the file of a dead server"));
        let together = Barrier::new(6);
        let start = || {
            together.wait();
            Listener::new(&options)
        };
        let made: Vec<_> = std::thread::scope(|scope| {
            let starting: Vec<_> = (0..6).map(|_| scope.spawn(start)).collect();
            let ends = starting.into_iter();
            ends.map(|thread| thread.join().expect("an end")).collect()
        });
        let losers = made.iter().filter_map(|made| made.as_ref().err());
        let errors: Vec<String> = losers.map(ToString::to_string).collect();
        assert_eq!(errors, ["a server listens there already"; 5], "{round}");
        UnixStream::connect(&path).expect("the one that listens");
        drop(made);
        assert!(!path.exists(), "it was the file of the one that listened");
    }
}

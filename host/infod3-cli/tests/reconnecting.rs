//! `watch` over several connections.

mod common;

use common::{await_frame, await_ping, both, done, error, fake, frame, info, path, program};
use common::{server_at, spawn, Lines, ERROR, INFO, PING, PONG, WIRES};
use std::io::{Read, Write};
use std::os::unix::net::UnixStream;
use std::sync::mpsc::channel;
use std::time::{Duration, Instant};

#[test]
fn it_waits_for_the_server() {
    for wire in WIRES {
        let path = path(&format!("waits-{wire}"));
        let mut watch = Lines::of(spawn(
            &path,
            &["--wire", wire, "--count", "1", "watch", "k"],
        ));
        let line = watch.error();
        assert!(line.starts_with("infod3: cannot connect: "), "{line}");
        assert!(line.ends_with("; trying again"), "{line}");
        let server = server_at(&path, infod3::Sizes::LARGEST);
        let line = watch.error();
        assert!(line.starts_with("infod3: connected after "), "{line}");
        assert_eq!(server.run(&["write", "k", "v"], b""), done(""));
        assert_eq!(watch.output(), "k v");
        assert_eq!(watch.status(), 0);
    }
}

/// After the restart the keys are gone, which the lines say; then they change again.
#[test]
fn it_survives_a_restart() {
    for first in both("restart") {
        let path = first.path.clone();
        assert_eq!(first.run(&["write", "a", "1"], b""), done(""));
        assert_eq!(first.run(&["write", "b", "2"], b""), done(""));
        let mut watch = Lines::of(first.spawn(&["--count", "6", "watch", "*"]));
        assert_eq!(watch.output(), "a 1");
        assert_eq!(watch.output(), "b 2");
        assert_eq!(first.run(&["delete", "b"], b""), done(""));
        assert_eq!(watch.output(), "b");
        drop(first);
        let lost = "infod3: connection lost: closed by the server; trying again";
        assert_eq!(watch.error(), lost);
        let second = server_at(&path, infod3::Sizes::LARGEST);
        let line = watch.error();
        assert!(line.starts_with("infod3: connected again after "), "{line}");
        // The key b was deleted already, and is not said to be deleted again.
        assert_eq!(watch.output(), "a");
        assert_eq!(second.run(&["write", "b", "3"], b""), done(""));
        assert_eq!(watch.output(), "b 3");
        assert_eq!(second.run(&["write", "a", "4"], b""), done(""));
        assert_eq!(watch.output(), "a 4");
        assert_eq!(watch.status(), 0);
    }
}

#[test]
fn once_is_one_connection() {
    let (status, _, errors) = common::run(&path("nobody"), &["--once", "watch", "k"], b"");
    assert_eq!(status, 3, "{errors}");
    assert!(!errors.contains("trying again"), "{errors}");
}

/// Subscribes the client and answers it up to the PONG.
fn subscribe(stream: &mut UnixStream, infos: &[&[u8]]) {
    let id = await_frame(stream, PING);
    for info in infos {
        stream.write_all(&frame(INFO, info)).expect("written");
    }
    stream.write_all(&frame(PONG, &id)).expect("written");
}

/// Lost and too slow in text lines as in frames.
#[test]
fn text_lines_are_watched_too() {
    for wire in WIRES {
        let path = fake(&format!("forms-{wire}"), move |number, mut stream| {
            let pong = await_ping(&mut stream, wire);
            let mut said = match number {
                0 => [info(wire, "a", "1"), info(wire, "b", "1"), pong].concat(),
                1 => [info(wire, "b", "2"), pong, error(wire, 102, "no room")].concat(),
                _ => [info(wire, "b", "3"), pong, error(wire, 103, "no")].concat(),
            };
            if number == 0 {
                // The connection is lost inside of a message.
                let next = info(wire, "c", "1");
                said.extend_from_slice(&next[..next.len() - 1]);
            }
            stream.write_all(&said).expect("written");
        });
        let mut watch = Lines::of(spawn(&path, &["--wire", wire, "watch", "*"]));
        for line in ["a 1", "b 1", "b 2", "a", "b 3"] {
            assert_eq!(watch.output(), line);
        }
        let lost = "infod3: connection lost: closed by the server; trying again";
        assert_eq!(watch.error(), lost);
        let again = |line: String| line.starts_with("infod3: connected again after ");
        assert!(again(watch.error()));
        assert_eq!(watch.error(), "infod3: ERROR 102 no room; trying again");
        assert!(again(watch.error()));
        assert_eq!(watch.error(), "infod3: ERROR 103 no");
        assert_eq!(watch.status(), 4);
    }
}

/// What a subscription does not show any more was deleted; what it shows is there.
#[test]
fn deletions_during_the_outage_are_said() {
    let path = fake("deletions", |number, mut stream| match number {
        0 => subscribe(&mut stream, &[b"a\x001", b"b\x001", b"c\x001", b"d"]),
        // This connection ends in the middle of its keys.
        1 => {
            await_frame(&mut stream, PING);
            stream.write_all(&frame(INFO, b"b\x002")).expect("written");
        }
        _ => {
            subscribe(&mut stream, &[b"c\x003"]);
            stream.write_all(&frame(INFO, b"e\x004")).expect("written");
            let _ = stream.read_to_end(&mut Vec::new());
        }
    });
    let mut watch = Lines::of(spawn(&path, &["--count", "9", "watch", "*"]));
    for line in ["a 1", "b 1", "c 1", "d", "b 2", "c 3", "a", "b", "e 4"] {
        assert_eq!(watch.output(), line);
    }
    assert_eq!(watch.status(), 0);
}

/// The server goes silent without closing, as one behind a dead line.
fn is_found_out_when_silent(wire: &'static str) {
    let mut silent = Vec::new();
    let path = fake(&format!("silent-{wire}"), move |number, mut stream| {
        let pong = await_ping(&mut stream, wire);
        let value = if number == 0 { "1" } else { "2" };
        let said = [info(wire, "k", value), pong].concat();
        stream.write_all(&said).expect("written");
        if number == 0 {
            silent.push(stream);
            return;
        }
        // This one answers.
        for _ in 0..2 {
            let pong = await_ping(&mut stream, wire);
            stream.write_all(&pong).expect("written");
        }
        stream.write_all(&info(wire, "k", "3")).expect("written");
        let _ = stream.read_to_end(&mut Vec::new());
    });
    let options = ["--wire", wire, "--keepalive", "1", "--timeout", "3"];
    let child = program(&path).args(options).args(["watch", "k"]).spawn();
    let watch = Lines::of(child.expect("infod3 runs"));
    assert_eq!(watch.output(), "k 1");
    let late = "infod3: connection lost: no answer in time; trying again";
    assert_eq!(watch.error(), late);
    assert_eq!(watch.output(), "k 2");
    // A machine that holds the answers up for seconds lets it connect once more.
    let next = std::iter::from_fn(|| Some(watch.output())).find(|line| line != "k 2");
    assert_eq!(next.as_deref(), Some("k 3"));
}

#[test]
fn a_silent_server_is_found_out() {
    is_found_out_when_silent("framed");
}

#[test]
fn a_silent_server_is_found_out_in_text() {
    is_found_out_when_silent("text");
}

/// A reader that was too slow is shut with 102, and comes again; other errors end it.
#[test]
fn a_slow_reader_comes_again() {
    let path = fake("slow", |number, mut stream| match number {
        0 => {
            subscribe(&mut stream, &[b"k\x001"]);
            let error = frame(ERROR, b"\x66no room");
            stream.write_all(&error).expect("written");
        }
        _ => {
            subscribe(&mut stream, &[b"k\x002"]);
            let error = frame(ERROR, b"\x67no");
            stream.write_all(&error).expect("written");
        }
    });
    let mut watch = Lines::of(spawn(&path, &["watch", "k"]));
    assert_eq!(watch.output(), "k 1");
    assert_eq!(watch.error(), "infod3: ERROR 102 no room; trying again");
    assert_eq!(watch.output(), "k 2");
    let line = watch.error();
    assert!(line.starts_with("infod3: connected again after "), "{line}");
    assert_eq!(watch.error(), "infod3: ERROR 103 no");
    assert_eq!(watch.status(), 4);
}

/// Gives one key, and shuts the client before it is subscribed.
fn shut_early(stream: &mut UnixStream) {
    await_frame(stream, PING);
    let info = frame(INFO, b"k\x001");
    let error = frame(ERROR, b"\x66no room");
    stream.write_all(&[info, error].concat()).expect("written");
}

/// A key shows that the subscription was taken, though not all of it was received.
#[test]
fn a_reader_that_is_slow_at_the_start_comes_again() {
    let path = fake("slow-start", |number, mut stream| match number {
        0..5 => shut_early(&mut stream),
        _ => {
            subscribe(&mut stream, &[b"k\x002"]);
            let _ = stream.read_to_end(&mut Vec::new());
        }
    });
    let mut watch = Lines::of(spawn(&path, &["--count", "6", "watch", "k"]));
    for line in ["k 1", "k 1", "k 1", "k 1", "k 1", "k 2"] {
        assert_eq!(watch.output(), line);
    }
    assert_eq!(watch.error(), "infod3: ERROR 102 no room; trying again");
    assert_eq!(watch.status(), 0);
}

#[test]
fn a_reader_that_is_always_slow_at_the_start_ends() {
    let (accepted, numbers) = channel();
    let path = fake("always-slow", move |number, mut stream| {
        let _ = accepted.send(number);
        shut_early(&mut stream);
    });
    let (status, output, errors) = common::run(&path, &["watch", "k", "l"], b"");
    assert_eq!((status, output), (4, "k 1\n".repeat(6)), "{errors}");
    assert_eq!(errors.lines().last(), Some("infod3: ERROR 102 no room"));
    assert_eq!(numbers.try_iter().collect::<Vec<_>>(), [0, 1, 2, 3, 4, 5]);
}

/// A server that is full, and later one that turns away whom it has taken, is tried again.
#[test]
fn a_full_server_is_tried_again() {
    let path = fake("full", |number, mut stream| match number {
        0 => {
            await_frame(&mut stream, PING);
            stream.write_all(b"# no free slot: 2\r\n").expect("written");
        }
        1 => {
            subscribe(&mut stream, &[b"k\x001"]);
            stream.write_all(b"# later\r\n").expect("written");
        }
        _ => {
            subscribe(&mut stream, &[b"k\x002"]);
            let _ = stream.read_to_end(&mut Vec::new());
        }
    });
    let watch = Lines::of(spawn(&path, &["watch", "k"]));
    let full = "infod3: cannot connect: no free slot: 2; trying again";
    assert_eq!(watch.error(), full);
    assert_eq!(watch.output(), "k 1");
    let line = watch.error();
    assert!(line.starts_with("infod3: connected after "), "{line}");
    let away = "infod3: the server refuses: later; trying again";
    assert_eq!(watch.error(), away);
    assert_eq!(watch.output(), "k 2");
}

/// What is refused at the first subscription is refused at the next one too.
#[test]
fn a_refused_subscription_ends_it() {
    let path = fake("refused", |_, mut stream| {
        await_frame(&mut stream, PING);
        let error = frame(ERROR, b"\x66no room");
        stream.write_all(&error).expect("written");
    });
    let (status, _, errors) = common::run(&path, &["watch", "k"], b"");
    assert_eq!(
        (status, errors.as_str()),
        (4, "infod3: ERROR 102 no room\n")
    );
}

/// The pauses grow while the server closes at once, and the outage is said once.
#[test]
fn a_server_that_closes_at_once_is_not_pressed() {
    let (accepted, moments) = channel();
    let path = fake("closing", move |_, stream| {
        let _ = accepted.send(Instant::now());
        drop(stream);
    });
    let watch = Lines::of(spawn(&path, &["watch", "k"]));
    let next = || {
        moments
            .recv_timeout(common::PATIENCE)
            .expect("a connection")
    };
    let first = next();
    let [.., fifth] = [(); 4].map(|()| next());
    // 0.1, 0.2, 0.4 and 0.8 seconds; a slow machine takes longer, and never less.
    assert!(fifth - first >= Duration::from_millis(1_490));
    let line = watch.error();
    assert!(line.ends_with("; trying again"), "{line}");
    assert_eq!(watch.kill(), Vec::<String>::new());
}

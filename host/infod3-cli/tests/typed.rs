//! Lines from a terminal: who makes a typing error stays on the line.

mod common;

use common::{await_ping, done, error, fake, info, run, server, Lines, WIRES};
use std::fs::File;
use std::io::Write;
use std::os::unix::net::UnixStream;
use std::path::Path;

/// The program at a terminal, and the keyboard.
fn typed(path: &Path, arguments: &[&str]) -> (File, Lines) {
    let (keyboard, terminal) = common::sys::terminal();
    let mut command = common::program(path);
    let child = command.args(arguments).stdin(terminal).spawn();
    let session = Lines::of(child.expect("infod3 runs"));
    let line = session.error();
    assert!(line.starts_with("infod3: connected to unix:"), "{line}");
    (keyboard, session)
}

#[test]
fn a_typing_error_costs_no_pattern() {
    let server = server("typing-error");
    for wire in [&[][..], &["--wire", "framed"], &["--wire", "text"]] {
        let (mut keyboard, mut session) = typed(&server.path, wire);
        keyboard.write_all(b"sub k\nping\n").expect("typed");
        assert_eq!(session.output(), "pong \"\"");
        for (wrong, said) in [
            ("reed k\n", "infod3: unknown command reed; "),
            ("sub **\n", "infod3: ** is no PATTERN, "),
            ("read\n", "infod3: read wants a KEY"),
        ] {
            keyboard.write_all(wrong.as_bytes()).expect("typed");
            let line = session.error();
            assert!(line.starts_with(said), "{line}");
            assert_eq!(server.run(&["write", "k", "1"], b""), done(""));
            assert_eq!(session.output(), "\"k\" \"1\"");
            assert_eq!(server.run(&["delete", "k"], b""), done(""));
            assert_eq!(session.output(), "\"k\"");
        }
        // A second begin is not sent, so that it spoils nothing.
        let input = b"begin\nwrite k 2\nbegin\nsub **\nwrite k 3\ncommit\n";
        keyboard.write_all(input).expect("typed");
        let line = "infod3: a transaction is open already; commit ends it";
        assert_eq!(session.error(), line);
        assert!(session.error().starts_with("infod3: ** is no PATTERN, "));
        assert_eq!(session.output(), "\"k\" \"2\"");
        assert_eq!(session.output(), "\"k\" \"3\"");
        keyboard.write_all(b"delete k\nquit\n").expect("typed");
        assert_eq!(session.output(), "\"k\"");
        assert_eq!(session.status(), 0);
    }
}

/// A server that answers each PING, and in between says these messages, one for each.
fn saying(name: &str, wire: &'static str, messages: Vec<Vec<u8>>) -> common::Fake {
    fake(name, move |_, mut stream: UnixStream| {
        for message in &messages {
            let pong = await_ping(&mut stream, wire);
            let said = [&pong[..], message].concat();
            if stream.write_all(&said).is_err() {
                return;
            }
        }
        // It stays until the client has gone.
        let _ = std::io::copy(&mut stream, &mut std::io::sink());
    })
}

/// The client sends nothing that this server refuses; another server may refuse more.
#[test]
fn an_error_is_told_and_the_line_goes_on() {
    let messages = [
        error("text", 101, "bad parameter"),
        error("text", 100, "unknown\\012message"),
        info("text", "k", "1"),
        error("text", 102, "no room"),
    ];
    for (count, wire) in [&[][..], &["--wire=text"]].into_iter().enumerate() {
        let path = saying(&format!("typed-errors-{count}"), "text", messages.to_vec());
        let (mut keyboard, mut session) = typed(&path, wire);
        // The first PING is the program's own.
        assert_eq!(session.error(), "infod3: ERROR 101 bad parameter");
        keyboard.write_all(b"begin\nping x\n").expect("typed");
        assert_eq!(session.output(), "pong \"x\"");
        assert_eq!(session.error(), "infod3: ERROR 100 unknown\\012message");
        let line = "infod3: the transaction is spoiled: commit ends it, and none of it is done";
        assert_eq!(session.error(), line);
        keyboard.write_all(b"commit\nping y\n").expect("typed");
        assert_eq!(session.output(), "pong \"y\"");
        assert_eq!(session.output(), "\"k\" \"1\"");
        keyboard.write_all(b"ping z\n").expect("typed");
        assert_eq!(session.output(), "pong \"z\"");
        assert_eq!(session.error(), "infod3: ERROR 102 no room");
        assert_eq!(session.status(), 4);
    }
}

/// A server shuts a client with frames after every ERROR.
#[test]
fn an_error_ends_the_lines_of_frames() {
    let messages = vec![error("framed", 103, "bad state")];
    let path = saying("typed-frames", "framed", messages);
    let (_keyboard, mut session) = typed(&path, &["--wire", "framed"]);
    assert_eq!(session.error(), "infod3: ERROR 103 bad state");
    assert_eq!(session.status(), 4);
}

/// Nobody is there to read it, and the lines behind it were written for another state.
#[test]
fn an_error_ends_a_script() {
    for wire in WIRES {
        let messages = vec![error(wire, 101, "bad parameter"), info(wire, "k", "1")];
        let path = saying(&format!("scripted-{wire}"), wire, messages);
        let (status, output, errors) = run(&path, &["--wire", wire], b"ping\nping\n");
        assert_eq!((status, output.as_str()), (4, ""));
        assert_eq!(errors, "infod3: ERROR 101 bad parameter\n");
    }
}

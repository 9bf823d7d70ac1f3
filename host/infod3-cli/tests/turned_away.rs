//! What the server itself says to a client that it turns away, and what the program makes of it.

mod common;

use common::{await_command, await_ping, fake, finish_with, info, run, Ended, WIRES, WRITE};
use std::io::{Read, Write};
use std::net::TcpListener;
use std::os::unix::net::UnixStream;
use std::time::Duration;

const READ_ONLY: &[u8] = b"# read-only: this listener takes no WRITE\r\n";

fn read_only() -> Ended {
    let line = "infod3: the server refuses: this listener is read-only\n";
    (7, String::new(), line.to_owned())
}

fn say(stream: &mut UnixStream, text: &[u8]) {
    // A client that has ended hears nothing.
    let _ = stream.write_all(text);
}

/// Reads until the client ends, as the real server does, so that no reset overtakes the line.
fn part(mut stream: UnixStream) {
    let _ = stream.shutdown(std::net::Shutdown::Write);
    let _ = std::io::copy(&mut stream, &mut std::io::sink());
}

#[test]
fn a_read_only_listener_is_no_lost_connection() {
    for wire in WIRES {
        let path = fake(&format!("read-only-{wire}"), move |_, mut stream| {
            await_command(&mut stream, wire, WRITE);
            say(&mut stream, READ_ONLY);
            part(stream);
        });
        let run = |words: &[&str], input| run(&path, &[&["--wire", wire], words].concat(), input);
        assert_eq!(run(&["write", "k", "v"], b""), read_only());
        assert_eq!(run(&["delete", "k"], b""), read_only());
        assert_eq!(run(&[], b"write k v\n"), read_only());
    }
}

#[test]
fn a_line_may_come_in_parts() {
    for wire in WIRES {
        let words = ["--wire", wire, "write", "k", "v"];
        let path = fake(&format!("parts-{wire}"), move |_, mut stream| {
            await_command(&mut stream, wire, WRITE);
            say(&mut stream, b"# read-");
            // The two parts need not be read apart for the test to hold, but mostly they are.
            std::thread::sleep(Duration::from_millis(50));
            say(&mut stream, b"only: no\r\n");
            part(stream);
        });
        assert_eq!(run(&path, &words, b""), read_only());
        // A line that is cut off by the connection's end counts as well.
        let path = fake(&format!("cut-{wire}"), move |_, mut stream| {
            await_command(&mut stream, wire, WRITE);
            say(&mut stream, b"# read-only");
            part(stream);
        });
        assert_eq!(run(&path, &words, b""), read_only());
    }
}

/// The server closes with bytes unread, so that sending fails with a broken pipe or a reset.
#[test]
fn the_line_is_found_where_sending_fails() {
    let path = fake("unread", |_, mut stream| {
        say(&mut stream, READ_ONLY);
        drop(stream);
    });
    let value = vec![b'x'; 60_000];
    let input = format!("write k {}\n", "x".repeat(60_000)).repeat(20);
    for _ in 0..10 {
        for wire in WIRES {
            let words = ["--wire", wire, "write", "--stdin", "k"];
            assert_eq!(run(&path, &words, &value), read_only());
            assert_eq!(run(&path, &words[..2], input.as_bytes()), read_only());
        }
    }
}

#[test]
fn the_line_is_found_behind_a_reset() {
    let listener = TcpListener::bind("127.0.0.1:0").expect("a listener");
    let port = listener.local_addr().expect("an address").to_string();
    std::thread::spawn(move || {
        for stream in listener.incoming() {
            let mut stream = stream.expect("a connection");
            // Of the frame only a part is read: closing then resets the connection.
            stream.read_exact(&mut [0; 3]).expect("a part");
            let _ = stream.write_all(READ_ONLY);
        }
    });
    for _ in 0..10 {
        let child = common::bare_program()
            .args(["--tcp", &port, "write", "--stdin", "k"])
            .spawn();
        let ended = finish_with(child.expect("infod3 runs"), &[b'x'; 60_000]);
        assert_eq!(ended, read_only());
    }
}

#[test]
fn other_lines_are_told_apart() {
    let lines: [(&[u8], i32, &str); 3] = [
        (
            b"# no free slot: 2 clients are connected, try again later\r\n",
            3,
            "infod3: cannot connect: no free slot: 2 clients are connected, try again later\n",
        ),
        (
            b"# the first message came too late\r\n",
            4,
            "infod3: the server refuses: the first message came too late\n",
        ),
        (
            b"# too \x1b[2Jlong\x07\r\n",
            4,
            "infod3: the server refuses: too \\033[2Jlong\\007\n",
        ),
    ];
    for (i, (line, status, said)) in lines.into_iter().enumerate() {
        let path = fake(&format!("line-{i}"), move |_, mut stream| {
            say(&mut stream, line);
            part(stream);
        });
        for wire in WIRES {
            let expected = (status, String::new(), said.to_owned());
            assert_eq!(run(&path, &["--wire", wire, "ping"], b""), expected);
        }
    }
}

#[test]
fn a_line_behind_messages_is_found() {
    for wire in WIRES {
        let path = fake(&format!("behind-{wire}"), move |_, mut stream| {
            await_ping(&mut stream, wire);
            say(&mut stream, &info(wire, "k", "#v"));
            say(&mut stream, READ_ONLY);
            part(stream);
        });
        let (status, output, errors) = run(&path, &["--wire", wire], b"ping\n");
        assert_eq!((status, output.as_str()), (7, "\"k\" \"#v\"\n"));
        assert_eq!(errors, read_only().2);
    }
}

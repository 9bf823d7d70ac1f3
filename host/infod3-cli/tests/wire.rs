//! What goes over the wire, byte for byte, in both of its forms.

mod common;

use common::{done, fake, frame, run, spawn, Fake, Lines, PING, WRITE};
use std::io::{Read, Write};
use std::os::unix::net::UnixStream;
use std::sync::mpsc::{channel, Receiver};

/// A server that answers with these bytes, and hears all that is sent.
fn hearing(name: &str, answer: &'static [u8]) -> (Fake, Receiver<Vec<u8>>) {
    let (heard, all) = channel();
    let path = fake(name, move |_, mut stream: UnixStream| {
        stream.write_all(answer).expect("written");
        let mut bytes = Vec::new();
        let _ = stream.read_to_end(&mut bytes);
        let _ = heard.send(bytes);
    });
    (path, all)
}

#[test]
fn a_write_is_a_line_or_a_frame() {
    let words = ["write", "a b", "c\n\"d\""];
    let (path, heard) = hearing("text-write", b"PONG \"synchronise\"\r\n");
    assert_eq!(
        run(&path, &[&["--wire=text"], &words[..]].concat(), b""),
        done("")
    );
    let lines = "WRITE \"a b\" \"c\\012\\042d\\042\"\nPING \"synchronise\"\n";
    assert_eq!(heard.recv(), Ok(lines.as_bytes().to_vec()));

    let (path, heard) = hearing("framed-write", b"\x82\0\x0bsynchronise");
    let frames = [frame(WRITE, b"a b\0c\n\"d\""), frame(PING, b"synchronise")].concat();
    for wire in [&["--wire", "framed"][..], &[]] {
        assert_eq!(run(&path, &[wire, &words[..]].concat(), b""), done(""));
        assert_eq!(heard.recv(), Ok(frames.clone()));
    }
}

#[test]
fn every_command_of_the_lines_is_a_line() {
    let (path, heard) = hearing("text-lines", b"VERSION 9 \"a\\042\\012\"\r\nINFO \"k\"\r\n");
    let input = b"hello\nhello 1 me\nsub *\nu *\nr k\nw k v\nd k\nb\nc\nping\nping x\nb\n";
    let (status, output, _) = run(&path, &["--wire=text"], input);
    // The open transaction lets the client end its sending, behind which this server closes.
    assert_eq!(
        (status, output.as_str()),
        (2, "version 9 \"a\\042\\012\"\n\"k\"\n")
    );
    let lines = concat!(
        "PING \"\\000infod3 begins\\000\"\n",
        "HELLO 0 \"\"\nHELLO 1 \"me\"\nSUB \"*\"\nUNSUB \"*\"\nREAD \"k\"\n",
        "WRITE \"k\" \"v\"\nWRITE \"k\"\nBEGIN\nCOMMIT\nPING \"\"\nPING \"x\"\nBEGIN\n"
    );
    assert_eq!(heard.recv(), Ok(lines.as_bytes().to_vec()));
}

/// What is not, byte for byte, what a server writes is no infod3.
#[test]
fn another_line_is_no_infod3() {
    let wrong: [&[u8]; 6] = [
        b"INFO \"k\" \"v\"\n",
        b"info \"k\" \"v\"\r\n",
        b"INFO k v\r\n",
        b"INFO \"k\" \"\\101\"\r\n",
        b"\x81\0\x03k\0v\r\n",
        b"HTTP/1.1 400 Bad Request\r\n",
    ];
    let line = "infod3: connection lost: the server sent no infod3\n";
    for (i, answer) in wrong.into_iter().enumerate() {
        let (path, _heard) = hearing(&format!("wrong-{i}"), answer);
        let ended = run(&path, &["--wire=text", "read", "k"], b"");
        assert_eq!(ended, (5, String::new(), line.to_owned()), "{answer:?}");
    }
    // A frame of a command, and one that lacks its number.
    for (i, answer) in [&b"\x07\0\0"[..], b"\x83\0\0"].into_iter().enumerate() {
        let (path, _heard) = hearing(&format!("wrong-frame-{i}"), answer);
        let ended = run(&path, &["read", "k"], b"");
        assert_eq!(ended, (5, String::new(), line.to_owned()), "{answer:?}");
    }
}

/// A line that comes byte by byte is shown when it is whole.
#[test]
fn lines_come_in_parts() {
    let (next, go) = channel::<()>();
    let path = fake("slow-line", move |_, mut stream: UnixStream| {
        let answer = b"INFO \"k\" \"a\\012b\"\r\nPONG \"subscribed\"\r\nINFO \"k\"\r\n";
        for byte in answer {
            stream.write_all(&[*byte]).expect("written");
        }
        let _ = go.recv();
    });
    let watch = Lines::of(spawn(&path, &["--wire=text", "watch", "k"]));
    assert_eq!(watch.output(), "k \"a\\012b\"");
    assert_eq!(watch.output(), "k");
    drop(next);
}

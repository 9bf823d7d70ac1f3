//! Commands from the lines of standard input, and the time that a server may take.

mod common;

use common::{
    await_frame, both, done, fake, finish_with, frame, path, run, run_bare, spawn, Ended, Lines,
};
use common::{INFO, PING, PONG};
use std::io::{Read, Write};
use std::net::{TcpListener, TcpStream};
use std::time::{Duration, Instant};

#[test]
fn lines() {
    for server in both("lines") {
        let input =
            b"write k \"x\\012y\"\nread k\n\nBEGIN\nwrite k 2\nping p\ncommit\nr k\nd k\nr k";
        let output = "\"k\" \"x\\012y\"\npong \"p\"\n\"k\" \"2\"\n\"k\"\n";
        assert_eq!(server.run(&[], input), done(output));
        assert_eq!(server.run(&[], b"ping\nquit\nping\n"), done("pong \"\"\n"));
        let (status, output, errors) = server.run(&[], SEVENTEEN.as_bytes());
        assert_eq!((status, output.as_str()), (4, "pong \"\"\n"));
        assert_eq!(errors, "infod3: ERROR 102 no room\n");
        let hello = server.run(&[], b"hello\nhello 7 \"me\\012\"\n");
        assert_eq!(hello, done("version 0 \"\"\nversion 0 \"\"\n"));
        let many = "w k 1\nr k\n".repeat(20_000);
        let output = "\"k\" \"1\"\n".repeat(20_000);
        assert_eq!(server.run(&[], many.as_bytes()), done(&output));
    }
}

/// The other lines are sent all the same, and the status tells that not all were.
#[test]
fn a_wrong_line_says_what_is_missing() {
    for server in both("wrong-lines") {
        let input = b"nonsense\nread\nwrite k\nwrite k \"v\ncommit now\nsub **\nunsub a|b\nping\n";
        let (status, output, errors) = server.run(&[], input);
        assert_eq!((status, output.as_str()), (2, "pong \"\"\n"));
        let expected = [
        "infod3: unknown command nonsense; commands are read, write, delete, sub, unsub, begin, \
         commit, ping, hello, help and quit",
        "infod3: read wants a KEY",
        "infod3: write wants a VALUE",
        "infod3: a field that begins with \" ends with one, and \\ooo is a byte in octal",
        "infod3: commit wants nothing behind it, not now",
        "infod3: ** is no PATTERN, such as site.*.state or site.(7|8).*",
        "infod3: a|b is no PATTERN, such as site.*.state or site.(7|8).*",
        "infod3: 7 lines were wrong and not sent; infod3 --help shows how",
    ];
        assert_eq!(errors.lines().collect::<Vec<_>>(), expected);
    }
}

/// A ping, and a pattern too many.
const SEVENTEEN: &str = "ping\nsub 1\nsub 2\nsub 3\nsub 4\nsub 5\nsub 6\nsub 7\nsub 8\nsub 9\n\
                         sub a\nsub b\nsub c\nsub d\nsub e\nsub f\nsub g\nsub h\n";

/// The end of a program whose lines leave a transaction open.
fn uncommitted(output: &str) -> Ended {
    let line = "infod3: the transaction was not committed\n";
    (2, output.to_owned(), line.to_owned())
}

/// What was asked before it is answered, and nothing waits for the time to be over.
#[test]
fn an_open_transaction_is_not_committed_at_the_end() {
    for server in both("open") {
        for input in [
            "write k 1\nread k\nbegin\nwrite k 2\nread k\n",
            "write k 1\nread k\nbegin\nwrite k 2\nquit\ncommit\n",
            "begin\nwrite k 1\ncommit\nread k\nB\nd k",
        ] {
            let ended = server.run(&["--timeout", "1000"], input.as_bytes());
            assert_eq!(ended, uncommitted("\"k\" \"1\"\n"));
            assert_eq!(server.run(&["read", "k"], b""), done("1\n"));
        }
    }
}

/// All or none of it: the lines behind the wrong one, and behind the transaction, are not sent.
#[test]
fn a_wrong_line_in_a_transaction_ends_it() {
    for server in both("wrong-in-transaction") {
        assert_eq!(server.run(&["write", "k", "1"], b""), done(""));
        let long = format!("write k {}", "x".repeat(65_534));
        let endless = "x".repeat(600_000);
        for (wrong, said) in [
            ("wrte l 2", "infod3: unknown command wrte; "),
            ("write l", "infod3: write wants a VALUE\n"),
            (&long, "infod3: "),
            ("sub **", "infod3: ** is no PATTERN, "),
            (
                "begin",
                "infod3: a transaction is open already; commit ends it\n",
            ),
            (&endless, "infod3: a line has more than 524288 bytes\n"),
        ] {
            let input = format!("begin\nwrite k 2\n{wrong}\ncommit\nwrite k 3\n");
            let (status, output, errors) = server.run(&[], input.as_bytes());
            assert_eq!((status, output.as_str()), (2, ""), "{errors}");
            assert!(errors.starts_with(said), "{errors}");
            let lines: Vec<&str> = errors.lines().collect();
            let end = "infod3: the transaction was not committed";
            assert_eq!(lines[1..], [end], "{errors}");
            assert_eq!(server.run(&["read", "k"], b""), done("1\n"));
        }
        let input = b"read k\nbegin\ncommit\nnonsense\nread k\n";
        let (status, output, _) = server.run(&[], input);
        assert_eq!((status, output.lines().count()), (2, 2));
    }
}

/// On a terminal a wrong line is said and the transaction goes on; the status at the end is 0.
#[test]
fn who_types_goes_on_after_a_wrong_line() {
    for server in both("typed") {
        let (mut keyboard, terminal) = common::sys::terminal();
        let child = server.program().stdin(terminal).spawn();
        let mut session = Lines::of(child.expect("infod3 runs"));
        let line = session.error();
        assert!(line.starts_with("infod3: connected to unix:"), "{line}");
        let input = b"begin\nwrite k\nwrite k 1\ncommit\nread k\n";
        keyboard.write_all(input).expect("typed");
        assert_eq!(session.error(), "infod3: write wants a VALUE");
        assert_eq!(session.output(), "\"k\" \"1\"");
        let input = b"begin\nwrite k 2\nquit\n";
        keyboard.write_all(input).expect("typed");
        let line = "infod3: the transaction was not committed";
        assert_eq!(session.error(), line);
        assert_eq!(session.status(), 0);
        assert_eq!(server.run(&["read", "k"], b""), done("1\n"));
    }
}

/// What comes before the end is shown; a connection that is lost meanwhile is no good end.
#[test]
fn an_open_transaction_ends_with_the_connection() {
    let path = fake("half-closed", |number, mut stream| {
        let _ = stream.read_to_end(&mut Vec::new());
        let info = frame(INFO, b"k\x001");
        let end = info.len() - number;
        stream.write_all(&info[..end]).expect("written");
    });
    let expected = uncommitted("\"k\" \"1\"\n");
    assert_eq!(run(&path, &[], b"begin\n"), expected);
    // The second message is cut off.
    let (status, _, errors) = run(&path, &[], b"begin\n");
    assert_eq!(status, 5, "{errors}");
}

/// It would end the key, and deleting would be writing.
#[test]
fn a_key_holds_no_nul() {
    for server in both("nul") {
        let input = b"delete \"a\\000b\"\nwrite \"a\\000b\" c\nread \"a\\000b\"\nread a\n";
        let (status, output, errors) = server.run(&[], input);
        assert_eq!((status, output.as_str()), (2, "\"a\"\n"));
        let line = "infod3: a KEY holds no NUL\n";
        assert!(errors.starts_with(&line.repeat(3)), "{errors}");
    }
}

/// The input stays open, as that of a terminal at which nobody types.
#[test]
fn a_refused_command_shows_at_once() {
    for server in both("at-once") {
        let mut child = server.spawn(&[]);
        let mut input = child.stdin.take().expect("its input");
        let mut session = Lines::of(child);
        input.write_all(SEVENTEEN.as_bytes()).expect("written");
        assert_eq!(session.output(), "pong \"\"");
        assert_eq!(session.error(), "infod3: ERROR 102 no room");
        assert_eq!(session.status(), 4);
        drop(input);
    }
}

/// A server closes a client that says nothing for long, but a terminal may be silent.
#[test]
fn it_speaks_before_anybody_types() {
    let path = fake("first", |_, mut stream| {
        await_frame(&mut stream, PING);
        stream.write_all(b"# heard\r\n").expect("written");
    });
    let mut child = spawn(&path, &[]);
    let input = child.stdin.take().expect("its input");
    let mut session = Lines::of(child);
    assert_eq!(session.error(), "infod3: the server refuses: heard");
    assert_eq!(session.status(), 4);
    drop(input);
}

#[test]
fn a_line_without_end_is_wrong() {
    for server in both("endless") {
        let (status, _, errors) = server.run(&[], &vec![b'x'; 600_000]);
        assert_eq!(status, 2);
        let line = "infod3: a line has more than 524288 bytes; ";
        assert!(errors.starts_with(line), "{errors}");
        // The longest command fits, each byte of it in octal.
        let value = "\\001".repeat(65_533);
        let input = format!("write k \"{value}\"\nwrite k 1\nread k\n");
        assert_eq!(server.run(&[], input.as_bytes()), done("\"k\" \"1\"\n"));
    }
}

/// The server ends while nobody types.
#[test]
fn a_lost_connection_shows_at_once() {
    for server in both("lost-at-once") {
        let mut child = server.spawn(&[]);
        let mut input = child.stdin.take().expect("its input");
        let mut session = Lines::of(child);
        input.write_all(b"ping\n").expect("written");
        assert_eq!(session.output(), "pong \"\"");
        drop(server);
        let lost = "infod3: connection lost: closed by the server";
        assert_eq!(session.error(), lost);
        assert_eq!(session.status(), 5);
        drop(input);
    }
}

#[test]
fn sending_ends_in_time() {
    let mut held = Vec::new();
    let path = fake("no-reader", move |_, stream| held.push(stream));
    let input = format!("write k {}\n", "x".repeat(60_000)).repeat(100);
    let child = spawn(&path, &["--timeout", "1"]);
    let late = "infod3: connection lost: no answer in time\n";
    let expected = (5, String::new(), late.to_owned());
    assert_eq!(finish_with(child, input.as_bytes()), expected);
}

/// Sends messages without a gap for many times the time that the client has, and then the answer.
fn flood(mut stream: TcpStream) {
    let id = await_frame(&mut stream, PING);
    // So small that taking them is more work than sending them.
    let infos = frame(INFO, b"k").repeat(200_000);
    let begin = Instant::now();
    while begin.elapsed() < Duration::from_secs(15) {
        if stream.write_all(&infos).is_err() {
            return;
        }
    }
    let _ = stream.write_all(&frame(PONG, &id));
}

/// Other messages are no answer.
#[test]
fn a_flood_does_not_hold_up_the_end() {
    let listener = TcpListener::bind("127.0.0.1:0").expect("a listener");
    let port = listener.local_addr().expect("an address").to_string();
    std::thread::spawn(move || {
        for stream in listener.incoming() {
            flood(stream.expect("a connection"));
        }
    });
    let late = "infod3: connection lost: no answer in time\n";
    for words in [&["ping"][..], &["write", "k", "v"]] {
        let words = [&["--tcp", &port, "--timeout", "1"], words].concat();
        let expected = (5, String::new(), late.to_owned());
        assert_eq!(run_bare(&words), expected);
    }
}

/// Nobody accepts, and the backlog of the listener is full.
#[test]
fn connecting_ends_in_time() {
    let path = path("backlog");
    let full = common::sys::full_listener(&path);
    let begin = Instant::now();
    let (status, output, errors) = run(&path, &["--timeout", "1", "ping"], b"");
    assert_eq!((status, output.as_str()), (3, ""));
    assert!(errors.ends_with(": no answer in time\n"), "{errors}");
    assert!(begin.elapsed() >= Duration::from_secs(1));
    drop(full);
    std::fs::remove_file(&path).expect("removed");
}

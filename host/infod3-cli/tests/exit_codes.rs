//! The program against a real server: what it prints, and its exit status.

mod common;

use common::{await_frame, fake, frame, INFO, PONG, READ};
use common::{
    bare_program, both, both_with, bytes, done, finish, finish_with, run_bare, server, server_at,
    WIRES,
};
use std::io::{Read, Write};
use std::time::{Duration, Instant};

#[test]
fn commands() {
    for server in both("commands") {
        assert_eq!(server.run(&["ping"], b""), done("pong\n"));
        assert_eq!(
            server.run(&["read", "k"], b""),
            (1, String::new(), String::new())
        );
        assert_eq!(server.run(&["write", "k", "a"], b""), done(""));
        assert_eq!(server.run(&["read", "k"], b""), done("a\n"));
        assert_eq!(server.run(&["write", "--", "--k", "-h"], b""), done(""));
        assert_eq!(server.run(&["read", "--", "--k"], b""), done("-h\n"));
        assert_eq!(
            server.run(&["write", "--stdin", "k"], b"\0\"\n\\x"),
            done("")
        );
        assert_eq!(
            server.run(&["--text", "read", "k"], b""),
            done("\"\\000\\042\\012\\134x\"\n")
        );
        assert_eq!(server.run(&["delete", "k"], b""), done(""));
        assert_eq!(server.run(&["read", "k"], b"").0, 1);
    }
}

#[test]
fn the_server_is_named_by_the_environment_too() {
    let server = server("environment");
    let unix = format!("unix:{}", server.path.display());
    for name in [&server.tcp, &format!("tcp:{}", server.tcp), &unix] {
        let child = bare_program()
            .env("INFOD3_SERVER", name)
            .arg("ping")
            .spawn();
        assert_eq!(finish(child.expect("infod3 runs")), done("pong\n"));
    }
}

#[test]
fn a_path_need_not_be_utf_8() {
    let mut name = std::env::temp_dir().into_os_string();
    name.push(format!("/infod3-cli-{}-", std::process::id()));
    name.push(bytes(b"\xff\xfe"));
    let server = server_at(name.as_ref(), infod3::Sizes::LARGEST);
    assert_eq!(server.run(&["ping"], b""), done("pong\n"));
    let child = bare_program()
        .env("INFOD3_SERVER", &name)
        .arg("ping")
        .spawn();
    assert_eq!(finish(child.expect("infod3 runs")), done("pong\n"));
}

#[test]
fn every_option_may_hold_its_value() {
    let server = server("options");
    let tcp = format!("--tcp={}", server.tcp);
    assert_eq!(run_bare(&[&tcp, "--timeout=9", "ping"]), done("pong\n"));
    let mut unix = std::ffi::OsString::from("--unix=");
    unix.push(&server.path);
    let child = bare_program().arg(unix).arg("ping").spawn();
    assert_eq!(finish(child.expect("infod3 runs")), done("pong\n"));
}

#[test]
fn the_program_says_what_it_is() {
    let help = run_bare(&["--help"]);
    assert_eq!((help.0, help.2.as_str()), (0, ""));
    assert_eq!(run_bare(&["-h"]), help);
    assert_eq!(run_bare(&["read", "-h"]), help);
    let version = format!("infod3 {}\n", env!("CARGO_PKG_VERSION"));
    assert_eq!(run_bare(&["--version"]), done(&version));
    assert_eq!(run_bare(&["-V"]), done(&version));
    let (status, man, errors) = run_bare(&["--man"]);
    assert_eq!((status, errors.as_str()), (0, ""));
    assert!(man.starts_with(".TH INFOD3 1 "), "{man}");
    // Both name every option and every status.
    for word in [
        "tcp",
        "unix",
        "wire",
        "timeout",
        "text",
        "raw",
        "json",
        "count",
        "once",
        "keepalive",
        "version",
    ] {
        assert!(help.1.contains(&format!("--{word} ")), "{word}");
        assert!(man.contains(&format!("\\fB\\-\\-{word}\\fR")), "{word}");
    }
    for status in 0..=7 {
        assert!(help.1.contains(&format!("\n  {status}  ")), "{status}");
        assert!(
            man.contains(&format!(".TP\n\\fB{status}\\fR\n")),
            "{status}"
        );
    }
    assert!(man.contains("\\fB\\-\\-man\\fR") && !help.1.contains("--man"));
    // The example of a text line is what the program prints.
    let line = run_bare(&["line", "write", "site.7.note", "say \"stop\""]).1;
    let example = format!("$ infod3 line write site.7.note 'say \"stop\"'\n    {line}");
    assert!(help.1.contains(&example), "{}", help.1);
}

#[test]
fn watching() {
    for server in both("watching") {
        assert_eq!(server.run(&["write", "a", "1"], b""), done(""));
        let child = server.spawn(&["--count", "3", "watch", "b*", "a"]);
        let mut watch = common::Lines::of(child);
        assert_eq!(watch.output(), "a 1");
        assert_eq!(server.run(&["write", "b1", "2"], b""), done(""));
        assert_eq!(server.run(&["write", "c", "3"], b""), done(""));
        assert_eq!(server.run(&["delete", "a"], b""), done(""));
        assert_eq!(watch.output(), "b1 2");
        assert_eq!(watch.output(), "a");
        assert_eq!(watch.status(), 0);
    }
}

#[test]
fn wrong_usage() {
    let commands = "read, write, delete, watch, ping and line";
    let unknown = format!("unknown command reed; commands are {commands}");
    let table: [(&[&str], &str); 10] = [
        (&["reed", "k"], &unknown),
        (&["read"], "read wants a KEY"),
        (&["read", "a", "b"], "read wants a KEY alone; b is too much"),
        (&["write", "k"], "write wants a VALUE (or --stdin)"),
        (&["watch"], "watch wants a PATTERN"),
        (&["--loud"], "unknown option --loud"),
        (
            &["--wire", "packets", "ping"],
            "--wire wants framed or text, not packets",
        ),
        (
            &["--count=0", "watch", "k"],
            "--count wants a number from 1 to 1000000000, not 0",
        ),
        (&["--stdin", "read", "k"], "--stdin is for write"),
        (
            &["--tcp", "7070", "ping"],
            "7070 is no address and port, such as 127.0.0.1:7070",
        ),
    ];
    for (words, error) in table {
        let line = format!("infod3: {error}; infod3 --help shows how\n");
        assert_eq!(run_bare(words), (2, String::new(), line));
    }
}

#[test]
fn troubles() {
    let sizes = infod3::Sizes::new(2, 256, 1024, 256).expect("sizes");
    for server in both_with("troubles", sizes) {
        // 2: more than a message holds.
        let long = "x".repeat(70_000);
        assert_eq!(server.run(&["write", "k", &long], b"").0, 2);
        // 4: the server sent ERROR.
        let (status, _, errors) = server.run(&["write", "k", &"x".repeat(248)], b"");
        assert_eq!(
            (status, errors.as_str()),
            (4, "infod3: ERROR 102 no room\n")
        );
        let patterns: Vec<String> = (0..17).map(|n| n.to_string()).collect();
        let patterns: Vec<&str> = patterns.iter().map(String::as_str).collect();
        let (status, _, errors) = server.run(&[&["watch"], &patterns[..]].concat(), b"");
        assert_eq!(
            (status, errors.as_str()),
            (4, "infod3: ERROR 102 no room\n")
        );
        // 3: no server, or no free slot.
        let nobody = server.run(&["--unix", "/nonexistent/socket", "ping"], b"");
        assert_eq!(nobody.0, 3);
        let held: Vec<_> = (0..2)
            .map(|_| std::os::unix::net::UnixStream::connect(&server.path).expect("connected"))
            .collect();
        let (status, _, errors) = server.run(&["ping"], b"");
        assert_eq!(status, 3);
        assert!(errors.contains("no free slot: 2 clients"), "{errors}");
        drop(held);
        // 5: the connection is lost.
        let until = Instant::now() + Duration::from_secs(30);
        while server.run(&["ping"], b"").0 != 0 {
            assert!(Instant::now() < until, "the slots are not freed");
        }
        assert_eq!(server.run(&["write", "k", "v"], b"").0, 0);
        let child = server.program().args(["--once", "watch", "*"]).spawn();
        let mut watch = common::Lines::of(child.expect("infod3 runs"));
        assert_eq!(watch.output(), "k v");
        drop(server);
        assert_eq!(
            watch.error(),
            "infod3: connection lost: closed by the server"
        );
        assert_eq!(watch.status(), 5);
    }
}

/// What a server would refuse is said at once, whether there is a server or not.
#[test]
fn a_refused_command_is_not_sent() {
    let long = "x".repeat(65_536);
    let no_pattern = "is no PATTERN, such as site.*.state or site.(7|8).*";
    let too_long = "too long: a command holds at most 65535 bytes, so key and value together at \
                    most 65534";
    let table: [(&[&str], String); 6] = [
        (&["watch", "**"], format!("** {no_pattern}")),
        (&["watch", "k", "a|b"], format!("a|b {no_pattern}")),
        (
            &["watch", "k", &long[..256]],
            "too long: a PATTERN has at most 255 bytes".to_owned(),
        ),
        (&["write", "k", &long[..65_534]], too_long.to_owned()),
        (&["delete", &long], too_long.to_owned()),
        (&["read", &long], too_long.to_owned()),
    ];
    let server = server("not-sent");
    for path in [&server.path, &common::path("nobody-there")] {
        for (wire, (words, said)) in WIRES
            .iter()
            .flat_map(|wire| table.iter().map(move |row| (wire, row)))
        {
            let ended = common::run(path, &[&["--wire", wire], *words].concat(), b"");
            let said = format!("infod3: {said}\n");
            assert_eq!(ended, (2, String::new(), said));
        }
    }
}

/// Between key and value there is a NUL.
#[test]
fn key_and_value_have_so_many_bytes_at_most() {
    for server in both("longest") {
        let write = |len| server.run(&["write", "--stdin", "k"], &vec![b'x'; len]);
        assert_eq!(write(65_533), done(""));
        let line =
            "infod3: too long: a command holds at most 65535 bytes, so key and value together \
                at most 65534\n";
        assert_eq!(write(65_534), (2, String::new(), line.to_owned()));
        let input = format!("write k {}\n", "x".repeat(65_534));
        let (status, _, errors) = server.run(&[], input.as_bytes());
        assert_eq!(status, 2);
        assert!(errors.starts_with(line), "{errors}");
    }
}

/// A server that answers for another key, or with something else, has not answered.
#[test]
fn the_value_is_that_of_the_key() {
    let messages = [
        frame(INFO, b"l\x001"),
        frame(INFO, b"l"),
        frame(PONG, b"k\x001"),
    ];
    let path = fake("other-key", move |number, mut stream| {
        await_frame(&mut stream, READ);
        let message = &messages[number % messages.len()];
        stream.write_all(message).expect("written");
        let _ = stream.read_to_end(&mut Vec::new());
    });
    let line = "infod3: connection lost: another answer than the key's INFO\n";
    for _ in 0..3 {
        let ended = common::run(&path, &["read", "k"], b"");
        assert_eq!(ended, (5, String::new(), line.to_owned()));
    }
}

#[test]
fn a_value_from_standard_input_may_be_of_any_bytes() {
    for server in both("bytes") {
        let value: Vec<u8> = (0..=255).collect();
        let child = server.spawn(&["write", "--stdin", "k"]);
        assert_eq!(finish_with(child, &value), done(""));
        let output = server.program().args(["--raw", "read", "k"]).output();
        let mut expected = value;
        expected.push(b'\n');
        assert_eq!(output.expect("its output").stdout, expected);
    }
}

//! `infod3 line`: the text line of a command, without any server.

mod common;

use common::{bare_program, bytes, done, finish_with, run_bare, server};
use std::io::{Read, Write};

/// What is printed is what a server reads, so the library itself is asked.
fn written(packet: &[u8]) -> String {
    let mut out = vec![0; 300_000];
    let reply = infod3::raw::write_command(2, packet, &mut out);
    assert_eq!(reply.answer, 0);
    out.truncate(reply.count);
    String::from_utf8(out).expect("UTF-8")
}

#[test]
fn all_eight_commands() {
    let table: [(&[&str], &str, &[u8]); 18] = [
        (&["hello"], "HELLO 0 \"\"\n", b"\0\0"),
        (&["hello", "7"], "HELLO 7 \"\"\n", b"\0\x07"),
        (&["hello", "007"], "HELLO 7 \"\"\n", b"\0\x07"),
        (
            &["hello", "255", "it is me"],
            "HELLO 255 \"it is me\"\n",
            b"\0\xffit is me",
        ),
        (
            &["sub", "site.*.state"],
            "SUB \"site.*.state\"\n",
            b"\x01site.*.state",
        ),
        (&["sub", ""], "SUB \"\"\n", b"\x01"),
        (&["unsub", "a\\*"], "UNSUB \"a\\134*\"\n", b"\x02a\\*"),
        (&["read", "site 7"], "READ \"site 7\"\n", b"\x03site 7"),
        (&["write", "k", "v"], "WRITE \"k\" \"v\"\n", b"\x04k\0v"),
        (&["write", "k", ""], "WRITE \"k\" \"\"\n", b"\x04k\0"),
        (&["write", "k", "-5"], "WRITE \"k\" \"-5\"\n", b"\x04k\0-5"),
        (
            &["write", "say \"x\"", "a\\b\r\nc\td"],
            "WRITE \"say \\042x\\042\" \"a\\134b\\015\\012c\td\"\n",
            b"\x04say \"x\"\0a\\b\r\nc\td",
        ),
        (
            &["write", "Köln", "ö"],
            "WRITE \"Köln\" \"ö\"\n",
            "\x04Köln\0ö".as_bytes(),
        ),
        (&["delete", "k"], "WRITE \"k\"\n", b"\x04k"),
        (&["begin"], "BEGIN\n", b"\x05"),
        (&["commit"], "COMMIT\n", b"\x06"),
        (&["ping"], "PING \"\"\n", b"\x07"),
        (&["ping", "a b"], "PING \"a b\"\n", b"\x07a b"),
    ];
    for (words, line, packet) in table {
        assert_eq!(written(packet), line);
        assert_eq!(run_bare(&[&["line"], words].concat()), done(line));
    }
    // Words and letters are those of the lines that the program takes.
    for words in [["line", "w", "k", "v"], ["line", "WRITE", "k", "v"]] {
        assert_eq!(run_bare(&words), done("WRITE \"k\" \"v\"\n"));
    }
    // The options of a connection do not matter, nor does a server that is not there.
    let words = [
        "--wire=framed",
        "--unix=/nonexistent/socket",
        "line",
        "begin",
    ];
    assert_eq!(run_bare(&words), done("BEGIN\n"));
    let dashed = ["line", "write", "--", "--k", "--v"];
    assert_eq!(run_bare(&dashed), done("WRITE \"--k\" \"--v\"\n"));
}

/// Bytes that are no text are printed as they are, as the server takes them.
#[test]
fn any_byte_can_be_said() {
    let value: Vec<u8> = (0..=255).collect();
    let child = bare_program()
        .args(["line", "write", "--stdin", "k"])
        .spawn();
    let mut child = child.expect("infod3 runs");
    let mut stdin = child.stdin.take().expect("its input");
    stdin.write_all(&value).expect("written");
    drop(stdin);
    let mut line = Vec::new();
    let mut stdout = child.stdout.take().expect("its output");
    stdout.read_to_end(&mut line).expect("read");
    assert!(child.wait().expect("a status").success());
    let mut out = vec![0; 2000];
    let packet = [b"\x04k\0", value.as_slice()].concat();
    let reply = infod3::raw::write_command(2, &packet, &mut out);
    assert_eq!(line, out[..reply.count]);
    let mut program = bare_program();
    let output = program
        .args(["line", "read"])
        .arg(bytes(b"\xff\xfe"))
        .output();
    assert_eq!(output.expect("its output").stdout, b"READ \"\xff\xfe\"\n");
}

/// Nothing is printed but on standard error, and the status is 2.
#[test]
fn what_is_refused_is_said() {
    let long = "x".repeat(65_536);
    let no_pattern = "is no PATTERN, such as site.*.state or site.(7|8).*";
    let too_long = "too long: a command holds at most 65535 bytes, so key and value together at \
                    most 65534";
    let refused: [(&[&str], String); 8] = [
        (&["sub", "**"], format!("** {no_pattern}")),
        (&["unsub", "a|b"], format!("a|b {no_pattern}")),
        (&["sub", "*(a b)"], format!("\"*(a b)\" {no_pattern}")),
        (
            &["sub", &long[..256]],
            "too long: a PATTERN has at most 255 bytes".to_owned(),
        ),
        (&["write", "k", &long[..65_534]], too_long.to_owned()),
        (&["delete", &long], too_long.to_owned()),
        (&["read", &long], too_long.to_owned()),
        (&["ping", &long], too_long.to_owned()),
    ];
    for (words, said) in refused {
        let ended = run_bare(&[&["line"], words].concat());
        assert_eq!(ended, (2, String::new(), format!("infod3: {said}\n")));
    }
    let child = bare_program()
        .args(["line", "write", "--stdin", "k"])
        .spawn();
    let ended = finish_with(child.expect("infod3 runs"), &[b'x'; 70_000]);
    assert_eq!(ended, (2, String::new(), format!("infod3: {too_long}\n")));
    let commands = "read, write, delete, sub, unsub, begin, commit, ping and hello";
    let wrong: [(&[&str], String); 10] = [
        (&[], "line wants a COMMAND".to_owned()),
        (
            &["wrte", "k"],
            format!("unknown command wrte; commands are {commands}"),
        ),
        (
            &["quit"],
            format!("unknown command quit; commands are {commands}"),
        ),
        (
            &["help"],
            format!("unknown command help; commands are {commands}"),
        ),
        (
            &["write", "k"],
            "write wants a VALUE (or --stdin)".to_owned(),
        ),
        (&["read"], "read wants a KEY".to_owned()),
        (
            &["begin", "x"],
            "begin wants nothing behind it, not x".to_owned(),
        ),
        (
            &["hello", "256"],
            "hello wants a VERSION from 0 to 255, not 256".to_owned(),
        ),
        (
            &["hello", ""],
            "hello wants a VERSION from 0 to 255, not \"\"".to_owned(),
        ),
        (&["--stdin", "read", "k"], "--stdin is for write".to_owned()),
    ];
    for (words, said) in wrong {
        let ended = run_bare(&[&["line"], words].concat());
        let said = format!("infod3: {said}; infod3 --help shows how\n");
        assert_eq!(ended, (2, String::new(), said));
    }
}

/// A line that is printed does what the command does.
#[test]
fn a_server_takes_the_line() {
    let server = server("takes");
    let mut stream = std::os::unix::net::UnixStream::connect(&server.path).expect("connected");
    for words in [
        &["line", "write", "site 7", "say \"stop\" \\ now"][..],
        &["line", "read", "site 7"],
    ] {
        let (status, line, errors) = run_bare(words);
        assert_eq!((status, errors.as_str()), (0, ""));
        stream.write_all(line.as_bytes()).expect("written");
    }
    stream.shutdown(std::net::Shutdown::Write).expect("ended");
    let mut answer = String::new();
    stream.read_to_string(&mut answer).expect("an answer");
    let info = "INFO \"site 7\" \"say \\042stop\\042 \\134 now\"\r\n";
    assert_eq!(answer, info);
}

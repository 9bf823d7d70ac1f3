//! What the program prints is unambiguous, and is printed or is an error.

mod common;

use common::{both, bytes, done, Lines, Running};
use std::fs::OpenOptions;
use std::io::{BufRead, BufReader, Read, Write};
use std::os::fd::OwnedFd;
use std::os::unix::net::UnixStream;
use std::process::{Child, Command, Stdio};
use std::sync::atomic::{AtomicUsize, Ordering};
use std::sync::Arc;
use std::time::Duration;

/// A value that would look like two lines, the second an all-clear.
const FORGED: &str = "x\nsite.7.state clear";

#[test]
fn a_value_cannot_look_like_another_line() {
    for server in both("forged") {
        assert_eq!(server.run(&["write", "note", FORGED], b""), done(""));
        let shown = "\"x\\012site.7.state clear\"";
        let watched = format!("note {shown}\n");
        assert_eq!(
            server.run(&["--count", "1", "watch", "*"], b""),
            done(&watched)
        );
        assert_eq!(
            server.run(&["read", "note"], b""),
            done(&format!("{shown}\n"))
        );
        let lines = format!("\"note\" {shown}\n");
        assert_eq!(server.run(&[], b"read note\n"), done(&lines));
    }
}

#[test]
fn a_space_in_a_key_is_no_field_end() {
    for server in both("spaces") {
        assert_eq!(server.run(&["write", "a b", "c"], b""), done(""));
        let watch = &["--count", "2", "watch", "*"];
        let child = server.spawn(watch);
        let mut lines = Lines::of(child);
        assert_eq!(lines.output(), "\"a b\" c");
        assert_eq!(server.run(&["write", "a", "b c"], b""), done(""));
        assert_eq!(lines.output(), "a \"b c\"");
        assert_eq!(lines.status(), 0);
    }
}

#[test]
fn an_empty_value_is_no_deletion() {
    for server in both("empty") {
        // The line of this key shows that the pattern before it is subscribed to.
        assert_eq!(server.run(&["write", "ready", "1"], b""), done(""));
        let watch = Lines::of(server.spawn(&["--count", "3", "watch", "e", "ready"]));
        assert_eq!(watch.output(), "ready 1");
        assert_eq!(server.run(&["write", "e", ""], b""), done(""));
        assert_eq!(watch.output(), "e \"\"");
        assert_eq!(server.run(&["read", "e"], b""), done("\"\"\n"));
        assert_eq!(server.run(&["delete", "e"], b""), done(""));
        assert_eq!(watch.output(), "e");
    }
}

#[test]
fn an_empty_value_is_no_deletion_in_json() {
    for server in both("empty-json") {
        assert_eq!(server.run(&["write", "ready", "1"], b""), done(""));
        let watch = Lines::of(server.spawn(&["--json", "watch", "e", "ready"]));
        assert_eq!(watch.output(), r#"{"key":"ready","value":"1"}"#);
        assert_eq!(server.run(&["write", "e", ""], b""), done(""));
        assert_eq!(watch.output(), r#"{"key":"e","value":""}"#);
        assert_eq!(server.run(&["delete", "e"], b""), done(""));
        assert_eq!(watch.output(), r#"{"key":"e","deleted":true}"#);
    }
}

#[test]
fn who_wants_the_bytes_gets_them() {
    for server in both("raw") {
        assert_eq!(server.run(&["write", "a b", FORGED], b""), done(""));
        let value = format!("{FORGED}\n");
        assert_eq!(server.run(&["--raw", "read", "a b"], b""), done(&value));
        let pair = format!("a b {value}");
        let watch = &["--raw", "--count", "1", "watch", "*"];
        assert_eq!(server.run(watch, b""), done(&pair));
        assert_eq!(server.run(&["--raw"], b"read \"a b\"\n"), done(&pair));
    }
}

/// Keys and values with all that JSON, a terminal or a line could stumble over.
const NASTY: [(&[u8], &[u8]); 8] = [
    (b"plain", b"value"),
    (b"quotes \" and \\", b"\"\\\\\"\n\r\t"),
    (b"control", b"\0\x01\x08\x0c\x1b[2J\x7f"),
    (
        "K\u{f6}ln".as_bytes(),
        "\u{2028}\u{2029}\u{202e}\u{85}".as_bytes(),
    ),
    (b"beyond", "\u{1f329}\u{e0041}\u{ffff}".as_bytes()),
    (b"bytes", b"\xff\xfe\0"),
    (b"\xc3", b"\xed\xa0\x80"),
    (b"empty", b""),
];

fn write_nasty(server: &Running) {
    for (key, value) in NASTY {
        let child = server
            .program()
            .args(["write", "--stdin", "--"])
            .arg(bytes(key))
            .spawn();
        let child = child.expect("infod3 runs");
        assert_eq!(common::finish_with(child, value), done(""));
    }
}

#[test]
fn json_is_one_object_to_a_line() {
    for server in both("json") {
        write_nasty(&server);
        let watch = &["--json", "--count", "8", "watch", "*"];
        let (status, output, errors) = server.run(watch, b"");
        assert_eq!((status, errors.as_str()), (0, ""));
        let mut expected = [
            r#"{"key":"beyond","value":"\ud83c\udf29\udb40\udc41\uffff"}"#,
            r#"{"key":"bytes","value_base64":"//4A"}"#,
            r#"{"key":"control","value":"\u0000\u0001\u0008\u000c\u001b[2J\u007f"}"#,
            r#"{"key":"empty","value":""}"#,
            r#"{"key":"plain","value":"value"}"#,
            r#"{"key":"quotes \" and \\","value":"\"\\\\\"\n\r\t"}"#,
            r#"{"key":"K\u00f6ln","value":"\u2028\u2029\u202e\u0085"}"#,
            r#"{"key_base64":"ww==","value_base64":"7aCA"}"#,
        ];
        expected.sort();
        let mut lines: Vec<&str> = output.lines().collect();
        lines.sort();
        assert_eq!(lines, expected);
        let pong = "{\"pong\":\"p\"}\n";
        assert_eq!(server.run(&["--json"], b"ping p\n"), done(pong));
    }
}

/// Reads lines of JSON and writes key and value of each in hexadecimal.
const SCRIPT: &str = "\
import base64, json
def part(line, name):
    coded = line.get(name + '_base64')
    return line[name].encode() if coded is None else base64.b64decode(coded)
for line in open(0, encoding='utf-8', newline='\\n'):
    line = json.loads(line)
    print(part(line, 'key').hex(), part(line, 'value').hex())
";

/// Where python3 is installed, it reads each line back into the very bytes.
#[test]
fn json_is_read_by_others() {
    for server in both("python") {
        write_nasty(&server);
        let (_, output, _) = server.run(&["--json", "--count", "8", "watch", "*"], b"");
        let python = Command::new("python3")
            .args(["-c", SCRIPT])
            .stdin(Stdio::piped())
            .stdout(Stdio::piped())
            .stderr(Stdio::piped())
            .spawn();
        let Ok(python) = python else {
            eprintln!("there is no python3: not tried");
            return;
        };
        let (status, read, errors) = common::finish_with(python, output.as_bytes());
        assert_eq!((status, errors.as_str()), (0, ""));
        let hex = |bytes: &[u8]| -> String { bytes.iter().map(|b| format!("{b:02x}")).collect() };
        let mut expected = NASTY.map(|(key, value)| format!("{} {}", hex(key), hex(value)));
        expected.sort();
        let mut read: Vec<&str> = read.lines().collect();
        read.sort();
        assert_eq!(read, expected);
    }
}

/// All that prints, and input for it.
const PRINTING: [(&[&str], &[u8]); 8] = [
    (&["read", "k"], b""),
    (&["--count", "1", "watch", "k"], b""),
    (&["watch", "k"], b""),
    (&["ping"], b""),
    (&["line", "ping"], b""),
    (&["--help"], b""),
    (&["--version"], b""),
    (&[], b"ping\nread k\n"),
];

/// Runs a program with this standard output.
fn run_onto(server: &Running, arguments: &[&str], input: &[u8], output: OwnedFd) -> (i32, String) {
    let child = server
        .program()
        .args(arguments)
        .stdout(Stdio::from(output))
        .spawn();
    let child = child.expect("infod3 runs");
    let (status, _, errors) = common::finish_with(child, input);
    (status, errors)
}

fn full() -> OwnedFd {
    let full = OpenOptions::new().write(true).open("/dev/full");
    full.expect("/dev/full").into()
}

#[test]
fn lost_output_is_an_error() {
    for server in both("full") {
        assert_eq!(server.run(&["write", "k", "v"], b""), done(""));
        for (arguments, input) in PRINTING {
            let (status, errors) = run_onto(&server, arguments, input, full());
            assert_eq!(status, 6, "{arguments:?}: {errors}");
            let line = "infod3: cannot write to standard output: No space left on device";
            assert!(errors.starts_with(line), "{errors}");
            assert_eq!(errors.lines().count(), 1, "{errors}");
        }
        // A descriptor that cannot be written to at all.
        let null = OpenOptions::new().read(true).open("/dev/null");
        let null = null.expect("/dev/null").into();
        let (status, errors) = run_onto(&server, &["read", "k"], b"", null);
        assert_eq!(status, 6, "{errors}");
    }
}

#[test]
fn a_reader_that_is_gone_ends_the_program_quietly() {
    for server in both("pipe") {
        assert_eq!(server.run(&["write", "k", "v"], b""), done(""));
        for (arguments, input) in PRINTING {
            let (end, other) = UnixStream::pair().expect("a pair");
            drop(other);
            let ended = run_onto(&server, arguments, input, end.into());
            assert_eq!(ended, (0, String::new()), "{arguments:?}");
        }
    }
}

/// Reads one line of a program's output and closes it, as `head -1` does.
fn take_a_line(child: &mut Child) -> String {
    let mut line = String::new();
    let output = child.stdout.take().expect("its output");
    BufReader::new(output).read_line(&mut line).expect("a line");
    line
}

/// The key does not change any more, and the server has nothing to say.
#[test]
fn watch_ends_when_its_reader_is_gone() {
    for server in both("quiet") {
        assert_eq!(server.run(&["write", "k", "v"], b""), done(""));
        let mut child = server.spawn(&["--keepalive", "1000", "watch", "k"]);
        assert_eq!(take_a_line(&mut child), "k v\n");
        assert_eq!(common::finish(child), done(""));
    }
}

/// The server is gone as well, so that nothing is left to write.
#[test]
fn watch_ends_without_a_reader_and_without_a_server() {
    let mut child = common::spawn(&common::path("nobody-at-all"), &["watch", "k"]);
    let mut errors = BufReader::new(child.stderr.take().expect("its errors"));
    let mut line = String::new();
    errors.read_line(&mut line).expect("a line");
    assert!(line.ends_with("; trying again\n"), "{line}");
    drop(child.stdout.take());
    assert_eq!(common::finish(child), done(""));
}

/// Writes all of it in parts, and counts them.
fn write_counted(mut to: impl Write, bytes: &[u8], parts: &AtomicUsize) {
    for part in bytes.chunks(4096) {
        to.write_all(part).expect("taken");
        parts.fetch_add(1, Ordering::Relaxed);
    }
}

/// Waits until a number stays the same for a while.
fn await_rest(number: &AtomicUsize) {
    let mut last = usize::MAX;
    while number.swap(0, Ordering::Relaxed) != last {
        last = 0;
        std::thread::sleep(Duration::from_millis(100));
    }
}

/// Another program may have made the output nonblocking; it is waited for all the same.
#[test]
fn a_slow_reader_gets_all() {
    for server in both("slow") {
        let (output, mut reader) = UnixStream::pair().expect("a pair");
        output.set_nonblocking(true).expect("nonblocking");
        let mut child = server
            .program()
            .stdout(Stdio::from(OwnedFd::from(output)))
            .spawn()
            .expect("infod3 runs");
        let input = child.stdin.take().expect("its input");
        let parts = Arc::new(AtomicUsize::new(1));
        let counted = Arc::clone(&parts);
        let lines = "ping 0123456789\n".repeat(60_000);
        let writer = std::thread::spawn(move || write_counted(input, lines.as_bytes(), &counted));
        // No more of the input is taken when the output is full.
        await_rest(&parts);
        let timeout = reader.set_read_timeout(Some(common::PATIENCE));
        timeout.expect("a time to wait at most");
        let mut read = String::new();
        let ended = reader.read_to_string(&mut read);
        if ended.is_err() {
            let _ = child.kill();
        }
        ended.expect("all of the output, in time");
        writer.join().expect("all of the input is taken");
        assert_eq!(common::finish(child), done(""));
        let expected = "pong \"0123456789\"\n".repeat(60_000);
        assert!(read == expected, "{} bytes", read.len());
    }
}

/// Where standard error cannot be written to either, the status still says it.
#[test]
fn lost_errors_leave_the_status() {
    for server in both("errors") {
        for (arguments, status) in [(&["read"][..], 2), (&["read", "k"], 1), (&["ping"], 6)] {
            let child = server
                .program()
                .args(arguments)
                .stdout(full())
                .stderr(full())
                .spawn();
            let (found, _, _) = common::finish(child.expect("infod3 runs"));
            assert_eq!(found, status, "{arguments:?}");
        }
    }
}

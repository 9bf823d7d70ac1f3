use super::*;
use crate::options::{Limits, UnixRights};
use infod3::Form;
use std::os::unix::ffi::OsStringExt;
use std::time::Duration;

fn parsed(arguments: &[&[u8]]) -> Result<Request, String> {
    let arguments = arguments.iter().map(|bytes| bytes.to_vec());
    parse(arguments.map(OsString::from_vec))
}

fn options(line: &str) -> Result<Options, String> {
    let words: Vec<&[u8]> = line.split_whitespace().map(str::as_bytes).collect();
    match parsed(&words)? {
        Request::Serve(options) => Ok(*options),
        other => Err(format!("{other:?}")),
    }
}

#[test]
fn without_options_it_listens_on_loopback() {
    let options = options("").unwrap();
    let loopback = Place::Tcp("127.0.0.1:7070".parse().unwrap());
    assert_eq!(options.listeners.len(), 2);
    assert_eq!(options.listeners[0].place, loopback);
    assert_eq!(options.sizes, Sizes::LARGEST);
    assert_eq!(options.first_message, Some(Duration::from_secs(30)));
}

#[test]
fn the_default_listeners_take_the_options_of_their_sorts() {
    let options = options("--read-only-tcp --reserve-unix=4 --unix-mode=0666").unwrap();
    let [tcp, unix] = &options.listeners[..] else {
        panic!("two listeners");
    };
    assert_eq!((tcp.access, tcp.reserve), (Access::ReadOnly, 0));
    assert_eq!((unix.access, unix.reserve), (Access::Full, 4));
    assert_eq!(unix.rights.mode, 0o666);
}

#[test]
fn every_option_is_read() {
    let line = "--tcp [::1]:0 --tcp localhost:9 --unix a --seqpacket b --read-only-tcp \
                --unix-mode 0660 --unix-owner root:7 --slots 2 --store 256 --queue 1024 \
                --record 300 --quiet --stats 5 --first-message 7 --metrics m --reserve-unix 2 \
                --longest-key 100 --longest-message 200 --longest-pattern 60 \
                --longest-transaction 8";
    for line in [line.to_owned(), with_equals(line)] {
        let options = options(&line).unwrap();
        assert_eq!(options.listeners.len(), 4);
        assert_eq!(options.listeners[1].access, Access::ReadOnly);
        assert_eq!(options.listeners[2].access, Access::Full);
        let rights = UnixRights {
            mode: 0o660,
            uid: Some(0),
            gid: Some(7),
        };
        assert_eq!(options.listeners[3].rights, rights);
        let reserves: Vec<usize> = options.listeners.iter().map(|l| l.reserve).collect();
        assert_eq!(reserves, [0, 0, 2, 0]);
        let limits = Limits {
            key: 100,
            message: 200,
            pattern: 60,
            transaction: 8,
        };
        assert_eq!(options.listeners[0].limits, limits);
        assert_eq!(options.sizes, Sizes::new(2, 256, 1024, 300).unwrap());
        assert_eq!(options.stats, Some(Duration::from_secs(5)));
        assert_eq!(options.metrics_period, Duration::from_secs(5));
        assert_eq!(options.first_message, Some(Duration::from_secs(7)));
        assert_eq!(options.metrics, Some("m".into()));
        assert!(options.quiet);
    }
    assert_eq!(options("--first-message 0").unwrap().first_message, None);
}

/// The same line with every value attached to its option.
fn with_equals(line: &str) -> String {
    let words = line.split_whitespace();
    let joined = words.map(|word| match word.strip_prefix("--") {
        Some(_) => format!(" {word}"),
        None => format!("={word}"),
    });
    joined.collect()
}

#[test]
fn each_listener_has_its_own_words() {
    let line = "--unix a --tcp 127.0.0.1:1,read-only,reserve=3 --tcp 127.0.0.1:2,hang-up \
                --unix b,,c,hang-up,read-write,mode=0666,owner=3:4,longest-key=0 \
                --seqpacket d,longest-message=9,longest-pattern=7,longest-transaction=6,reserve=1 --read-only-unix --reserve-tcp 2 \
                --longest-key 5 --unix-mode 0640 --unix-owner :8";
    let options = options(line).unwrap();
    let [a, one, two, b, d] = &options.listeners[..] else {
        panic!("five listeners");
    };
    assert_eq!(a.access, Access::ReadOnly);
    assert_eq!((a.rights.mode, a.rights.gid), (0o640, Some(8)));
    assert_eq!((one.access, one.reserve), (Access::ReadOnly, 3));
    assert_eq!((two.access, two.reserve), (Access::Full, 2));
    assert_eq!(b.place, Place::Unix("b,c".into()));
    let hang_up: Vec<bool> = options.listeners.iter().map(|l| l.hang_up).collect();
    assert_eq!(hang_up, [false, false, true, true, false]);
    let forms = [Form::Stream, Form::StreamHangUp, Form::Packets];
    assert_eq!([a, b, d].map(ListenerOptions::form), forms);
    let (uid, gid, mode) = (Some(3), Some(4), 0o666);
    assert_eq!(b.rights, UnixRights { mode, uid, gid });
    assert_eq!((b.access, b.limits), (Access::Full, Limits::NONE));
    assert_eq!((d.reserve, d.limits.message, d.limits.key), (1, 9, 5));
    assert_eq!((d.limits.pattern, d.limits.transaction), (7, 6));
    assert_eq!(d.access, Access::Full);
}

#[test]
fn a_misspelt_word_is_never_part_of_a_path() {
    let start = |line: &str, error: &str| {
        let found = options(line).unwrap_err();
        assert!(found.starts_with(error), "{line}: {found}");
    };
    for word in [
        "readonly",
        "read-only=1",
        "",
        "Read-only",
        " read-only",
        "mode",
        "reserve",
        "hangup",
        "hang-up=1",
        "x",
    ] {
        let value = format!("--unix=/tmp/a,{word}");
        let error = parsed(&[value.as_bytes()]).unwrap_err();
        let expected = format!("--unix: {word:?} is none of the words read-only, ");
        assert!(error.starts_with(&expected), "{error}");
        assert!(error.ends_with("; a comma in a path is written ,,"));
    }
    start("--tcp 127.0.0.1:1,mode=0600", "--tcp: a port has no file");
    start("--tcp 127.0.0.1:1,owner=root", "--tcp: a port has no file");
    start("--tcp ,read-only", "--tcp wants a place to listen at");
    start("--unix=", "--unix wants a place to listen at");
    start(
        "--seqpacket a,hang-up",
        "--seqpacket: hang-up is for text lines; with packets every refusal closes the client",
    );
    start("--unix a,hang-up,hang-up", "--unix: hang-up stands behind");
    start(
        "--unix a,read-only,read-write",
        "--unix: read-write stands behind",
    );
    start(
        "--unix a,mode=9",
        "--unix ..,mode wants 0000 to 0777 in octal",
    );
    start(
        "--unix a,reserve=-1",
        "--unix ..,reserve wants a number, not -1",
    );
    start("--seqpacket a,owner=n0body", "there is no user n0body");
    start(
        "--unix a,reserve=30 --tcp 127.0.0.1:1,reserve=3",
        "the listeners reserve 33 slots",
    );
    start(
        "--slots 2 --reserve-unix 3",
        "the listeners reserve 3 slots and there are 2",
    );
    assert!(options("--slots 3 --reserve-unix 3").is_ok());
}

#[test]
fn paths_are_bytes() {
    let path = OsString::from_vec(b"/x/\xFF\xC0".to_vec());
    let lines: [&[&[u8]]; 3] = [
        &[b"--unix", b"/x/\xFF\xC0", b"--metrics=/x/\xFF\xC0"],
        &[b"--unix=/x/\xFF\xC0", b"--metrics", b"/x/\xFF\xC0"],
        &[
            b"--unix=/x/\xFF\xC0,read-only",
            b"--metrics",
            b"/x/\xFF\xC0",
        ],
    ];
    for line in lines {
        let Ok(Request::Serve(options)) = parsed(line) else {
            panic!("a server");
        };
        assert_eq!(options.listeners[0].place, Place::Unix(path.clone().into()));
        assert_eq!(options.metrics.as_deref(), Some(path.as_ref()));
    }
    let error = parsed(&[b"--slots=\xFF"]).unwrap_err();
    assert_eq!(error, "--slots: \u{FFFD} is not UTF-8");
}

#[test]
fn help_and_version_have_two_names() {
    for (long, short, request) in [
        (&b"--help"[..], &b"-h"[..], Request::Help),
        (b"--version", b"-V", Request::Version),
    ] {
        assert_eq!(parsed(&[long]), Ok(request.clone()));
        assert_eq!(parsed(&[b"--quiet", short, b"--nonsense"]), Ok(request));
    }
}

#[test]
fn wrong_options_are_said_in_one_line() {
    let table = [
        ("--slots 0", "the number of slots 0 is not 1 to 32"),
        ("--slots 33", "the number of slots 33 is not 1 to 32"),
        ("--store 255", "the store room 255 is not 256 to 1048576"),
        (
            "--queue 1048577",
            "the queue room 1048577 is not 1024 to 1048576",
        ),
        ("--record x", "--record wants a number, not x"),
        (
            "--tcp 10.0.0.1:70",
            "10.0.0.1:70 is not loopback; --allow-remote allows it",
        ),
        (
            "--tcp 7070",
            "7070 is no address and port, such as 127.0.0.1:7070",
        ),
        ("--unix", "--unix wants a value behind it"),
        (
            "--unix-mode 0999",
            "--unix-mode wants 0000 to 0777 in octal, not 0999",
        ),
        (
            "--unix-owner n0body:",
            "there is no user n0body in /etc/passwd",
        ),
        ("--stats 0", "--stats wants 1 to 86400 seconds, not 0"),
        (
            "--first-message 86401",
            "--first-message wants 0 to 86400 seconds, not 86401",
        ),
        ("--metrics=", "--metrics wants a path"),
        ("--quiet=yes", "--quiet takes no value"),
        ("--help=me", "--help takes no value"),
        ("--loud", "unknown option --loud; --help shows all"),
        ("--loud=1", "unknown option --loud; --help shows all"),
        ("-q=1", "unknown option -q=1; --help shows all"),
    ];
    for (line, error) in table {
        assert_eq!(options(line), Err(error.to_owned()));
    }
    assert!(options("--tcp 10.0.0.1:70 --allow-remote").is_ok());
}

//! The examples of document 01, those of the decisions on its open points, and the slips that
//! it names; and the typing errors of document 02 (P2), after which a text client stays open.

use reference::server::Transaction;
use reference::{matches, Match, Reply, Server};

fn server() -> Server {
    Server::set_up(3, 1_024, 1_024, 256).expect("sizes in range")
}

/// A server with slots 0 and 1 open in a form.
fn opened(form: usize) -> Server {
    let mut server = server();
    for slot in 0..2 {
        assert_eq!(server.open(slot, form), reply(0, 0));
    }
    server
}

/// A server with slots 0 and 1 open in form 1.
fn streams() -> Server {
    opened(1)
}

fn reply(answer: u32, count: usize) -> Reply {
    Reply { answer, count }
}

/// All that a slot's queue holds, one message behind the other.
fn drain(server: &mut Server, slot: usize) -> Vec<u8> {
    let mut all = Vec::new();
    loop {
        match server.take(slot, usize::MAX) {
            (Reply { answer: 0, .. }, message) => all.extend(message),
            _ => return all,
        }
    }
}

fn drain_text(server: &mut Server, slot: usize) -> String {
    String::from_utf8(drain(server, slot)).expect("text")
}

/// Feeds a line with its LF, which has to be consumed whole.
fn line(server: &mut Server, slot: usize, line: &str) -> u32 {
    let input = format!("{line}\n");
    let reply = server.feed(slot, input.as_bytes());
    assert_eq!(reply.count, input.len(), "consumed of {line}");
    reply.answer
}

/// The answer to one line of a text client.
fn alone(text: &str) -> u32 {
    let mut server = streams();
    assert_eq!(line(&mut server, 0, ""), 0);
    line(&mut server, 0, text)
}

fn outcome(pattern: &str, key: &str) -> (bool, usize) {
    let found = matches(pattern.as_bytes(), key.as_bytes());
    assert_eq!(found.answer, 0, "{pattern} is valid");
    (found.matched, found.steps)
}

fn is_invalid(pattern: &str) -> bool {
    matches(pattern.as_bytes(), b"a")
        == Match {
            answer: 101,
            matched: false,
            steps: 0,
        }
}

#[test]
fn checked_table() {
    let table = [
        ("iface.*.mtu", "iface.eth0.mtu", true, 14),
        ("iface.*.mtu", "iface.bridge0.port1.mtu", false, 15),
        ("iface.*", "iface.bridge0.port1.mtu", true, 7),
        ("iface.*", "iface.", true, 7),
        ("(a|ab)c", "abc", false, 2),
        ("(ab|a)c", "ac", true, 4),
        ("", "", true, 0),
        ("", "a", false, 0),
        ("*?", "xy", false, 1),
        ("*.b", "a.x.b", false, 3),
        ("*", "", true, 1),
        ("((((a))))", "a", true, 1),
    ];
    for (pattern, key, matched, steps) in table {
        assert_eq!(
            outcome(pattern, key),
            (matched, steps),
            "{pattern} on {key}"
        );
    }
}

#[test]
fn pattern_syntax() {
    for pattern in [
        "(((((a)))))",
        "**",
        "*(a)",
        "a\\",
        "a|b",
        "(a",
        "a)",
        "(a))",
        "*\\",
        "|",
    ] {
        assert!(is_invalid(pattern), "{pattern}");
    }
    for pattern in [
        "\\**", "*?*", "*?(a)", "*\\*", "()", "(|)", "(a|)", "((a)(b))", "\\(", "*\\(",
    ] {
        assert!(!is_invalid(pattern), "{pattern}");
    }
}

#[test]
fn pattern_meaning() {
    assert_eq!(outcome("(|a)", "a"), (false, 0));
    assert!(!outcome("(a*)b", "ab").0);
    assert!(!outcome("(a*)b", "axb").0);
    assert_eq!(outcome("*?*", "abc"), (true, 2));
    assert_eq!(outcome("*?(a)", "ba"), (true, 2));
    assert_eq!(outcome("*\\*", "ab*"), (true, 3));
    assert_eq!(outcome("a", ""), (false, 1));
    assert_eq!(outcome("?", ""), (false, 1));
    assert_eq!(outcome("*a", "xyz"), (false, 4));
    assert_eq!(outcome("((a|b)x|by)", "by"), (true, 5));
    assert_eq!(outcome("a(*)", "abc"), (true, 2));
    assert_eq!(
        matches(b"?", b"\0"),
        Match {
            answer: 0,
            matched: true,
            steps: 1
        }
    );
}

#[test]
fn match_asked_by_itself_refuses_101_before_102() {
    let refused = |answer| Match {
        answer,
        matched: false,
        steps: 0,
    };
    let mut invalid = vec![b'a'; 255];
    invalid.push(b'\\');
    assert_eq!(matches(&invalid, b"a"), refused(101));
    assert_eq!(matches(&[b'a'; 256], b"a"), refused(102));
    assert_eq!(matches(b"a", &[b'a'; 65_536]), refused(102));
    assert_eq!(matches(b"**", &[b'a'; 65_536]), refused(101));
    assert_eq!(matches(&[b'a'; 255], &[b'a'; 255]).steps, 255);
    assert_eq!(matches(b"*b", &[b'a'; 65_535]).steps, 65_536);
}

#[test]
fn script_program() {
    let mut server = Server::set_up(2, 1_024, 1_024, 256).expect("sizes in range");
    server.open(0, 1);
    server.open(1, 1);
    let script = [
        "1 SUB site.*.state",
        "0 WRITE site.7.state alert",
        "0 BEGIN",
        "0 WRITE site.7.km 4",
        "0 WRITE site.7.state clear",
        "1 READ site.7.km",
        "0 COMMIT",
        "1 PING x",
    ];
    let mut output = String::new();
    for fed in script {
        let slot = usize::from(fed.as_bytes()[0] - b'0');
        assert_eq!(line(&mut server, slot, &fed[2..]), 0);
        for slot in 0..2 {
            let text = drain_text(&mut server, slot);
            text.split_inclusive("\r\n")
                .for_each(|m| output += &format!("{slot} {m}"));
        }
    }
    let expected = "1 INFO \"site.7.state\" \"alert\"\r\n1 INFO \"site.7.km\"\r\n\
                    1 INFO \"site.7.state\" \"clear\"\r\n1 PONG \"x\"\r\n";
    assert_eq!(output, expected);
}

#[test]
fn framed_examples() {
    let mut server = streams();
    assert_eq!(server.feed(0, b"\x07\0\x01x"), reply(0, 4));
    assert_eq!(drain(&mut server, 0), b"\x82\0\x01x");
    assert_eq!(server.feed(0, b"\0\0\x01\x05"), reply(0, 4));
    assert_eq!(drain(&mut server, 0), b"\x80\0\x01\0");
    assert_eq!(server.feed(0, b"\x04\0\x02k\0"), reply(0, 5));
    assert_eq!(server.store().get(b"k"), Some(&b""[..]));
    assert_eq!(server.feed(0, b"\x04\0\x01k"), reply(0, 4));
    assert_eq!(server.store().get(b"k"), None);
}

#[test]
fn quoting() {
    let mut server = streams();
    assert_eq!(line(&mut server, 0, "w k \"a\\040b\""), 0);
    assert_eq!(server.store().get(b"k"), Some(&b"a b"[..]));
    let bad = [
        "\"\\400\"",
        "\"\\8\"",
        "\"a\"\"b\"",
        "\"a\"b",
        "\"a",
        "\"\\\"",
        "\"\\12\"",
        "\"",
    ];
    for field in bad {
        assert_eq!(alone(&format!("p {field}")), 101, "{field}");
    }
    for (field, plain) in [
        ("a\"b", "a\\042b"),
        ("a\\b", "a\\134b"),
        ("\"\\377\"", "\u{ff}"),
    ] {
        let mut server = streams();
        assert_eq!(line(&mut server, 0, &format!("p {field}")), 0);
        let expected: Vec<u8> = format!("PONG \"{plain}\"\r\n")
            .chars()
            .map(|c| c as u8)
            .collect();
        assert_eq!(drain(&mut server, 0), expected);
    }
}

#[test]
fn lines_that_are_refused() {
    for text in [
        "HELP",
        "\"PING\"",
        "PING\"x\"",
        "h",
        "PINGS",
        "VERSION",
        "a\tb",
        "PING\tx",
    ] {
        assert_eq!(alone(text), 100, "{text}");
    }
    let bad = [
        "SUB",
        "UNSUB",
        "READ",
        "WRITE",
        "SUB a b",
        "UNSUB a b",
        "READ a b",
        "WRITE a b c",
        "BEGIN a",
        "COMMIT a",
        "PING a b",
        "HELLO 0 a b",
        "HELLO \"\"",
        "HELLO \"1\"",
        "HELLO +1",
        "HELLO 256",
        "HELLO 1x",
        "SUB **",
        "UNSUB **",
        "READ \"\\000\"",
        "SUB \"\\000\"",
        "UNSUB \"\\000\"",
        "WRITE \"\\000\"",
        "READ \0",
    ];
    for text in bad {
        assert_eq!(alone(text), 101, "{text}");
    }
    let good = [
        "HELLO",
        "hello 255",
        "HELLO 00000000000000000000000000000255 a",
        "HeLLo 0 \"\\000\"",
        "S a",
        "u a",
        "R a",
        "w a",
        "W a b",
        "b",
        "C",
        "P",
        "p \"\"",
        "   PING   x   ",
        "WRITE \"\" \"\\000\"",
        "PING \"\\000\"",
        "PING \0",
        "WRITE k \0",
        "",
        "    ",
    ];
    for text in good {
        assert_eq!(alone(text), 0, "{text}");
    }
}

#[test]
fn text_is_written_with_single_spaces_and_quotes() {
    let mut server = streams();
    line(&mut server, 0, "hello 7");
    line(&mut server, 0, "ping");
    line(&mut server, 0, "w k \"\\000\\012\\015\\042\\134\\001\"");
    line(&mut server, 0, "r k");
    line(&mut server, 0, "r nothing");
    line(&mut server, 0, "nonsense");
    let expected =
        "VERSION 0 \"\"\r\nPONG \"\"\r\nINFO \"k\" \"\\000\\012\\015\\042\\134\u{1}\"\r\n\
                    INFO \"nothing\"\r\nERROR 100 \"unknown message\"\r\n";
    assert_eq!(drain_text(&mut server, 0), expected);
}

#[test]
fn error_texts() {
    let cases = [
        ("x", 100, "unknown message"),
        ("read", 101, "bad parameter"),
        ("sub \"", 101, "bad parameter"),
    ];
    for (text, number, words) in cases {
        let mut server = streams();
        assert_eq!(line(&mut server, 0, text), number);
        assert_eq!(
            drain_text(&mut server, 0),
            format!("ERROR {number} \"{words}\"\r\n")
        );
    }
    let mut server = streams();
    line(&mut server, 0, "b");
    assert_eq!(line(&mut server, 0, "b"), 103);
    assert_eq!(drain_text(&mut server, 0), "ERROR 103 \"bad state\"\r\n");
    let mut server = streams();
    let long = format!("s {}", "a".repeat(256));
    assert_eq!(line(&mut server, 0, &long), 102);
    assert_eq!(drain_text(&mut server, 0), "ERROR 102 \"no room\"\r\n");
}

#[test]
fn first_byte_fixes_the_kind() {
    for first in 0u8..=255 {
        let mut server = streams();
        let text = matches!(first, 0x0A | 0x0D | 0x20 | 0x40..=0x7E);
        let reply = server.feed(0, &[first, 0, 1, 9, b'\n']);
        let bytes = drain(&mut server, 0);
        match first {
            0x0A | 0x0D => assert_eq!(reply.answer, 0),
            _ if text => assert!(bytes.starts_with(b"ERROR 100 ")),
            _ if first > 0x07 => {
                assert_eq!(reply.count, 4);
                assert!(bytes.starts_with(b"\x83\0\x10\x64unknown message"));
            }
            _ => assert_eq!(reply.count, 4),
        }
    }
}

#[test]
fn kind_is_fixed_by_the_first_message_and_never_changes() {
    let mut server = streams();
    assert_eq!(server.feed(0, b""), reply(1, 0));
    assert_eq!(server.feed(0, b"PIN"), reply(1, 0));
    assert_eq!(server.feed(0, b"\x07\0\0"), reply(0, 3));
    assert_eq!(server.feed(0, b"PIN"), reply(1, 0));
    assert_eq!(drain(&mut server, 0), b"\x82\0\0");
    assert_eq!(server.feed(1, b"\r\x07\0\0"), reply(0, 1));
    assert_eq!(server.feed(1, b"\x07\0\0\n"), reply(100, 4));
    assert_eq!(drain(&mut server, 1), b"ERROR 100 \"unknown message\"\r\n");
}

#[test]
fn line_ends() {
    let mut server = streams();
    assert_eq!(server.feed(0, b"PING\r\nPING\r\n"), reply(0, 5));
    assert_eq!(server.feed(0, b"\nPING\r\n"), reply(0, 1));
    assert_eq!(server.feed(0, b"PING \"a\nb\"\n"), reply(101, 8));
}

#[test]
fn over_long_lines() {
    let spaces = vec![b' '; 262_153];
    assert_eq!(streams().feed(0, &spaces[..262_151]), reply(1, 0));
    assert_eq!(streams().feed(0, &spaces[..262_152]), reply(102, 262_152));
    assert_eq!(streams().feed(0, &spaces), reply(102, 262_152));
    let mut ended = spaces.clone();
    ended[262_151] = b'\n';
    assert_eq!(streams().feed(0, &ended), reply(0, 262_152));
    let mut late = spaces;
    late[262_152] = b'\n';
    assert_eq!(streams().feed(0, &late), reply(102, 262_152));
}

#[test]
fn packets() {
    let mut server = server();
    server.open(0, 0);
    assert_eq!(server.feed(0, b"\x07PING\n"), reply(0, 6));
    assert_eq!(drain(&mut server, 0), b"\x82PING\n");
    assert_eq!(server.feed(0, b""), reply(100, 0));
    assert_eq!(server.feed(0, b""), reply(3, 0));
    assert_eq!(drain(&mut server, 0), b"\x83\x64unknown message");
    assert_eq!(server.take(0, 100).0, reply(6, 0));
    assert_eq!(server.feed(0, b"\x07"), reply(3, 0));
}

#[test]
fn binary_refusals() {
    let fed = |input: &[u8]| {
        let mut server = server();
        server.open(0, 0);
        server.feed(0, input).answer
    };
    let with = |id: u8, length: usize| [vec![id], vec![b'a'; length]].concat();
    assert_eq!(fed(&with(0x08, 70_000)), 100);
    assert_eq!(fed(b"\x80\0"), 100);
    assert_eq!(fed(b"\0"), 101);
    assert_eq!(fed(b"\x03a\0"), 101);
    assert_eq!(fed(b"\x01a\0"), 101);
    assert_eq!(fed(b"\x02a\0"), 101);
    assert_eq!(fed(&with(0x05, 1)), 101);
    assert_eq!(fed(&with(0x06, 70_000)), 101);
    assert_eq!(fed(&with(0x01, 256)), 102);
    assert_eq!(fed(&with(0x02, 256)), 102);
    assert_eq!(fed(&with(0x02, 255)), 0);
    assert_eq!(fed(&[with(0x02, 255), b"\\".to_vec()].concat()), 101);
    for id in [0x00, 0x03, 0x04, 0x07] {
        assert_eq!(fed(&with(id, 65_536)), 102, "ID {id}");
    }
    assert_eq!(fed(&with(0x04, 65_535)), 0);
}

#[test]
fn unknown_frame_waits_for_the_whole() {
    let mut server = streams();
    assert_eq!(server.feed(0, b"\x90\0\x02a"), reply(1, 0));
    assert_eq!(server.feed(0, b"\x90\0\x02abc"), reply(100, 5));
}

#[test]
fn store_room() {
    let fed = |value: usize| {
        let mut server = Server::set_up(1, 256, 1_024, 256).expect("sizes in range");
        server.open(0, 0);
        server
            .feed(0, &[b"\x04k\0".to_vec(), vec![b'v'; value]].concat())
            .answer
    };
    assert_eq!(fed(247), 0);
    assert_eq!(fed(248), 102);
}

#[test]
fn write_is_judged_by_the_store_after_it() {
    let mut server = Server::set_up(1, 256, 1_024, 256).expect("sizes in range");
    server.open(0, 0);
    let full = [b"\x04k\0".to_vec(), vec![b'v'; 247]].concat();
    let other = [b"\x04k\0".to_vec(), vec![b'w'; 247]].concat();
    assert_eq!(server.feed(0, &full).answer, 0);
    assert_eq!(server.feed(0, &full).answer, 0);
    assert_eq!(server.feed(0, &other).answer, 0);
    assert_eq!(server.feed(0, b"\x04absent").answer, 0);
    assert_eq!(server.feed(0, b"\x04\0").answer, 102);
    assert_eq!(server.feed(0, b"\x04k").answer, 3);
}

#[test]
fn entries_are_in_byte_order() {
    let mut server = streams();
    for key in ["b", "\"\"", "ab", "a", "\"\\377\"", "B"] {
        line(&mut server, 0, &format!("w {key} \"\""));
    }
    line(&mut server, 0, "s *");
    let expected = b"INFO \"\" \"\"\r\nINFO \"B\" \"\"\r\nINFO \"a\" \"\"\r\nINFO \"ab\" \"\"\r\n\
                     INFO \"b\" \"\"\r\nINFO \"\xff\" \"\"\r\n";
    assert_eq!(drain(&mut server, 0), expected);
}

#[test]
fn one_info_for_one_write() {
    let mut server = streams();
    line(&mut server, 0, "s a*");
    line(&mut server, 0, "s *");
    line(&mut server, 1, "w ab 1");
    line(&mut server, 1, "w ab 1");
    line(&mut server, 1, "w ab");
    line(&mut server, 1, "w ab");
    line(&mut server, 1, "w ab \"\"");
    let expected = "INFO \"ab\" \"1\"\r\nINFO \"ab\"\r\nINFO \"ab\" \"\"\r\n";
    assert_eq!(drain_text(&mut server, 0), expected);
    assert_eq!(drain_text(&mut server, 1), "");
}

#[test]
fn patterns_are_equal_by_bytes() {
    let mut server = streams();
    line(&mut server, 0, "w a 1");
    line(&mut server, 0, "s a");
    line(&mut server, 0, "s \\a");
    line(&mut server, 0, "s a");
    assert_eq!(
        server.client(0).map(|client| client.patterns().len()),
        Some(2)
    );
    assert_eq!(drain_text(&mut server, 0), "INFO \"a\" \"1\"\r\n".repeat(3));
    line(&mut server, 0, "u a");
    line(&mut server, 0, "u b");
    line(&mut server, 0, "w a 2");
    assert_eq!(drain_text(&mut server, 0), "INFO \"a\" \"2\"\r\n");
}

#[test]
fn seventeenth_pattern() {
    let mut server = streams();
    for number in 0..16 {
        assert_eq!(line(&mut server, 0, &format!("s {number}")), 0);
    }
    assert_eq!(line(&mut server, 0, "s 3"), 0);
    assert_eq!(line(&mut server, 0, "s 16"), 102);
    assert_eq!(
        server.client(0).map(|client| client.patterns().len()),
        Some(0)
    );
}

#[test]
fn recording_limits() {
    let mut server = streams();
    assert_eq!(line(&mut server, 0, "b"), 0);
    for _ in 0..64 {
        assert_eq!(server.feed(0, b"p\n").answer, 0);
        assert_eq!(server.feed(0, b"\n").answer, 0);
    }
    let mut again = server.clone();
    assert_eq!(line(&mut again, 0, "b"), 103);
    assert_eq!(line(&mut server, 0, "p"), 102);
    let mut server = streams();
    line(&mut server, 0, "b");
    assert_eq!(line(&mut server, 0, &format!("p {}", "a".repeat(247))), 0);
    assert_eq!(line(&mut server, 0, "hello"), 0);
    assert_eq!(
        server
            .client(0)
            .and_then(|c| c.recording())
            .map(|r| r.used()),
        Some(256)
    );
    assert_eq!(line(&mut server, 0, "p"), 102);
}

#[test]
fn commit_runs_all_or_none() {
    let mut server = Server::set_up(2, 256, 1_024, 1_024).expect("sizes in range");
    server.open(0, 1);
    server.open(1, 1);
    line(&mut server, 0, "w a 1");
    line(&mut server, 1, "s *");
    drain(&mut server, 1);
    for text in ["b", "w a 2", "s x", "w b 1", "w a", "w c", "p"] {
        line(&mut server, 0, text);
    }
    let too_much = format!("w d {}", "v".repeat(248));
    line(&mut server, 0, &too_much);
    assert_eq!(line(&mut server, 0, "c"), 102);
    assert_eq!(
        server.store().entries().collect::<Vec<_>>(),
        [(&b"a"[..], &b"1"[..])]
    );
    assert_eq!(drain_text(&mut server, 0), "ERROR 102 \"no room\"\r\n");
    assert_eq!(drain_text(&mut server, 1), "");
}

#[test]
fn commit_sees_its_own_writes_turn_by_turn() {
    let mut server = streams();
    line(&mut server, 0, "w k 0");
    for text in [
        "b", "r k", "w k 1", "r k", "w k", "r k", "w k 0", "s *", "w k 2", "u *", "w k 3",
    ] {
        assert_eq!(line(&mut server, 0, text), 0);
    }
    assert_eq!(drain_text(&mut server, 0), "");
    assert_eq!(line(&mut server, 0, "c"), 0);
    let expected = "INFO \"k\" \"0\"\r\nINFO \"k\" \"1\"\r\nINFO \"k\"\r\nINFO \"k\" \"0\"\r\n\
                    INFO \"k\" \"2\"\r\n";
    assert_eq!(drain_text(&mut server, 0), expected);
    assert_eq!(server.store().get(b"k"), Some(&b"3"[..]));
}

#[test]
fn commit_is_judged_turn_by_turn_for_others_too() {
    let mut server = streams();
    line(&mut server, 1, "s k");
    line(&mut server, 0, "w k 0");
    drain(&mut server, 1);
    for text in ["b", "w k 1", "w k 0", "w k 0", "w k", "w k", "w k 0"] {
        assert_eq!(line(&mut server, 0, text), 0);
    }
    assert_eq!(line(&mut server, 0, "c"), 0);
    let expected = "INFO \"k\" \"1\"\r\nINFO \"k\" \"0\"\r\nINFO \"k\"\r\n\
                    INFO \"k\" \"0\"\r\n";
    assert_eq!(drain_text(&mut server, 1), expected);
}

#[test]
fn commit_finds_room_at_each_turn() {
    let full = format!("w b {}", "v".repeat(247));
    for (commands, answer) in [(["w a", &full], 0), ([&full, "w a"], 102)] {
        let mut server = Server::set_up(1, 256, 1_024, 1_024).expect("sizes in range");
        server.open(0, 1);
        line(&mut server, 0, "w a 1");
        line(&mut server, 0, "b");
        for text in commands {
            assert_eq!(line(&mut server, 0, text), 0);
        }
        assert_eq!(line(&mut server, 0, "c"), answer);
        assert_eq!(server.store().get(b"a").is_some(), answer == 102);
    }
}

#[test]
fn refusal_that_shuts_drops_patterns_and_recording() {
    let mut server = opened(2);
    for text in ["s *", "b", "w k 1"] {
        line(&mut server, 0, text);
    }
    assert_eq!(line(&mut server, 0, "read"), 101);
    let client = server.client(0).expect("a client");
    assert!(client.is_shut() && client.patterns().is_empty());
    assert!(matches!(client.transaction(), Transaction::Off));
    line(&mut server, 1, "w k 2");
    assert_eq!(
        drain_text(&mut server, 0),
        "ERROR 101 \"bad parameter\"\r\n"
    );
    assert_eq!(server.open(0, 1), reply(4, 0));
    assert_eq!(server.feed(0, b"p\n"), reply(3, 0));
}

#[test]
fn commit_without_begin() {
    let mut server = streams();
    assert_eq!(line(&mut server, 0, "c"), 0);
    assert_eq!(line(&mut server, 0, "c x"), 101);
}

#[test]
fn text_client_stays_open_after_a_typing_error() {
    let mut server = streams();
    assert_eq!(server.feed(0, b"XX\n"), reply(100, 3));
    assert_eq!(
        drain_text(&mut server, 0),
        "ERROR 100 \"unknown message\"\r\n"
    );
    assert_eq!(line(&mut server, 0, "PING a"), 0);
    assert_eq!(drain_text(&mut server, 0), "PONG \"a\"\r\n");
    assert_eq!(line(&mut server, 0, "SUB *"), 0);
    assert_eq!(line(&mut server, 0, "SUB **"), 101);
    assert_eq!(line(&mut server, 1, "WRITE k v"), 0);
    assert_eq!(
        drain_text(&mut server, 0),
        "ERROR 101 \"bad parameter\"\r\nINFO \"k\" \"v\"\r\n"
    );
}

#[test]
fn refused_first_line_fixes_the_kind() {
    for first in ["XX", "sub", "  nonsense"] {
        let mut server = streams();
        assert!([100, 101].contains(&line(&mut server, 0, first)));
        drain(&mut server, 0);
        assert_eq!(server.feed(0, b"\x07\0\0\n"), reply(100, 4));
        assert_eq!(line(&mut server, 0, "p"), 0);
        assert!(drain_text(&mut server, 0).ends_with("PONG \"\"\r\n"));
    }
}

/// Feeds the lines, each of which has to get its answer.
#[track_caller]
fn lines(server: &mut Server, expected: &[(&str, u32)]) {
    for (number, (text, answer)) in expected.iter().enumerate() {
        assert_eq!(line(server, 0, text), *answer, "line {number}: {text}");
    }
}

#[test]
fn slip_spoils_its_transaction() {
    let mut server = streams();
    let commands = [
        ("BEGIN", 0),
        ("WRITE k v", 0),
        ("OOPS", 100),
        ("WRITE k w", 0),
        ("COMMIT", 103),
    ];
    lines(&mut server, &commands);
    let errors = "ERROR 100 \"unknown message\"\r\nERROR 103 \"bad state\"\r\n";
    assert_eq!(drain_text(&mut server, 0), errors);
    assert_eq!(server.store().count(), 0);
    lines(&mut server, &[("READ k", 0)]);
    assert_eq!(drain_text(&mut server, 0), "INFO \"k\"\r\n");
    let after = [("COMMIT", 0), ("BEGIN", 0), ("WRITE k x", 0), ("COMMIT", 0)];
    lines(&mut server, &after);
    assert_eq!(server.store().get(b"k"), Some(&b"x"[..]));
}

#[test]
fn begin_in_a_transaction_is_103_and_spoils_it() {
    let mut server = streams();
    let commands = [
        ("BEGIN", 0),
        ("WRITE k v", 0),
        ("BEGIN", 103),
        ("BEGIN", 103),
        ("COMMIT", 103),
        ("BEGIN", 0),
        ("COMMIT", 0),
    ];
    lines(&mut server, &commands);
    assert_eq!(server.store().count(), 0);
}

#[test]
fn commands_in_a_spoiled_transaction_do_nothing() {
    let mut server = streams();
    lines(&mut server, &[("w k v", 0), ("b", 0), ("oops", 100)]);
    drain(&mut server, 0);
    for _ in 0..70 {
        let ping = format!("p {}", "x".repeat(100));
        lines(&mut server, &[(ping.as_str(), 0), ("", 0), ("  ", 0)]);
    }
    for number in 0..20 {
        assert_eq!(line(&mut server, 0, &format!("s {number}*")), 0);
    }
    let write = format!("w big {}", "v".repeat(2_000));
    lines(
        &mut server,
        &[(write.as_str(), 0), ("hello", 0), ("r k", 0)],
    );
    lines(&mut server, &[("u *", 0), ("w k", 0)]);
    assert_eq!(drain_text(&mut server, 0), "");
    let client = server.client(0).expect("a client");
    assert!(client.is_spoiled() && client.patterns().is_empty());
    assert_eq!(server.store().get(b"k"), Some(&b"v"[..]));
    lines(&mut server, &[("c", 103), ("c", 0)]);
}

#[test]
fn bad_commands_in_a_spoiled_transaction_get_their_own_number() {
    let mut server = streams();
    let commands = [
        ("b", 0),
        ("oops", 100),
        ("oops", 100),
        ("s **", 101),
        ("COMMIT x", 101),
        ("BEGIN x", 101),
        ("b", 103),
        ("c", 103),
        ("c", 0),
    ];
    lines(&mut server, &commands);
    assert_eq!(drain_text(&mut server, 0).lines().count(), 7);
    let long = format!("SUB {}", "a".repeat(256));
    lines(
        &mut server,
        &[("b", 0), ("oops", 100), (long.as_str(), 102)],
    );
    assert!(server.client(0).is_some_and(|client| client.is_shut()));
    assert_eq!(line(&mut server, 1, "b"), 0);
    assert_eq!(line(&mut server, 1, &long), 102);
    assert_eq!(server.feed(1, b"c\n"), reply(3, 0));
    assert_eq!(drain_text(&mut server, 1), "ERROR 102 \"no room\"\r\n");
}

#[test]
fn commit_with_a_field_spoils_and_does_not_end() {
    let mut server = streams();
    let commands = [("b", 0), ("w k v", 0), ("COMMIT x", 101), ("w k w", 0)];
    lines(&mut server, &commands);
    lines(&mut server, &[("c", 103), ("c", 0)]);
    assert_eq!(server.store().count(), 0);
}

#[test]
fn slip_outside_a_transaction_spoils_no_later_one() {
    let mut server = streams();
    lines(
        &mut server,
        &[("oops", 100), ("b", 0), ("w k v", 0), ("c", 0)],
    );
    assert_eq!(server.store().get(b"k"), Some(&b"v"[..]));
}

/// The refusals after which a text client stays open, each with a line that gets it in a
/// transaction, and with what its ERROR charges.
const SLIPS: [(&str, u32, usize); 3] = [("XX", 100, 33), ("SUB **", 101, 31), ("BEGIN", 103, 27)];

/// A server whose slot 0 is in a transaction, with its queue charged to so many bytes.
fn charged(charge: usize) -> Server {
    let mut server = streams();
    // A PONG of n bytes charges n + 13.
    let ping = format!("p {}", "x".repeat(charge - 13));
    lines(&mut server, &[(ping.as_str(), 0), ("b", 0)]);
    assert_eq!(server.client(0).map(|client| client.queued()), Some(charge));
    server
}

#[test]
fn error_of_a_slip_fits_beside_the_queue_or_102_stands_in() {
    for (text, answer, charge) in SLIPS {
        let mut server = charged(960 - charge);
        assert_eq!(line(&mut server, 0, text), answer);
        let client = server.client(0).expect("a client");
        assert!(!client.is_shut() && client.is_spoiled());
        assert_eq!(client.queued(), 960);
        // The queue is full to the byte: the next slip is shut with 102, in the kept room.
        assert_eq!(line(&mut server, 0, text), 102);
        assert_eq!(server.feed(0, b"p\n"), reply(3, 0));
        let all = drain_text(&mut server, 0);
        assert!(all.contains(&format!("\r\nERROR {answer} ")));
        assert!(all.ends_with("\r\nERROR 102 \"no room\"\r\n"));

        let mut server = charged(961 - charge);
        // The count is the line's length all the same.
        assert_eq!(line(&mut server, 0, text), 102);
        let client = server.client(0).expect("a client");
        assert!(client.is_shut() && !client.is_spoiled());
        assert_eq!(server.feed(0, b"p\n"), reply(3, 0));
        let all = drain_text(&mut server, 0);
        assert!(!all.contains(&format!("ERROR {answer} ")));
        assert!(all.ends_with("\r\nERROR 102 \"no room\"\r\n"));
    }
}

#[test]
fn error_of_a_spoiled_commit_fits_or_102_stands_in() {
    for (free, answer) in [(27, 103), (26, 102)] {
        // The ERROR of OOPS charges 33.
        let mut server = charged(960 - 33 - free);
        lines(&mut server, &[("OOPS", 100), ("c", answer)]);
        let client = server.client(0).expect("a client");
        assert_eq!(client.is_shut(), answer == 102);
        assert!(matches!(client.transaction(), Transaction::Off));
    }
}

#[test]
fn slips_are_taken_like_any_message() {
    let mut server = streams();
    lines(&mut server, &[("oops", 100), ("p a", 0), ("b x", 101)]);
    let error = b"ERROR 100 \"unknown message\"\r\n";
    assert_eq!(server.take(0, 28).0, reply(5, 0));
    assert_eq!(server.take(0, 29), (reply(0, 29), error.to_vec()));
    assert_eq!(
        drain_text(&mut server, 0),
        "PONG \"a\"\r\nERROR 101 \"bad parameter\"\r\n"
    );
    // 29 of them fill 957 of 960 bytes.
    for _ in 0..29 {
        assert_eq!(line(&mut server, 0, "oops"), 100);
    }
    assert_eq!(line(&mut server, 0, "oops"), 102);
    assert_eq!(drain_text(&mut server, 0).lines().count(), 30);
}

#[test]
fn form_2_is_shut_by_every_refusal() {
    for (text, answer, _) in SLIPS {
        let mut server = opened(2);
        lines(&mut server, &[("b", 0), (text, answer)]);
        assert_eq!(server.feed(0, b"p\n"), reply(3, 0));
        assert!(drain_text(&mut server, 0).starts_with(&format!("ERROR {answer} ")));
    }
    let mut server = opened(2);
    assert_eq!(server.feed(0, b"XX\n"), reply(100, 3));
    assert_eq!(server.feed(0, b"p\n"), reply(3, 0));
    // In every other way it is a stream.
    assert_eq!(server.feed(1, b"\x07\0\x01x"), reply(0, 4));
    assert_eq!(drain(&mut server, 1), b"\x82\0\x01x");
}

#[test]
fn binary_clients_are_shut_in_every_form() {
    for form in [1, 2] {
        let mut server = opened(form);
        assert_eq!(server.feed(0, b"\x08\0\0"), reply(100, 3));
        assert_eq!(server.feed(0, b"\x07\0\0"), reply(3, 0));
        assert_eq!(server.feed(1, b"\x05\0\0"), reply(0, 3));
        assert_eq!(server.feed(1, b"\x05\0\0"), reply(103, 3));
        assert_eq!(server.feed(1, b"\x06\0\0"), reply(3, 0));
    }
    let mut server = opened(0);
    assert_eq!(server.feed(0, b"\x01**"), reply(101, 3));
    assert_eq!(server.feed(0, b"\x07"), reply(3, 0));
}

#[test]
fn over_long_line_shuts() {
    let mut server = streams();
    let long = vec![b'x'; 262_152];
    lines(&mut server, &[("b", 0), ("oops", 100)]);
    assert_eq!(server.feed(0, &long), reply(102, 262_152));
    assert_eq!(server.feed(0, b"c\n"), reply(3, 0));
}

#[test]
fn reopened_slot_goes_by_its_own_form() {
    for state in [&[("b", 0)][..], &[("b", 0), ("w k v", 0)]] {
        let mut server = opened(2);
        lines(&mut server, state);
        server.close(0);
        server.open(0, 1);
        lines(&mut server, &[("XX", 100), ("c", 0), ("b", 0)]);
    }
    let mut server = streams();
    lines(&mut server, &[("b", 0), ("XX", 100)]);
    server.close(0);
    server.open(0, 2);
    drain(&mut server, 0);
    lines(&mut server, &[("c", 0), ("b", 0), ("XX", 100)]);
    assert_eq!(server.feed(0, b"c\n"), reply(3, 0));
}

#[test]
fn queue_takes_all_of_a_step_or_none() {
    // 960 bytes may be queued; each PONG of n bytes charges n + 5.
    let mut server = server();
    server.open(0, 0);
    let ping = |length: usize| [vec![0x07], vec![b'x'; length]].concat();
    assert_eq!(server.feed(0, &ping(955)).answer, 0);
    assert_eq!(server.client(0).map(|client| client.queued()), Some(960));
    assert_eq!(server.feed(0, &ping(0)), reply(0, 1));
    assert_eq!(server.feed(0, &ping(0)), reply(3, 0));
    assert_eq!(server.take(0, 955).0, reply(5, 0));
    assert_eq!(server.take(0, 956).0, reply(0, 956));
    assert_eq!(server.take(0, 9).1, b"\x83\x66no room");
    server.close(0);
    server.open(0, 0);
    assert_eq!(server.feed(0, &ping(956)), reply(0, 957));
    assert_eq!(drain(&mut server, 0), b"\x83\x66no room");
}

#[test]
fn step_stands_where_a_client_does_not_fit() {
    let mut server = streams();
    server.open(2, 0);
    line(&mut server, 0, "s *");
    line(&mut server, 1, "s *");
    assert_eq!(line(&mut server, 0, &format!("p {}", "x".repeat(930))), 0);
    let write = [b"\x04k\0".to_vec(), vec![b'v'; 100]].concat();
    assert_eq!(server.feed(2, &write).answer, 0);
    assert_eq!(server.store().get(b"k").map(<[u8]>::len), Some(100));
    assert!(server.client(0).is_some_and(|client| client.is_shut()));
    assert!(drain_text(&mut server, 0).ends_with("x\"\r\nERROR 102 \"no room\"\r\n"));
    assert!(drain_text(&mut server, 1).starts_with("INFO \"k\" \"vvv"));
}

#[test]
fn calls_check_in_order() {
    let mut server = server();
    for slot in [3, 4, usize::MAX] {
        assert_eq!(server.open(slot, 9), reply(2, 0));
        assert_eq!(server.feed(slot, b""), reply(2, 0));
        assert_eq!(server.take(slot, 0).0, reply(2, 0));
        assert_eq!(server.close(slot), reply(2, 0));
    }
    assert_eq!(server.feed(0, b""), reply(2, 0));
    assert_eq!(server.close(0), reply(2, 0));
    for form in [3, 256, usize::MAX] {
        assert_eq!(server.open(0, form), reply(8, 0));
    }
    assert_eq!(server.open(0, 0), reply(0, 0));
    assert_eq!(server.open(0, 0), reply(4, 0));
    assert_eq!(server.open(0, 256), reply(8, 0));
    assert_eq!(server.take(0, 0).0, reply(6, 0));
    server.feed(0, b"\x07");
    assert_eq!(server.take(0, 0).0, reply(5, 0));
    server.feed(0, b"\x08");
    assert_eq!(server.open(0, 0), reply(4, 0));
    assert_eq!(server.close(0), reply(0, 0));
    assert_eq!(server.take(0, 9).0, reply(2, 0));
}

#[test]
fn reopened_slot_is_bare() {
    let mut server = streams();
    line(&mut server, 0, "s *");
    line(&mut server, 0, "b");
    line(&mut server, 1, "w a 1");
    server.close(0);
    server.open(0, 1);
    assert_eq!(drain(&mut server, 0), b"");
    assert_eq!(server.feed(0, b"\x05\0\0"), reply(0, 3));
    line(&mut server, 1, "w a 2");
    assert_eq!(drain(&mut server, 0), b"");
    assert_eq!(server.store().get(b"a"), Some(&b"2"[..]));
}

#[test]
fn sizes() {
    let answer = |n, s, q, r| Server::set_up(n, s, q, r).err().unwrap_or(0);
    assert_eq!(answer(1, 256, 1_024, 256), 0);
    assert_eq!(answer(32, 1_048_576, 1_048_576, 262_144), 0);
    assert_eq!(answer(0, 256, 1_024, 256), 8);
    assert_eq!(answer(33, 256, 1_024, 256), 8);
    assert_eq!(answer(1, 255, 1_024, 256), 8);
    assert_eq!(answer(1, 1_048_577, 1_024, 256), 8);
    assert_eq!(answer(1, 256, 1_023, 256), 8);
    assert_eq!(answer(1, 256, 1_048_577, 256), 8);
    assert_eq!(answer(1, 256, 1_024, 255), 8);
    assert_eq!(answer(1, 256, 1_024, 262_145), 8);
}

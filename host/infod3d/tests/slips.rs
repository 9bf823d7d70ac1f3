//! Typing errors: a text client stays, with its patterns, unless its listener hangs up; what is spoiled
//! is not done; and who makes nothing but errors holds nobody up.

mod common;

use common::{frame, sized, start, Client, Running};
use infod3d::help;
use infod3d::options::{Access, Limits, ListenerOptions};
use std::net::{Shutdown, TcpStream};
use std::sync::atomic::{AtomicBool, Ordering};
use std::sync::Arc;
use std::time::{Duration, Instant};

const UNKNOWN: &str = "ERROR 100 \"unknown message\"";
const PARAMETER: &str = "ERROR 101 \"bad parameter\"";
const ROOM: &str = "ERROR 102 \"no room\"";
const STATE: &str = "ERROR 103 \"bad state\"";

/// Expects these lines, and none in between.
fn expect(client: &mut Client, lines: &[&str]) {
    for line in lines {
        assert_eq!(client.line(), *line);
    }
}

#[test]
fn a_typing_error_costs_no_pattern() {
    let server = start(|_| {});
    let mut writer = server.over_unix();
    for mut client in [server.over_tcp(), server.over_unix()] {
        // The first message of all may be one.
        client.send("REED k\nSUB a*\nSUB b*\nPING 1\n");
        expect(&mut client, &[UNKNOWN, "PONG \"1\""]);
        for (slip, error) in [
            ("SUB **\n", PARAMETER),
            ("READ\n", PARAMETER),
            ("w \"a\n", PARAMETER),
            ("\x01\0\x01*\r", UNKNOWN),
        ] {
            client.send(slip);
            expect(&mut client, &[error]);
            writer.send("WRITE a 1\nWRITE a\nWRITE c 1\nWRITE b 1\nWRITE b\n");
            let infos =
                ["a", "b"].map(|key| [format!("INFO \"{key}\" \"1\""), format!("INFO \"{key}\"")]);
            for info in infos.concat() {
                assert_eq!(client.line(), info, "behind {slip:?}");
            }
        }
        client.synchronise();
    }
    let counters = server.stop();
    assert_eq!((counters.slips, counters.shut()), (10, 0));
    assert_eq!(counters.refusals, [4, 6, 0, 0]);
}

/// All that the client reads from here on, up to this identifier's PONG.
fn lines_to(client: &mut Client, id: &str) -> Vec<String> {
    client.send(format!("PING {id}\n"));
    let last = format!("PONG \"{id}\"");
    std::iter::from_fn(|| Some(client.line()).filter(|line| *line != last)).collect()
}

#[test]
fn a_slip_in_a_transaction_spoils_it() {
    let server = start(|_| {});
    let mut watcher = server.over_unix();
    watcher.send("SUB *\n");
    watcher.synchronise();
    let mut client = server.over_tcp();
    for (input, answers) in [
        ("b\nw k 1\nOOPS\nw k 2\np x\nc\n", &[UNKNOWN, STATE][..]),
        ("b\nw k 1\nb\nw k 2\nb\nc\n", &[STATE, STATE, STATE]),
        ("b\nw k 1\nc x\nr k\nc\nc\n", &[PARAMETER, STATE]),
        // More commands than are ever recorded, since none of them is.
        (
            &format!("b\nr\n{}c\n", "w k 3\n".repeat(70)),
            &[PARAMETER, STATE],
        ),
        // A slip before a transaction does not spoil it.
        ("OOPS\nb\np x\nc\n", &[UNKNOWN, "PONG \"x\""]),
    ] {
        client.send(input);
        assert_eq!(lines_to(&mut client, "end"), answers, "{input:?}");
        assert!(lines_to(&mut watcher, "end").is_empty(), "{input:?}");
    }
    client.send("b\nw k 4\nHELP\n\nc\n");
    assert_eq!(watcher.line(), "INFO \"k\" \"4\"");
    assert_eq!(server.stop().slips, 10);
}

#[test]
fn every_102_closes() {
    let server = sized(4, 256, 1024, 256);
    let pattern = "x".repeat(256);
    let patterns: String = (0..17).map(|n| format!("s {n}\n")).collect();
    for input in [
        format!("OOPS\ns {pattern}\np\n"),
        format!("OOPS\n{patterns}p\n"),
        format!("OOPS\nw k {}\np\n", "x".repeat(300)),
        format!("OOPS\nb\n{}c\np\n", "p\n".repeat(65)),
        format!("OOPS\nb\nOOPS\ns {pattern}\nc\np\n"),
    ] {
        let mut client = server.over_tcp();
        client.send(&input);
        let slips = input.matches("OOPS").count();
        let lines = [&vec![UNKNOWN; slips][..], &[ROOM, ""]]
            .concat()
            .join("\r\n");
        assert_eq!(client.rest(), lines.as_bytes(), "{input:?}");
    }
    let counters = server.stop();
    assert_eq!((counters.slips, counters.shut()), (6, 5));
}

#[test]
fn frames_and_packets_close() {
    let server = start(|_| {});
    for wrong in [frame(8, b""), frame(1, b"**"), frame(5, b"").repeat(2)] {
        let mut client = server.over_tcp();
        client.send([frame(7, b""), wrong, frame(7, b"")].concat());
        assert_eq!(client.frame().0, 0x82);
        assert_eq!(client.frame().0, 0x83);
        assert_eq!(client.rest(), b"");
    }
    let packets = server.over_packets();
    packets.send(b"\x08");
    packets.send(b"\x07");
    assert_eq!(packets.packet()[..2], [0x83, 100]);
    assert_eq!(packets.packet(), b"");
    server.log.wait_for_count("close slot", 4);
    assert_eq!(server.log.count("refused slot="), 4);
    let counters = server.stop();
    assert_eq!((counters.slips, counters.shut()), (0, 4));
}

/// A server whose TCP listener hangs up.
fn hanging_up() -> Running {
    start(|options| options.listeners[0].hang_up = true)
}

#[test]
fn a_listener_that_hangs_up() {
    let server = hanging_up();
    let mut writer = server.over_unix();
    writer.synchronise();
    for (input, error) in [
        ("OOPS\nw k 1\n", UNKNOWN),
        ("SUB k\nr\nw k 1\n", PARAMETER),
        ("b\nw k 1\nb\nc\nw k 1\n", STATE),
    ] {
        let mut client = server.over_tcp();
        client.send(input);
        assert_eq!(client.line(), error);
        assert_eq!(client.rest(), b"", "closed after its ERROR");
    }
    server.log.wait_for_count("close slot=1", 3);
    writer.send("OOPS\nREAD k\n");
    expect(&mut writer, &[UNKNOWN, "INFO \"k\""]);
    // Each listener's page tells what holds there.
    for (mut client, hangs_up) in [(server.over_tcp(), true), (server.over_unix(), false)] {
        client.send("HELP\n");
        for line in help::page(hangs_up).split_terminator("\r\n") {
            assert_eq!(client.line(), line);
        }
        client.synchronise();
    }
    server
        .log
        .wait_for(&format!("listen tcp {} hang-up\n", server.tcp));
    assert_eq!(server.log.count("hang-up"), 1);
    let counters = server.stop();
    assert_eq!((counters.slips, counters.shut()), (1, 3));
}

#[test]
fn the_listener_s_words_are_shown() {
    let mut listener = ListenerOptions::unix("/a");
    (listener.access, listener.hang_up, listener.reserve) = (Access::ReadOnly, true, 2);
    assert_eq!(listener.to_string(), "unix /a read-only hang-up reserve=2");
}

/// What no typing error is closes as ever: a WRITE where none is taken, and what is too long.
#[test]
fn what_a_listener_does_not_take_closes() {
    let server = start(|options| {
        let [tcp, unix, _] = &mut options.listeners[..] else {
            panic!("three listeners");
        };
        tcp.access = Access::ReadOnly;
        unix.limits = Limits {
            pattern: 3,
            transaction: 2,
            ..Limits::NONE
        };
    });
    let mut client = server.over_tcp();
    client.send("OOPS\nr\np\nw k 1\np\n");
    expect(&mut client, &[UNKNOWN, PARAMETER, "PONG \"\""]);
    assert_eq!(client.rest(), help::READ_ONLY.as_bytes());
    let mut client = server.over_unix();
    client.send("OOPS\ns abcd\np\n");
    assert_eq!(client.line(), UNKNOWN);
    assert_eq!(client.rest(), help::too_long("pattern", 3).as_bytes());
    // In a spoiled transaction nothing is recorded that could be too much.
    let mut client = server.over_unix();
    client.send("b\np\nr\np\np\np\nc\nb\np\np\nc\np end\n");
    let answers = [PARAMETER, STATE, "PONG \"\"", "PONG \"\"", "PONG \"end\""];
    expect(&mut client, &answers);
    let counters = server.stop();
    assert_eq!((counters.slips, counters.shut()), (5, 0));
    assert_eq!((counters.read_only, counters.too_long), (1, 1));
}

#[test]
fn who_ends_its_input_gets_every_error() {
    let server = sized(4, 4096, 1024, 256);
    for mut client in [server.over_tcp(), server.over_unix()] {
        client.send("OOPS\nr\nb\nb\nc\np\n".repeat(500));
        client.stream.end();
        let answers = [UNKNOWN, PARAMETER, STATE, STATE, "PONG \"\"", ""].join("\r\n");
        assert!(client.rest() == answers.repeat(500).as_bytes());
    }
    server.log.wait_for_count("ended by the client", 2);
    assert_eq!(server.stop().slips, 4000);
}

#[test]
fn a_stop_answers_the_slips_that_were_read() {
    let server = start(|_| {});
    let mut client = server.over_unix();
    client.send("OOPS\n".repeat(1000) + "p end\n");
    assert_eq!(client.line(), UNKNOWN);
    let counters = server.stop();
    let rest = String::from_utf8(client.rest()).expect("UTF-8");
    assert!(rest.ends_with("PONG \"end\"\r\n"));
    assert_eq!((rest.lines().count(), counters.slips), (1000, 1000));
}

/// It does not read, and goes on making errors. By its own answers it is slowed down; what others
/// write shuts it.
#[test]
fn a_slow_reader_that_slips_gets_its_102_last() {
    let server = sized(4, 65_536, 16_384, 256);
    let mut writer = server.over_tcp();
    writer.synchronise();
    for over_tcp in [true, false] {
        let mut slow = match over_tcp {
            true => server.over_tcp(),
            false => server.over_unix(),
        };
        slow.send("SUB *\nPING\n");
        while slow.line() != "PONG \"\"" {}
        let filler = "x".repeat(900);
        let shut = "shut slot=1 102 its queue overflowed";
        let before = server.log.count(shut);
        let mut sent = 0;
        while server.log.count(shut) == before {
            sent += 1;
            slow.send("OOPS\n");
            writer.send(format!("WRITE k \"{sent} {filler}\"\n").repeat(10));
            writer.send(format!("WRITE k \"{sent}\"\n").repeat(10));
            writer.synchronise();
        }
        let rest = String::from_utf8(slow.rest()).expect("UTF-8");
        let lines: Vec<&str> = rest.split_terminator("\r\n").collect();
        assert_eq!(lines.last(), Some(&ROOM));
        let slips = lines.iter().filter(|line| **line == UNKNOWN).count();
        assert!(slips > 0 && slips <= sent, "{slips} of {sent}");
        assert_eq!(rest.matches("ERROR").count(), slips + 1);
        server
            .log
            .wait_for_count(": overflow", 1 + usize::from(!over_tcp));
    }
    let counters = server.stop();
    assert_eq!((counters.overflows, counters.shut()), (2, 2));
}

/// Sends lines without end and reads what comes, until told to stop.
fn pour(server: &Running, lines: &'static str, stop: &Arc<AtomicBool>) {
    use std::io::{Read, Write};
    let mut sender = TcpStream::connect(server.tcp).expect("connected");
    sender
        .set_write_timeout(Some(common::PATIENCE))
        .expect("a write timeout");
    let mut reader = sender.try_clone().expect("the other half");
    let over = stop.clone();
    std::thread::spawn(move || {
        let batch = lines.repeat(4096);
        while !over.load(Ordering::Relaxed) && sender.write_all(batch.as_bytes()).is_ok() {}
        let _ = sender.shutdown(Shutdown::Both);
    });
    std::thread::spawn(move || {
        let mut room = vec![0; 1 << 16];
        while reader.read(&mut room).is_ok_and(|n| n > 0) {}
    });
}

#[test]
fn a_flood_of_slips_holds_nobody_up() {
    let server = start(|_| {});
    let mut client = server.over_tcp();
    client.send("SUB k\n");
    client.synchronise();
    let stop = Arc::new(AtomicBool::new(false));
    let begin = Instant::now();
    for _ in 0..8 {
        pour(&server, "OOPS\ns **\nb\nb\nw k x\nc\n", &stop);
    }
    std::thread::sleep(Duration::from_millis(300));
    let mut times: Vec<Duration> = (0..50)
        .map(|i| {
            std::thread::sleep(Duration::from_millis(2));
            let asked = Instant::now();
            client.send(format!("WRITE k {i}\n"));
            assert_eq!(client.line(), format!("INFO \"k\" \"{i}\""));
            asked.elapsed()
        })
        .collect();
    times.sort_unstable();
    assert!(times[25] < Duration::from_millis(25), "{times:?}");
    stop.store(true, Ordering::Relaxed);
    let log = server.log.clone();
    log.wait_for_count("close slot=", 8);
    drop(client);
    let counters = server.stop();
    assert!(counters.slips > 10_000, "{counters}");
    assert_eq!(counters.shut(), 0);
    // Each client has a line in a second, and no line is left out for theirs.
    let most = 8 * (2 + begin.elapsed().as_secs() as usize);
    let count = log.count("slip slot=");
    assert!((8..=most).contains(&count), "{count} lines");
    assert_eq!(counters.log_omitted, 0);
    // The last lines of the clients tell how many there were.
    let log = log.text();
    let closes = log.lines().filter(|line| line.contains(" close slot="));
    let slips = closes.filter_map(|line| line.split_once(", slips=")?.1.split(',').next());
    let sum: u64 = slips.map(|n| n.parse::<u64>().expect("a number")).sum();
    assert_eq!(sum, counters.slips);
}

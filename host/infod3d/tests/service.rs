//! What the server does itself: HELP, read-only listeners, counters, and that a commit stays
//! together on its way through the sockets.

mod common;

use common::{frame, sized, start, Client, Running};
use infod3d::help::{page, READ_ONLY};
use infod3d::options::{Access, Limits};
use std::time::Duration;

/// Reads the HELP page line by line.
fn expect_page(client: &mut Client) {
    for line in page(false).split_terminator("\r\n") {
        assert_eq!(client.line(), line);
    }
}

#[test]
fn help_is_answered_in_order() {
    let server = start(|_| {});
    let mut client = server.over_tcp();
    client.send("PING a\n  help me\nPING b\rHeLp\r\nPING c\n");
    assert_eq!(client.line(), "PONG \"a\"");
    expect_page(&mut client);
    assert_eq!(client.line(), "PONG \"b\"");
    expect_page(&mut client);
    assert_eq!(client.line(), "PONG \"c\"");

    // HELP is no command of the protocol, so a transaction goes on around it.
    client.send("BEGIN\nPING d\nHELP\nCOMMIT\n");
    expect_page(&mut client);
    assert_eq!(client.line(), "PONG \"d\"");

    // As a first message it fixes the kind as text: what follows is no frame.
    let mut client = server.over_unix();
    client.send("HELP\n\x07\0\x01x\n");
    expect_page(&mut client);
    assert_eq!(client.line(), "ERROR 100 \"unknown message\"");
    client.synchronise();

    // In binary it is an unknown message, and not a page.
    let packets = server.over_packets();
    packets.send(b"HELP");
    assert_eq!(packets.packet()[..2], [0x83, 100]);
    assert_eq!(server.stop().help, 4);
}

#[test]
fn help_waits_for_a_long_queue() {
    // Far more is queued before the page than the server's buffer and the socket hold.
    let server = start(|_| {});
    let (mut client, mut writer) = (server.over_unix(), server.over_unix());
    let filler = "x".repeat(60_000);
    for i in 0..10 {
        writer.send(format!("WRITE k{i} {filler}\n"));
    }
    writer.synchronise();
    client.send("SUB *\nHELP\nPING end\n");
    std::thread::sleep(Duration::from_millis(50));
    writer.send("WRITE later 1\n");
    writer.synchronise();
    for i in 0..10 {
        assert_eq!(client.line(), format!("INFO \"k{i}\" \"{filler}\""));
    }
    assert_eq!(client.line(), "INFO \"later\" \"1\"");
    expect_page(&mut client);
    assert_eq!(client.line(), "PONG \"end\"");
}

fn read_only() -> Running {
    start(|options| {
        options.listeners[0].access = Access::ReadOnly;
        options.listeners[2].access = Access::ReadOnly;
    })
}

#[test]
fn a_read_only_listener_refuses_every_write() {
    let server = read_only();
    let mut writer = server.over_unix();
    writer.send("WRITE k v\n");
    writer.synchronise();
    let streams: [Vec<u8>; 6] = [
        b"WRITE k x\n".to_vec(),
        b"  w k x\n".to_vec(),
        b"wRITE k\n".to_vec(),
        b"BEGIN\nWRITE k x\nCOMMIT\n".to_vec(),
        frame(4, b"k\0x"),
        [frame(5, b""), frame(4, b"k"), frame(6, b"")].concat(),
    ];
    for stream in &streams {
        let mut client = server.over_tcp();
        client.send(stream);
        assert_eq!(client.rest(), READ_ONLY.as_bytes());
    }
    let packets = server.over_packets();
    packets.send(b"\x04k\0x");
    assert_eq!(packets.packet(), READ_ONLY.as_bytes());
    assert_eq!(packets.packet(), b"");
    server.log.wait_for_count("WRITE refused", 7);

    // What it asked before is answered, and the listener is good for reading.
    let mut client = server.over_tcp();
    client.send("SUB k\nREAD k\nPING WRITE\nWRITE k x\n");
    let answer = String::from_utf8(client.rest()).expect("UTF-8");
    let info = "INFO \"k\" \"v\"\r\n";
    let answers = format!("{info}{info}PONG \"WRITE\"\r\n{READ_ONLY}");
    assert_eq!(answer, answers);
    let mut reader = server.over_tcp();
    reader.send("SUB *\n");
    assert_eq!(reader.line(), "INFO \"k\" \"v\"");
    writer.send("WRITE k w\n");
    assert_eq!(reader.line(), "INFO \"k\" \"w\"");
    let counters = server.stop();
    assert_eq!((counters.read_only, counters.shut()), (8, 0));
}

#[test]
fn the_messages_of_a_commit_stay_together() {
    let server = start(|_| {});
    let mut watcher = server.over_tcp();
    watcher.send("SUB site.*\n");
    watcher.synchronise();
    let writers: Vec<_> = (0..4)
        .map(|who| {
            let mut client = server.over_unix();
            std::thread::spawn(move || {
                for round in 0..50 {
                    let writes: String = (0..5)
                        .map(|key| format!("WRITE site.{who}.{key} {round}\n"))
                        .collect();
                    // Plain writes of the others come in between, unless the commit is one step.
                    client.send(format!(
                        "BEGIN\n{writes}COMMIT\nWRITE site.{who}.plain {round}\n"
                    ));
                }
                client.synchronise();
            })
        })
        .collect();
    let mut plain = 0;
    let mut commits = 0;
    while plain + commits < 400 {
        let line = watcher.line();
        let field = |line: &str| line.split('"').nth(1).expect("a key").to_owned();
        let key = field(&line);
        if key.ends_with(".plain") {
            plain += 1;
            continue;
        }
        let stem = key
            .strip_suffix(".0")
            .expect("a commit begins with its first key")
            .to_owned();
        let value = line.rsplit(' ').next().expect("a value").to_owned();
        for rest in 1..5 {
            let next = watcher.line();
            assert_eq!(next, format!("INFO \"{stem}.{rest}\" {value}"));
        }
        commits += 1;
    }
    writers
        .into_iter()
        .for_each(|writer| writer.join().expect("a writer"));
    assert_eq!((plain, commits), (200, 200));
}

#[test]
fn counters_are_written_when_asked_for() {
    let mut server = sized(4, 4096, 4096, 256);
    let mut client = server.over_tcp();
    client.send("WRITE a 1\nWRITE b 2\nNONSENSE\nr\n");
    assert_eq!(client.line(), "ERROR 100 \"unknown message\"");
    assert_eq!(client.line(), "ERROR 101 \"bad parameter\"");
    drop(client);
    server.log.wait_for("close slot=0");
    let mut other = server.over_unix();
    other.send(frame(1, b"**"));
    assert_eq!(other.frame().0, 0x83);
    assert_eq!(other.rest(), b"");
    let mut third = server.over_unix();
    third.synchronise();
    server.write_counters();
    server.log.wait_for("counters ");
    let log = server.log.text();
    let line = log
        .lines()
        .find(|line| line.contains(" counters "))
        .expect("a line");
    for field in [
        "clients=1 ",
        "keys=2 ",
        "clients_ever=3 ",
        "messages_in=6 ",
        "messages_out=4 ",
        "shut=1 ",
        "slips=2 ",
        "refused_100=1",
        "refused_101=2",
        "refused_102=0",
    ] {
        assert!(line.contains(field), "{field} in {line}");
    }
}

#[test]
fn every_event_is_a_line() {
    let server = start(|_| {});
    let mut client = server.over_unix();
    client.send("HELP\n");
    expect_page(&mut client);
    drop(client);
    server.log.wait_for("ended by the client");
    let mut client = server.over_tcp();
    client.send("BEGIN\nBEGIN\n");
    assert_eq!(client.line(), "ERROR 103 \"bad state\"");
    let mut framed = server.over_unix();
    framed.send([frame(5, b""), frame(5, b"")].concat());
    assert_eq!(framed.frame().0, 0x83);
    server.log.wait_for("close slot=1");
    let log = server.log.text();
    let pid = std::process::id();
    for event in [
        "start pid=",
        "listen tcp 127.0.0.1:",
        &format!("open slot=0 unix pid={pid} uid="),
        "help slot=0",
        "open slot=0 tcp 127.0.0.1:",
        "slip slot=0 103 bad state",
        "refused slot=1 103 bad state",
        ": refused 103",
    ] {
        assert_eq!(log.matches(event).count(), 1, "{event} in\n{log}");
    }
    for line in log.lines() {
        assert!(
            line.as_bytes()[10] == b'T' && line.as_bytes()[23] == b'Z',
            "{line}"
        );
    }
}

#[test]
fn a_quiet_log_has_no_clients() {
    let server = start(|options| options.quiet = true);
    server.over_unix().synchronise();
    let log = server.log.clone();
    assert_eq!(server.stop().clients_ever, 1);
    assert!(!log.text().contains(" slot=") && log.text().contains("counters "));
}

#[test]
fn a_client_that_says_nothing_is_turned_away() {
    let server = start(|options| options.first_message = Some(Duration::from_secs(1)));
    let mut talking = server.over_tcp();
    talking.synchronise();
    let mut silent = [server.over_tcp(), server.over_unix(), server.over_unix()];
    silent[2].send("PIN");
    let packets = server.over_packets();
    for client in &mut silent {
        assert_eq!(client.line(), "# no message within 1 seconds");
        assert_eq!(client.rest(), b"");
    }
    assert_eq!(packets.packet(), b"# no message within 1 seconds\r\n");
    assert_eq!(packets.packet(), b"");
    server.log.wait_for_count("no message in time", 4);
    talking.synchronise();
    assert_eq!(server.stop().silent, 4);
}

#[test]
fn a_listener_takes_no_more_than_it_says() {
    let server = start(|options| {
        options.listeners[0].limits = Limits {
            key: 10,
            message: 100,
            pattern: 12,
            transaction: 2,
        };
    });
    let key = "k".repeat(11);
    let long = "x".repeat(95);
    let limits = [
        ("key", "10 bytes"),
        ("message", "100 bytes"),
        ("pattern", "12 bytes"),
        ("transaction", "2 commands"),
    ];
    // The last two are refused before they are whole.
    let streams: [(Vec<u8>, usize); 12] = [
        (format!("WRITE {key} v\n").into(), 0),
        (format!("READ \"{}\"\n", "\\153".repeat(11)).into(), 0),
        (frame(4, format!("{key}\0v").as_bytes()), 0),
        (format!("w k {long}xx\n").into(), 1),
        (frame(4, format!("k\0{long}xxxx").as_bytes()), 1),
        (format!("SUB {key}**\n").into(), 2),
        (frame(1, format!("{key}?*").as_bytes()), 2),
        (b"BEGIN\nPING\n\nPING\nPING\n".to_vec(), 3),
        ([frame(5, b""), frame(7, b"").repeat(3)].concat(), 3),
        (b"BEGIN\nPING\nREAD k\nw k v\nCOMMIT\n".to_vec(), 3),
        (format!("w k {long}xx").into(), 1),
        (b"\x04\xFF\xFFk\0".to_vec(), 1),
    ];
    for (stream, limit) in streams {
        let mut client = server.over_tcp();
        client.send(&stream);
        let (what, most) = limits[limit];
        let told = format!("# too long: this listener takes a {what} of at most {most}");
        assert_eq!(client.line(), told, "{stream:?}");
        assert_eq!(client.rest(), b"");
    }
    server.log.wait_for_count("too-long slot=", 12);
    // What just fits is taken, and other listeners have limits of their own.
    let mut client = server.over_tcp();
    let fits = &key[1..];
    client.send(format!(
        "w k {long}x\ns ({fits})\nBEGIN\nw {fits} v\nr \"{}\"\nc\n",
        "\\153".repeat(10)
    ));
    for _ in 0..2 {
        assert_eq!(client.line(), format!("INFO \"{fits}\" \"v\""));
    }
    let mut other = server.over_unix();
    other.send(format!("w {key}{long} {long}\nr {key}{long}\n"));
    assert_eq!(other.line(), format!("INFO \"{key}{long}\" \"{long}\""));
    assert_eq!(server.stop().too_long, 12);
}

#[test]
fn the_text_of_hello_is_in_the_log() {
    let server = start(|_| {});
    let mut client = server.over_unix();
    client.send("HELLO 0 \"port 7\\012forged \"\n");
    assert_eq!(client.line(), "VERSION 0 \"\"");
    server.log.wait_for("hello slot=0 \"port 7\\012forged \"\n");
    let mut client = server.over_tcp();
    client.send(frame(0, [&b"\0"[..], &[b'x'; 1000]].concat().as_slice()));
    let expected = format!("hello slot=1 \"{}\" ..\n", "x".repeat(64));
    server.log.wait_for(&expected);
}

//! Many clients: slow ones, one too many, dying ones, a thousand in a row.

mod common;

use common::{frame, sized, start, Random};
use std::time::{Duration, Instant};

#[test]
fn a_slow_reader_is_shut_while_others_go_on() {
    let server = sized(8, 65_536, 16_384, 256);
    let (mut slow, mut fast) = (server.over_unix(), server.over_unix());
    let mut writer = server.over_tcp();
    slow.send("SUB *\nPING s\n");
    fast.send("SUB *\nPING f\n");
    assert_eq!(
        (slow.line(), fast.line()),
        ("PONG \"s\"".into(), "PONG \"f\"".into())
    );
    let filler = "x".repeat(900);
    let info = |i: usize| format!("INFO \"key.{}\" \"{i} {filler}\"", i % 10);
    for i in 0..1000 {
        writer.send(format!("WRITE key.{} \"{i} {filler}\"\n", i % 10));
        assert_eq!(
            fast.line(),
            info(i),
            "the fast one gets every change at once"
        );
    }
    server.log.wait_for("102 its queue overflowed");
    // What the slow one gets is the first part of the same, and its ERROR.
    let mut count = 0;
    loop {
        let line = slow.line();
        if line.starts_with("ERROR") {
            assert_eq!(line, "ERROR 102 \"no room\"");
            break;
        }
        assert_eq!(line, info(count));
        count += 1;
    }
    assert!(count > 10 && count < 1000, "{count}");
    assert_eq!(slow.rest(), b"");
    writer.synchronise();
    let counters = server.stop();
    assert_eq!((counters.overflows, counters.shut()), (1, 1));
}

#[test]
fn a_shut_client_that_never_reads_frees_its_slot() {
    let server = start(|options| {
        options.sizes = infod3::Sizes::new(2, 65_536, 16_384, 256).expect("sizes");
        options.patience = Duration::from_millis(200);
    });
    let (mut slow, mut writer) = (server.over_unix(), server.over_unix());
    slow.send("SUB *\nPING\n");
    assert_eq!(slow.line(), "PONG \"\"");
    let filler = "x".repeat(1000);
    for i in 0..600 {
        writer.send(format!("WRITE k \"{i} {filler}\"\n"));
    }
    server.log.wait_for("close slot=0");
    let mut next = server.over_unix();
    next.synchronise();
    writer.synchronise();
}

#[test]
fn one_client_too_many_is_told_so() {
    let server = start(|_| {});
    let mut clients: Vec<_> = (0..32).map(|_| server.over_unix()).collect();
    clients.iter_mut().for_each(|client| client.synchronise());
    let expected = "# no free slot: 32 clients are connected, try again later";
    let mut tcp = server.over_tcp();
    let _ = tcp.try_send(frame(7, b"x"));
    assert_eq!(tcp.line(), expected);
    assert_eq!(tcp.rest(), b"");
    let packets = server.over_packets();
    assert_eq!(packets.packet(), format!("{expected}\r\n").into_bytes());
    assert_eq!(packets.packet(), b"");
    clients.iter_mut().for_each(|client| client.synchronise());

    // One leaves, and the next finds its slot.
    drop(clients.remove(7));
    server.log.wait_for("close slot=7");
    let mut next = server.over_tcp();
    next.synchronise();
    server.log.wait_for("open slot=7 tcp");
    server.log.wait_for_count(" full ", 2);
    let counters = server.stop();
    assert_eq!((counters.without_slot, counters.clients_ever), (2, 33));
}

#[test]
fn a_kill_in_the_middle_of_a_frame() {
    let server = start(|_| {});
    let mut other = server.over_tcp();
    other.send("SUB *\n");
    other.synchronise();
    let whole = frame(4, b"key\0value");
    for cut in 1..whole.len() {
        let mut client = server.over_tcp();
        // Its answer is never read, so that the close is a reset.
        client.send([frame(7, b"unread"), whole[..cut].to_vec()].concat());
        std::thread::sleep(Duration::from_millis(1));
        drop(client);
        let mut client = server.over_unix();
        client.send(&whole[..cut]);
        drop(client);
    }
    other.send("READ key\n");
    assert_eq!(other.line(), "INFO \"key\"", "no part of a frame counts");
    let until = Instant::now() + common::PATIENCE;
    while server.log.count("close slot") < 2 * (whole.len() - 1) {
        assert!(Instant::now() < until, "{}", server.log.text());
        std::thread::sleep(Duration::from_millis(2));
    }
    let mut last = server.over_unix();
    last.send(&whole);
    assert_eq!(other.line(), "INFO \"key\" \"value\"");
}

#[test]
fn what_a_client_sent_before_it_died_is_done() {
    let server = start(|_| {});
    let mut watcher = server.over_tcp();
    watcher.send("SUB k*\n");
    watcher.synchronise();
    for i in 0..100 {
        let mut client = server.over_unix();
        // More than is fed in one turn, with answers that nobody reads.
        let pings = frame(7, b"nobody reads this").repeat(100);
        client.send([pings, frame(4, format!("k\0{i}").as_bytes())].concat());
        drop(client);
        assert_eq!(watcher.line(), format!("INFO \"k\" \"{i}\""));
    }
}

#[test]
fn a_thousand_reconnects() {
    // One slot beside the watcher's is enough: who comes finds the slot of who has just gone.
    let server = sized(2, 65_536, 4096, 256);
    let mut watcher = server.over_tcp();
    watcher.send("SUB *\n");
    watcher.synchronise();
    for i in 0..1000 {
        let key = format!("k{}\0{i}", i % 100);
        match i % 3 {
            0 => server.over_tcp().send(frame(4, key.as_bytes())),
            1 => server.over_unix().send(frame(4, key.as_bytes())),
            _ => server.over_packets().send(&[&[4], key.as_bytes()].concat()),
        }
        assert_eq!(watcher.line(), format!("INFO \"k{}\" \"{i}\"", i % 100));
    }
    let counters = server.stop();
    assert_eq!((counters.clients_ever, counters.without_slot), (1001, 0));
}

#[test]
fn no_client_keeps_the_others_waiting() {
    // One client sends without end; the others are answered in between.
    let server = start(|_| {});
    let mut busy = server.over_tcp();
    let sender = std::thread::spawn(move || {
        let until = Instant::now() + Duration::from_millis(1500);
        let batch = frame(4, b"k\0v").repeat(2000);
        while Instant::now() < until {
            busy.send(&batch);
        }
    });
    let mut client = server.over_unix();
    let mut worst = Duration::ZERO;
    for _ in 0..50 {
        let begin = Instant::now();
        client.synchronise();
        worst = worst.max(begin.elapsed());
        std::thread::sleep(Duration::from_millis(10));
    }
    sender.join().expect("the sender");
    assert!(worst < Duration::from_secs(5), "{worst:?}");
}

#[test]
fn no_bytes_do_harm() {
    let server = sized(8, 4096, 2048, 256);
    let mut watcher = server.over_tcp();
    watcher.send("SUB safe\n");
    watcher.synchronise();
    let mut random = Random(11);
    for round in 0..300 {
        let len = random.below(400);
        // Half of them are of a few bytes only, so that some are messages.
        let byte = |random: &mut Random| match round % 2 {
            0 => random.below(256) as u8,
            _ => b"\x01\x03\x04\x05\x06\x00\x00k*? wrsbc\"\\1\r\n"[random.below(21)],
        };
        let bytes: Vec<u8> = (0..len).map(|_| byte(&mut random)).collect();
        match round % 3 {
            0 => drop(server.over_tcp().try_send(&bytes)),
            1 => drop(server.over_unix().try_send(&bytes)),
            _ => server.over_packets().send(&bytes),
        }
        watcher.synchronise();
    }
    let mut writer = server.over_unix();
    writer.send("WRITE safe yes\n");
    assert_eq!(watcher.line(), "INFO \"safe\" \"yes\"");
    writer.synchronise();
}

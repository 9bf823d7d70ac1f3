//! Nobody holds the server up: not by a log that is not read, not by asking much, not by dying.

mod common;

use common::{frame, sized, start, Client, Random, Running, PATIENCE};
use std::io::{BufRead, BufReader, Read, Write};
use std::net::{Shutdown, TcpStream};
use std::os::unix::net::UnixStream;
use std::process::{Command, Stdio};
use std::sync::atomic::{AtomicBool, Ordering};
use std::sync::Arc;
use std::time::{Duration, Instant};

/// Writes so many keys with values of so many bytes, and waits until that is done.
fn fill(server: &Running, keys: usize, len: usize) {
    let mut writer = server.over_unix();
    let value = "x".repeat(len);
    for key in 0..keys {
        writer.send(format!("WRITE key.{key:04} {value}\n"));
    }
    writer.synchronise();
}

/// The time of each of so many PINGs, sorted.
fn pings(client: &mut Client, count: usize) -> Vec<Duration> {
    let mut times: Vec<Duration> = (0..count)
        .map(|_| {
            std::thread::sleep(Duration::from_millis(2));
            let begin = Instant::now();
            client.send("PING\n");
            assert_eq!(client.line(), "PONG \"\"");
            begin.elapsed()
        })
        .collect();
    times.sort_unstable();
    times
}

/// Clients that send SUB * without end and read what comes, until they are told to stop.
fn greedy(server: &Running, count: usize, stop: &Arc<AtomicBool>) {
    for _ in 0..count {
        let mut sender = TcpStream::connect(server.tcp).expect("connected");
        sender
            .set_write_timeout(Some(PATIENCE))
            .expect("a write timeout");
        let mut reader = sender.try_clone().expect("the other half");
        let over = stop.clone();
        std::thread::spawn(move || {
            let batch = "s *\n".repeat(4096);
            while !over.load(Ordering::Relaxed) && sender.write_all(batch.as_bytes()).is_ok() {}
            let _ = sender.shutdown(Shutdown::Both);
        });
        std::thread::spawn(move || {
            let mut room = vec![0; 1 << 16];
            while reader.read(&mut room).is_ok_and(|n| n > 0) {}
        });
    }
}

/// Another client's PING beside clients that ask for everything, again and again.
fn another_is_answered(clients: usize, keys: usize, len: usize) {
    let server = start(|_| {});
    fill(&server, keys, len);
    let mut client = server.over_tcp();
    client.synchronise();
    let stop = Arc::new(AtomicBool::new(false));
    greedy(&server, clients, &stop);
    std::thread::sleep(Duration::from_millis(300));
    let times = pings(&mut client, 50);
    stop.store(true, Ordering::Relaxed);
    // A message a turn was 100 ms with one such client, and seconds with many. On a machine with
    // other work a single one may still be late.
    let middle = times[times.len() / 2];
    assert!(middle < Duration::from_millis(25), "{times:?}");
}

#[test]
fn one_client_that_asks_for_everything_delays_nobody() {
    another_is_answered(1, 1023, 8);
}

#[test]
fn many_clients_that_ask_for_everything_delay_nobody() {
    another_is_answered(28, 1023, 8);
}

#[test]
fn long_values_are_no_other_way_to_delay() {
    another_is_answered(28, 24, 35_000);
}

#[test]
fn a_client_that_reads_is_not_shut_by_what_others_send() {
    // A turn feeds far more than this queue holds, so room has to be made in between.
    let server = sized(8, 65_536, 2048, 256);
    let mut reader = server.over_unix();
    reader.send("SUB *\n");
    reader.synchronise();
    let mut writers: Vec<_> = (0..4).map(|_| server.over_unix()).collect();
    for (who, writer) in writers.iter_mut().enumerate() {
        let lines: String = (0..400).map(|i| format!("w k{who} {i}\n")).collect();
        let commits: String = (0..25)
            .map(|i| format!("b\nw a{who} {i}\nw b{who} {i}\nc\n"))
            .collect();
        // A spoiled transaction owes nobody anything, and what comes behind it does.
        writer.send(format!("b\nw k{who} x\nr\nc\n{lines}{commits}"));
    }
    let mut last = [0; 4];
    for _ in 0..4 * 450 {
        let line = reader.line();
        let who = line.as_bytes()[7] - b'0';
        if line.starts_with("INFO \"k") {
            let value: usize = line
                .split('"')
                .nth(3)
                .expect("a value")
                .parse()
                .expect("a number");
            assert_eq!(value, last[usize::from(who)], "{line}");
            last[usize::from(who)] += 1;
        }
    }
    assert_eq!(last, [400; 4]);
    assert_eq!(server.stop().overflows, 0);
}

/// Sends this input, reads nothing and resets the connection.
fn die(server: &Running, input: &[u8]) {
    let mut stream = TcpStream::connect(server.tcp).expect("connected");
    stream.set_nonblocking(true).expect("nonblocking");
    let until = Instant::now() + Duration::from_secs(3);
    let mut sent = 0;
    while sent < input.len() && Instant::now() < until {
        match stream.write(&input[sent..]) {
            Ok(n) => sent += n,
            Err(_) => std::thread::sleep(Duration::from_millis(1)),
        }
    }
    assert_eq!(sent, input.len(), "the sockets take all of it");
    let mut byte = [0];
    while stream.peek(&mut byte).is_err() && Instant::now() < until {
        std::thread::sleep(Duration::from_millis(1));
    }
    // An answer that is not read makes this a reset.
    drop(stream);
}

#[test]
fn a_dead_client_frees_its_slot() {
    let server = start(|_| {});
    fill(&server, 1023, 8);
    server.log.wait_for_count("close slot", 1);
    die(&server, "s *\n".repeat(100_000).as_bytes());
    // At full price this takes minutes.
    let until = Instant::now() + Duration::from_secs(10);
    while server.log.count("close slot") < 2 {
        assert!(Instant::now() < until, "{}", server.log.text());
        std::thread::sleep(Duration::from_millis(10));
    }
}

#[test]
fn a_dead_client_frees_its_slot_after_transactions_too() {
    let server = start(|_| {});
    fill(&server, 1023, 8);
    server.log.wait_for_count("close slot", 1);
    let talk = format!("b\n{}c\n\n", "s *\nr key.0001\n".repeat(10));
    die(&server, talk.repeat(600).as_bytes());
    let until = Instant::now() + Duration::from_secs(5);
    while server.log.count("close slot") < 2 {
        assert!(Instant::now() < until, "{}", server.log.text());
        std::thread::sleep(Duration::from_millis(10));
    }
}

#[test]
fn a_dead_client_frees_its_slot_after_typing_errors_too() {
    let server = start(|_| {});
    fill(&server, 1023, 8);
    server.log.wait_for_count("close slot", 1);
    // The last WRITE, which does nothing, is at the end.
    let slips = "nonsense\nb\nb\nw key.0001 x\r\nc\n".repeat(20_000);
    die(&server, slips.as_bytes());
    let until = Instant::now() + Duration::from_secs(10);
    while server.log.count("close slot") < 2 {
        assert!(Instant::now() < until, "{}", server.log.text());
        std::thread::sleep(Duration::from_millis(10));
    }
    let counters = server.stop();
    // Of each five lines the first is passed over, and the other four together. What the system
    // did not hold for the connection has died with it.
    assert!(counters.skipped > 5_000, "{counters}");
}

#[test]
fn packets_of_a_dead_client_are_done() {
    let server = start(|_| {});
    let mut watcher = server.over_unix();
    watcher.send("SUB k*\n");
    watcher.synchronise();
    for i in 0..100 {
        let client = server.over_packets();
        // Its answer is not read, so that the server's first read after the end is an error.
        client.send(b"\x07unread");
        std::thread::sleep(Duration::from_millis(2));
        for key in 0..3 {
            client.send(format!("\x04k{key}\0{i}").as_bytes());
        }
        drop(client);
        for key in 0..3 {
            assert_eq!(watcher.line(), format!("INFO \"k{key}\" \"{i}\""));
        }
    }
}

#[test]
fn what_a_dead_client_wrote_is_done() {
    let server = start(|_| {});
    fill(&server, 1000, 8);
    let mut watcher = server.over_unix();
    watcher.send("SUB done*\n");
    watcher.synchronise();
    // All of it fits into what the system holds for a connection, so that none dies with it.
    let talk = "s *\np\nr key.0001\n\nhelp\n".repeat(700);
    let input = [
        &talk,
        "w done.1 a\n",
        &talk,
        "b\nr x\nw done.2 b\nw done.3 c\nc\n",
        &talk,
    ];
    die(&server, input.concat().as_bytes());
    for (key, value) in [(1, "a"), (2, "b"), (3, "c")] {
        assert_eq!(watcher.line(), format!("INFO \"done.{key}\" \"{value}\""));
    }
    // A message that shuts a client ends what it does, whether it is there to hear it or not.
    let pattern = format!("s {}\n", "x".repeat(256));
    let value = format!("w done.4 {}\n", "x".repeat(70_000));
    for shutting in [pattern, value] {
        die(&server, format!("{talk}{shutting}w done.4 d\n").as_bytes());
    }
    let frames = [frame(7, b""), frame(9, b""), frame(4, b"done.4\0d")];
    die(&server, &frames.concat());
    let until = Instant::now() + PATIENCE;
    while server.log.count("close slot") < 5 {
        assert!(Instant::now() < until, "{}", server.log.text());
        std::thread::sleep(Duration::from_millis(10));
    }
    watcher.send("READ done.4\n");
    assert_eq!(watcher.line(), "INFO \"done.4\"");
    assert!(server.stop().skipped > 1000);
}

#[test]
fn what_a_dead_client_wrote_behind_a_slip_is_done() {
    let server = start(|_| {});
    fill(&server, 1000, 8);
    let mut watcher = server.over_unix();
    watcher.send("SUB done*\n");
    watcher.synchronise();
    let talk = "s *\nr\nnonsense\nb\ns *\nr\nc\n".repeat(700);
    for (count, slip) in ["s **\n", "nonsense\n", "b\nb\nc\n", "r\n", "b\nr\nc\n"]
        .into_iter()
        .enumerate()
    {
        let input = [&talk, slip, &format!("w done.1 {count}\n"), &talk];
        die(&server, input.concat().as_bytes());
        assert_eq!(watcher.line(), format!("INFO \"done.1\" \"{count}\""));
    }
    // Of a spoiled transaction nothing is done, and what comes behind its COMMIT is.
    let spoiled = "b\nw done.1 x\nr\nw done.2 x\nc\n";
    for count in 0..3 {
        let rest = format!("b\nw done.3 {count}\nw done.4 {count}\nc\n");
        let input = [&talk, spoiled, &rest, spoiled, &talk];
        die(&server, input.concat().as_bytes());
        for key in [3, 4] {
            assert_eq!(watcher.line(), format!("INFO \"done.{key}\" \"{count}\""));
        }
    }
    watcher.send("READ done.2\n");
    assert_eq!(watcher.line(), "INFO \"done.2\"");
    let counters = server.stop();
    assert!(counters.slips > 0 && counters.skipped > 1000, "{counters}");
}

/// Lines of a client that says all sorts of things, seldom something wrong.
fn talk(random: &mut Random) -> String {
    const LINES: [&str; 26] = [
        "s *",
        "s a*",
        "s ?",
        "u *",
        "u a*",
        "r a",
        "r b",
        "p",
        "p x",
        "",
        "help",
        "hello",
        "w a 1",
        "w a 2",
        "w b 3",
        "w b",
        "b",
        "c",
        "s **",
        "r",
        "b\ns *\nr a\nc",
        "b\nu *\nc",
        "b\ns *\nr\nc",
        "b\nw a 4\ns **\nw b 4\nc",
        "c x",
        "b\nw b 5\nc x",
    ];
    let mut lines = String::new();
    for _ in 0..random.below(120) {
        let line = match random.below(60) {
            0 => random.below(20),
            1..5 => 12 + random.below(4),
            5..8 => 16 + random.below(2),
            8..13 => 20 + random.below(6),
            _ => random.below(12),
        };
        lines.push_str(LINES[line]);
        lines.push('\n');
        if random.below(40) == 0 {
            // Patterns without end, of which the seventeenth is refused, and a value too long.
            lines.push_str(&match random.below(2) {
                0 => format!("s {}\n", random.below(1000)),
                _ => format!("w c {}\n", "x".repeat(100 + random.below(400))),
            });
        }
    }
    lines
}

/// All keys and values, when the client that sent this is closed: one that lives and reads, or one
/// that is dead before any of it is read.
fn left_by(input: &str, lives: bool) -> Vec<u8> {
    let server = sized(2, 600, 1024, 256);
    let mut watcher = server.over_unix();
    watcher.send("w b 0\n");
    watcher.synchronise();
    let mut client = server.over_unix();
    if lives {
        client.send(input);
        client.stream.end();
        client.rest();
    } else {
        client.send(input);
    }
    drop(client);
    server.log.wait_for("close slot=1");
    watcher.send("s *\n");
    watcher.stream.end();
    watcher.rest()
}

#[test]
fn the_dead_do_what_the_living_do() {
    let mut random = Random(23);
    let mut different = std::collections::BTreeSet::new();
    for _ in 0..150 {
        let input = talk(&mut random);
        let (living, dead) = (left_by(&input, true), left_by(&input, false));
        assert_eq!(living, dead, "{input}");
        different.insert(dead);
    }
    assert!(different.len() > 10, "the inputs do all sorts of things");
}

/// The server as a process with a log that nobody reads at first.
fn unread_log(path: &std::path::Path) -> std::process::Child {
    Command::new(env!("CARGO_BIN_EXE_infod3d"))
        .arg("--unix")
        .arg(path)
        .stderr(Stdio::piped())
        .spawn()
        .expect("infod3d runs")
}

/// Waits for a process; whether it ends well.
fn finish(mut child: std::process::Child) -> bool {
    let until = Instant::now() + PATIENCE;
    loop {
        match child.try_wait().expect("a process") {
            Some(status) => return status.success(),
            None if Instant::now() > until => {
                let _ = child.kill();
                panic!("the process does not end");
            }
            None => std::thread::sleep(Duration::from_millis(5)),
        }
    }
}

fn connect(path: &std::path::Path) -> UnixStream {
    let until = Instant::now() + PATIENCE;
    loop {
        match UnixStream::connect(path) {
            Ok(stream) => {
                stream.set_read_timeout(Some(PATIENCE)).expect("a timeout");
                return stream;
            }
            Err(error) => assert!(Instant::now() < until, "{error}"),
        }
        std::thread::sleep(Duration::from_millis(2));
    }
}

fn ping(path: &std::path::Path) {
    let mut stream = connect(path);
    stream.write_all(b"PING\n").expect("sent");
    let mut answer = [0; 9];
    stream.read_exact(&mut answer).expect("an answer in time");
    assert_eq!(&answer, b"PONG \"\"\r\n");
}

#[test]
fn a_log_that_nobody_reads_stops_nothing() {
    let folder = common::Folder::new();
    let path = folder.0.join("socket");
    let mut child = unread_log(&path);
    for _ in 0..1500 {
        ping(&path);
    }
    // Who reads late finds the first lines, and how many were left out.
    let mut lines = BufReader::new(child.stderr.take().expect("its log")).lines();
    let mut first = lines.by_ref().take(1000).map(|line| line.expect("a line"));
    assert!(first.all(|line| !line.contains("left out")));
    let mut count = 1000;
    loop {
        ping(&path);
        let line = lines.next().expect("more lines").expect("a line");
        count += 1;
        if line.contains(" lines left out") {
            break;
        }
    }
    assert!(count < 2500, "{count} lines for some 1500 clients");
    drop(lines);
    let pid = child.id().to_string();
    let sent = Command::new("kill").arg(pid).status();
    assert!(sent.expect("kill runs").success());
    assert!(finish(child));
}

#[test]
fn a_stop_comes_through_a_log_that_is_stuck() {
    let folder = common::Folder::new();
    let path = folder.0.join("socket");
    let mut child = unread_log(&path);
    let log = child.stderr.take();
    for _ in 0..1200 {
        ping(&path);
    }
    let begin = Instant::now();
    let sent = Command::new("kill").arg(child.id().to_string()).status();
    assert!(sent.expect("kill runs").success());
    assert!(finish(child));
    assert!(begin.elapsed() < Duration::from_secs(10));
    assert!(!path.exists());
    drop(log);
}

#[test]
fn a_stop_drops_nothing_of_what_is_queued() {
    let server = start(|_| {});
    fill(&server, 14, 60_000);
    let mut client = server.over_unix();
    client.send("SUB *\nPING\n");
    assert!(client.line().starts_with("INFO \"key.0000\""));
    let running = std::thread::spawn(move || server.stop());
    std::thread::sleep(Duration::from_millis(100));
    let rest = String::from_utf8(client.rest()).expect("UTF-8");
    assert_eq!(rest.matches("INFO \"key.").count(), 13);
    assert!(rest.ends_with("PONG \"\"\r\n"), "what was read is fed");
    running.join().expect("the server stops");
}

#[test]
fn a_stop_waits_for_who_reads_slowly() {
    let server = start(|_| {});
    fill(&server, 10, 40_000);
    let mut client = server.over_unix();
    client.send("SUB *\n");
    assert!(client.line().starts_with("INFO \"key.0000\""));
    let running = std::thread::spawn(move || server.stop());
    // A Unix socket is said to be writable when most of its buffer is free, which takes seconds.
    let mut count = 0;
    let mut room = [0; 8192];
    loop {
        std::thread::sleep(Duration::from_millis(70));
        match client.stream.read(&mut room).expect("bytes or the end") {
            0 => break,
            n => count += n,
        }
    }
    let rest = count + client.buffered();
    assert_eq!(rest, 9 * (40_000 + r#"INFO "key.0000" """#.len() + 2));
    running.join().expect("the server stops");
}

#[test]
fn a_read_only_refusal_drops_nothing_either() {
    let server = start(|options| {
        options.listeners[0].access = infod3d::options::Access::ReadOnly;
    });
    fill(&server, 14, 60_000);
    for write in [b"WRITE k v\n".to_vec(), frame(4, b"k\0v")] {
        let mut client = server.over_tcp();
        match write[0] {
            4 => client.send(frame(1, b"*")),
            _ => client.send("SUB *\n"),
        }
        client.send(&write);
        std::thread::sleep(Duration::from_millis(50));
        let rest = client.rest();
        let told = b"# read-only: this listener takes no WRITE\r\n";
        assert!(rest.ends_with(told));
        assert!(rest.len() > 14 * 60_000, "{}", rest.len());
    }
}

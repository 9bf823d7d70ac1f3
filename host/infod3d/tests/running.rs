//! A server that runs as a service: what it tells its manager, and its metrics.

mod common;

use common::{Folder, Program, PATIENCE};
use std::io::{Read, Write};
use std::os::unix::net::{UnixDatagram, UnixStream};
use std::path::Path;
use std::time::{Duration, Instant};

fn told(socket: &UnixDatagram) -> String {
    let mut bytes = [0; 200];
    let len = socket.recv(&mut bytes).expect("a datagram in time");
    String::from_utf8_lossy(&bytes[..len]).into_owned()
}

#[test]
fn the_service_manager_is_told() {
    let folder = Folder::new();
    let [notify, first, second] = ["notify", "first", "second"].map(|name| folder.0.join(name));
    let manager = UnixDatagram::bind(&notify).expect("a socket");
    manager.set_read_timeout(Some(PATIENCE)).expect("a timeout");
    let program = Program::start(|command| {
        command.env("NOTIFY_SOCKET", &notify);
        command.env("WATCHDOG_USEC", "100000");
        command.env_remove("WATCHDOG_PID");
        command.arg("--unix").arg(&first);
        command.arg("--seqpacket").arg(&second);
    });
    assert_eq!(told(&manager), "READY=1\nSTATUS=2 listeners, 32 slots");
    UnixStream::connect(&first).expect("it listens");
    infod3d::sys::connect_packets(&second).expect("it listens there too");
    let begin = Instant::now();
    for _ in 0..5 {
        assert_eq!(told(&manager), "WATCHDOG=1");
    }
    // Half the watchdog's time is 50 ms; the first comes at once.
    assert!(begin.elapsed() >= Duration::from_millis(150));
    program.signal("-TERM");
    while told(&manager) != "STOPPING=1" {}
    assert_eq!(program.finish().0, Some(0));
}

#[test]
fn a_manager_that_is_not_there_is_one_line() {
    let folder = Folder::new();
    for name in ["/no/such/socket", "nonsense"] {
        let path = folder.0.join("socket");
        let mut program = Program::start(|command| {
            command
                .env("NOTIFY_SOCKET", name)
                .env("WATCHDOG_USEC", "2000");
            command.env_remove("WATCHDOG_PID");
            command.arg("--unix").arg(&path);
        });
        program.wait_for("notify: ");
        let mut client = UnixStream::connect(&path).expect("connected");
        client.set_read_timeout(Some(PATIENCE)).expect("a timeout");
        for _ in 0..20 {
            client.write_all(b"PING\n").expect("sent");
            client.read_exact(&mut [0; 9]).expect("an answer");
        }
        program.signal("-TERM");
        let (status, _, log) = program.finish();
        assert_eq!(status, Some(0));
        assert!(!log.contains("notify: "), "{log}");
    }
}

/// Waits until the page holds this line.
fn wait_for(path: &Path, line: &str) {
    let until = Instant::now() + PATIENCE;
    loop {
        let page = std::fs::read_to_string(path).unwrap_or_default();
        if page.lines().any(|found| found == line) {
            assert!(page.starts_with("# HELP infod3_up_seconds ") && page.ends_with('\n'));
            return;
        }
        assert!(Instant::now() < until, "no {line:?} in:\n{page}");
        std::thread::sleep(Duration::from_millis(5));
    }
}

#[test]
fn the_metrics_are_written_at_the_start_in_between_and_at_the_stop() {
    for period in [None, Some("--stats=1")] {
        let folder = Folder::new();
        let [socket, page] = ["socket", "infod3.prom"].map(|name| folder.0.join(name));
        let program = Program::start(|command| {
            command.arg("--unix").arg(&socket);
            command.arg("--metrics").arg(&page).args(period);
        });
        wait_for(&page, "infod3_clients_ever_total 0");
        let mut client = UnixStream::connect(&socket).expect("connected");
        client.set_read_timeout(Some(PATIENCE)).expect("a timeout");
        client.write_all(b"WRITE k v\nr\nPING\n").expect("sent");
        client.read_exact(&mut [0; 36]).expect("two answers");
        if period.is_some() {
            wait_for(&page, "infod3_clients 1");
            wait_for(&page, "infod3_keys 1");
        }
        program.signal("-TERM");
        assert_eq!(program.finish().0, Some(0));
        wait_for(&page, "infod3_messages_in_total 3");
        wait_for(&page, "infod3_clients 0");
        wait_for(&page, "infod3_refused_total{number=\"100\"} 0");
        wait_for(&page, "infod3_refused_total{number=\"101\"} 1");
        wait_for(&page, "infod3_slips_total 1");
        wait_for(&page, "infod3_shut_total 0");
        let names = std::fs::read_dir(&folder.0).expect("the folder");
        assert_eq!(names.count(), 1, "only the page is left");
    }
}

#[test]
fn metrics_that_cannot_be_written_are_a_line() {
    let folder = Folder::new();
    let path = folder.0.join("socket");
    let mut program = Program::start(|command| {
        command
            .arg("--unix")
            .arg(&path)
            .arg("--metrics=/no/such/folder/x");
    });
    program.wait_for("listen unix");
    let mut client = UnixStream::connect(&path).expect("connected");
    client.set_read_timeout(Some(PATIENCE)).expect("a timeout");
    client.write_all(b"PING\n").expect("sent");
    client.read_exact(&mut [0; 9]).expect("an answer");
    program.signal("-TERM");
    program.wait_for("metrics /no/such/folder/x: No such file");
    assert_eq!(program.finish().0, Some(0));
}

//! The descriptor that signals write to does not outlive its owner. The test is alone in its
//! process, since it is about the numbers of all descriptors.

mod common;

use common::Folder;
use infod3::Sizes;
use infod3d::options::ListenerOptions;
use infod3d::{Log, Options, Server};
use std::io::{ErrorKind, Read};
use std::os::unix::net::UnixStream;
use std::process::Command;
use std::time::{Duration, Instant};

fn server(folder: &Folder) -> Server {
    let options = Options {
        listeners: vec![ListenerOptions::unix(folder.0.join("socket"))],
        sizes: Sizes::SMALLEST,
        ..Options::default()
    };
    let log = Log::new(Box::new(std::io::sink()), true);
    Server::new(&options, log).expect("a server")
}

#[test]
fn a_signal_after_the_end_writes_to_no_other_file() {
    let folder = Folder::new();
    let first = server(&folder);
    first.take_signals().expect("the signals");
    let mut handle = first.handle().expect("a handle");
    handle.stop();
    first.run().expect("a clean end");
    drop(handle);
    // These get the numbers that the server has left.
    let mut pairs: Vec<_> = (0..32)
        .map(|_| UnixStream::pair().expect("a pair"))
        .collect();
    for (one, other) in &pairs {
        one.set_nonblocking(true).expect("nonblocking");
        other.set_nonblocking(true).expect("nonblocking");
    }
    let pid = std::process::id().to_string();
    let sent = Command::new("kill").args(["-USR1", &pid]).status();
    assert!(sent.expect("kill runs").success());
    // A byte that comes comes at once; nothing else tells that none does.
    let until = Instant::now() + Duration::from_millis(200);
    while Instant::now() < until {
        for (one, other) in &mut pairs {
            for end in [one, other] {
                let read = end.read(&mut [0; 8]).map_err(|error| error.kind());
                assert_eq!(read, Err(ErrorKind::WouldBlock), "a byte of a signal");
            }
        }
    }
    let second = server(&folder).take_signals();
    let error = second.expect_err("a process has one server with signals");
    assert_eq!(error.kind(), ErrorKind::AlreadyExists);
}

//! The program: its options, its signals and the files of its sockets.

mod common;

use common::{start, Folder, Program, PATIENCE};
use infod3d::options::{self, escaped, ListenerOptions};
use infod3d::{Log, Options, Server};
use std::ffi::{OsStr, OsString};
use std::io::{Read, Write};
use std::os::unix::ffi::OsStrExt;
use std::os::unix::fs::PermissionsExt;
use std::os::unix::net::{UnixListener, UnixStream};
use std::path::Path;
use std::process::Command;

fn infod3d(arguments: &[&str]) -> Program {
    Program::start(|command| {
        command.args(arguments);
    })
}

#[test]
fn wrong_options_end_with_status_2() {
    let table = [
        (
            vec!["--slots", "0"],
            "infod3d: the number of slots 0 is not 1 to 32\n",
        ),
        (
            vec!["--slots", "33"],
            "infod3d: the number of slots 33 is not 1 to 32\n",
        ),
        (
            vec!["--store", "1048577"],
            "infod3d: the store room 1048577 is not 256 to 1048576\n",
        ),
        (
            vec!["--queue", "1023"],
            "infod3d: the queue room 1023 is not 1024 to 1048576\n",
        ),
        (
            vec!["--record", "262145"],
            "infod3d: the record room 262145 is not 256 to 262144\n",
        ),
        (
            vec!["--queue", "-1"],
            "infod3d: --queue wants a number, not -1\n",
        ),
        (
            vec![
                "--slots=2",
                "--unix=a,reserve=2",
                "--reserve-tcp=1",
                "--tcp=127.0.0.1:0",
            ],
            "infod3d: the listeners reserve 3 slots and there are 2\n",
        ),
        (
            vec!["--tcp", "0.0.0.0:0"],
            "infod3d: 0.0.0.0:0 is not loopback; --allow-remote allows it\n",
        ),
    ];
    for (arguments, error) in table {
        let (status, _, log) = infod3d(&arguments).finish();
        assert_eq!((status, log.as_str()), (Some(2), error));
    }
}

#[test]
fn help_and_version_are_said() {
    for name in ["--help", "-h"] {
        let (status, output, _) = infod3d(&[name]).finish();
        assert_eq!((status, output), (Some(0), options::PAGE.help()));
    }
    let version = concat!(
        "infod3d ",
        env!("CARGO_PKG_VERSION"),
        ", infod3 protocol version 0\n"
    );
    for name in ["--version", "-V"] {
        let (status, output, _) = infod3d(&[name]).finish();
        assert_eq!((status, output.as_str()), (Some(0), version));
    }
    // Output that is lost is a failure and not a panic.
    let mut command = Command::new("sh");
    command.args(["-c", "exec \"$0\" --help >/dev/full"]);
    command.arg(env!("CARGO_BIN_EXE_infod3d"));
    let (status, _, log) = Program::spawn(command).finish();
    assert_eq!(status, Some(1));
    assert!(log.starts_with("infod3d: standard output: "), "{log}");
}

/// Whether SIGHUP is ignored here, and so in every process that is started from here.
fn hang_up_is_ignored() -> bool {
    let status = std::fs::read_to_string("/proc/self/status").expect("the process table");
    let line = status.lines().find_map(|line| line.strip_prefix("SigIgn:"));
    let mask = u64::from_str_radix(line.expect("a mask").trim(), 16);
    mask.expect("a number") & 1 == 1
}

#[test]
fn signals_write_the_counters_and_stop() {
    let names = ["-INT", "-TERM", "-HUP"];
    for name in &names[..names.len() - usize::from(hang_up_is_ignored())] {
        let folder = Folder::new();
        let path = folder.0.join("socket");
        let text = path.to_str().expect("UTF-8");
        let mut program = infod3d(&["--unix", text, "--slots", "2", "--stats", "1"]);
        program.wait_for("listen unix");
        let mut client = UnixStream::connect(&path).expect("connected");
        client.set_read_timeout(Some(PATIENCE)).expect("a timeout");
        client.write_all(b"PING\n").expect("sent");
        let mut answer = [0; 9];
        client.read_exact(&mut answer).expect("an answer");
        assert_eq!(&answer, b"PONG \"\"\r\n");
        program.signal("-USR1");
        let line = program.wait_for("counters ");
        assert!(line.contains("clients=1 keys=0 clients_ever=1"));
        program.wait_for("counters ");
        program.signal(name);
        program.wait_for("stop signal=");
        program.wait_for("close slot=0");
        let mut rest = Vec::new();
        client.read_to_end(&mut rest).expect("the end");
        assert_eq!(rest, b"");
        assert_eq!(program.finish().0, Some(0));
        assert!(!path.exists(), "the socket's file is removed");
    }
}

#[test]
fn a_hang_up_that_is_ignored_stays_so() {
    let folder = Folder::new();
    let mut command = Command::new("sh");
    command.args(["-c", "trap '' HUP; exec \"$0\" --unix \"$1\""]);
    command.arg(env!("CARGO_BIN_EXE_infod3d"));
    command.arg(folder.0.join("socket"));
    let mut program = Program::spawn(command);
    program.wait_for("listen unix");
    program.signal("-HUP");
    program.signal("-USR1");
    program.wait_for("counters ");
    program.signal("-TERM");
    assert!(program.wait_for("stop signal=").ends_with("=15"));
    assert_eq!(program.finish().0, Some(0));
}

#[test]
fn a_path_may_hold_any_bytes() {
    let folder = Folder::new();
    for (index, name) in [&b"\xFF\xFEx"[..], b"a,b", b"c=d"].into_iter().enumerate() {
        let path = folder.0.join(OsStr::from_bytes(name));
        let mut attached = OsString::from("--unix=");
        attached.push(escaped(&path));
        let mut program = Program::start(|command| {
            match index % 2 {
                0 => command.arg(attached),
                _ => command.arg("--unix").arg(escaped(&path)),
            };
        });
        program.wait_for("listen unix");
        UnixStream::connect(&path).expect("connected");
        program.signal("-TERM");
        assert_eq!(program.finish().0, Some(0));
    }
}

fn server_at(path: &Path) -> Result<Server, String> {
    let options = Options {
        listeners: vec![ListenerOptions::unix(path)],
        ..Options::default()
    };
    let log = Log::new(Box::new(std::io::sink()), true);
    Server::new(&options, log).map_err(|error| error.to_string())
}

#[test]
fn a_folder_of_somebody_else_is_not_used() {
    let folder = Folder::new();
    let link = folder.0.join("link");
    std::os::unix::fs::symlink(&folder.0, &link).expect("a link");
    let options = Options {
        listeners: vec![ListenerOptions::unix(link.join("socket"))],
        private_folder: Some(link.clone()),
        ..Options::default()
    };
    let log = Log::new(Box::new(std::io::sink()), true);
    let error = Server::new(&options, log).err().expect("an error");
    let link = link.display();
    let expected = format!("cannot listen on a socket in {link}: {link} is a link");
    assert_eq!(error.to_string(), expected);
}

#[test]
fn a_stale_file_is_replaced_and_a_live_one_is_not() {
    let folder = Folder::new();
    let path = folder.0.join("socket");
    drop(UnixListener::bind(&path).expect("a listener"));
    assert!(path.exists(), "std leaves the file");
    let first = server_at(&path).expect("the file of a dead server is replaced");
    let error = server_at(&path).err().expect("an error");
    let expected = format!(
        "cannot listen on unix {}: a server listens there already",
        path.display()
    );
    assert_eq!(error, expected);
    assert!(path.exists(), "the first server's file stays");
    drop(first);
    assert!(!path.exists());
    std::fs::write(&path, "precious").expect("a file");
    let error = server_at(&path).err().expect("an error");
    assert!(
        error.ends_with("the path is taken by another file"),
        "{error}"
    );
    assert_eq!(std::fs::read(&path).expect("the file"), b"precious");
    assert!(server_at(&folder.0.join("no/such/folder")).is_err());
    assert!(server_at(&folder.0.join("x".repeat(200))).is_err());
}

#[test]
fn the_files_get_their_mode() {
    for mode in [0o600, 0o660, 0o606, 0o777] {
        let server = start(|options| {
            let listeners = options.listeners.iter_mut();
            listeners.for_each(|listener| listener.rights.mode = mode);
        });
        for path in [&server.unix, &server.packets] {
            let found = std::fs::metadata(path)
                .expect("the file")
                .permissions()
                .mode();
            assert_eq!(found & 0o777, mode);
        }
    }
}

#[test]
fn a_stop_closes_every_client() {
    let server = start(|_| {});
    let mut clients = [server.over_tcp(), server.over_unix()];
    let packets = server.over_packets();
    packets.send(b"\x07");
    assert_eq!(packets.packet(), b"\x82");
    for client in &mut clients {
        client.send("SUB *\n");
        client.synchronise();
    }
    let (unix, seqpacket) = (server.unix.clone(), server.packets.clone());
    let counters = server.stop();
    assert_eq!(counters.clients_ever, 3);
    clients
        .iter_mut()
        .for_each(|client| assert_eq!(client.rest(), b""));
    assert_eq!(packets.packet(), b"");
    assert!(!unix.exists() && !seqpacket.exists());
}

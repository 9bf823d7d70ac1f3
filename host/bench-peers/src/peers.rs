//! How to start each server, and how its messages look. All payloads have one length, so that
//! deliveries and answers have one length too and can be counted by bytes.

use infod3_cli::{written, Command as Infod3, Wire};
use infod3d::process::Process;
use std::ffi::OsString;
use std::path::PathBuf;
use std::process::Command;

/// The bytes of a published payload.
pub const PAYLOAD: usize = 64;
/// The key, channel, topic or subject.
const TOPIC: &str = "site.07.state";

/// What to wait for after something was sent.
pub enum Until {
    /// So many bytes.
    Bytes(usize),
    /// An answer that ends with these bytes.
    EndsWith(&'static [u8]),
}

/// The frames of commands.
fn frames(commands: &[Infod3<'_>]) -> Vec<u8> {
    written(Wire::Framed, commands).expect("commands that no server refuses")
}

#[derive(Clone, Copy, PartialEq, Eq)]
enum Protocol {
    /// infod3 in framed binary, with so many other keys in the store.
    Infod3(usize),
    Redis,
    Mqtt,
    Nats,
}

/// A server to measure.
pub struct Peer {
    /// Its name in the table.
    pub name: &'static str,
    program: PathBuf,
    protocol: Protocol,
}

impl Peer {
    /// All servers, the own one first.
    pub fn all() -> Vec<Peer> {
        let own = Process::beside().unwrap_or_default();
        let peer = |name, program: PathBuf, protocol| Peer {
            name,
            program,
            protocol,
        };
        vec![
            peer("infod3d, 1 key", own.clone(), Protocol::Infod3(0)),
            peer("infod3d, 1,024 keys", own, Protocol::Infod3(1023)),
            peer("redis", found("redis-server"), Protocol::Redis),
            peer("mosquitto", found("mosquitto"), Protocol::Mqtt),
            peer("nats", found("nats-server"), Protocol::Nats),
        ]
    }

    /// Whether its program is there.
    pub fn is_installed(&self) -> bool {
        self.program.is_file()
    }

    /// Its name, with its version where it is another server that is installed.
    pub fn title(&self) -> String {
        let asked = match self.protocol {
            Protocol::Infod3(_) => None,
            Protocol::Mqtt => Some("-h"),
            Protocol::Redis | Protocol::Nats => Some("--version"),
        };
        let said = asked.and_then(|word| Command::new(&self.program).arg(word).output().ok());
        let said = said.map(|said| String::from_utf8_lossy(&said.stdout).into_owned());
        match said.as_deref().and_then(version) {
            Some(version) => format!("{} {version}", self.name),
            None => self.name.to_owned(),
        }
    }

    /// Whether it is infod3d.
    pub fn is_own(&self) -> bool {
        matches!(self.protocol, Protocol::Infod3(_))
    }

    /// The program and its arguments for a loopback port, keeping nothing on disk.
    pub fn command(&self, port: u16) -> (PathBuf, Vec<OsString>) {
        let address = format!("127.0.0.1:{port}");
        let port = port.to_string();
        let arguments: Vec<&str> = match self.protocol {
            Protocol::Infod3(_) => vec!["--quiet", "--tcp", &address],
            Protocol::Redis => vec![
                "--port",
                &port,
                "--bind",
                "127.0.0.1",
                "--save",
                "",
                "--appendonly",
                "no",
            ],
            Protocol::Mqtt => vec!["-p", &port],
            Protocol::Nats => vec!["-a", "127.0.0.1", "-p", &port],
        };
        let arguments = arguments.into_iter().map(OsString::from).collect();
        (self.program.clone(), arguments)
    }

    /// What a client says first, and what answers it.
    pub fn greeting(&self) -> Vec<(Vec<u8>, Until)> {
        match self.protocol {
            Protocol::Infod3(_) | Protocol::Redis => vec![],
            Protocol::Mqtt => {
                // CONNECT of MQTT 3.1.1 with a clean session and no client identifier.
                let packet = b"\x10\x0C\x00\x04MQTT\x04\x02\x00\x00\x00\x00";
                vec![(packet.to_vec(), Until::Bytes(4))]
            }
            Protocol::Nats => {
                let text = "CONNECT {\"verbose\":false,\"pedantic\":false}\r\nPING\r\n";
                vec![
                    (vec![], Until::EndsWith(b"\r\n")),
                    (text.into(), Until::EndsWith(b"PONG\r\n")),
                ]
            }
        }
    }

    /// What fills the store before the measurement.
    pub fn preparation(&self) -> Vec<(Vec<u8>, Until)> {
        let Protocol::Infod3(keys) = self.protocol else {
            return vec![];
        };
        let keys: Vec<String> = (0..keys).map(|key| format!("other.{key:04}")).collect();
        let writes = keys
            .iter()
            .map(|key| Infod3::Write(key.as_bytes(), b"before!!"));
        let commands: Vec<Infod3> = writes.chain([Infod3::Ping(b"")]).collect();
        vec![(frames(&commands), Until::Bytes(3))]
    }

    /// What a subscriber says, and what answers it.
    pub fn subscription(&self) -> Vec<(Vec<u8>, Until)> {
        let len = TOPIC.len();
        vec![match self.protocol {
            Protocol::Infod3(_) => {
                let commands = [Infod3::Sub(TOPIC.as_bytes()), Infod3::Ping(b"sub")];
                (frames(&commands), Until::EndsWith(b"\x82\x00\x03sub"))
            }
            Protocol::Redis => {
                let text = format!("*2\r\n$9\r\nSUBSCRIBE\r\n${len}\r\n{TOPIC}\r\n");
                (text.into(), Until::EndsWith(b":1\r\n"))
            }
            Protocol::Mqtt => {
                // SUBSCRIBE, packet identifier 1, quality of service 0.
                let mut packet = vec![0x82, 5 + len as u8, 0, 1, 0, len as u8];
                packet.extend(TOPIC.bytes());
                packet.push(0);
                (packet, Until::Bytes(5))
            }
            Protocol::Nats => {
                let text = format!("SUB {TOPIC} 1\r\nPING\r\n");
                (text.into(), Until::EndsWith(b"PONG\r\n"))
            }
        }]
    }

    /// The message with this number, as its publisher sends it.
    pub fn publication(&self, number: u64) -> Vec<u8> {
        let payload = format!("{number:0PAYLOAD$}");
        let len = TOPIC.len();
        match self.protocol {
            Protocol::Infod3(_) => frames(&[Infod3::Write(TOPIC.as_bytes(), payload.as_bytes())]),
            Protocol::Redis => {
                format!("*3\r\n$7\r\nPUBLISH\r\n${len}\r\n{TOPIC}\r\n${PAYLOAD}\r\n{payload}\r\n")
                    .into()
            }
            Protocol::Mqtt => {
                let mut packet = vec![0x30, (2 + len + PAYLOAD) as u8, 0, len as u8];
                packet.extend(TOPIC.bytes());
                packet.extend(payload.bytes());
                packet
            }
            Protocol::Nats => format!("PUB {TOPIC} {PAYLOAD}\r\n{payload}\r\n").into(),
        }
    }

    /// The bytes of a message as a subscriber gets it.
    pub fn delivery_len(&self) -> usize {
        let len = TOPIC.len();
        let digits = len.to_string().len();
        match self.protocol {
            Protocol::Infod3(_) => 3 + len + 1 + PAYLOAD,
            Protocol::Redis => {
                let head = "*3\r\n$7\r\nmessage\r\n".len();
                head + 1 + digits + 2 + len + 2 + "$64\r\n".len() + PAYLOAD + 2
            }
            Protocol::Mqtt => 4 + len + PAYLOAD,
            Protocol::Nats => "MSG ".len() + len + " 1 64\r\n".len() + PAYLOAD + 2,
        }
    }

    /// A request that every protocol has.
    pub fn request(&self) -> &'static [u8] {
        match self.protocol {
            Protocol::Infod3(_) => b"\x07\x00\x00",
            Protocol::Redis => b"*1\r\n$4\r\nPING\r\n",
            Protocol::Mqtt => b"\xC0\x00",
            Protocol::Nats => b"PING\r\n",
        }
    }

    /// The bytes of its answer.
    pub fn answer_len(&self) -> usize {
        match self.protocol {
            Protocol::Infod3(_) => 3,
            Protocol::Redis => "+PONG\r\n".len(),
            Protocol::Mqtt => 2,
            Protocol::Nats => "PONG\r\n".len(),
        }
    }
}

/// The first word with a digit, behind `v` or `v=`, and a dot.
fn version(text: &str) -> Option<&str> {
    let words = text.split_whitespace();
    let mut numbers = words.map(|word| word.trim_start_matches(['v', '=']).trim_end_matches(','));
    numbers.find(|word| word.starts_with(|c: char| c.is_ascii_digit()) && word.contains('.'))
}

/// The program of this name in the folders of PATH and of the system's servers.
fn found(name: &str) -> PathBuf {
    let path = std::env::var_os("PATH").unwrap_or_default();
    let folders =
        std::env::split_paths(&path).chain(["/usr/sbin".into(), "/usr/local/sbin".into()]);
    let mut places = folders.map(|folder: PathBuf| folder.join(name));
    places.find(|place| place.is_file()).unwrap_or_default()
}

#[cfg(test)]
mod tests {
    use super::*;

    #[test]
    fn versions_are_found() {
        let redis = "Redis server v=7.0.15 sha=00000000:0 malloc=jemalloc-5.3.0 bits=64";
        assert_eq!(version(redis), Some("7.0.15"));
        assert_eq!(version("nats-server: v2.10.10\n"), Some("2.10.10"));
        let mosquitto = "mosquitto version 2.0.18\n\nmosquitto is an MQTT v5.0/v3.1.1/v3.1 broker";
        assert_eq!(version(mosquitto), Some("2.0.18"));
        assert_eq!(version("none 7"), None);
    }

    #[test]
    fn lengths_are_those_of_the_protocols() {
        let lengths: Vec<_> = Peer::all().iter().map(Peer::delivery_len).collect();
        let redis = format!(
            "*3\r\n$7\r\nmessage\r\n$13\r\n{TOPIC}\r\n$64\r\n{:064}\r\n",
            1
        );
        let nats = format!("MSG {TOPIC} 1 64\r\n{:064}\r\n", 1);
        assert_eq!(lengths, [81, 81, redis.len(), 81, nats.len()]);
        for peer in Peer::all() {
            assert_eq!(peer.publication(1).len(), peer.publication(1 << 40).len());
        }
    }
}

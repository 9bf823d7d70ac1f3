//! The typed codec of the client's side: by itself, and against a broker.

use infod3::client::{read, write, CodecError, Command, Message, Reader, Received, Wire, LONGEST};
use infod3::{Broker, Feed, Form, Refusal, Sizes};

/// The five bytes that text escapes, and some that it does not.
const NASTY: &[u8] = b"\0\n\r\"\\ \x7f\xff\t'#";

fn written(wire: Wire, command: &Command<'_>) -> Result<Vec<u8>, CodecError> {
    let mut out = b"before".to_vec();
    let result = write(wire, command, &mut out);
    assert_eq!(out.len(), 6 + result.unwrap_or(0), "{wire:?} {command:?}");
    assert_eq!(&out[..6], b"before");
    result.map(|_| out.split_off(6))
}

fn refused(refusal: Refusal) -> Result<Vec<u8>, CodecError> {
    Err(CodecError::Refused(refusal))
}

/// Every command as packet, frame and line.
#[test]
fn every_command_in_every_form() {
    let hello = |version, text| Command::Hello { version, text };
    let table: [(Command<'_>, &[u8], &[u8]); 16] = [
        (hello(0, b""), b"\0\0", b"HELLO 0 \"\"\n"),
        (hello(255, b"me"), b"\0\xffme", b"HELLO 255 \"me\"\n"),
        (hello(0, b"\0"), b"\0\0\0", b"HELLO 0 \"\\000\"\n"),
        (Command::Sub(b"site.*"), b"\x01site.*", b"SUB \"site.*\"\n"),
        (Command::Sub(b""), b"\x01", b"SUB \"\"\n"),
        (Command::Unsub(b"\\*"), b"\x02\\*", b"UNSUB \"\\134*\"\n"),
        (Command::Read(b"a b"), b"\x03a b", b"READ \"a b\"\n"),
        (
            Command::Write(b"k", b"v"),
            b"\x04k\0v",
            b"WRITE \"k\" \"v\"\n",
        ),
        (Command::Write(b"k", b""), b"\x04k\0", b"WRITE \"k\" \"\"\n"),
        (
            Command::Write(b"", b"\0"),
            b"\x04\0\0",
            b"WRITE \"\" \"\\000\"\n",
        ),
        (Command::Delete(b"k"), b"\x04k", b"WRITE \"k\"\n"),
        (Command::Begin, b"\x05", b"BEGIN\n"),
        (Command::Commit, b"\x06", b"COMMIT\n"),
        (Command::Ping(b""), b"\x07", b"PING \"\"\n"),
        (Command::Ping(b"x"), b"\x07x", b"PING \"x\"\n"),
        (
            Command::Ping(NASTY),
            b"\x07\0\n\r\"\\ \x7f\xff\t'#",
            b"PING \"\\000\\012\\015\\042\\134 \x7f\xff\t'#\"\n",
        ),
    ];
    for (command, packet, line) in table {
        let mut frame = packet.to_vec();
        frame.splice(1..1, [0, packet.len() as u8 - 1]);
        assert_eq!(written(Wire::Packets, &command), Ok(packet.to_vec()));
        assert_eq!(written(Wire::Framed, &command), Ok(frame));
        assert_eq!(written(Wire::Text, &command), Ok(line.to_vec()));
    }
}

/// As ID and payload each of these would be a WRITE of the key `a`.
#[test]
fn a_nul_in_a_key_does_not_make_another_command() {
    for wire in Wire::ALL {
        for command in [
            Command::Write(b"a\0b", b"c"),
            Command::Write(b"a\0", b""),
            Command::Delete(b"a\0b"),
            Command::Delete(b"\0"),
            Command::Read(b"a\0b"),
            Command::Sub(b"a\0b"),
            Command::Unsub(b"\0"),
        ] {
            let result = written(wire, &command);
            assert_eq!(result, refused(Refusal::Parameter), "{wire:?} {command:?}");
        }
        // What is wrong comes before what is too long.
        let long = [b"a\0".as_slice(), &[b'x'; 70_000]].concat();
        let result = written(wire, &Command::Delete(&long));
        assert_eq!(result, refused(Refusal::Parameter));
    }
}

#[test]
fn what_a_server_would_refuse_is_not_written() {
    let long = [b'x'; 65_536];
    let invalid = [b"**".as_slice(), &long].concat();
    for wire in Wire::ALL {
        for pattern in [
            b"**".as_slice(),
            b"*(a)",
            b"a\\",
            b"a|b",
            b"(((((a)))))",
            &invalid,
        ] {
            for command in [Command::Sub(pattern), Command::Unsub(pattern)] {
                assert_eq!(written(wire, &command), refused(Refusal::Parameter));
            }
        }
        assert!(written(wire, &Command::Sub(&long[..255])).is_ok());
        for command in [
            Command::Sub(&long[..256]),
            Command::Write(b"k", &long[..65_534]),
            Command::Delete(&long),
            Command::Read(&long),
            Command::Ping(&long),
            Command::Hello {
                version: 0,
                text: &long[..65_535],
            },
        ] {
            assert_eq!(written(wire, &command), refused(Refusal::Room));
        }
    }
}

/// The longest commands, of bytes that are escaped and of bytes that are not.
#[test]
fn long_commands_are_written_whole() {
    for byte in [b'x', b'\n'] {
        let bytes = [byte; 65_535];
        let width = if byte == b'x' { 1 } else { 4 };
        for len in [0, 1, 20, 21, 22, 63, 64, 65, 1000, 16_384, 65_533] {
            let value = &bytes[..len];
            let write = Command::Write(b"k", value);
            let packet = written(Wire::Packets, &write).expect("a packet");
            assert_eq!(packet, [b"\x04k\0", value].concat());
            let frame = written(Wire::Framed, &write).expect("a frame");
            assert_eq!((frame[3..5].as_ref(), &frame[5..]), (&b"k\0"[..], value));
            let line = written(Wire::Text, &write).expect("a line");
            assert_eq!(line.len(), len * width + "WRITE \"k\" \"\"\n".len());
        }
        let hello = Command::Hello {
            version: 255,
            text: &bytes[..65_534],
        };
        let line = written(Wire::Text, &hello).expect("a line");
        assert_eq!(line.len(), 65_534 * width + "HELLO 255 \"\"\n".len());
        assert!(line.len() <= LONGEST);
    }
}

/// A message, and the packet and the line in which a server says it.
type Said = (Message<&'static [u8]>, &'static [u8], &'static [u8]);

/// Messages of all kinds, and what a server sends for them.
fn messages() -> Vec<(Message, [Vec<u8>; 3])> {
    let table: [Said; 13] = [
        (
            Message::Version {
                version: 0,
                text: b"",
            },
            b"\x80\0",
            b"VERSION 0 \"\"\r\n",
        ),
        (
            Message::Version {
                version: 255,
                text: b"a\0",
            },
            b"\x80\xffa\0",
            b"VERSION 255 \"a\\000\"\r\n",
        ),
        (
            Message::Info {
                key: b"k",
                value: None,
            },
            b"\x81k",
            b"INFO \"k\"\r\n",
        ),
        (
            Message::Info {
                key: b"k",
                value: Some(b""),
            },
            b"\x81k\0",
            b"INFO \"k\" \"\"\r\n",
        ),
        (
            Message::Info {
                key: b"",
                value: None,
            },
            b"\x81",
            b"INFO \"\"\r\n",
        ),
        (
            Message::Info {
                key: b"",
                value: Some(b"\0"),
            },
            b"\x81\0\0",
            b"INFO \"\" \"\\000\"\r\n",
        ),
        (
            Message::Info {
                key: b"a \"\\",
                value: Some(b"v\0\r\n\0#"),
            },
            b"\x81a \"\\\0v\0\r\n\0#",
            b"INFO \"a \\042\\134\" \"v\\000\\015\\012\\000#\"\r\n",
        ),
        (Message::Pong(b""), b"\x82", b"PONG \"\"\r\n"),
        (Message::Pong(b"x"), b"\x82x", b"PONG \"x\"\r\n"),
        (
            Message::Pong(NASTY),
            b"\x82\0\n\r\"\\ \x7f\xff\t'#",
            b"PONG \"\\000\\012\\015\\042\\134 \x7f\xff\t'#\"\r\n",
        ),
        (
            Message::Error {
                number: 0,
                text: b"",
            },
            b"\x83\0",
            b"ERROR 0 \"\"\r\n",
        ),
        (
            Message::Error {
                number: 102,
                text: b"no room",
            },
            b"\x83\x66no room",
            b"ERROR 102 \"no room\"\r\n",
        ),
        (
            Message::Error {
                number: 10,
                text: b"\xff",
            },
            b"\x83\x0a\xff",
            b"ERROR 10 \"\xff\"\r\n",
        ),
    ];
    let sent = |packet: &[u8], line: &[u8]| {
        let mut frame = packet.to_vec();
        frame.splice(1..1, [0, packet.len() as u8 - 1]);
        [packet.to_vec(), frame, line.to_vec()]
    };
    table
        .into_iter()
        .map(|(message, packet, line)| (message.into_owned(), sent(packet, line)))
        .collect()
}

#[test]
fn every_message_in_every_form() {
    for (message, sent) in messages() {
        for (wire, bytes) in Wire::ALL.into_iter().zip(&sent) {
            // The buffer's bytes have no meaning, and what is behind the message is left alone.
            let mut scratch = b"scratch".to_vec();
            let mut input = bytes.clone();
            if wire != Wire::Packets {
                input.extend_from_slice(b"more \"\r\n");
            }
            let received = read(wire, &input, &mut scratch).expect("an answer");
            let Received::Message {
                message: found,
                consumed,
            } = received
            else {
                panic!("{wire:?} {message:?}: {received:?}");
            };
            assert_eq!(found.into_owned(), message);
            assert_eq!(consumed, bytes.len());
            for cut in 0..bytes.len() {
                let received = read(wire, &bytes[..cut], &mut scratch).expect("an answer");
                match wire {
                    Wire::Packets => assert!(received.consumed() <= cut),
                    _ => assert_eq!(received, Received::More, "{cut}"),
                }
            }
        }
    }
}

/// What another program, or a wrong one, may say.
#[test]
fn what_is_no_message_is_refused() {
    let table: [(Wire, &[u8], Refusal, usize); 14] = [
        (Wire::Packets, b"", Refusal::Message, 0),
        (Wire::Packets, b"\x07x", Refusal::Message, 2),
        (Wire::Packets, b"\x80", Refusal::Parameter, 1),
        (Wire::Framed, b"\x84\0\x01x\x82", Refusal::Message, 4),
        (Wire::Framed, b"\x83\0\0", Refusal::Parameter, 3),
        (Wire::Text, b"\nPONG", Refusal::Message, 1),
        (Wire::Text, b"# no free slot\r\n", Refusal::Message, 16),
        (Wire::Text, b"pong \"x\"\r\n", Refusal::Message, 10),
        (Wire::Text, b"PONG \"x\"\n", Refusal::Parameter, 9),
        (Wire::Text, b"PONG x\r\n", Refusal::Parameter, 8),
        (Wire::Text, b"PONG  \"x\"\r\n", Refusal::Parameter, 11),
        (Wire::Text, b"PONG \"\\101\"\r\n", Refusal::Parameter, 13),
        (Wire::Text, b"VERSION 256 \"\"\r\n", Refusal::Parameter, 16),
        (Wire::Text, b"INFO \"a\\000b\"\r\n", Refusal::Parameter, 15),
    ];
    for (wire, input, refusal, consumed) in table {
        let mut scratch = Vec::new();
        let received = read(wire, input, &mut scratch);
        assert_eq!(received, Ok(Received::Refused { refusal, consumed }));
        let mut reader = Reader::new(wire);
        reader.feed(input);
        let result = reader.next_message();
        assert_eq!(result, Err(CodecError::Refused(refusal)), "{input:?}");
        assert_eq!(reader.pending(), &input[consumed..]);
    }
}

/// All that a reader gives out by now.
fn drain(reader: &mut Reader, found: &mut Vec<Message>) {
    while let Some(message) = reader.next_message().expect("messages") {
        found.push(message.into_owned());
    }
}

/// A stream is cut into two at every byte, and into single bytes; the messages are the same, each
/// once. Packets come whole, but any number of them before the first is read.
#[test]
fn a_stream_may_be_cut_anywhere() {
    let expected: Vec<Message> = messages().into_iter().map(|(message, _)| message).collect();
    let sent = |wire: usize| {
        messages()
            .into_iter()
            .map(move |(_, sent)| sent[wire].clone())
    };
    for (number, wire) in [(1, Wire::Framed), (2, Wire::Text)] {
        let stream = sent(number).collect::<Vec<_>>().concat();
        for cut in 0..=stream.len() {
            let mut reader = Reader::new(wire);
            let mut found = Vec::new();
            reader.feed(&stream[..cut]);
            drain(&mut reader, &mut found);
            reader.feed(&stream[cut..]);
            drain(&mut reader, &mut found);
            assert_eq!(
                (found, reader.pending()),
                (expected.clone(), &b""[..]),
                "{cut}"
            );
        }
        let mut reader = Reader::new(wire);
        let mut found = Vec::new();
        for byte in &stream {
            reader.feed(std::slice::from_ref(byte));
            drain(&mut reader, &mut found);
        }
        assert_eq!((found, reader.pending()), (expected.clone(), &b""[..]));
    }
    for before in 0..=expected.len() {
        let mut reader = Reader::new(Wire::Packets);
        let mut found = Vec::new();
        for (at, packet) in sent(0).enumerate() {
            reader.feed(&packet);
            if at >= before {
                drain(&mut reader, &mut found);
            }
        }
        drain(&mut reader, &mut found);
        assert_eq!((found, reader.pending()), (expected.clone(), &b""[..]));
    }
}

/// One message is taken for each that is fed, behind a message that stays: the rest is kept in
/// order and the reader does not grow.
#[test]
fn what_is_consumed_makes_room() {
    let mut reader = Reader::new(Wire::Text);
    let line = |n: u32| format!("PONG \"{n:08}\"\r\n").into_bytes();
    reader.feed(&line(0));
    for n in 1..100_000 {
        reader.feed(&line(n));
        let id = format!("{:08}", n - 1);
        assert_eq!(
            reader.next_message(),
            Ok(Some(Message::Pong(id.as_bytes())))
        );
        assert_eq!(reader.pending().len(), line(n).len());
    }
    // All that it holds, its buffers included, as text.
    let held = format!("{reader:?}").len();
    assert!(held < 100_000, "{held}");
}

/// A buffer that has held the longest message, or command, holds every other.
#[test]
fn buffers_are_used_again() {
    let longest = b"PONG \"".iter().chain(&[b'x'; 65_535]).chain(b"\"\r\n");
    let longest: Vec<u8> = longest.copied().collect();
    let mut scratch = Vec::new();
    assert_eq!(
        read(Wire::Text, &longest, &mut scratch).map(Received::number),
        Ok(0)
    );
    let mut out = Vec::new();
    assert!(write(Wire::Text, &Command::Ping(&[b'\n'; 65_535]), &mut out).is_ok());
    let (first, second) = (scratch.as_ptr(), out.as_ptr());
    for (_, [_, frame, line]) in messages() {
        assert_eq!(
            read(Wire::Framed, &frame, &mut scratch).map(Received::number),
            Ok(0)
        );
        assert_eq!(
            read(Wire::Text, &line, &mut scratch).map(Received::number),
            Ok(0)
        );
        out.clear();
        assert!(write(Wire::Text, &Command::Ping(&line), &mut out).is_ok());
    }
    assert_eq!((scratch.as_ptr(), out.as_ptr()), (first, second));
    assert_eq!(scratch.len(), 65_536);
}

/// A refused message is passed over, and an empty packet does not hold the next one up.
#[test]
fn a_reader_goes_on_behind_what_is_refused() {
    let wrong = Err(CodecError::Refused(Refusal::Message));
    let pong = Ok(Some(Message::Pong(&b"x"[..])));
    let mut reader = Reader::new(Wire::Packets);
    for packet in [&b""[..], b"\x07", b"\x82x", b""] {
        reader.feed(packet);
    }
    assert_eq!(reader.next_message(), wrong);
    assert_eq!(reader.next_message(), wrong);
    assert_eq!(reader.next_message(), pong);
    assert_eq!(reader.next_message(), wrong);
    assert_eq!(reader.next_message(), Ok(None));
    let mut reader = Reader::new(Wire::Text);
    reader.feed(b"# a line\r\nPONG \"x\"\r\n");
    assert_eq!(reader.next_message(), wrong);
    assert_eq!(reader.next_message(), pong);
    assert_eq!(reader.next_message(), Ok(None));
}

/// The longest line that a server writes is read; one byte more without a line's end is too much.
#[test]
fn a_line_without_end_is_refused() {
    let text = [b'\n'; 65_534];
    let line = [
        b"VERSION 255 \"".as_slice(),
        &b"\\012".repeat(65_534),
        b"\"\r\n",
    ]
    .concat();
    assert_eq!(line.len(), LONGEST);
    let mut reader = Reader::new(Wire::Text);
    reader.feed(&line[..LONGEST - 1]);
    assert_eq!(reader.next_message(), Ok(None));
    reader.feed(&line[LONGEST - 1..]);
    let version = Message::Version {
        version: 255,
        text: &text[..],
    };
    assert_eq!(reader.next_message(), Ok(Some(version)));
    reader.feed(&vec![b'x'; LONGEST]);
    reader.feed(b"PONG \"x\"\r\n");
    // With its end in sight a longer line is only one that is wrong.
    assert_eq!(
        reader.next_message(),
        Err(CodecError::Refused(Refusal::Message))
    );
    reader.feed(&vec![b'x'; LONGEST]);
    assert_eq!(
        reader.next_message(),
        Err(CodecError::Refused(Refusal::Room))
    );
    assert_eq!(reader.pending(), b"");
}

/// The messages that a client gets for commands, as the codec writes and reads them.
fn served(wire: Wire, commands: &[Command<'_>]) -> Vec<Message> {
    let sizes = Sizes::new(1, 300_000, 300_000, 256).expect("sizes");
    let mut broker = Broker::new(sizes).expect("a broker");
    let form = match wire {
        Wire::Packets => Form::Packets,
        Wire::Framed | Wire::Text => Form::Stream,
    };
    broker.open(0, form).expect("a client");
    let mut reader = Reader::new(wire);
    let mut found = Vec::new();
    for command in commands {
        let bytes = written(wire, command).expect("a command");
        assert_eq!(broker.feed(0, &bytes), Ok(Feed::Done(bytes.len())));
        while let Some(message) = broker.take_message(0).expect("a memory") {
            reader.feed(&message);
            drain(&mut reader, &mut found);
        }
        assert_eq!(reader.pending(), b"");
    }
    found
}

/// A broker reads each command as what it is, and says the same in every form.
#[test]
fn a_broker_understands_and_is_understood() {
    let long = NASTY.repeat(5_900);
    let commands = [
        Command::Hello {
            version: 7,
            text: NASTY,
        },
        Command::Sub(b"*"),
        Command::Write(b"k \"\\\n\r", NASTY),
        Command::Write(b"k \"\\\n\r", b""),
        Command::Delete(b"k \"\\\n\r"),
        Command::Begin,
        Command::Write(b"t", b"1"),
        Command::Read(b"t"),
        Command::Commit,
        Command::Unsub(b"*"),
        Command::Write(b"t", b"2"),
        Command::Read(b"t"),
        Command::Ping(&long),
        Command::Ping(b""),
    ];
    let info = |key: &[u8], value: Option<&[u8]>| Message::Info { key, value }.into_owned();
    let expected = vec![
        Message::Version {
            version: 0,
            text: vec![],
        },
        info(b"k \"\\\n\r", Some(NASTY)),
        info(b"k \"\\\n\r", Some(b"")),
        info(b"k \"\\\n\r", None),
        info(b"t", Some(b"1")),
        info(b"t", Some(b"1")),
        info(b"t", Some(b"2")),
        Message::Pong(long.clone()),
        Message::Pong(vec![]),
    ];
    for wire in Wire::ALL {
        assert_eq!(served(wire, &commands), expected, "{wire:?}");
    }
}

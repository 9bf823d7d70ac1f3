//! Three forms at once, and streams that arrive in any pieces.

mod common;

use common::{frame, sized, start, Random, Running};
use infod3::{Broker, Feed, Form, Sizes};
use std::time::Duration;

#[test]
fn three_forms_at_once() {
    let server = start(|_| {});
    let (mut text, mut framed) = (server.over_tcp(), server.over_unix());
    let packets = server.over_packets();
    text.send("SUB *\nPING t\n");
    framed.send([frame(1, b"*"), frame(7, b"f")].concat());
    packets.send(b"\x01*");
    packets.send(b"\x07p");
    assert_eq!(text.line(), "PONG \"t\"");
    assert_eq!(framed.frame(), (0x82, b"f".to_vec()));
    assert_eq!(packets.packet(), b"\x82p");

    text.send("WRITE a \"1 \\000\"\n");
    assert_eq!(text.line(), "INFO \"a\" \"1 \\000\"");
    assert_eq!(framed.frame(), (0x81, b"a\x001 \0".to_vec()));
    assert_eq!(packets.packet(), b"\x81a\x001 \0");

    framed.send(frame(4, b"b\x002"));
    assert_eq!(text.line(), "INFO \"b\" \"2\"");
    assert_eq!(framed.frame(), (0x81, b"b\x002".to_vec()));
    assert_eq!(packets.packet(), b"\x81b\x002");

    packets.send(b"\x04a");
    assert_eq!(text.line(), "INFO \"a\"");
    assert_eq!(framed.frame(), (0x81, b"a".to_vec()));
    assert_eq!(packets.packet(), b"\x81a");
    let counters = server.stop();
    assert_eq!((counters.clients_ever, counters.shut()), (3, 0));
}

/// What the server answers to a stream that is sent in these pieces and then ended.
fn answer(server: &Running, pieces: &[&[u8]]) -> Vec<u8> {
    let mut client = server.over_unix();
    for (i, piece) in pieces.iter().enumerate() {
        if i > 0 {
            std::thread::sleep(Duration::from_micros(500));
        }
        client.send(piece);
    }
    client.stream.end();
    client.rest()
}

#[test]
fn streams_are_split_at_every_byte() {
    let server = sized(4, 4096, 4096, 512);
    let text: &[u8] =
        b"\r\n w k \"a\\040b\"\nr k\r\nBEGIN\rPING x\nwrite k\nREAD k\nCOMMIT\nPING y\n";
    let text_answer: &[u8] = b"INFO \"k\" \"a b\"\r\nPONG \"x\"\r\nINFO \"k\"\r\nPONG \"y\"\r\n";
    let framed: Vec<u8> = [
        frame(0, b"\x05x"),
        frame(4, b"k\0\n"),
        frame(3, b"k"),
        frame(5, b""),
        frame(4, b"k"),
        frame(3, b"k"),
        frame(6, b""),
        frame(7, b""),
    ]
    .concat();
    let framed_answer: Vec<u8> = [
        frame(0x80, b"\0"),
        frame(0x81, b"k\0\n"),
        frame(0x81, b"k"),
        frame(0x82, b""),
    ]
    .concat();
    for (stream, expected) in [(text, text_answer), (&framed, &framed_answer)] {
        assert_eq!(answer(&server, &[stream]), expected);
        for split in 1..stream.len() {
            let (first, second) = stream.split_at(split);
            assert_eq!(answer(&server, &[first, second]), expected, "{split}");
        }
        let bytes: Vec<&[u8]> = stream.chunks(1).collect();
        assert_eq!(answer(&server, &bytes), expected);
        // Many times over in one write.
        let merged = stream.repeat(50);
        assert_eq!(answer(&server, &[&merged]), expected.repeat(50));
    }
}

#[test]
fn a_client_may_send_much_before_it_reads() {
    // The answers are many times what queue and buffers hold: the client is slowed, not shut.
    let server = sized(2, 4096, 1024, 256);
    let mut client = server.over_tcp();
    let lines = |make: fn(usize) -> String| (0..60_000).map(make).collect::<String>();
    let commands = lines(|i| format!("PING {i:0200}\n"));
    let expected = lines(|i| format!("PONG \"{i:0200}\"\r\n"));
    // The writing goes on in another thread, as the answers have to be read meanwhile.
    let stream = std::net::TcpStream::connect(server.tcp).expect("connected");
    stream
        .set_read_timeout(Some(common::PATIENCE))
        .expect("a timeout");
    let mut sending = stream.try_clone().expect("a clone");
    let sender = std::thread::spawn(move || {
        use std::io::Write;
        sending.write_all(commands.as_bytes()).expect("sent");
        sending.shutdown(std::net::Shutdown::Write).expect("ended");
    });
    std::thread::sleep(Duration::from_millis(200));
    let mut answers = Vec::new();
    std::io::Read::read_to_end(&mut &stream, &mut answers).expect("all answers");
    sender.join().expect("the sender");
    let (got, all) = (answers.len(), expected.len());
    assert!(answers == expected.as_bytes(), "{got} bytes of {all}");
    client.synchronise();
    assert_eq!(server.stop().shut(), 0);
}

#[test]
fn messages_of_every_length_go_through() {
    let server = start(|_| {});
    let (mut client, packets) = (server.over_tcp(), server.over_packets());
    for len in [0, 1, 255, 4_096, 65_530, 65_535] {
        let payload = vec![b'\\'; len];
        client.send(frame(7, &payload));
        assert_eq!(client.frame(), (0x82, payload.clone()));
        packets.send(&[&[7], &payload[..]].concat());
        assert_eq!(packets.packet(), [&[0x82], &payload[..]].concat());
    }
    // A text line of nearly the greatest length, answered by another one.
    let mut text = server.over_unix();
    let long = "\\134".repeat(65_535);
    text.send(format!("PING \"{long}\"\n"));
    assert_eq!(text.line(), format!("PONG \"{long}\""));
}

#[test]
fn an_overlong_line_is_refused_and_its_error_arrives() {
    let server = start(|_| {});
    for _ in 0..10 {
        let mut client = server.over_tcp();
        client.send("PING\n");
        // Bytes that the server never reads must not cost the client its ERROR.
        let _ = client.try_send(vec![b'x'; 600_000]);
        assert_eq!(client.line(), "PONG \"\"");
        assert_eq!(client.line(), "ERROR 102 \"no room\"");
        assert_eq!(client.rest(), b"");
    }
    assert_eq!(server.stop().refusals, [0, 0, 10, 0]);
}

#[test]
fn refused_packets() {
    let server = start(|_| {});
    for (packet, number) in [
        (&b""[..], 100),
        (b"\xFFx", 100),
        (b"\x05x", 101),
        (b"\x01**", 101),
    ] {
        let client = server.over_packets();
        client.send(b"\x07a");
        client.send(packet);
        assert_eq!(client.packet(), b"\x82a");
        let error = client.packet();
        assert_eq!(error[..2], [0x83, number]);
        assert_eq!(client.packet(), b"", "closed after the ERROR");
    }
    let client = server.over_packets();
    client.send(&[7; 70_000]);
    assert_eq!(client.packet(), b"\x83\x66no room");
}

/// A stream of commands, most of them valid.
fn random_stream(random: &mut Random, text: bool) -> Vec<u8> {
    let mut stream = Vec::new();
    for _ in 0..random.below(60) {
        let key = format!("k{}", random.below(5));
        let value = "v".repeat(random.below(300));
        let (word, id, fields) = match random.below(20) {
            0..=4 => ("WRITE", 4, vec![key, value]),
            5 | 6 => ("w", 4, vec![key]),
            7..=10 => ("READ", 3, vec![key]),
            11 | 12 => ("SUB", 1, vec!["k*".to_owned()]),
            13 => ("UNSUB", 2, vec!["k*".to_owned()]),
            14 | 15 => ("BEGIN", 5, vec![]),
            16 | 17 => ("COMMIT", 6, vec![]),
            18 => ("PING", 7, vec![value]),
            // A frame that is refused is the last one of its stream, and a line need not be.
            _ if text || random.below(10) == 0 => match random.below(3) {
                0 => ("SUB", 1, vec!["**".to_owned()]),
                1 => ("COMMIT", 6, vec![key]),
                _ => ("NONSENSE", 9, vec![]),
            },
            _ => ("PING", 7, vec![key]),
        };
        match text {
            true => {
                let quoted: String = fields.iter().map(|f| format!(" \"{f}\"")).collect();
                let end = ["\n", "\r", "\r\n"][random.below(3)];
                stream.extend(format!("{word}{quoted}{end}").into_bytes());
            }
            false => stream.extend(frame(id, fields.join("\0").as_bytes())),
        }
    }
    // Often the last message is cut off.
    let len = stream.len() - random.below(3).min(stream.len());
    stream.truncate(len);
    stream
}

/// What the library itself gives for a stream, message by message.
fn library_answer(broker: &mut Broker<Vec<u8>>, mut stream: &[u8]) -> Vec<u8> {
    let mut answer = Vec::new();
    broker.open(0, Form::Stream).expect("a free slot");
    loop {
        let fed = broker.feed(0, stream);
        while broker
            .append_message(0, &mut answer)
            .expect("a take")
            .is_some()
        {}
        match fed {
            Ok(Feed::Done(len) | Feed::Refused(_, len)) => stream = &stream[len..],
            // The rest is no whole message, or the client is shut.
            _ => break,
        }
    }
    broker.close(0).expect("a client");
    answer
}

#[test]
fn the_sockets_add_and_lose_nothing() {
    let sizes = Sizes::new(2, 1200, 2048, 400).expect("sizes");
    let server = start(|options| options.sizes = sizes);
    let mut broker = Broker::new(sizes).expect("a broker");
    let mut random = Random(7);
    for round in 0..400 {
        let stream = random_stream(&mut random, round % 2 == 0);
        let expected = library_answer(&mut broker, &stream);
        let mut client = match round % 4 {
            0 | 1 => server.over_tcp(),
            _ => server.over_unix(),
        };
        let mut rest = &stream[..];
        while !rest.is_empty() {
            let (piece, left) = rest.split_at(1 + random.below(rest.len()));
            // A server that has closed after an ERROR may refuse the rest.
            if !client.try_send(piece) {
                break;
            }
            rest = left;
        }
        if rest.is_empty() {
            client.stream.end();
        }
        let found = client.rest();
        assert!(found == expected, "round {round}: {stream:?}");
    }
}

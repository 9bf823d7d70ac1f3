//! The client's side by examples: each reading of the request and each slip that is easily made.

use reference::client::{read_message, write_command, Read};

const FORMS: [usize; 3] = [0, 1, 2];

/// The answer of a writer, with room to spare.
fn refused(form: usize, command: &[u8]) -> u32 {
    write_command(form, command, usize::MAX).expect_err("a refusal")
}

fn line(command: &[u8]) -> String {
    let line = write_command(2, command, usize::MAX).expect("a command");
    String::from_utf8(line).expect("text")
}

fn read(form: usize, input: &[u8]) -> (u32, usize, Vec<u8>) {
    let Read {
        answer,
        consumed,
        message,
    } = read_message(form, input, usize::MAX);
    (answer, consumed, message)
}

/// The answer to a line, which is consumed whole.
fn answer(text: &str) -> u32 {
    let (answer, consumed, _) = read(2, text.as_bytes());
    assert_eq!(consumed, text.len(), "{text:?}");
    answer
}

#[test]
fn commands_in_text() {
    assert_eq!(line(b"\x00\x07"), "HELLO 7 \"\"\n");
    assert_eq!(line(b"\x00\xFFa b"), "HELLO 255 \"a b\"\n");
    assert_eq!(line(b"\x01a.*"), "SUB \"a.*\"\n");
    assert_eq!(line(b"\x02\\a"), "UNSUB \"\\134a\"\n");
    assert_eq!(line(b"\x03"), "READ \"\"\n");
    assert_eq!(line(b"\x04k"), "WRITE \"k\"\n");
    assert_eq!(line(b"\x04k\0"), "WRITE \"k\" \"\"\n");
    assert_eq!(line(b"\x04k\0\0v"), "WRITE \"k\" \"\\000v\"\n");
    assert_eq!(line(b"\x05"), "BEGIN\n");
    assert_eq!(line(b"\x06"), "COMMIT\n");
    assert_eq!(line(b"\x07"), "PING \"\"\n");
    assert_eq!(
        line(b"\x07\0\n\r\"\\"),
        "PING \"\\000\\012\\015\\042\\134\"\n"
    );
}

#[test]
fn commands_in_bytes() {
    let write = |form, command| write_command(form, command, usize::MAX);
    assert_eq!(write(1, b"\x05"), Ok(b"\x05\0\0".to_vec()));
    assert_eq!(write(1, b"\x04k\0v"), Ok(b"\x04\0\x03k\0v".to_vec()));
    assert_eq!(write(0, b"\x04k\0v"), Ok(b"\x04k\0v".to_vec()));
    assert_eq!(write(0, b"\x05"), Ok(b"\x05".to_vec()));
}

#[test]
fn refusals_of_the_writer() {
    for form in FORMS {
        assert_eq!(refused(form, b""), 100);
        assert_eq!(refused(form, b"\x08"), 100);
        assert_eq!(refused(form, b"\x82x"), 100);
        assert_eq!(refused(form, b"\x00"), 101);
        assert_eq!(refused(form, b"\x05\x01"), 101);
        assert_eq!(refused(form, b"\x06\0"), 101);
        assert_eq!(refused(form, b"\x03a\0"), 101);
        assert_eq!(refused(form, b"\x02a\0"), 101);
        let letters = [b'a'; 65_537];
        assert_eq!(refused(form, &[b"\x01**", &letters[..254]].concat()), 101);
        assert_eq!(refused(form, &[b"\x01", &letters[..256]].concat()), 102);
        assert!(write_command(form, &[b"\x01", &letters[..255]].concat(), 300).is_ok());
        let ping = [b"\x07", &letters[..65_536]].concat();
        assert_eq!(write_command(form, &ping, 0), Err(102));
        assert_eq!(write_command(form, &ping[..65_536], 0), Err(5));
        let length = [65_536, 65_538, 65_543][form];
        assert_eq!(write_command(form, &ping[..65_536], length - 1), Err(5));
        let written = write_command(form, &ping[..65_536], length);
        assert_eq!(written.map(|bytes| bytes.len()), Ok(length));
    }
    assert_eq!(refused(3, b""), 8);
    assert_eq!(refused(usize::MAX, b"\x05"), 8);
}

#[test]
fn lines_read() {
    let pong = b"PONG \"x\"\r\n";
    assert_eq!(read(2, pong), (0, 10, b"\x82x".to_vec()));
    let behind = [&pong[..], b"PONG"].concat();
    assert_eq!(read(2, &behind), (0, 10, b"\x82x".to_vec()));
    for end in 0..pong.len() {
        assert_eq!(read(2, &pong[..end]), (1, 0, Vec::new()));
    }
    let of = |text: &str| read(2, text.as_bytes()).2;
    assert_eq!(of("VERSION 0 \"\"\r\n"), b"\x80\0");
    assert_eq!(of("VERSION 255 \"a\"\r\n"), b"\x80\xFFa");
    assert_eq!(of("ERROR 7 \"x\"\r\n"), b"\x83\x07x");
    assert_eq!(of("INFO \"k\"\r\n"), b"\x81k");
    assert_eq!(of("INFO \"k\" \"\"\r\n"), b"\x81k\0");
    assert_eq!(of("INFO \"k\" \"\\000\"\r\n"), b"\x81k\0\0");
    assert_eq!(of("INFO \"\" \"\\012\\015\"\r\n"), b"\x81\0\n\r");
    assert_eq!(of("PONG \"\\042\\134\"\r\n"), b"\x82\"\\");
}

#[test]
fn lines_without_a_known_word() {
    for text in [
        "\n",
        "\r\n",
        "\r\r\n",
        " \r\n",
        "pong \"x\"\r\n",
        "Pong \"x\"\r\n",
        " PONG \"x\"\r\n",
        "PONG\rX\n",
        "PONG\r\r\n",
        "PONG\"x\"\r\n",
        "PING \"x\"\r\n",
        "VERSIO 0 \"\"\r\n",
        "INFOS \"x\"\r\n",
    ] {
        assert_eq!(answer(text), 100, "{text:?}");
    }
}

#[test]
fn lines_of_another_form() {
    for text in [
        "PONG \"x\"\n",
        "PONG\n",
        "PONG\r\n",
        "PONG \r\n",
        "PONG x\r\n",
        "PONG  \"x\"\r\n",
        "PONG \"x\" \r\n",
        "PONG \"x\"\r\r\n",
        "PONG \"x\" \"y\"\r\n",
        "PONG \"x\r\n",
        "PONG \"x\"y\r\n",
        "PONG \"\\101\"\r\n",
        "PONG \"\\12\"\r\n",
        "PONG \"\\\"\r\n",
        "PONG \"\\400\"\r\n",
        "PONG \"a\rb\"\r\n",
        "PONG \"a\0b\"\r\n",
        "INFO \"a\\000b\"\r\n",
        "INFO \"a\\000b\" \"c\"\r\n",
        "INFO \"a\" \"b\" \"c\"\r\n",
        "INFO \"a\" b\r\n",
        "INFO \"a\"  \"b\"\r\n",
        "INFO \"a\" \r\n",
        "VERSION 00 \"\"\r\n",
        "VERSION 256 \"\"\r\n",
        "VERSION 1000 \"\"\r\n",
        "VERSION \"\"\r\n",
        "VERSION 0\r\n",
        "VERSION  \"\"\r\n",
        "ERROR 007 \"x\"\r\n",
        "ERROR +7 \"x\"\r\n",
        "ERROR \"7\" \"x\"\r\n",
    ] {
        assert_eq!(answer(text), 101, "{text:?}");
    }
}

#[test]
fn binary_messages_read() {
    assert_eq!(read(1, b"\x80\0\0"), (101, 3, Vec::new()));
    assert_eq!(read(1, b"\x83\0\0"), (101, 3, Vec::new()));
    assert_eq!(read(1, b"\x07\0\0"), (100, 3, Vec::new()));
    assert_eq!(read(1, b"\x84\0\x01x"), (100, 4, Vec::new()));
    assert_eq!(read(1, b"\x82\0"), (1, 0, Vec::new()));
    assert_eq!(read(1, b"\x07\0\x01"), (1, 0, Vec::new()));
    assert_eq!(read(1, b""), (1, 0, Vec::new()));
    assert_eq!(read(1, b"\x81\0\x01kxyz"), (0, 4, b"\x81k".to_vec()));
    assert_eq!(read(0, b""), (100, 0, Vec::new()));
    assert_eq!(read(0, b"\x80"), (101, 1, Vec::new()));
    assert_eq!(read(0, b"\x82"), (0, 1, b"\x82".to_vec()));
    assert_eq!(read_message(0, b"\x82x", 1).answer, 5);
    assert_eq!(read_message(0, b"\x82x", 1).consumed, 0);
    assert_eq!(read(3, b""), (8, 0, Vec::new()));
}

#[test]
fn lengths_of_messages() {
    let long = [b'a'; 65_536];
    assert_eq!(read(0, &[b"\x82", &long[..65_535]].concat()).0, 0);
    assert_eq!(read(0, &[b"\x82", &long[..]].concat()).0, 102);
    assert_eq!(read(0, &[b"\x07", &long[..]].concat()).0, 100);
    let line = |length| [b"PONG \"", &long[..length], b"\"\r\n"].concat();
    assert_eq!(read(2, &line(65_535)).0, 0);
    assert_eq!(read(2, &line(65_536)).0, 102);
    assert_eq!(read_message(2, &line(65_536), 0).answer, 102);
    assert_eq!(read_message(2, &line(65_536), 0).consumed, 65_545);
    // The NUL between key and value counts.
    let info = |length| [b"INFO \"k\" \"", &long[..length], b"\"\r\n"].concat();
    assert_eq!(read(2, &info(65_533)).0, 0);
    assert_eq!(read(2, &info(65_534)).0, 102);
    // A line has no longest length.
    let endless = vec![b'P'; 300_000];
    assert_eq!(read(2, &endless).0, 1);
    assert_eq!(
        read(2, &[&endless[..], b"\n"].concat()),
        (100, 300_001, Vec::new())
    );
}

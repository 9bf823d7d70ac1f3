//! Messages written: the four server messages as packets, frames and text lines.

use crate::reading::Kind;

#[derive(Clone, Copy, Debug, PartialEq, Eq)]
pub enum Message<'a> {
    /// Version 0 with an empty text.
    Version,
    /// Without a value the key is absent.
    Info {
        key: &'a [u8],
        value: Option<&'a [u8]>,
    },
    Pong(&'a [u8]),
    /// One of 100 to 103, with its text.
    Error(u32),
}

/// The text of an ERROR.
pub fn error_text(number: u32) -> &'static str {
    match number {
        100 => "unknown message",
        101 => "bad parameter",
        102 => "no room",
        _ => "bad state",
    }
}

/// The message as a client of this kind gets it.
pub fn encode(message: Message, kind: Kind) -> Vec<u8> {
    match kind {
        Kind::Text => text_line(message),
        Kind::Packets => {
            let mut bytes = vec![id(message)];
            push_payload(message, &mut bytes);
            bytes
        }
        Kind::Framed | Kind::Unfixed => {
            let mut bytes = vec![id(message), 0, 0];
            push_payload(message, &mut bytes);
            let length = u16::try_from(bytes.len() - 3).expect("a payload of at most 65,535 bytes");
            bytes[1..3].copy_from_slice(&length.to_be_bytes());
            bytes
        }
    }
}

fn id(message: Message) -> u8 {
    match message {
        Message::Version => 0x80,
        Message::Info { .. } => 0x81,
        Message::Pong(_) => 0x82,
        Message::Error(_) => 0x83,
    }
}

fn push_payload(message: Message, bytes: &mut Vec<u8>) {
    match message {
        Message::Version => bytes.push(0),
        Message::Info { key, value } => {
            bytes.extend_from_slice(key);
            if let Some(value) = value {
                bytes.push(0);
                bytes.extend_from_slice(value);
            }
        }
        Message::Pong(identifier) => bytes.extend_from_slice(identifier),
        Message::Error(number) => {
            bytes.push(number as u8);
            bytes.extend_from_slice(error_text(number).as_bytes());
        }
    }
}

fn text_line(message: Message) -> Vec<u8> {
    let mut line = Vec::new();
    match message {
        Message::Version => line.extend_from_slice(b"VERSION 0 \"\""),
        Message::Info { key, value } => {
            line.extend_from_slice(b"INFO ");
            push_string(key, &mut line);
            if let Some(value) = value {
                line.push(b' ');
                push_string(value, &mut line);
            }
        }
        Message::Pong(identifier) => {
            line.extend_from_slice(b"PONG ");
            push_string(identifier, &mut line);
        }
        Message::Error(number) => {
            line.extend_from_slice(format!("ERROR {number} ").as_bytes());
            push_string(error_text(number).as_bytes(), &mut line);
        }
    }
    line.extend_from_slice(b"\r\n");
    line
}

/// A string in quotes, with five bytes as octal escapes and the rest raw.
pub(crate) fn push_string(string: &[u8], line: &mut Vec<u8>) {
    line.push(b'"');
    for &byte in string {
        match byte {
            0x00 => line.extend_from_slice(b"\\000"),
            b'\n' => line.extend_from_slice(b"\\012"),
            b'\r' => line.extend_from_slice(b"\\015"),
            b'"' => line.extend_from_slice(b"\\042"),
            b'\\' => line.extend_from_slice(b"\\134"),
            _ => line.push(byte),
        }
    }
    line.push(b'"');
}

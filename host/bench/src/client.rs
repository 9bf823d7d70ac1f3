//! The client's side: commands written and messages read, by the library and in plain Rust. These
//! calls have no memory behind them, so they stand in a table of their own.

use crate::plain;
use crate::{clock, median, BATCHES};
use infod3::raw;
use std::hint::black_box;

/// The longest line that is written.
const ROOM: usize = 300_000;

/// Which call is made.
#[derive(Clone, Copy)]
enum Way {
    Write,
    Read,
}

/// A row of the table.
pub struct Row {
    /// Its name.
    pub name: &'static str,
    /// What is measured.
    pub text: &'static str,
    way: Way,
    form: usize,
    input: Vec<u8>,
    /// The calls of a batch.
    calls: usize,
    library: Vec<f64>,
    plain: Vec<f64>,
}

/// The median cost of a call in nanoseconds, and the median of the library's cost as a multiple of
/// plain Rust's.
#[derive(Clone, Copy)]
pub struct Cost {
    pub library: f64,
    pub plain: f64,
    pub ratio: f64,
}

/// The payload of the short rows: 23 bytes.
const SHORT: &[u8] = b"site.017.state\0alert 17";

/// A value of 60,000 bytes, with a byte that is escaped at every 16th place or without any.
fn value(escapes: bool) -> Vec<u8> {
    let byte = |i: usize| match i % 16 {
        15 if escapes => b"\0\n\r\"\\"[i / 16 % 5],
        _ => b'a' + (i % 26) as u8,
    };
    (0..60_000).map(byte).collect()
}

fn write(form: usize, payload: &[u8]) -> (Way, usize, Vec<u8>) {
    (Way::Write, form, [b"\x04", payload].concat())
}

/// The read of an INFO as the form has it.
fn read(form: usize, payload: &[u8]) -> (Way, usize, Vec<u8>) {
    let input = match form {
        0 => [b"\x81", payload].concat(),
        1 => [b"\x81", &(payload.len() as u16).to_be_bytes()[..], payload].concat(),
        _ => {
            // A WRITE's line is an INFO's but for the word and the CR.
            let mut line = vec![0; ROOM];
            let command = [b"\x04", payload].concat();
            let (answer, count) = plain::write_command(form, &command, &mut line);
            assert_eq!(answer, 0);
            [b"INFO", &line[b"WRITE".len()..count - 1], b"\r\n"].concat()
        }
    };
    (Way::Read, form, input)
}

/// All rows, in the order of the table.
pub fn rows() -> Vec<Row> {
    let long = |escapes| [b"k\0", value(escapes).as_slice()].concat();
    let row = |name, text, (way, form, input): (Way, usize, Vec<u8>), calls| Row {
        name,
        text,
        way,
        form,
        input,
        calls,
        library: Vec::new(),
        plain: Vec::new(),
    };
    vec![
        row(
            "write WRITE, packet",
            "A WRITE of 23 payload bytes is judged and copied.",
            write(0, SHORT),
            1000,
        ),
        row(
            "write WRITE, frame",
            "The same with a frame's head.",
            write(1, SHORT),
            1000,
        ),
        row(
            "write WRITE, line",
            "The same as text: key and value in quotes.",
            write(2, SHORT),
            1000,
        ),
        row(
            "read INFO, packet",
            "An INFO of 23 payload bytes is copied out.",
            read(0, SHORT),
            1000,
        ),
        row(
            "read INFO, frame",
            "The same from a frame.",
            read(1, SHORT),
            1000,
        ),
        row(
            "read INFO, line",
            "The same from text: the line is found, tested and unquoted.",
            read(2, SHORT),
            1000,
        ),
        row(
            "write WRITE of 60,000 bytes, line",
            "A value without a byte that is escaped.",
            write(2, &long(false)),
            8,
        ),
        row(
            "write WRITE with escapes, line",
            "A value of 60,000 bytes of which every 16th is escaped.",
            write(2, &long(true)),
            8,
        ),
        row(
            "read INFO of 60,000 bytes, line",
            "A value without an escape.",
            read(2, &long(false)),
            8,
        ),
        row(
            "read INFO with escapes, line",
            "A value of 60,000 bytes of which every 16th is escaped.",
            read(2, &long(true)),
            8,
        ),
    ]
}

impl Row {
    /// One call of the library: its numbers.
    fn call_library(&self, out: &mut [u8]) -> (u32, usize, usize) {
        let input = black_box(self.input.as_slice());
        match self.way {
            Way::Write => {
                let reply = raw::write_command(self.form, input, out);
                (reply.answer, 0, reply.count)
            }
            Way::Read => {
                let read = raw::read_message(self.form, input, out);
                (read.answer, read.consumed, read.written)
            }
        }
    }

    /// One call in plain Rust: its numbers.
    fn call_plain(&self, out: &mut [u8]) -> (u32, usize, usize) {
        let input = black_box(self.input.as_slice());
        match self.way {
            Way::Write => {
                let (answer, count) = plain::write_command(self.form, input, out);
                (answer, 0, count)
            }
            Way::Read => plain::read_message(self.form, input, out),
        }
    }

    /// Makes the call once on both sides and compares numbers and bytes.
    pub fn agree(&self) {
        let (mut ours, mut theirs) = (vec![0xA5; ROOM], vec![0xA5; ROOM]);
        let numbers = self.call_library(&mut ours);
        assert_eq!(numbers, self.call_plain(&mut theirs), "{}", self.name);
        assert_eq!(numbers.0, 0, "{}", self.name);
        assert!(ours == theirs, "{}: the bytes written", self.name);
    }

    /// Measures batches of both sides in turn, of which the first is left out.
    pub fn round(&mut self) {
        let mut out = vec![0; ROOM];
        for turn in 0..BATCHES {
            let begin = clock::now();
            for _ in 0..self.calls {
                black_box(self.call_library(black_box(&mut out)));
            }
            let middle = clock::now();
            for _ in 0..self.calls {
                black_box(self.call_plain(black_box(&mut out)));
            }
            let end = clock::now();
            if turn > 0 {
                self.library.push((middle - begin) / self.calls as f64);
                self.plain.push((end - middle) / self.calls as f64);
            }
        }
    }

    pub fn cost(&self) -> Cost {
        let pairs = self.library.iter().zip(&self.plain);
        Cost {
            library: median(self.library.iter().copied()),
            plain: median(self.plain.iter().copied()),
            ratio: median(pairs.map(|(library, plain)| library / plain)),
        }
    }
}

#[cfg(test)]
mod tests {
    use super::*;

    #[test]
    fn both_sides_agree_in_every_row() {
        assert_eq!(SHORT.len(), 23);
        for mut row in rows() {
            row.agree();
            row.round();
            let Cost { library, plain, .. } = row.cost();
            assert!(library > 0.0 && plain > 0.0, "{}", row.name);
        }
    }
}

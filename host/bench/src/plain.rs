//! The client's side in plain Rust on slices, to be measured beside the library's: it gives the
//! same numbers and writes the same bytes, refusals included, and allocates nothing but for the
//! patterns of SUB and UNSUB, which are not measured.

use reference::patterns::Pattern;

const WORDS: [&[u8]; 8] = [
    b"HELLO", b"SUB", b"UNSUB", b"READ", b"WRITE", b"BEGIN", b"COMMIT", b"PING",
];

/// Writes a command: the answer and the bytes written.
#[inline(never)]
pub fn write_command(form: usize, command: &[u8], out: &mut [u8]) -> (u32, usize) {
    match written(form, command, out) {
        Ok(count) => (0, count),
        Err(answer) => (answer, 0),
    }
}

fn written(form: usize, command: &[u8], out: &mut [u8]) -> Result<usize, u32> {
    if form > 2 {
        return Err(8);
    }
    let (&id, payload) = command.split_first().ok_or(100u32)?;
    judge(id, payload)?;
    match form {
        0 => {
            let out = out.get_mut(..command.len()).ok_or(5u32)?;
            out.copy_from_slice(command);
            Ok(command.len())
        }
        1 => {
            let out = out.get_mut(..3 + payload.len()).ok_or(5u32)?;
            out[0] = id;
            out[1..3].copy_from_slice(&(payload.len() as u16).to_be_bytes());
            out[3..].copy_from_slice(payload);
            Ok(out.len())
        }
        _ => write_line(id, payload, out).ok_or(5),
    }
}

/// What the server refuses in a command.
fn judge(id: u8, payload: &[u8]) -> Result<(), u32> {
    let is_bad = match id {
        0 => payload.is_empty(),
        1 | 2 => payload.contains(&0) || Pattern::parse(payload).is_none(),
        3 => payload.contains(&0),
        4 | 7 => false,
        5 | 6 => !payload.is_empty(),
        _ => return Err(100),
    };
    let limit = if matches!(id, 1 | 2) { 255 } else { 65_535 };
    match is_bad {
        true => Err(101),
        false if payload.len() > limit => Err(102),
        false => Ok(()),
    }
}

/// Writes the line of a command that is good, or nothing where it does not fit.
fn write_line(id: u8, payload: &[u8], out: &mut [u8]) -> Option<usize> {
    let word = WORDS[usize::from(id)];
    let (number, first, second) = match id {
        0 => (Some(payload[0]), Some(&payload[1..]), None),
        4 => match payload.iter().position(|&byte| byte == 0) {
            Some(end) => (None, Some(&payload[..end]), Some(&payload[end + 1..])),
            None => (None, Some(payload), None),
        },
        5 | 6 => (None, None, None),
        _ => (None, Some(payload), None),
    };
    let digits = number.map_or(0, |number| {
        2 + usize::from(number > 9) + usize::from(number > 99)
    });
    let escaped = |string: Option<&[u8]>| string.map_or(0, count_escaped);
    let counts = [escaped(first), escaped(second)];
    let strings = first.into_iter().chain(second).zip(counts);
    let fields = strings
        .clone()
        .map(|(string, escaped)| 3 + string.len() + 3 * escaped);
    let length = word.len() + digits + fields.sum::<usize>() + 1;
    let out = out.get_mut(..length)?;
    let mut at = put(out, 0, word);
    if let Some(number) = number {
        at = put_number(out, at, number);
    }
    for (string, escaped) in strings {
        at = put_string(out, at, string, escaped);
    }
    put(out, at, b"\n");
    Some(length)
}

/// Puts bytes at a place and gives the place behind them.
fn put(out: &mut [u8], at: usize, bytes: &[u8]) -> usize {
    out[at..at + bytes.len()].copy_from_slice(bytes);
    at + bytes.len()
}

fn put_number(out: &mut [u8], mut at: usize, number: u8) -> usize {
    at = put(out, at, b" ");
    if number > 99 {
        at = put(out, at, &[b'0' + number / 100]);
    }
    if number > 9 {
        at = put(out, at, &[b'0' + number / 10 % 10]);
    }
    put(out, at, &[b'0' + number % 10])
}

fn is_escaped(byte: u8) -> bool {
    matches!(byte, 0 | b'\n' | b'\r' | b'"' | b'\\')
}

fn count_escaped(string: &[u8]) -> usize {
    string.iter().filter(|&&byte| is_escaped(byte)).count()
}

/// Puts a space and the string in quotes, of which so many bytes are escaped.
fn put_string(out: &mut [u8], at: usize, string: &[u8], escaped: usize) -> usize {
    let mut at = put(out, at, b" \"");
    let mut rest = string;
    for _ in 0..escaped {
        let plain = rest.iter().take_while(|&&byte| !is_escaped(byte));
        let run = plain.count();
        at = put(out, at, &rest[..run]);
        at = put(
            out,
            at,
            match rest[run] {
                0 => b"\\000",
                b'\n' => b"\\012",
                b'\r' => b"\\015",
                b'"' => b"\\042",
                _ => b"\\134",
            },
        );
        rest = &rest[run + 1..];
    }
    at = put(out, at, rest);
    put(out, at, b"\"")
}

/// Reads a message: the answer, the bytes consumed and the bytes written.
#[inline(never)]
pub fn read_message(form: usize, input: &[u8], out: &mut [u8]) -> (u32, usize, usize) {
    let length = match form {
        0 => input.len(),
        1 => match input {
            [_, high, low, rest @ ..] => {
                let length = usize::from(u16::from_be_bytes([*high, *low]));
                if rest.len() < length {
                    return (1, 0, 0);
                }
                3 + length
            }
            _ => return (1, 0, 0),
        },
        2 => match input.iter().position(|&byte| byte == b'\n') {
            Some(end) => end + 1,
            None => return (1, 0, 0),
        },
        _ => return (8, 0, 0),
    };
    let whole = &input[..length];
    let read = match form {
        0 => read_binary(whole.first(), whole.get(1..).unwrap_or_default(), out),
        1 => read_binary(whole.first(), &whole[3..], out),
        _ => read_line(&whole[..length - 1], out),
    };
    match read {
        Ok(written) => (0, length, written),
        Err(5) => (5, 0, 0),
        Err(answer) => (answer, length, 0),
    }
}

fn read_binary(id: Option<&u8>, payload: &[u8], out: &mut [u8]) -> Result<usize, u32> {
    match id {
        Some(0x80 | 0x83) if payload.is_empty() => Err(101),
        Some(0x80..=0x83) if payload.len() > 65_535 => Err(102),
        Some(&id @ 0x80..=0x83) => {
            let out = out.get_mut(..1 + payload.len()).ok_or(5u32)?;
            out[0] = id;
            out[1..].copy_from_slice(payload);
            Ok(out.len())
        }
        _ => Err(100),
    }
}

fn read_line(line: &[u8], out: &mut [u8]) -> Result<usize, u32> {
    let (body, has_return) = match line {
        [body @ .., b'\r'] => (body, true),
        _ => (line, false),
    };
    let end = body.iter().position(|&byte| byte == b' ');
    let word_length = end.unwrap_or(body.len());
    let id = match &body[..word_length] {
        b"VERSION" => 0x80,
        b"INFO" => 0x81,
        b"PONG" => 0x82,
        b"ERROR" => 0x83,
        _ => return Err(100),
    };
    let fields = has_return
        .then_some(())
        .and_then(|()| fields(id, body, word_length));
    let Fields {
        number,
        first,
        second,
    } = fields.ok_or(101u32)?;
    let behind = second.as_ref().map_or(0, |second| 1 + second.length);
    let length = 1 + usize::from(number.is_some()) + first.length + behind;
    if length > 65_536 {
        return Err(102);
    }
    let out = out.get_mut(..length).ok_or(5u32)?;
    let mut at = put(out, 0, &[id]);
    if let Some(number) = number {
        at = put(out, at, &[number]);
    }
    at = put_unquoted(out, at, &first);
    if let Some(second) = second {
        at = put(out, at, &[0]);
        put_unquoted(out, at, &second);
    }
    Ok(length)
}

struct Fields<'a> {
    number: Option<u8>,
    first: Quoted<'a>,
    second: Option<Quoted<'a>>,
}

/// A string of a line: what stands between the quotes, and how many bytes it stands for.
struct Quoted<'a> {
    inside: &'a [u8],
    length: usize,
}

/// The fields of a line of the form that is taken.
fn fields(id: u8, line: &[u8], mut at: usize) -> Option<Fields<'_>> {
    let mut number = None;
    if matches!(id, 0x80 | 0x83) {
        let (value, next) = scan_number(line, at)?;
        (number, at) = (Some(value), next);
    }
    let (first, next) = scan_string(line, at, id == 0x81)?;
    at = next;
    let mut second = None;
    if id == 0x81 && at < line.len() {
        let (value, next) = scan_string(line, at, false)?;
        (second, at) = (Some(value), next);
    }
    (at == line.len()).then_some(Fields {
        number,
        first,
        second,
    })
}

/// The number behind a space, and the place behind it.
fn scan_number(line: &[u8], at: usize) -> Option<(u8, usize)> {
    let rest = line.get(at..)?.strip_prefix(b" ")?;
    let digits = rest.iter().take_while(|byte| byte.is_ascii_digit()).count();
    let value = match &rest[..digits] {
        [a] => u32::from(a - b'0'),
        [a @ b'1'..=b'9', b] => u32::from(a - b'0') * 10 + u32::from(b - b'0'),
        [a @ b'1'..=b'9', b, c] => {
            u32::from(a - b'0') * 100 + u32::from(b - b'0') * 10 + u32::from(c - b'0')
        }
        _ => return None,
    };
    Some((u8::try_from(value).ok()?, at + 1 + digits))
}

/// The string behind a space, and the place behind it.
fn scan_string(line: &[u8], at: usize, is_key: bool) -> Option<(Quoted<'_>, usize)> {
    let inside = line.get(at..)?.strip_prefix(b" \"")?;
    let (mut end, mut length) = (0, 0);
    loop {
        match inside.get(end)? {
            b'"' => break,
            b'\\' => {
                let byte = unescaped(inside.get(end + 1..end + 4)?)?;
                if is_key && byte == 0 {
                    return None;
                }
                end += 4;
            }
            0 | b'\n' | b'\r' => return None,
            _ => end += 1,
        }
        length += 1;
    }
    let string = Quoted {
        inside: &inside[..end],
        length,
    };
    Some((string, at + 3 + end))
}

fn unescaped(digits: &[u8]) -> Option<u8> {
    match digits {
        b"000" => Some(0),
        b"012" => Some(b'\n'),
        b"015" => Some(b'\r'),
        b"042" => Some(b'"'),
        b"134" => Some(b'\\'),
        _ => None,
    }
}

/// Puts the bytes that a good string stands for.
fn put_unquoted(out: &mut [u8], mut at: usize, string: &Quoted) -> usize {
    let mut rest = string.inside;
    // Each escape has four bytes for one.
    for _ in 0..(rest.len() - string.length) / 3 {
        let run = rest.iter().take_while(|&&byte| byte != b'\\').count();
        at = put(out, at, &rest[..run]);
        at = put(out, at, &[unescaped(&rest[run + 1..run + 4]).unwrap_or(0)]);
        rest = &rest[run + 4..];
    }
    put(out, at, rest)
}

#[cfg(test)]
mod tests {
    use super::*;
    use reference::client;

    /// Both in a form, with out slices of several lengths: numbers and bytes are the same.
    fn compare(form: usize, bytes: &[u8]) {
        for room in [0, 1, 2, 7, 20, 65_535, 65_536, 300_000] {
            let mut out = vec![0xA5; room];
            let due = client::write_command(form, bytes, room);
            let (answer, count) = write_command(form, bytes, &mut out);
            assert_eq!(due.as_ref().err().copied().unwrap_or(0), answer);
            assert_eq!(due.unwrap_or_default(), out[..count]);
            assert!(out[count..].iter().all(|&byte| byte == 0xA5));

            let mut out = vec![0xA5; room];
            let due = client::read_message(form, bytes, room);
            let (answer, consumed, count) = read_message(form, bytes, &mut out);
            assert_eq!((due.answer, due.consumed), (answer, consumed));
            assert_eq!(due.message, out[..count]);
            assert!(out[count..].iter().all(|&byte| byte == 0xA5));
        }
    }

    #[test]
    fn numbers_and_bytes_are_those_of_the_reference() {
        let lines: [&[u8]; 26] = [
            b"PONG \"x\"\r\n",
            b"PONG \"\\000\\012\\015\\042\\134\"\r\nPONG",
            b"PONG \"\\101\"\r\n",
            b"PONG \"x\"\n",
            b"PONG\r\n",
            b"PONG  \"x\"\r\n",
            b"PONG \"x\" \"y\"\r\n",
            b"PONG \"x\"y\r\n",
            b"PONG \"x",
            b"pong \"x\"\r\n",
            b"\n",
            b"INFO \"k\"\r\n",
            b"INFO \"k\" \"\"\r\n",
            b"INFO \"k\" \"\\000v\"\r\n",
            b"INFO \"\\000\" \"v\"\r\n",
            b"INFO \"k\" v\r\n",
            b"VERSION 0 \"\"\r\n",
            b"VERSION 00 \"\"\r\n",
            b"VERSION 255 \"a\"\r\n",
            b"VERSION 256 \"a\"\r\n",
            b"ERROR 10 \"b\"\r\n",
            b"ERROR \"b\"\r\n",
            b"\x82\0\x01x",
            b"\x80\0\0",
            b"\x81\0\x03k\0vx",
            b"\x81\0\x09k\0v",
        ];
        let commands: [&[u8]; 14] = [
            b"",
            b"\0",
            b"\0\x07",
            b"\0\x0Aab",
            b"\0\xFF\0",
            b"\x01a*",
            b"\x02**",
            b"\x03a\0",
            b"\x04k",
            b"\x04k\0a\"\\\r\nb",
            b"\x05",
            b"\x06x",
            b"\x07",
            b"\x08",
        ];
        let long = [0x61, 0x22].map(|byte| vec![byte; 65_540]);
        for form in 0..=3 {
            for bytes in lines.iter().chain(&commands) {
                compare(form, bytes);
            }
            for (bytes, id) in long.iter().flat_map(|bytes| [(bytes, 7), (bytes, 0x82)]) {
                compare(form, &[&[id], &bytes[..65_535]].concat());
                compare(form, &[&[id], &bytes[..65_536]].concat());
            }
        }
    }
}

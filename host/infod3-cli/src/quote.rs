//! Strings as the text form of the protocol writes them.

/// A string in quotes, with `\ooo` for every byte that is not printable ASCII, and for `"` and
/// `\`.
pub fn quote(bytes: &[u8]) -> String {
    let mut text = String::from("\"");
    for &byte in bytes {
        match byte {
            b'"' | b'\\' | 0..=0x1F | 0x7F.. => text.push_str(&format!("\\{byte:03o}")),
            _ => text.push(char::from(byte)),
        }
    }
    text.push('"');
    text
}

/// A string as one field of a line: as it is where it has a byte and all of them are plain, which
/// printable ASCII is without the space, `"` and `\`, and else in quotes. [`fields`] reads it back.
pub fn field(bytes: &[u8]) -> String {
    let plain = |&b: &u8| b.is_ascii_graphic() && b != b'"' && b != b'\\';
    match std::str::from_utf8(bytes) {
        Ok(text) if !text.is_empty() && bytes.iter().all(plain) => text.to_owned(),
        _ => quote(bytes),
    }
}

/// A text in which a terminal finds nothing to obey: `\ooo` for every byte that is not printable
/// ASCII.
pub fn harmless(bytes: &[u8]) -> String {
    let mut text = String::new();
    for &byte in bytes {
        match byte {
            b' '..=b'~' => text.push(char::from(byte)),
            _ => text.push_str(&format!("\\{byte:03o}")),
        }
    }
    text
}

/// The fields of a line, apart by spaces. A field that begins with `"` runs to the next `"` and
/// has `\ooo` for a byte in octal; any other field stands for its own bytes. None for a quote
/// that is not closed or not followed by a space, and for a wrong escape.
pub fn fields(line: &[u8]) -> Option<Vec<Vec<u8>>> {
    let mut fields = Vec::new();
    let mut rest = line;
    loop {
        let start = rest.iter().position(|&b| b != b' ');
        let Some(start) = start else {
            return Some(fields);
        };
        rest = &rest[start..];
        let (field, left) = match rest.strip_prefix(b"\"") {
            Some(inside) => quoted(inside)?,
            None => {
                let end = rest.iter().position(|&b| b == b' ').unwrap_or(rest.len());
                (rest[..end].to_vec(), &rest[end..])
            }
        };
        fields.push(field);
        rest = left;
    }
}

/// The field up to the closing quote, and what is behind it.
fn quoted(inside: &[u8]) -> Option<(Vec<u8>, &[u8])> {
    let end = inside.iter().position(|&b| b == b'"')?;
    let (text, rest) = (&inside[..end], &inside[end + 1..]);
    if rest.first().is_some_and(|&b| b != b' ') {
        return None;
    }
    let mut field = Vec::new();
    let mut at = 0;
    while let Some(&byte) = text.get(at) {
        if byte != b'\\' {
            field.push(byte);
            at += 1;
            continue;
        }
        let digits = std::str::from_utf8(text.get(at + 1..at + 4)?).ok()?;
        if !digits.bytes().all(|b| (b'0'..=b'7').contains(&b)) {
            return None;
        }
        field.push(u8::from_str_radix(digits, 8).ok()?);
        at += 4;
    }
    Some((field, rest))
}

#[cfg(test)]
mod tests {
    use super::*;

    #[test]
    fn every_byte_goes_through() {
        let all: Vec<u8> = (0..=255).collect();
        let line = format!("  w {}  x\"y ", quote(&all));
        let expected = vec![b"w".to_vec(), all, b"x\"y".to_vec()];
        assert_eq!(fields(line.as_bytes()), Some(expected));
        assert_eq!(quote(b"a b\r\n"), r#""a b\015\012""#);
    }

    #[test]
    fn a_field_is_quoted_where_a_byte_is_not_plain() {
        let table: [(&[u8], &str); 6] = [
            (b"site.7.state", "site.7.state"),
            (b"", r#""""#),
            (b"a b", r#""a b""#),
            (b"\\", r#""\134""#),
            (b"a\"", r#""a\042""#),
            ("ö".as_bytes(), r#""\303\266""#),
        ];
        for (bytes, text) in table {
            assert_eq!(field(bytes), text);
            assert_eq!(fields(text.as_bytes()), Some(vec![bytes.to_vec()]));
        }
    }

    #[test]
    fn wrong_fields_are_none() {
        for line in [r#""a"#, r#""a"b"#, r#""\8""#, r#""\400""#, r#""\01""#] {
            assert_eq!(fields(line.as_bytes()), None, "{line}");
        }
        assert_eq!(fields(b"   "), Some(vec![]));
        assert_eq!(fields(br#"r """#), Some(vec![b"r".to_vec(), vec![]]));
    }
}

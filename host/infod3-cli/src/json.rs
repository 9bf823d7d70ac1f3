//! Strings as JSON (RFC 8259) writes them, for bytes that need not be text.

/// A member of an object: `"name":"text"` for bytes that are UTF-8, and else
/// `"name_base64":".."`. No two strings of bytes have the same member, and none has a line end.
pub fn member(name: &str, bytes: &[u8]) -> String {
    match std::str::from_utf8(bytes) {
        Ok(text) => format!("{}:{}", string(name), string(text)),
        Err(_) => format!(
            "{}:{}",
            string(&format!("{name}_base64")),
            string(&base64(bytes))
        ),
    }
}

/// A string in quotes, of printable ASCII alone: every other character is escaped, since a
/// terminal obeys some, does not show others, and shows many that look alike.
pub fn string(text: &str) -> String {
    let mut out = String::from("\"");
    for c in text.chars() {
        match c {
            '"' => out.push_str("\\\""),
            '\\' => out.push_str("\\\\"),
            '\n' => out.push_str("\\n"),
            '\r' => out.push_str("\\r"),
            '\t' => out.push_str("\\t"),
            ' '..='~' => out.push(c),
            c => {
                let mut units = [0; 2];
                for unit in c.encode_utf16(&mut units) {
                    out.push_str(&format!("\\u{unit:04x}"));
                }
            }
        }
    }
    out.push('"');
    out
}

/// Bytes in base 64 (RFC 4648, part 4), with `=` at the end.
fn base64(bytes: &[u8]) -> String {
    const DIGITS: &[u8; 64] = b"ABCDEFGHIJKLMNOPQRSTUVWXYZabcdefghijklmnopqrstuvwxyz0123456789+/";
    let mut out = String::new();
    for three in bytes.chunks(3) {
        let byte = |at: usize| u32::from(three.get(at).copied().unwrap_or(0));
        let bits = byte(0) << 16 | byte(1) << 8 | byte(2);
        for digit in 0..4 {
            let value = bits >> (18 - 6 * digit) & 63;
            match digit <= three.len() {
                true => out.push(char::from(DIGITS[value as usize])),
                false => out.push('='),
            }
        }
    }
    out
}

#[cfg(test)]
mod tests {
    use super::*;

    #[test]
    fn base64_is_that_of_the_standard() {
        let table = [
            ("", ""),
            ("f", "Zg=="),
            ("fo", "Zm8="),
            ("foo", "Zm9v"),
            ("foob", "Zm9vYg=="),
            ("fooba", "Zm9vYmE="),
            ("foobar", "Zm9vYmFy"),
        ];
        for (plain, coded) in table {
            assert_eq!(base64(plain.as_bytes()), coded);
        }
        assert_eq!(base64(&[0xFB, 0xFF, 0xFE]), "+//+");
    }

    #[test]
    fn members_are_text_or_base64() {
        assert_eq!(
            member("key", "Köln \"\\".as_bytes()),
            r#""key":"K\u00f6ln \"\\""#
        );
        assert_eq!(member("key", b"a\xff"), r#""key_base64":"Yf8=""#);
        let odd = "\n\r\t\0\u{1b}\u{7f}\u{85}\u{2028}\u{202e}\u{e0041}";
        assert_eq!(
            string(odd),
            r#""\n\r\t\u0000\u001b\u007f\u0085\u2028\u202e\udb40\udc41""#
        );
    }

    #[test]
    fn every_character_is_printable_ascii() {
        for c in '\0'..=char::MAX {
            let text = string(&c.to_string());
            let printable = text.bytes().all(|b| (b' '..=b'~').contains(&b));
            assert!(printable, "U+{:04X}", u32::from(c));
        }
    }
}

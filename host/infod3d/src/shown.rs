//! Foreign bytes in lines of the log: whatever they are, a line stays one line.

use std::fmt::Write;
use std::os::unix::ffi::OsStrExt;
use std::path::Path;

/// The first bytes of a text in quotes, with `\ooo` for what is not plain.
pub fn quoted(text: &[u8]) -> String {
    const MOST: usize = 64;
    let more = if text.len() > MOST { " .." } else { "" };
    let first = &text[..text.len().min(MOST)];
    format!("\"{}\"{more}", escaped(first))
}

/// A path as it is, or with `\ooo` for what is not plain where it is not UTF-8 or holds what no
/// terminal shows.
pub fn path(path: &Path) -> String {
    match path.to_str() {
        Some(text) if !text.chars().any(char::is_control) => text.to_owned(),
        _ => escaped(path.as_os_str().as_bytes()),
    }
}

fn escaped(bytes: &[u8]) -> String {
    let mut text = String::new();
    for &byte in bytes {
        // Writing to a string cannot fail.
        let _ = match byte {
            b'"' | b'\\' | 0..=0x1F | 0x7F.. => write!(text, "\\{byte:03o}"),
            _ => write!(text, "{}", char::from(byte)),
        };
    }
    text
}

#[cfg(test)]
mod tests {
    use super::*;
    use std::ffi::OsStr;

    #[test]
    fn a_line_stays_one_line() {
        assert_eq!(quoted(b"port 7\n\"\xFF"), "\"port 7\\012\\042\\377\"");
        let long = format!("\"{}\" ..", "x".repeat(64));
        assert_eq!(quoted(&[b'x'; 65]), long);
        assert_eq!(path(Path::new("/run/\u{e4} b")), "/run/\u{e4} b");
        assert_eq!(path(Path::new("/run/a\nb")), "/run/a\\012b");
        let bytes = Path::new(OsStr::from_bytes(b"/run/\xFF"));
        assert_eq!(path(bytes), "/run/\\377");
    }
}

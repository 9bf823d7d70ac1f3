//! Keys and values as lines of the output.

use infod3_cli::json;
use infod3_cli::quote::{field, quote};
use infod3_cli::Message;

/// How keys and values are shown.
#[derive(Clone, Copy, Debug, PartialEq, Eq)]
pub enum Form {
    /// As fields, in quotes where a byte is not plain.
    Fields,
    /// In quotes always.
    Text,
    /// As their bytes.
    Raw,
    /// As members of a JSON object.
    Json,
}

/// Writes strings apart by a space.
fn strings(form: Form, strings: &[&[u8]]) -> Vec<u8> {
    let shown: Vec<Vec<u8>> = strings
        .iter()
        .map(|string| match form {
            Form::Fields => field(string).into_bytes(),
            Form::Text => quote(string).into_bytes(),
            Form::Raw | Form::Json => string.to_vec(),
        })
        .collect();
    ended(shown.join(&b' '))
}

fn ended(mut line: Vec<u8>) -> Vec<u8> {
    line.push(b'\n');
    line
}

fn object(members: &[String]) -> Vec<u8> {
    ended(format!("{{{}}}", members.join(",")).into_bytes())
}

/// The line of a key with its value, or of a key that is absent.
pub fn info(form: Form, key: &[u8], value: Option<&[u8]>) -> Vec<u8> {
    let name = || json::member("key", key);
    match (form, value) {
        (Form::Json, Some(value)) => object(&[name(), json::member("value", value)]),
        (Form::Json, None) => object(&[name(), "\"deleted\":true".to_owned()]),
        (form, Some(value)) => strings(form, &[key, value]),
        (form, None) => strings(form, &[key]),
    }
}

/// The line of the value that was asked for.
pub fn value(form: Form, key: &[u8], value: &[u8]) -> Vec<u8> {
    match form {
        Form::Json => info(form, key, Some(value)),
        form => strings(form, &[value]),
    }
}

/// The line of any message. Where keys are in quotes, no key looks like another message.
pub fn message(form: Form, message: &Message) -> Vec<u8> {
    let said = |word: &str, string: &[u8]| {
        let mut line = word.as_bytes().to_vec();
        line.extend(strings(form, &[string]));
        line
    };
    match message {
        Message::Info { key, value } => info(form, key, value.as_deref()),
        Message::Pong(id) if form == Form::Json => object(&[json::member("pong", id)]),
        Message::Pong(id) => said("pong ", id),
        Message::Version { version, text } if form == Form::Json => {
            let number = format!("\"version\":{version}");
            object(&[number, json::member("text", text)])
        }
        Message::Version { version, text } => said(&format!("version {version} "), text),
        Message::Error { number, text } => said(&format!("ERROR {number} "), text),
    }
}

#[cfg(test)]
mod tests {
    use super::*;
    use infod3_cli::quote::fields;
    use std::collections::HashSet;

    /// All strings of so many of these bytes at most.
    fn nasty(most: usize) -> Vec<Vec<u8>> {
        let alphabet = b"a \"\\\n0\xC3\xA4";
        let mut last: Vec<Vec<u8>> = vec![Vec::new()];
        let mut all = last.clone();
        for _ in 0..most {
            let longer = |s: &Vec<u8>| alphabet.map(|byte| [s, &[byte][..]].concat());
            last = last.iter().flat_map(longer).collect();
            all.extend_from_slice(&last);
        }
        all
    }

    /// Keys with values and deleted keys; the keys have no NUL, as all keys.
    fn for_all(mut test: impl FnMut(&[u8], Option<&[u8]>)) {
        let values = nasty(2);
        for key in nasty(3) {
            test(&key, None);
            values.iter().for_each(|value| test(&key, Some(value)));
        }
    }

    #[test]
    fn no_two_lines_are_alike() {
        for form in [Form::Fields, Form::Text, Form::Json] {
            let mut seen = HashSet::new();
            for_all(|key, value| {
                let line = info(form, key, value);
                let ends = line.iter().filter(|&&b| b == b'\n' || b == b'\r').count();
                assert!(ends == 1 && line.ends_with(b"\n"), "{line:?}");
                assert!(seen.insert(line), "{form:?} {key:?} {value:?}");
            });
            assert_eq!(seen.len(), 585 * 74);
        }
    }

    #[test]
    fn a_line_of_fields_is_read_back() {
        for form in [Form::Fields, Form::Text] {
            for_all(|key, value| {
                let line = info(form, key, value);
                let mut expected = vec![key.to_vec()];
                expected.extend(value.map(<[u8]>::to_vec));
                assert_eq!(fields(&line[..line.len() - 1]), Some(expected));
            });
        }
    }

    #[test]
    fn forms() {
        let line = |form, value| String::from_utf8(info(form, b"a b", value)).unwrap();
        assert_eq!(line(Form::Fields, Some(b"c")), "\"a b\" c\n");
        assert_eq!(line(Form::Fields, Some(b"")), "\"a b\" \"\"\n");
        assert_eq!(line(Form::Fields, None), "\"a b\"\n");
        assert_eq!(line(Form::Text, Some(b"c")), "\"a b\" \"c\"\n");
        assert_eq!(line(Form::Raw, Some(b"c\nd")), "a b c\nd\n");
        let json = "{\"key\":\"a b\",\"value\":\"c\"}\n";
        assert_eq!(line(Form::Json, Some(b"c")), json);
        let deleted = "{\"key\":\"a b\",\"deleted\":true}\n";
        assert_eq!(line(Form::Json, None), deleted);
    }
}

//! The words of text commands.

/// A command in text: its word, the letter that will do in its place, and its ID, which packets and
/// frames have instead.
///
/// ```
/// use infod3::{Word, WORDS};
///
/// let write = Word::named(b"Write").expect("a word");
/// assert_eq!((write.word, write.letter, write.id), ("WRITE", Some('w'), 0x04));
/// assert_eq!(Word::named(b"W"), Some(write));
/// assert_eq!(WORDS[4], *write);
///
/// // HELLO has no letter, and no part of a word will do.
/// assert_eq!(Word::named(b"h"), None);
/// assert_eq!(Word::named(b"wri"), None);
/// ```
#[derive(Clone, Copy, Debug, PartialEq, Eq, Hash)]
pub struct Word {
    /// The word in capitals, as it is written by [`client::write()`](crate::client::write()).
    pub word: &'static str,
    /// The letter, a small one; HELLO has none.
    pub letter: Option<char>,
    /// The command's ID.
    pub id: u8,
}

/// The words of all commands, by their IDs.
///
/// A broker knows these words and letters and no others. What it looks up itself is the library's
/// own table, which the tests of this crate hold against this one.
///
/// ```
/// let words: Vec<&str> = infod3::WORDS.iter().map(|row| row.word).collect();
/// assert_eq!(words.join(" "), "HELLO SUB UNSUB READ WRITE BEGIN COMMIT PING");
/// let letters: String = infod3::WORDS.iter().filter_map(|row| row.letter).collect();
/// assert_eq!(letters, "surwbcp");
/// ```
pub const WORDS: [Word; 8] = [
    Word::new("HELLO", None, 0x00),
    Word::new("SUB", Some('s'), 0x01),
    Word::new("UNSUB", Some('u'), 0x02),
    Word::new("READ", Some('r'), 0x03),
    Word::new("WRITE", Some('w'), 0x04),
    Word::new("BEGIN", Some('b'), 0x05),
    Word::new("COMMIT", Some('c'), 0x06),
    Word::new("PING", Some('p'), 0x07),
];

impl Word {
    const fn new(word: &'static str, letter: Option<char>, id: u8) -> Word {
        Word { word, letter, id }
    }

    /// The row whose word or letter this is, with ASCII letters in any case; none for every other
    /// word. A word is what stands in a line before a space or the line's end.
    pub fn named(word: &[u8]) -> Option<&'static Word> {
        WORDS.iter().find(|row| row.is_named(word))
    }

    fn is_named(&self, word: &[u8]) -> bool {
        word.eq_ignore_ascii_case(self.word.as_bytes()) || self.is_letter(word)
    }

    fn is_letter(&self, word: &[u8]) -> bool {
        match (word, self.letter) {
            ([byte], Some(letter)) => char::from(byte.to_ascii_lowercase()) == letter,
            _ => false,
        }
    }
}

#[cfg(test)]
mod tests {
    use super::*;

    #[test]
    fn rows_stand_at_their_ids() {
        for (id, row) in WORDS.iter().enumerate() {
            assert_eq!(usize::from(row.id), id);
            assert!(row.word.bytes().all(|byte| byte.is_ascii_uppercase()));
            assert!(row.letter.is_none_or(|letter| letter.is_ascii_lowercase()));
        }
    }

    /// Every word of up to two bytes, and so every letter.
    #[test]
    fn short_words_are_letters() {
        let mut named = Vec::new();
        for first in 0..=u8::MAX {
            if let Some(row) = Word::named(&[first]) {
                named.push((char::from(first), row.word));
            }
            for second in 0..=u8::MAX {
                assert_eq!(Word::named(&[first, second]), None);
            }
        }
        let letters = [
            ('b', "BEGIN"),
            ('c', "COMMIT"),
            ('p', "PING"),
            ('r', "READ"),
            ('s', "SUB"),
            ('u', "UNSUB"),
            ('w', "WRITE"),
        ];
        let capitals = letters.map(|(letter, word)| (letter.to_ascii_uppercase(), word));
        assert_eq!(named, [capitals, letters].concat());
        assert_eq!(Word::named(b""), None);
    }

    #[test]
    fn words_are_named_whole_and_in_any_case() {
        for row in &WORDS {
            let small = row.word.to_ascii_lowercase();
            let first_small = [&small[..1], &row.word[1..]].concat();
            for word in [row.word, &small, &first_small] {
                assert_eq!(Word::named(word.as_bytes()), Some(row), "{word}");
                assert_eq!(Word::named(&word.as_bytes()[1..]), None, "{word}");
                assert_eq!(Word::named(&word.as_bytes()[..word.len() - 1]), None);
                for behind in 0..=u8::MAX {
                    assert_eq!(Word::named(&[word.as_bytes(), &[behind]].concat()), None);
                }
                // Of all bytes only the letter itself, small or capital, will do at its place.
                for at in 0..word.len() {
                    for byte in 0..=u8::MAX {
                        let mut other = word.as_bytes().to_vec();
                        let same = byte.eq_ignore_ascii_case(&other[at]);
                        other[at] = byte;
                        assert_eq!(Word::named(&other), same.then_some(row), "{other:?}");
                    }
                }
            }
        }
    }
}

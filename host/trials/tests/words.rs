//! Which words a line may begin with: all that are known, in every pattern of cases, and others in
//! great number, the short ones without exception.
//!
//! Every line is fed to the library and to the reference and compared. What has to come of it is
//! written out here from document 01, "From bytes to one command": the eight words and seven
//! letters do what their commands do, and every other word is 100.

use std::time::Instant;
use trials::pair::{shown, Pair, Sizes};

const SIZES: Sizes = Sizes::new(2, 1_024, 1_024, 256);

/// A command's word and letter, and how a line shows that it is this command and no other.
struct Command {
    word: &'static str,
    letter: Option<&'static str>,
    /// What the client sends before the line.
    before: &'static [&'static str],
    fields: &'static str,
    /// What the client is sent for the line, while the key `k` has the value `old`.
    sent: &'static [&'static str],
    /// What a READ of `k` then gives another client.
    left: &'static str,
    /// What the client is sent when the other has written `new`, and for a `PING y` of its own.
    after: &'static [&'static str],
    /// What the client is sent for a COMMIT.
    committed: &'static [&'static str],
}

const OLD: &str = "INFO \"k\" \"old\"\r\n";
const PONG: &str = "PONG \"y\"\r\n";

/// A command that is sent this for its line and has no other effect.
const fn command(
    word: &'static str,
    letter: Option<&'static str>,
    fields: &'static str,
    sent: &'static [&'static str],
) -> Command {
    Command {
        word,
        letter,
        before: &[],
        fields,
        sent,
        left: OLD,
        after: &[PONG],
        committed: &[],
    }
}

/// The commands by their IDs.
const COMMANDS: [Command; 8] = [
    command("hello", None, " 0 me", &["VERSION 0 \"\"\r\n"]),
    Command {
        after: &["INFO \"k\" \"new\"\r\n", PONG],
        ..command("sub", Some("s"), " k", &[OLD])
    },
    Command {
        before: &["SUB k"],
        ..command("unsub", Some("u"), " k", &[])
    },
    command("read", Some("r"), " k", &[OLD]),
    Command {
        left: "INFO \"k\" \"mine\"\r\n",
        ..command("write", Some("w"), " k mine", &[])
    },
    Command {
        after: &[],
        committed: &[PONG],
        ..command("begin", Some("b"), "", &[])
    },
    Command {
        before: &["BEGIN", "PING z"],
        ..command("commit", Some("c"), "", &["PONG \"z\"\r\n"])
    },
    command("ping", Some("p"), " x", &["PONG \"x\"\r\n"]),
];

/// The command that a word names.
fn named(word: &[u8]) -> Option<&'static Command> {
    let is = |name: &str| word.eq_ignore_ascii_case(name.as_bytes());
    let mut commands = COMMANDS.iter();
    commands.find(|command| is(command.word) || command.letter.is_some_and(is))
}

/// The library and the reference with two clients, of which the first is fed the words.
struct Trial {
    pair: Pair,
    known: usize,
    unknown: usize,
}

impl Trial {
    fn new() -> Trial {
        let mut trial = Trial {
            pair: Pair::new(SIZES, 0),
            known: 0,
            unknown: 0,
        };
        assert_eq!((trial.pair.open(0, 1), trial.pair.open(1, 1)), (0, 0));
        // A blank line decides that the client speaks text, whatever its words begin with.
        trial.done(0, "");
        trial
    }

    /// Puts a client that has sent nothing into slot 0.
    fn reopen(&mut self, form: usize) {
        assert_eq!((self.pair.close(0), self.pair.open(0, form)), (0, 0));
    }

    /// Feeds a line, which is answered 0.
    #[track_caller]
    fn done(&mut self, slot: usize, line: &str) {
        self.feed(slot, &[line.as_bytes(), b"\n"].concat(), 0);
    }

    /// Feeds a line, which is consumed whole.
    #[track_caller]
    fn feed(&mut self, slot: usize, line: &[u8], answer: u32) {
        let given = self.pair.feed(slot, line);
        assert_eq!(given, (answer, line.len()), "{}", shown(line));
    }

    /// Takes all that a client is sent.
    #[track_caller]
    fn sent(&mut self, slot: usize, messages: &[&str], word: &[u8]) {
        let due: Vec<_> = messages.iter().map(|text| text.as_bytes()).collect();
        assert_eq!(self.pair.drain(slot), due, "{}", shown(word));
    }

    /// The word is this command: the answer is 0, and what follows shows which command it is.
    #[track_caller]
    fn is_known(&mut self, form: usize, spaces: &str, word: &[u8], command: &Command) {
        self.reopen(form);
        self.done(1, "WRITE k old");
        command.before.iter().for_each(|line| self.done(0, line));
        self.pair.drain(0);
        let fields = command.fields.as_bytes();
        self.feed(0, &[spaces.as_bytes(), word, fields, b"\n"].concat(), 0);
        self.sent(0, command.sent, word);
        self.done(1, "READ k");
        self.sent(1, &[command.left], word);
        self.done(1, "WRITE k new");
        self.done(0, "PING y");
        self.sent(0, command.after, word);
        self.done(0, "COMMIT");
        self.sent(0, command.committed, word);
        self.known += 1;
    }

    /// The word is unknown, whatever stands behind it: the answer is 100, and the client is sent
    /// ERROR and nothing else.
    #[track_caller]
    fn is_unknown(&mut self, word: &[u8]) {
        const BEHIND: [&[u8]; 4] = [b"\n", b"\r", b" \n", b" k v\n"];
        let behind = BEHIND[self.unknown % BEHIND.len()];
        self.feed(0, &[word, behind].concat(), 100);
        self.sent(0, &["ERROR 100 \"unknown message\"\r\n"], word);
        self.unknown += 1;
    }

    /// The word is known or unknown, as it should be.
    #[track_caller]
    fn is_judged(&mut self, word: &[u8]) {
        match named(word) {
            Some(command) => self.is_known(1, "", word, command),
            None => self.is_unknown(word),
        }
    }
}

/// Every byte that may stand in a word: a space, a CR and an LF end it.
fn bytes() -> impl Iterator<Item = u8> {
    (0..=u8::MAX).filter(|byte| !b" \r\n".contains(byte))
}

fn letters() -> impl Iterator<Item = u8> {
    (b'A'..=b'Z').chain(b'a'..=b'z')
}

/// Every word of so many of these bytes.
fn all_words(alphabet: &[u8], length: usize) -> Vec<Vec<u8>> {
    let mut words = vec![Vec::new()];
    for _ in 0..length {
        words = words
            .iter()
            .flat_map(|word| {
                alphabet
                    .iter()
                    .map(move |&byte| [&word[..], &[byte]].concat())
            })
            .collect();
    }
    words
}

/// The word in every pattern of capitals and small letters.
fn in_all_cases(word: &str) -> Vec<Vec<u8>> {
    let cased = |pattern: usize| {
        let mut cased = word.as_bytes().to_vec();
        for (at, letter) in cased.iter_mut().enumerate() {
            if pattern >> at & 1 == 1 {
                letter.make_ascii_uppercase();
            }
        }
        cased
    };
    (0..1 << word.len()).map(cased).collect()
}

/// The words, then the letters.
fn names() -> Vec<&'static str> {
    let words = COMMANDS.iter().map(|command| command.word);
    let letters = COMMANDS.iter().filter_map(|command| command.letter);
    words.chain(letters).collect()
}

/// Every word and letter in every pattern of cases, in both forms of a stream, with spaces before
/// it and without.
fn words_in_all_cases(trial: &mut Trial) {
    for name in names() {
        let command = named(name.as_bytes()).expect("a command");
        for word in in_all_cases(name) {
            for (form, spaces) in [(1, ""), (1, "  "), (2, ""), (2, " ")] {
                trial.is_known(form, spaces, &word, command);
            }
        }
    }
    trial.reopen(1);
    trial.done(0, "");
}

/// Every word of up to three letters.
fn words_of_three_letters(trial: &mut Trial) {
    let letters: Vec<u8> = letters().collect();
    for word in (1..=3).flat_map(|length| all_words(&letters, length)) {
        trial.is_judged(&word);
    }
}

/// Every word of four small letters.
fn words_of_four_small_letters(trial: &mut Trial) {
    let letters: Vec<u8> = (b'a'..=b'z').collect();
    for word in all_words(&letters, 4) {
        trial.is_judged(&word);
    }
}

/// Every word of up to two bytes.
fn words_of_two_bytes(trial: &mut Trial) {
    let bytes: Vec<u8> = bytes().collect();
    for word in (1..=2).flat_map(|length| all_words(&bytes, length)) {
        trial.is_judged(&word);
    }
}

/// Words with one byte left out, doubled, replaced, or added at either end.
fn words_with_a_wrong_byte(trial: &mut Trial) {
    let words = COMMANDS.iter().map(|command| command.word);
    for word in words.flat_map(|word| [word.to_owned(), word.to_ascii_uppercase()]) {
        let word = word.as_bytes();
        for at in 0..word.len() {
            let (front, back) = word.split_at(at);
            trial.is_unknown(&[front, &back[1..]].concat());
            trial.is_unknown(&[front, &back[..1], back].concat());
            for byte in bytes().filter(|byte| !byte.eq_ignore_ascii_case(&word[at])) {
                trial.is_unknown(&[front, &[byte], &back[1..]].concat());
            }
        }
        for byte in bytes() {
            trial.is_unknown(&[word, &[byte]].concat());
            trial.is_unknown(&[&[byte], word].concat());
        }
    }
}

/// Letters beyond ASCII that look like this one, or are its other case by the rules of Unicode.
fn letters_alike(letter: char) -> Vec<char> {
    let place = u32::from(letter) - u32::from('a');
    let wide = ['Ａ', 'ａ'].map(|first| char::from_u32(u32::from(first) + place));
    let other = match letter {
        'i' => "ıİ",
        's' => "ſ",
        _ => "",
    };
    wide.into_iter().flatten().chain(other.chars()).collect()
}

/// Words and letters that are cut, quoted, filled up with NULs, in letters beyond ASCII, too long,
/// or go on without a space.
fn words_that_look_alike(trial: &mut Trial) {
    for name in names() {
        for end in 2..name.len() {
            trial.is_unknown(&name.as_bytes()[..end]);
        }
        for word in ["\"?\"", "\"?", "?\"", "?\"\"", "?\"x\"", "\\?", "#?"] {
            trial.is_unknown(word.replace('?', name).as_bytes());
        }
        for count in 1..=6 {
            trial.is_unknown(&[name.as_bytes(), &vec![0; count]].concat());
        }
        for (at, letter) in name.char_indices() {
            for alike in letters_alike(letter) {
                let word = format!("{}{alike}{}", &name[..at], &name[at + 1..]);
                trial.is_unknown(word.as_bytes());
            }
        }
        for times in [2, 1_000, 40_000] {
            trial.is_unknown(name.repeat(times).as_bytes());
        }
        // As long as the name, where only the low byte or two of a length are looked at.
        for more in [256, 512, 65_536, 131_072] {
            for byte in [0, b'x'] {
                trial.is_unknown(&[name.as_bytes(), &vec![byte; more]].concat());
            }
        }
        for byte in bytes() {
            trial.is_unknown(&[name.as_bytes(), &[byte], b"k"].concat());
        }
        for next in names() {
            trial.is_unknown(format!("{name}{next}").as_bytes());
        }
    }
    // The Kelvin sign, a k by Unicode's rules; words of the server, of clients and of messages.
    let others = "\u{212a} ? # h help quit exit delete watch line version info pong error";
    for word in others.split(' ') {
        trial.is_unknown(word.as_bytes());
    }
}

/// Unknown words as a client's first line: form 1 stays open and speaks text, form 2 is shut.
fn words_at_first(trial: &mut Trial) {
    let letters: Vec<u8> = letters().collect();
    for word in (1..=2).flat_map(|length| all_words(&letters, length)) {
        if named(&word).is_some() {
            continue;
        }
        for form in [1, 2] {
            trial.reopen(form);
            trial.is_unknown(&word);
            // As a frame this would be a PING.
            let next = trial.pair.feed(0, b"\x07\0\0\n");
            assert_eq!(next, if form == 1 { (100, 4) } else { (3, 0) });
        }
    }
}

/// A part of the trial, and how many words it finds known and unknown.
type Part = (fn(&mut Trial), usize, usize);

const PARTS: [Part; 7] = [
    (words_in_all_cases, 4 * (232 + 14), 0),
    (words_of_three_letters, 14 + 8, 143_364 - (14 + 8)),
    (words_of_four_small_letters, 2, 456_976 - 2),
    (words_of_two_bytes, 14, 253 + 253 * 253 - 14),
    // 37 letters in 8 words.
    (
        words_with_a_wrong_byte,
        0,
        2 * (37 * (251 + 2) + 8 * 2 * 253),
    ),
    (words_that_look_alike, 0, 4_514),
    (words_at_first, 0, 2 * (52 + 52 * 52 - 14)),
];

#[test]
fn every_word_is_known_or_unknown() {
    let start = Instant::now();
    let mut trial = Trial::new();
    for (number, (part, known, unknown)) in PARTS.into_iter().enumerate() {
        let before = (trial.known, trial.unknown);
        part(&mut trial);
        let found = (trial.known - before.0, trial.unknown - before.1);
        assert_eq!(found, (known, unknown), "part {number}");
    }
    let (known, unknown) = (trial.known, trial.unknown);
    let took = start.elapsed().as_secs_f64();
    println!(
        "\nwords: {} lines in {took:.1} s, {known} with a known word and {unknown} with an unknown one",
        known + unknown,
    );
}

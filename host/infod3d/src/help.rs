//! What the server itself says to a client: the HELP page, and why a client is turned away.
//!
//! Every line of the server itself starts with `#`, and no message of the protocol does: these
//! start with VERSION, INFO, PONG or ERROR.

/// What the page that answers HELP begins with.
const PAGE: &str = "\
# infod3 version 0, one command per line; words in any case, one letter will do\r
# READ key             r   answers INFO \"key\" \"value\", or INFO \"key\" if absent\r
# WRITE key [value]    w   sets the value; without one the key is deleted\r
# SUB pattern          s   INFO for each matching key, now and whenever it changes\r
# UNSUB pattern        u   takes the pattern back\r
# BEGIN .. COMMIT      b c runs the commands between as one step\r
# PING [text]          p   answers PONG\r
# HELLO [0 [text]]         answers VERSION\r
# Patterns: ? one byte; *c up to the next c; * at the end the rest; (a|b); \\c plainly c\r
# A field with spaces is quoted, with \\ooo for a byte in octal: WRITE k \"a b\\012\"\r
";

/// What is said of a wrong line where a text client stays open after one.
const GOES_ON: &str = "\
# A wrong line does nothing and gets ERROR. After ERROR 102 the connection is closed.\r
# After BEGIN it spoils all up to COMMIT, which then does nothing and gets ERROR 103.\r
# This page's lines start with #.\r
";

/// What is said of a wrong line on a listener that hangs up.
const HANGS_UP: &str = "\
# After ERROR the connection is closed. This page's lines start with #.\r
";

/// The page that answers HELP in text mode, to a client of a listener that hangs up or not.
pub fn page(hang_up: bool) -> String {
    let wrong = if hang_up { HANGS_UP } else { GOES_ON };
    format!("{PAGE}{wrong}")
}

/// The line for a client that finds no free slot.
pub fn no_slot(slots: usize) -> String {
    format!("# no free slot: {slots} clients are connected, try again later\r\n")
}

/// The line for a client that sent WRITE to a read-only listener.
pub const READ_ONLY: &str = "# read-only: this listener takes no WRITE\r\n";

/// The line for a client that sends more than its listener takes: a longer message, key or pattern,
/// or a transaction of more commands.
pub fn too_long(what: &str, limit: usize) -> String {
    let unit = unit(what);
    format!("# too long: this listener takes a {what} of at most {limit} {unit}\r\n")
}

/// What the limit of such a thing counts.
pub fn unit(what: &str) -> &'static str {
    match what {
        "transaction" => "commands",
        _ => "bytes",
    }
}

/// The line for a client that sent no message in time.
pub fn silent(seconds: u64) -> String {
    format!("# no message within {seconds} seconds\r\n")
}

#[cfg(test)]
mod tests {
    use super::*;
    use infod3::WORDS;

    /// The words of a row of the page with their letters, by the page's columns: the words in
    /// capitals among their fields up to column 23, then the letters in four columns.
    fn words_of(row: &str) -> Vec<(&str, Option<char>)> {
        let is_word = |text: &&str| text.bytes().all(|byte| byte.is_ascii_uppercase());
        let words: Vec<&str> = row[1..23].split_whitespace().filter(is_word).collect();
        let letters: Vec<char> = row[23..27].chars().filter(|&c| c != ' ').collect();
        let letters = match letters.len() {
            0 => vec![None; words.len()],
            _ => letters.into_iter().map(Some).collect(),
        };
        assert!(!words.is_empty() && words.len() == letters.len(), "{row}");
        words.into_iter().zip(letters).collect()
    }

    #[test]
    fn page_has_the_words_of_the_library() {
        let rows = PAGE.lines().skip(1);
        let rows = rows.take_while(|line| !line.starts_with("# Patterns:"));
        let mut shown: Vec<_> = rows.flat_map(words_of).collect();
        let mut known = WORDS.map(|row| (row.word, row.letter));
        shown.sort_unstable();
        known.sort_unstable();
        assert_eq!(shown, known);
    }

    #[test]
    fn every_line_is_marked_and_ended() {
        let long = [too_long("message", 65_535), too_long("transaction", 8)];
        for text in [
            &page(false),
            &page(true),
            READ_ONLY,
            &no_slot(32),
            &long[0],
            &long[1],
            &silent(30),
        ] {
            assert!(text.ends_with("\r\n"));
            for line in text.split_terminator("\r\n") {
                assert!(line.starts_with('#') && line.len() < 90 && line.is_ascii());
                assert!(!line.contains(['\r', '\n']));
            }
        }
    }
}

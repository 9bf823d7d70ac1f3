//! A page in the macros of man(7).

use crate::{Block, Page};

/// The longest line of running text in the source.
const COLUMNS: usize = 78;

/// The manual page.
pub fn write(page: &Page) -> String {
    let (name, section) = (escaped(page.name), page.section);
    let title = page.name.to_uppercase();
    let mut text = format!(
        ".TH {} {section} \"\" \"{name} {}\"\n",
        escaped(&title),
        escaped(page.version)
    );
    text.push_str(&format!(".SH NAME\n{name} \\- {}\n", escaped(page.about)));
    text.push_str(".SH SYNOPSIS\n");
    for (i, usage) in page.usage.iter().enumerate() {
        if i > 0 {
            text.push_str(".br\n");
        }
        let line = format!("{} {usage}", page.name);
        text.push_str(&format!("{}\n", marked(&line)));
    }
    for part in page.parts {
        text.push_str(&format!(".SH {}\n", heading(part.title)));
        let blocks = part.blocks.iter().enumerate();
        blocks.for_each(|(i, block)| add(&mut text, i == 0, block));
    }
    text
}

/// A title in capitals; it is in quotes, so that it is one argument of its macro.
fn heading(title: &str) -> String {
    format!("\"{}\"", escaped(&title.to_uppercase()))
}

fn add(text: &mut String, first: bool, block: &Block) {
    match block {
        Block::Text(words) => {
            if !first {
                text.push_str(".PP\n");
            }
            fill(text, words);
        }
        Block::Terms(terms) => {
            for (term, words) in *terms {
                text.push_str(&format!(".TP\n{}\n", marked(term)));
                fill(text, words);
            }
        }
        Block::Example(lines) => {
            text.push_str(".PP\n.nf\n.RS 4\n");
            for line in lines.lines() {
                text.push_str(&protected(escaped(line)));
                text.push('\n');
            }
            text.push_str(".RE\n.fi\n");
        }
    }
}

/// Adds words as running text.
fn fill(text: &mut String, words: &str) {
    let mut line = String::new();
    for word in words.split_whitespace() {
        let word = escaped(word);
        if !line.is_empty() && line.len() + 1 + word.len() > COLUMNS {
            text.push_str(&protected(line));
            text.push('\n');
            line = String::new();
        }
        if !line.is_empty() {
            line.push(' ');
        }
        line.push_str(&word);
    }
    text.push_str(&protected(line));
    text.push('\n');
}

/// A term or a synopsis: what is to be replaced, which is in capitals, is shown as such, and all
/// else with a letter, a digit or a dash is shown as it is typed.
fn marked(text: &str) -> String {
    let words = text.split_whitespace().map(|word| {
        let has = |test: fn(&char) -> bool| word.chars().any(|c| test(&c));
        let escaped = escaped(word);
        if has(char::is_ascii_uppercase) && !has(char::is_ascii_lowercase) {
            format!("\\fI{escaped}\\fR")
        } else if has(char::is_ascii_alphanumeric) || word.contains('-') {
            format!("\\fB{escaped}\\fR")
        } else {
            escaped
        }
    });
    protected(words.collect::<Vec<_>>().join(" "))
}

/// A text in which no character means something to roff.
fn escaped(text: &str) -> String {
    let mut out = String::new();
    for c in text.chars() {
        match c {
            '\\' => out.push_str("\\e"),
            '-' => out.push_str("\\-"),
            '\'' => out.push_str("\\(aq"),
            '`' => out.push_str("\\(ga"),
            '"' => out.push_str("\\(dq"),
            '^' => out.push_str("\\(ha"),
            '~' => out.push_str("\\(ti"),
            ' '..='~' => out.push(c),
            other => out.push_str(&format!("\\[u{:04X}]", u32::from(other))),
        }
    }
    // Two dots are no end of a sentence.
    out.replace("..", "..\\&")
}

/// A line that is no request, whatever it begins with, and stays a line where it is empty.
fn protected(line: String) -> String {
    match line.chars().next() {
        Some('.') | None => format!("\\&{line}"),
        Some(_) => line,
    }
}

//! A page as plain text.

use crate::{Block, Page};

/// The longest line.
const COLUMNS: usize = 100;
/// The longest term that has its text beside it in the same column as the others.
const LONGEST_TERM: usize = 24;

/// The text of `--help`.
pub fn write(page: &Page) -> String {
    let mut text = format!("{}: {}\n\n", page.name, page.about);
    for (i, usage) in page.usage.iter().enumerate() {
        let first = if i == 0 { "usage: " } else { "       " };
        let line = format!("{first}{} {usage}", page.name);
        text.push_str(line.trim_end());
        text.push('\n');
    }
    for part in page.parts.iter().filter(|part| part.in_help) {
        text.push_str(&format!("\n{}:\n", part.title));
        part.blocks.iter().for_each(|block| add(&mut text, block));
    }
    text
}

fn add(text: &mut String, block: &Block) {
    match block {
        Block::Text(words) => fill(text, "  ".to_owned(), 2, words),
        Block::Terms(terms) => {
            let widths = terms.iter().map(|(term, _)| term.len());
            let widest = widths.filter(|&w| w <= LONGEST_TERM).max().unwrap_or(0);
            for (term, words) in *terms {
                fill(text, format!("  {term:widest$}  "), widest + 4, words);
            }
        }
        Block::Example(lines) => {
            for line in lines.lines() {
                text.push_str(format!("    {line}").trim_end());
                text.push('\n');
            }
        }
    }
}

/// Adds words behind what the first line begins with, and further lines from a column on.
fn fill(text: &mut String, first: String, column: usize, words: &str) {
    let mut line = first;
    let mut begun = false;
    for word in words.split_whitespace() {
        if begun && line.len() + 1 + word.len() > COLUMNS {
            text.push_str(&line);
            text.push('\n');
            line = " ".repeat(column);
            begun = false;
        }
        if begun {
            line.push(' ');
        }
        line.push_str(word);
        begun = true;
    }
    text.push_str(line.trim_end());
    text.push('\n');
}

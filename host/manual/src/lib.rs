//! What a program says of itself, from one source: a [`Page`] is the text of `--help`
//! ([`Page::help`]), the line of `--version` ([`Page::version`]) and the manual page for `man`
//! ([`Page::man`]).
//!
//! A page can be a `const` or a `static`: it is made of references alone. Its texts are plain
//! ASCII; a line end in them counts as a space, except in a synopsis or an example.

#![forbid(unsafe_code)]
#![warn(missing_docs)]

mod help;
mod roff;

/// What a program says of itself.
#[derive(Clone, Copy, Debug, PartialEq, Eq)]
pub struct Page {
    /// The program's name.
    pub name: &'static str,
    /// The manual's section: 1 for programs of users, 8 for those of administrators.
    pub section: u8,
    /// The program's version, such as `env!("CARGO_PKG_VERSION")`.
    pub version: &'static str,
    /// What the program is, in one line without a full stop.
    pub about: &'static str,
    /// How it is called: one line for each form, without the program's name.
    pub usage: &'static [&'static str],
    /// All else, in order.
    pub parts: &'static [Part],
}

/// A part of a page with a title of its own.
#[derive(Clone, Copy, Debug, PartialEq, Eq)]
pub struct Part {
    /// Its title, in small letters; the manual page shows it in capitals.
    pub title: &'static str,
    /// Whether the help text shows it too, and not the manual page alone.
    pub in_help: bool,
    /// What it says.
    pub blocks: &'static [Block],
}

impl Part {
    /// A part of the help text and of the manual page.
    pub const fn new(title: &'static str, blocks: &'static [Block]) -> Part {
        let in_help = true;
        Part {
            title,
            in_help,
            blocks,
        }
    }

    /// A part of the manual page alone.
    pub const fn in_man_only(title: &'static str, blocks: &'static [Block]) -> Part {
        let in_help = false;
        Part {
            title,
            in_help,
            blocks,
        }
    }
}

/// A piece of a part.
#[derive(Clone, Copy, Debug, PartialEq, Eq)]
pub enum Block {
    /// A paragraph.
    Text(&'static str),
    /// Terms, such as commands, options or numbers, and what each of them means.
    Terms(&'static [(&'static str, &'static str)]),
    /// Lines that are shown as they are.
    Example(&'static str),
}

impl Page {
    /// The text of `--help`, in lines of at most 100 columns.
    pub fn help(&self) -> String {
        help::write(self)
    }

    /// The line of `--version`.
    pub fn version(&self) -> String {
        format!("{} {}\n", self.name, self.version)
    }

    /// The manual page, in the macros of man(7).
    pub fn man(&self) -> String {
        roff::write(self)
    }
}

//! A page with everything in it that could go wrong, as text and as a manual page.

use manual::{Block, Page, Part};
use std::io::Write;
use std::process::{Command, Stdio};

const PAGE: Page = Page {
    name: "try-it",
    section: 8,
    version: "1.2",
    about: "a program that is tried",
    usage: &["[OPTION ..] COMMAND", "--version"],
    parts: &[
        Part::new(
            "options",
            &[
                Block::Text(
                    "Some words that are many enough to go on in a second line, whatever the width \
                     of the first one may be, with a back slash \\000 and 'apostrophes'.",
                ),
                Block::Terms(&[
                    ("--tcp ADDR:PORT", "a port"),
                    ("-h", ".dotted at its begin, and ..\nmore"),
                    ("--longer-than-all-the-others USER:GROUP", "its text follows behind it"),
                ]),
            ],
        ),
        Part::new("an example", &[Block::Example(".first\n'second\n\n\\fBthird \"x\" ~^`")]),
        Part::in_man_only("files", &[Block::Terms(&[("--man", "prints this page")])]),
    ],
};

#[test]
fn help_is_plain_text() {
    let expected = "\
try-it: a program that is tried

usage: try-it [OPTION ..] COMMAND
       try-it --version

options:
  Some words that are many enough to go on in a second line, whatever the width of the first one may
  be, with a back slash \\000 and 'apostrophes'.
  --tcp ADDR:PORT  a port
  -h               .dotted at its begin, and .. more
  --longer-than-all-the-others USER:GROUP  its text follows behind it

an example:
    .first
    'second

    \\fBthird \"x\" ~^`
";
    assert_eq!(PAGE.help(), expected);
    assert!(PAGE.help().lines().all(|line| line.len() <= 100));
    assert_eq!(PAGE.version(), "try-it 1.2\n");
}

#[test]
fn nothing_of_the_texts_is_a_request() {
    let page = PAGE.man();
    let requests = [
        ".TH", ".SH", ".TP", ".PP", ".nf", ".fi", ".RS", ".RE", ".br",
    ];
    for line in page.lines() {
        let word = line.split(' ').next().unwrap_or("");
        let request = line.starts_with(['.', '\'']);
        assert!(!request || requests.contains(&word), "{line}");
        assert!(line.len() <= 100 && line.is_ascii(), "{line}");
    }
    assert!(
        page.contains("\n\\&.first\n\\(aqsecond\n\\&\n\\efBthird \\(dqx\\(dq \\(ti\\(ha\\(ga\n")
    );
    assert!(page.contains("\n\\fBtry\\-it\\fR \\fI[OPTION\\fR ..\\&] \\fICOMMAND\\fR\n"));
    assert!(page.contains(".TP\n\\fB\\-\\-tcp\\fR \\fIADDR:PORT\\fR\na port\n"));
    assert!(page.contains("\n\\&.dotted at its begin, and ..\\& more\n"));
}

/// Where groff is installed it finds nothing wrong, and every byte of the texts is shown.
#[test]
fn groff_shows_it_as_it_was_meant() {
    let started = Command::new("groff")
        .args(["-man", "-Tascii", "-ww", "-rLL=200n", "-P-c"])
        .stdin(Stdio::piped())
        .stdout(Stdio::piped())
        .stderr(Stdio::piped())
        .spawn();
    let Ok(mut groff) = started else {
        eprintln!("there is no groff: not tried");
        return;
    };
    let mut input = groff.stdin.take().expect("its input");
    input.write_all(PAGE.man().as_bytes()).expect("written");
    drop(input);
    let output = groff.wait_with_output().expect("its output");
    assert_eq!(String::from_utf8_lossy(&output.stderr), "");
    let mut shown = String::from_utf8(output.stdout).expect("ASCII");
    // A bold or underlined character is one that is struck twice.
    while let Some(at) = shown.find('\u{8}') {
        shown.replace_range(at - 1..=at, "");
    }
    for text in [
        "TRY-IT(8)",
        "try-it - a program that is tried",
        "--tcp ADDR:PORT",
        "with a back slash \\000 and 'apostrophes'.",
        ".dotted at its begin, and .. more",
        ".first",
        "'second",
        "\\fBthird \"x\" ~^`",
        "prints this page",
    ] {
        assert!(shown.contains(text), "{text} is not in\n{shown}");
    }
}

//! What the program says of itself: the source of `--help` and of its manual page.

use manual::{Block, Page, Part};

/// The page of `infod3`.
pub const PAGE: Page = Page {
    name: "infod3",
    section: 1,
    version: env!("CARGO_PKG_VERSION"),
    about: "a client of an infod3 server",
    usage: &["[OPTION ..] COMMAND", "[OPTION ..]"],
    parts: &[
        Part::new(
            "commands",
            &[Block::Terms(&[
                ("read KEY", "prints the value of KEY"),
                ("write KEY VALUE", "sets the value of KEY; it is done when the program ends"),
                ("write --stdin KEY", "sets it to all bytes of standard input"),
                ("delete KEY", "deletes KEY"),
                (
                    "watch PATTERN ..",
                    "prints the matching keys and their values, now and as they change, one to a \
                     line; it waits for a server that is not there, and connects again to one that \
                     is lost",
                ),
                ("ping", "prints pong when the server answers"),
                (
                    "line COMMAND ..",
                    "prints the text line of a command, quoted as the protocol wants it, and \
                     connects to no server",
                ),
            ])],
        ),
        Part::new(
            "without a command",
            &[Block::Text(
                "It takes commands from the lines of standard input: read, write, delete, sub, \
                 unsub, begin, commit, ping or one of their first letters, and hello [VERSION \
                 [TEXT]], help, quit. Fields are apart by spaces; one with spaces in it is quoted, with \\ooo \
                 for a byte in octal. Messages are shown as they come, keys and values in quotes. A \
                 line that is wrong, such as a begin inside a transaction, is said and not sent; unless \
                 the lines come from a terminal, the status at the end is then 2. \
                 A transaction that is open at the end is not committed: that is said, with the same \
                 status. Inside a transaction a wrong line ends the program so, unless it comes from \
                 a terminal. An ERROR of the server ends the program with status 4; at a terminal an \
                 ERROR other than 102 is said, and the lines go on with all patterns, unless --wire \
                 framed is given.",
            )],
        ),
        Part::new(
            "text lines",
            &[
                Block::Text(
                    "line prints what a program of your own, a script or a test has to send in text: \
                     read KEY, write KEY VALUE or write --stdin KEY, delete KEY (a WRITE without a \
                     value), sub PATTERN, unsub PATTERN, begin, commit, ping [TEXT] and hello \
                     [VERSION [TEXT]]. A command that a server would refuse is said on standard error \
                     and not printed.",
                ),
                Block::Example(
                    "$ infod3 line write site.7.note 'say \"stop\"'\n\
                     WRITE \"site.7.note\" \"say \\042stop\\042\"",
                ),
            ],
        ),
        Part::new(
            "options",
            &[Block::Terms(&[
                ("--tcp ADDR:PORT", "the server's TCP port; 127.0.0.1:7070 if nothing is said"),
                ("--unix PATH", "the server's Unix socket"),
                (
                    "--wire framed|text",
                    "speaks with the server in binary frames or in text lines, which other tools can \
                     show and relays of lines pass on; if not given, text for lines from a terminal \
                     and framed for all else. What is printed is the same",
                ),
                ("--timeout SECONDS", "how long connecting, sending and each answer may take; 10 if not given"),
                ("--text", "shows keys and values in quotes always"),
                ("--raw", "shows their bytes as they are"),
                ("--json", "shows one JSON object to a line"),
                ("--count N", "watch: ends after N lines"),
                ("--once", "watch: ends when there is no connection"),
                (
                    "--keepalive SECONDS",
                    "watch: asks a server that has been silent for so long whether it is there; 20 if \
                     not given",
                ),
                ("-h, --help", "prints this text"),
                ("-V, --version", "prints the version"),
                ("--", "ends the options: what follows may begin with a dash"),
            ]),
            Block::Text(
                "A value may also stand behind the option's name and =, as in --count=3. Behind a \
                 command a word with one dash is a key, a value or a pattern, as in write k -5; \
                 only -h and -V just behind the command are options. A word with two dashes is an \
                 option everywhere before --.",
            )],
        ),
        Part::new(
            "output",
            &[
                Block::Text(
                    "One line for each key, and no key or value can look like another line. A string \
                     is shown as it is where all its bytes are printable ASCII other than the space, \
                     \" and \\; any other string is in quotes, with \\ooo for \", \\ and every byte \
                     that is not printable ASCII, letters beyond ASCII included.",
                ),
                Block::Terms(&[
                    ("KEY VALUE", "the key has this value; an empty value is \"\""),
                    ("KEY", "the key alone: it was deleted"),
                ]),
                Block::Text(
                    "read prints the value alone. --raw prints bytes, a space between key and value \
                     and a line end: a script that knows its values has them so, but they may hold \
                     line ends and what a terminal obeys. --json prints {\"key\":..,\"value\":..}, or \
                     {\"key\":..,\"deleted\":true}; a string that is not UTF-8 is in base 64, as \
                     key_base64 or value_base64, and a character beyond ASCII is escaped as \\uXXXX.",
                ),
            ],
        ),
        Part::new(
            "watching",
            &[Block::Text(
                "Where the connection is lost or cannot be made, watch says so on standard error, \
                 tries again after pauses of 0.1 to 5 seconds and subscribes again. All matching keys \
                 are then printed again, and one that was deleted meanwhile as deleted: the last line \
                 of a key is true. It ends where the server refuses with an ERROR; but 102, for a \
                 reader that was too slow, counts as a lost connection once it has had all keys, and \
                 five times in a row where it has had some of them. It ends too when the reader of its \
                 output is gone, as behind watch k | head -1.",
            )],
        ),
        Part::new(
            "environment",
            &[Block::Terms(&[(
                "INFOD3_SERVER",
                "the server where no option names it: ADDR:PORT, tcp:ADDR:PORT, unix:PATH or a path \
                 with a slash in it",
            )])],
        ),
        Part::new(
            "exit status",
            &[Block::Terms(&[
                ("0", "done, or nobody reads the output any more"),
                ("1", "read: the key is absent"),
                (
                    "2",
                    "wrong usage, or a command that every server refuses, as with a wrong PATTERN: it \
                     is not sent",
                ),
                ("3", "cannot connect, or the server has no free slot"),
                ("4", "the server refused: its ERROR or its line is on standard error"),
                ("5", "the connection was lost, or no right answer came in time"),
                ("6", "standard output cannot be written to"),
                ("7", "the server takes no writes at this listener: it is read-only"),
            ])],
        ),
        Part::in_man_only(
            "other options",
            &[Block::Terms(&[("--man", "prints this page in the macros of man(7)")])],
        ),
        Part::in_man_only(
            "examples",
            &[
                Block::Text("A controller that follows the state of all sites:"),
                Block::Example("infod3 --unix /run/infod3/infod3.sock watch 'site.*.state'"),
                Block::Text("A value in a script, and a file as a value:"),
                Block::Example(
                    "state=$(infod3 --raw read site.7.state)\ninfod3 write --stdin site.7.plan <plan.txt",
                ),
                Block::Text("The text line of a command, and text lines over the wire:"),
                Block::Example(
                    "infod3 line write site.7.note 'say \"stop\"' | nc -N 127.0.0.1 7070\n\
                     infod3 --wire text read site.7.note",
                ),
                Block::Text("Two keys changed in one step:"),
                Block::Example(
                    "printf 'begin\\nwrite site.7.km 4\\nwrite site.7.state alert\\ncommit\\n' | infod3",
                ),
            ],
        ),
        Part::in_man_only("see also", &[Block::Text("infod3d(8)")]),
    ],
};

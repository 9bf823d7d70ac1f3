//! What the program says of itself: the source of `--help` and of its manual page.

use manual::{Block, Page, Part};

/// The page of `infod3d`.
pub const PAGE: Page = Page {
    name: "infod3d",
    section: 8,
    version: concat!(
        env!("CARGO_PKG_VERSION"),
        ", infod3 protocol version 0"
    ),
    about: "a server of the infod3 broker, on loopback TCP and Unix sockets",
    usage: &["[OPTION ..]"],
    parts: &[
        Part::new(
            "where it listens",
            &[
                Block::Text(
                    "Each of these may be repeated, and each may carry words of its own behind \
                     commas.",
                ),
                Block::Terms(&[
                    (
                        "--tcp ADDR:PORT[,WORD ..]",
                        "a TCP port (streams); port 0 lets the system choose",
                    ),
                    ("--unix PATH[,WORD ..]", "a Unix stream socket"),
                    (
                        "--seqpacket PATH[,WORD ..]",
                        "a Unix seqpacket socket, each packet one message",
                    ),
                    (
                        "--allow-remote",
                        "lets --tcp name an address that is not loopback; whoever reaches it is let \
                         in, since the server has no authentication of its own",
                    ),
                ]),
                Block::Text(
                    "Without any of them it listens on 127.0.0.1:7070 and at the Unix socket \
                     infod3.sock in $XDG_RUNTIME_DIR, else in /run/user/UID, else in \
                     /tmp/infod3-UID, each only if it is this user's own.",
                ),
            ],
        ),
        Part::new(
            "words of a listener",
            &[
                Block::Text("A comma in a path is written twice."),
                Block::Terms(&[
                    (
                        "read-only, read-write",
                        "whether clients may WRITE; on a read-only listener one that does is told \
                         so and closed",
                    ),
                    (
                        "hang-up",
                        "a client with text lines is closed after every ERROR, as all others are; \
                         without it one that makes a typing error gets its ERROR and goes on. Not \
                         for --seqpacket",
                    ),
                    (
                        "reserve=N",
                        "slots that are kept free for clients of this listener",
                    ),
                    (
                        "longest-key=N, longest-message=N, longest-pattern=N",
                        "a client that sends more bytes is told so and closed; 0 for no limit",
                    ),
                    (
                        "longest-transaction=N",
                        "the same for one that sends more commands between BEGIN and COMMIT",
                    ),
                    ("mode=MODE", "the mode of a Unix socket's file in octal"),
                    (
                        "owner=USER:GROUP",
                        "its owner, as names or numbers; either may be left out",
                    ),
                ]),
            ],
        ),
        Part::new(
            "for each listener that does not say otherwise",
            &[Block::Terms(&[
                (
                    "--read-only-tcp, --read-only-unix, --read-only-seqpacket",
                    "clients may not WRITE",
                ),
                (
                    "--reserve-tcp N, --reserve-unix N, --reserve-seqpacket N",
                    "slots that are kept free; 0 if not given",
                ),
                (
                    "--longest-key N, --longest-message N, --longest-pattern N, --longest-transaction N",
                    "the rules' own limits if not given",
                ),
                ("--unix-mode MODE", "0600 if not given"),
                ("--unix-owner USER:GROUP", "who started it, if not given"),
            ])],
        ),
        Part::new(
            "how much it holds",
            &[Block::Terms(&[
                ("--slots N", "clients at once, 1 to 32; 32 if not given"),
                (
                    "--store BYTES",
                    "room of the store, 256 to 1048576; 1048576 if not given",
                ),
                (
                    "--queue BYTES",
                    "unread messages of each client, 1024 to 1048576; 1048576 if not given",
                ),
                (
                    "--record BYTES",
                    "a transaction of each client, 256 to 262144; 262144 if not given",
                ),
                (
                    "--first-message SECONDS",
                    "until a new client's first message is whole, 0 to 86400, 0 for no limit; 30 if \
                     not given",
                ),
            ])],
        ),
        Part::new(
            "what it says",
            &[Block::Terms(&[
                (
                    "--quiet",
                    "on standard error no line for what single clients do",
                ),
                (
                    "--stats SECONDS",
                    "the counters on standard error so often; SIGUSR1 writes them at any time",
                ),
                (
                    "--metrics PATH",
                    "the counters in a file for Prometheus, every 15 seconds or as --stats says",
                ),
                ("-h, --help", "prints this text"),
                ("-V, --version", "prints name and version"),
            ]),
            Block::Text("A value stands behind its option, as --slots 8 or --slots=8.")],
        ),
        Part::new(
            "signals",
            &[Block::Text(
                "SIGINT, SIGTERM and SIGHUP stop it: it gives every client what is queued for it, \
                 for ten seconds at most; a second signal stops it at once. SIGUSR1 writes the \
                 counters. Where NOTIFY_SOCKET is set it tells the service manager that it listens \
                 and that it stops, and keeps the watchdog of WATCHDOG_USEC quiet.",
            )],
        ),
        Part::new(
            "exit status",
            &[Block::Terms(&[
                ("0", "stopped"),
                ("1", "a failure"),
                ("2", "wrong options"),
            ])],
        ),
        Part::in_man_only(
            "other options",
            &[Block::Terms(&[(
                "--man",
                "prints this page in the macros of man(7)",
            )])],
        ),
        Part::in_man_only(
            "examples",
            &[
                Block::Text(
                    "A socket for the feed, which always finds a slot, and a read-only port for \
                     those who watch:",
                ),
                Block::Example(
                    "infod3d --unix /run/infod3/feed.sock,mode=0660,reserve=4 \\\n    \
                     --tcp 127.0.0.1:7070,read-only,longest-pattern=64,longest-transaction=8",
                ),
                Block::Text(
                    "A second port for scripts that send text lines and take a closed connection for \
                     a refused one:",
                ),
                Block::Example(
                    "infod3d --tcp 127.0.0.1:7070 --tcp 127.0.0.1:7071,hang-up",
                ),
            ],
        ),
        Part::in_man_only("see also", &[Block::Text("infod3(1)")]),
    ],
};

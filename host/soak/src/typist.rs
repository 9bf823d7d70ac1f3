//! Somebody who types: a client with text lines that watches everything and makes a typing error now
//! and then, outside of transactions and inside. Each error has to be answered with its ERROR and
//! nothing more, a spoiled transaction must do nothing, and no report may be missed.

use crate::check::Record;
use crate::night::Night;
use infod3_cli::{Connection, Message, Trouble, Wire};
use std::collections::VecDeque;
use std::sync::atomic::Ordering;
use std::time::{Duration, Instant};

/// How often something is typed.
const PAUSE: Duration = Duration::from_millis(25);
/// The key that only spoiled transactions write.
const SPOILED: &[u8] = b"typed.spoiled";

/// An answer that is due.
#[derive(Clone, Copy, Debug, PartialEq, Eq)]
enum Answer {
    /// ERROR with this number.
    Error(u8),
    /// The key of spoiled transactions is absent.
    Absent,
    /// PONG.
    Pong,
}

/// What is typed, and how it is answered.
const TYPED: [(&str, &[Answer]); 6] = [
    ("REED site.7.km\nPING\n", &[Answer::Error(100), Answer::Pong]),
    ("SUB **\nPING\n", &[Answer::Error(101), Answer::Pong]),
    (
        "BEGIN\nWRITE typed.spoiled 1\nREED site.7.km\nWRITE typed.spoiled 2\nCOMMIT\nREAD typed.spoiled\n",
        &[Answer::Error(100), Answer::Error(103), Answer::Absent],
    ),
    (
        "BEGIN\nWRITE typed.spoiled 3\nBEGIN\nCOMMIT now\nPING\nCOMMIT\nREAD typed.spoiled\n",
        &[
            Answer::Error(103),
            Answer::Error(101),
            Answer::Error(103),
            Answer::Absent,
        ],
    ),
    // An error before a transaction spoils nothing, and one is begun anew behind a spoiled one.
    (
        "READ\nBEGIN\nPING\nCOMMIT\n",
        &[Answer::Error(101), Answer::Pong],
    ),
    ("\n  \nPING\n", &[Answer::Pong]),
];

/// Types until all is written and seen.
pub fn type_on(night: &Night) -> Record {
    let mut record = Record::new(night.begin);
    if let Err(trouble) = session(night, &mut record) {
        eprintln!("soak: typist: {trouble}");
        record.faults.lost += 1;
    }
    record
}

/// The one connection of the night; an error that costs it is a loss.
fn session(night: &Night, record: &mut Record) -> Result<(), Trouble> {
    let mut connection = night.connect_in(Wire::Text, 0)?;
    record.subscribed();
    connection.send_bytes(b"SUB site.*\n")?;
    let mut due = VecDeque::new();
    for (text, answers) in TYPED.iter().cycle() {
        if night.written.load(Ordering::Acquire) {
            break;
        }
        connection.send_bytes(text.as_bytes())?;
        due.extend(*answers);
        let next = Instant::now() + PAUSE;
        while Instant::now() < next {
            hear(night, &mut connection, &mut due, record, PAUSE)?;
        }
    }
    // All reports have been queued before the PONG of a PING that is sent behind the last.
    connection.send_bytes(b"PING\n")?;
    due.push_back(Answer::Pong);
    while !due.is_empty() {
        hear(night, &mut connection, &mut due, record, night.patience)?;
    }
    Ok(())
}

/// Takes what comes within this time, if something does: a report, or the answer that is due.
fn hear(
    night: &Night,
    connection: &mut Connection,
    due: &mut VecDeque<Answer>,
    record: &mut Record,
    timeout: Duration,
) -> Result<(), Trouble> {
    let answer = match connection.receive(Some(timeout)) {
        Ok(Message::Info {
            key,
            value: Some(value),
        }) if key.starts_with(b"site.") => {
            record.info(&key, &value);
            return Ok(());
        }
        Ok(Message::Info { key, value: None }) if key == SPOILED => Some(Answer::Absent),
        Ok(Message::Pong(_)) => Some(Answer::Pong),
        Ok(_) => None,
        Err(Trouble::Error(number, _)) if number != 102 => Some(Answer::Error(number)),
        Err(Trouble::Late) if timeout < night.patience => return Ok(()),
        Err(trouble) => return Err(trouble),
    };
    if matches!(answer, Some(Answer::Error(_))) {
        night.slips.fetch_add(1, Ordering::Relaxed);
    }
    if answer.is_none() || answer != due.pop_front() {
        eprintln!("soak: typist: {answer:?} where another answer is due");
        record.faults.lost += 1;
    }
    Ok(())
}

//! What a call on a memory that keeps the rules has to give back and to leave, as far as the
//! layout and the rules paper say it for any content: all of set up, open, take and close, all of
//! a feed that runs no step, and of a step whom it may alter and how.

use crate::layout::{self, Client, Image, Sizes, Transaction};
use infod3::raw::Reply;
use reference::reading::{self, Command, Kind};
use reference::server::{KEPT_ROOM, RECORDED_LIMIT};
use reference::writing::{self, Message};

/// A call and its arguments: the input of a feed by its number in a list of inputs, the room of a
/// take as the length of its out slice.
#[derive(Clone, Copy, Debug)]
pub enum Call {
    /// With N, S, Q and R.
    SetUp(usize, usize, usize, usize),
    Open {
        slot: usize,
        form: usize,
    },
    Feed {
        slot: usize,
        input: usize,
    },
    Take {
        slot: usize,
        room: usize,
    },
    Close {
        slot: usize,
    },
}

impl Call {
    /// The name of its kind.
    pub fn name(&self) -> &'static str {
        match self {
            Call::SetUp(..) => "set up",
            Call::Open { .. } => "open",
            Call::Feed { .. } => "feed",
            Call::Take { .. } => "take",
            Call::Close { .. } => "close",
        }
    }
}

/// The row of an ERROR in a client's queue.
fn error_row(kind: Kind, number: u32) -> Vec<u8> {
    let message = writing::encode(Message::Error(number), kind);
    [&(message.len() as u32).to_be_bytes()[..], &message].concat()
}

/// The client, whose kind is fixed, after it is shut with a refusal.
fn shut(client: &Client, number: u32) -> Client {
    Client {
        shut: true,
        patterns: Vec::new(),
        transaction: Transaction::Off,
        queue: [&client.queue[..], &error_row(client.kind, number)].concat(),
        ..client.clone()
    }
}

/// A feed to an open client.
pub enum Fed {
    /// More bytes are wanted.
    More,
    /// A step runs. The client is the feeder with its kind fixed and its transaction ended.
    Step { count: usize, client: Client },
    /// The feed leaves this client in its slot and alters nothing else.
    Told {
        answer: u32,
        count: usize,
        client: Client,
        situation: &'static str,
    },
}

/// The situations of a feed that runs no step.
pub const SITUATIONS: [&str; 15] = [
    "blank line",
    "blank line in a spoiled transaction",
    "BEGIN",
    "COMMIT without BEGIN",
    "command recorded",
    "good command in a spoiled transaction",
    "102",
    "refusal that shuts a binary client",
    "refusal that shuts a text client of form 2",
    "refusal that shuts in a spoiled transaction",
    "102 in place of a slip's ERROR",
    "slip outside a transaction",
    "COMMIT of a spoiled transaction",
    "slip that spoils",
    "slip in a spoiled transaction",
];

/// What a feed of this input does to an open client.
pub fn fed(client: &Client, sizes: Sizes, input: &[u8]) -> Fed {
    let mut next = Client {
        kind: client.kind.of_input(input),
        ..client.clone()
    };
    let Some((message, count)) = reading::cut(next.kind, input) else {
        return Fed::More;
    };
    let done = match reading::decode(message) {
        Ok(None) if next.transaction == Transaction::Spoiled => {
            Ok("blank line in a spoiled transaction")
        }
        Ok(None) => Ok("blank line"),
        Ok(Some(command)) => match obey(&mut next, command, sizes) {
            Ok(Some(situation)) => Ok(situation),
            Ok(None) => {
                next.transaction = Transaction::Off;
                return Fed::Step {
                    count,
                    client: next,
                };
            }
            Err(refusal) => Err(refusal),
        },
        Err(refusal) => Err(refusal),
    };
    let (answer, client, situation) = match done {
        Ok(situation) => (0, next, situation),
        Err(refusal) => refuse(&next, sizes, refusal),
    };
    Fed::Told {
        answer,
        count,
        client,
        situation,
    }
}

/// Obeys a command that runs no step, or gives none where it runs one.
fn obey(client: &mut Client, command: Command, sizes: Sizes) -> Result<Option<&'static str>, u32> {
    let situation = match (command, &mut client.transaction) {
        (Command::Begin, Transaction::Off) => {
            client.transaction = Transaction::Begun(Vec::new());
            "BEGIN"
        }
        (Command::Begin, _) => return Err(103),
        (Command::Commit, Transaction::Off) => "COMMIT without BEGIN",
        (Command::Commit, Transaction::Spoiled) => {
            client.transaction = Transaction::Off;
            return Err(103);
        }
        (Command::Commit, Transaction::Begun(_)) | (_, Transaction::Off) => return Ok(None),
        (command, Transaction::Begun(recorded)) => {
            let row = row(command);
            let charge = |(_, payload): &(u8, Vec<u8>)| 4 + payload.len();
            let used: usize = recorded.iter().map(charge).sum();
            if recorded.len() == RECORDED_LIMIT || used + charge(&row) > sizes.r {
                return Err(102);
            }
            recorded.push(row);
            "command recorded"
        }
        (_, Transaction::Spoiled) => "good command in a spoiled transaction",
    };
    Ok(Some(situation))
}

/// The ID and the payload of a command that is recorded.
fn row(command: Command) -> (u8, Vec<u8>) {
    match command {
        Command::Hello { version, text } => (0, [vec![version], text].concat()),
        Command::Sub(pattern) => (1, pattern.bytes().to_vec()),
        Command::Unsub(pattern) => (2, pattern.bytes().to_vec()),
        Command::Read(key) => (3, key),
        Command::Write { key, value: None } => (4, key),
        Command::Write {
            key,
            value: Some(value),
        } => (4, [key, vec![0], value].concat()),
        Command::Begin => (5, Vec::new()),
        Command::Commit => (6, Vec::new()),
        Command::Ping(identifier) => (7, identifier),
    }
}

/// The answer to a refused message, the client that it leaves, and the situation.
fn refuse(client: &Client, sizes: Sizes, refusal: u32) -> (u32, Client, &'static str) {
    let is_spoiled = client.transaction == Transaction::Spoiled;
    let is_text = client.kind == Kind::Text;
    if refusal == 102 || client.hangs_up || !is_text {
        let situation = match refusal {
            102 => "102",
            _ if is_spoiled => "refusal that shuts in a spoiled transaction",
            _ if is_text => "refusal that shuts a text client of form 2",
            _ => "refusal that shuts a binary client",
        };
        return (refusal, shut(client, refusal), situation);
    }
    let queue = [&client.queue[..], &error_row(client.kind, refusal)].concat();
    if queue.len() > sizes.q - KEPT_ROOM {
        return (102, shut(client, 102), "102 in place of a slip's ERROR");
    }
    let (transaction, situation) = match client.transaction {
        // A COMMIT has ended its transaction already.
        Transaction::Off if refusal == 103 => (Transaction::Off, "COMMIT of a spoiled transaction"),
        Transaction::Off => (Transaction::Off, "slip outside a transaction"),
        Transaction::Begun(_) => (Transaction::Spoiled, "slip that spoils"),
        Transaction::Spoiled => (Transaction::Spoiled, "slip in a spoiled transaction"),
    };
    let stays = Client {
        transaction,
        queue,
        ..client.clone()
    };
    (refusal, stays, situation)
}

/// The client of a slot, or none where the slot is free or there is no such slot.
pub fn client_of(image: &Image, slot: usize) -> Option<&Client> {
    image.clients.get(slot).and_then(Option::as_ref)
}

/// Checks a call that was served on a memory that meant `image`.
pub fn check_served(
    call: Call,
    reply: Reply,
    image: &Image,
    after: &[u8],
    input: &[u8],
    out: &[u8],
) -> Result<(), String> {
    let mut expected = image.clone();
    let due = match call {
        Call::SetUp(..) => return Ok(()),
        Call::Open { slot, .. } if slot >= image.sizes.n => (2, 0),
        Call::Open { form, .. } if form > 2 => (8, 0),
        Call::Open { slot, .. } if client_of(image, slot).is_some() => (4, 0),
        Call::Open { slot, form } => {
            expected.clients[slot] = Some(match form {
                0 => Client::opened(Kind::Packets, false),
                _ => Client::opened(Kind::Unfixed, form == 2),
            });
            (0, 0)
        }
        Call::Close { slot } => match client_of(image, slot) {
            None => (2, 0),
            Some(_) => {
                expected.clients[slot] = None;
                (0, 0)
            }
        },
        Call::Take { slot, room } => match client_of(image, slot) {
            None => (2, 0),
            Some(client) => match client.first_message() {
                None => (6, 0),
                Some(message) if message.len() > room => (5, 0),
                Some(message) => {
                    if out.get(..message.len()) != Some(message) {
                        return Err("another message was taken".to_string());
                    }
                    if let Some(next) = expected.clients[slot].as_mut() {
                        next.queue = client.rest().to_vec();
                    }
                    (0, message.len())
                }
            },
        },
        Call::Feed { slot, .. } => match client_of(image, slot) {
            None => (2, 0),
            Some(client) if client.shut => (3, 0),
            Some(client) => return check_fed(client, slot, reply, image, after, input),
        },
    };
    if (reply.answer, reply.count) != due {
        return Err(format!("due was {due:?}"));
    }
    if layout::image(after) != expected {
        return Err("the memory means something else than is due".to_string());
    }
    Ok(())
}

/// Checks a feed to an open client.
fn check_fed(
    client: &Client,
    slot: usize,
    reply: Reply,
    image: &Image,
    after: &[u8],
    input: &[u8],
) -> Result<(), String> {
    let mut expected = image.clone();
    let found = layout::image(after);
    let (answer, count) = match fed(client, image.sizes, input) {
        Fed::More => (1, 0),
        Fed::Told {
            answer,
            count,
            client,
            ..
        } => {
            expected.clients[slot] = Some(client);
            (answer, count)
        }
        Fed::Step { count, client } if reply.answer == 102 => {
            expected.clients[slot] = Some(shut(&client, 102));
            (102, count)
        }
        Fed::Step { count, client } => {
            if (reply.answer, reply.count) != (0, count) {
                return Err(format!("due was 0 or 102, and {count}"));
            }
            return check_step(&client, slot, image, &found);
        }
    };
    if (reply.answer, reply.count) != (answer, count) {
        return Err(format!("due was {answer} and {count}"));
    }
    if found != expected {
        return Err("the memory means something else than is due".to_string());
    }
    Ok(())
}

/// Checks what a step leaves, with the feeder as it is without its patterns and messages.
fn check_step(feeder: &Client, slot: usize, image: &Image, found: &Image) -> Result<(), String> {
    if found.sizes != image.sizes || found.clients.len() != image.clients.len() {
        return Err("the sizes are others".to_string());
    }
    for (i, (old, new)) in image.clients.iter().zip(&found.clients).enumerate() {
        let follows = match (old, new) {
            (None, None) => true,
            (Some(_), Some(new)) if i == slot => follows(feeder, new, true),
            (Some(old), Some(new)) => follows(old, new, false),
            _ => false,
        };
        if !follows {
            return Err(format!("client {i} is not one that a step can leave"));
        }
    }
    Ok(())
}

/// Whether a step can leave `new` of a client `old`. Only its feeder's patterns may be others.
fn follows(old: &Client, new: &Client, is_feeder: bool) -> bool {
    if old.shut {
        return old == new;
    }
    if new.shut {
        return *new == shut(old, 102);
    }
    let same_patterns = old.patterns == new.patterns;
    (new.kind, new.hangs_up) == (old.kind, old.hangs_up)
        && new.transaction == old.transaction
        && new.queue.starts_with(&old.queue)
        && (same_patterns || is_feeder)
}

/// Checks a set up, which owes nothing to what the memory held.
pub fn check_set_up(sizes: Sizes, reply: Reply, mem: &[u8], after: &[u8]) -> Result<(), String> {
    let in_range = sizes.n <= 32 && sizes.q <= 1_048_576 && sizes.r <= 262_144;
    let due = if !in_range {
        8
    } else if mem.len() < sizes.memory_size() {
        5
    } else {
        0
    };
    if (reply.answer, reply.count) != (due, 0) {
        return Err(format!("due was {due}"));
    }
    if due != 0 {
        return Ok(());
    }
    if let Some(rule) = layout::broken(after) {
        return Err(format!("the memory set up breaks {rule}"));
    }
    let fresh = Image {
        sizes,
        entries: Vec::new(),
        clients: vec![None; sizes.n],
    };
    let size = sizes.memory_size();
    if layout::image(after) != fresh || after[size..] != mem[size..] {
        return Err("the memory is not freshly set up".to_string());
    }
    Ok(())
}

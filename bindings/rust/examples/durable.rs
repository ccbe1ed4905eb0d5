//! A validator that never votes twice for a round and author, however often it is killed or loses power.
//!
//! ```text
//! cargo run --release --example durable                 stops a validator 100 times and compares its votes
//! cargo run --release --example durable -- forget       deletes the log after each stop: some slots get two votes
//! cargo run --release --example durable -- late-sync    sends each vote before it syncs: the same
//! cargo run --release --example durable -- old-replay   syncs in time, but not what a replay read: the same
//! cargo run --release --example durable -- one-copy     keeps one copy of the log, whose last record changes: the same
//! cargo run --release --example durable -- old-copies   both copies of the log are replaced by older ones: the same
//! ```
//!
//! docs/EMBEDDING.md (After a crash) has the recipe, and why it is enough. The log and the flow are those of `narwhal_validator`.
//! `supervisor/mod.rs` stops the validator.
//!
//! Half of the stops are kills. The others are power failures: of what the validator did not sync, the disk keeps a part, zeros or garbage.
//! The library `tests/lost_pages.c` stands for that disk. Without a C compiler, all stops are kills. After half of the stops, one copy of the
//! log changes, is lost, or is replaced by an older one.
//!
//! Each author makes two blocks for each round, and the messages come in another order after each stop. So a vote that the log lost soon
//! leads to a vote for the other block.

#[path = "../tests/lab/mod.rs"]
mod lab;
mod supervisor;

use lab::Com;
use narwhal_store::{Committee, Digest, Limits, Peek, Store, Subject};
use narwhal_validator::{Flow, Log, Opened};
use std::error::Error;
use std::hash::{BuildHasher, RandomState};
use std::path::Path;
use std::{env, fs};
use supervisor::supervise;

type Result<T> = std::result::Result<T, Box<dyn Error>>;

const MEMBERS: u16 = 4;
const ROUNDS: u64 = 40;

fn main() -> Result<()> {
    let arguments: Vec<String> = env::args().skip(1).collect();
    match &arguments.iter().map(String::as_str).collect::<Vec<_>>()[..] {
        [] => supervise("right", &messages()),
        [mode @ ("forget" | "late-sync" | "old-replay" | "one-copy" | "old-copies")] => {
            supervise(mode, &messages())
        }
        ["validator", log, mode] => validator(Path::new(log), mode),
        _ => Err("give no argument, or a mode of those above".into()),
    }
}

/// The messages of all rounds, each after its length in 4 bytes. An author makes two blocks for each round, and the first gets a certificate.
fn messages() -> Vec<u8> {
    let com = Com::new(MEMBERS);
    let (mut messages, mut parents) = (Vec::new(), Vec::new());
    let mut push = |message: Vec<u8>| {
        messages.extend((message.len() as u32).to_be_bytes());
        messages.extend(message);
    };
    for round in 0..ROUNDS {
        let mut certified = Vec::new();
        for author in 0..MEMBERS {
            let block =
                |transaction: &[u8]| com.block(author, round, &parents, &[transaction.into()]);
            let (message, subject) = block(b"one");
            push(message);
            push(block(b"other").0);
            push(com.certificate(&subject, &[0, 1, 2]));
            certified.push((author, subject.digest));
        }
        parents = certified;
    }
    messages
}

/// Reads what `messages` made.
fn read(mut bytes: &[u8]) -> Vec<&[u8]> {
    let mut messages = Vec::new();
    while let Some((length, rest)) = bytes.split_first_chunk() {
        let (message, rest) = rest.split_at(u32::from_be_bytes(*length) as usize);
        messages.push(message);
        bytes = rest;
    }
    messages
}

/// Replays the log, and then takes the messages in an order that differs in each run. Each line `round author digest` that it prints
/// stands for a vote.
fn validator(path: &Path, mode: &str) -> Result<()> {
    let committee = Com::new(MEMBERS).committee;
    let bytes = fs::read(path.with_file_name("messages"))?;
    let messages = read(&bytes);
    let mut limits = Limits::MAX;
    limits.window = 32; // A replay without the collections is refused as `TooFar`.
    let second = path.with_extension(if mode == "one-copy" { "" } else { "copy" });
    let opened = match mode {
        "old-replay" if path.exists() => Log::open_without_sync([path, &second])?,
        _ => Log::open([path, &second])?,
    };
    let is_some = |counts: [usize; 2]| counts != [0; 2];
    println!(
        "opened {} {}",
        is_some(opened.cut),
        is_some(opened.repaired)
    );
    let Opened { log, records, .. } = opened;
    let store = Store::new(&committee, limits)?;
    let mut validator = Validator {
        flow: Flow::over(&store, store.session()?, 0),
        log,
        is_late: mode == "late-sync",
        committee,
    };
    for record in &records {
        // The second time that a vote is sent does no harm.
        let due = validator.call(record)?;
        let due = due.ok_or("a call of the log got another reply")?;
        due.iter().for_each(send);
    }
    let late = |(index, _): &(u64, &[u8])| index + random() % 24;
    let mut order: Vec<_> = (0..).zip(messages.iter().copied()).collect();
    order.sort_by_cached_key(late); // So two blocks of one round and author come in any order.
    for (_, message) in order {
        validator.take(message)?;
        for subject in validator.flow.absent()? {
            validator.take(fetched(&messages, &subject)?)?;
        }
    }
    Ok(())
}

/// Fetches the block of a certificate. Its signers have it; here it is one of the messages.
fn fetched<'a>(messages: &[&'a [u8]], subject: &Subject) -> Result<&'a [u8]> {
    let is_block = |message: &&&[u8]| {
        let body = &message[1..message.len() - 64];
        message[0] == 1 && Digest::of(body) == subject.digest
    };
    let found = messages.iter().find(is_block);
    Ok(found.ok_or("a certified block is in no message")?)
}

struct Validator {
    committee: Committee,
    flow: Flow,
    log: Log,
    /// Whether it sends before it syncs, which is wrong.
    is_late: bool,
}

impl Validator {
    /// Takes a message of the network: peek, drop, check, write, log, sync, send.
    fn take(&mut self, message: &[u8]) -> Result<()> {
        if !self.flow.wants(message) {
            return Ok(());
        }
        let voted = self.make(message)?;
        // A block with all its parents shows how far the others are.
        let newest = voted.iter().map(|subject| subject.round).max().unwrap_or(0);
        let garbage_round = (newest / 5 * 5).saturating_sub(15);
        if garbage_round > self.flow.session().look(0, 0).garbage_round {
            self.make(&garbage_round.to_be_bytes())?;
        }
        Ok(())
    }

    /// Makes a call. If it changed the store, logs it, and sends the votes that are due. Returns these.
    fn make(&mut self, record: &[u8]) -> Result<Vec<Subject>> {
        let Some(due) = self.call(record)? else {
            return Ok(Vec::new());
        };
        if self.is_late {
            due.iter().for_each(send);
        }
        // The disk has the call before the vote is sent.
        if let Ok(round) = record.try_into() {
            let round = u64::from_be_bytes(round);
            let is_kept = |message: &[u8]| Peek::of(message).map(|of| of.round()) >= Some(round);
            self.log.cut(record, is_kept)?;
        } else {
            self.log.append(record);
            self.log.sync()?;
        }
        if !self.is_late {
            due.iter().for_each(send);
        }
        Ok(due)
    }

    /// Makes the call of a record: a message, or a round to collect. Returns the subjects to vote for if the store changed.
    fn call(&mut self, record: &[u8]) -> Result<Option<Vec<Subject>>> {
        if let Ok(round) = record.try_into() {
            return Ok(self.flow.collect(u64::from_be_bytes(round))?);
        }
        let Ok(checked) = self.committee.check(record) else {
            return Ok(None); // The network has bad messages too.
        };
        Ok(self.flow.call(&checked)?)
    }
}

fn send(subject: &Subject) {
    println!("{} {} {}", subject.round, subject.author, subject.digest);
}

fn random() -> u64 {
    RandomState::new().hash_one(())
}

//! Measures what a peer can cost a validator: dropped messages, bad ones, messages in any order, and the longest calls under the store's lock.
//!
//! ```text
//! cargo run --release --example longest
//! ```
//!
//! It takes a minute and 4 GB, and no signer, since the members of `tests/lab` publish their secrets. Member 0 alone has the weight of a
//! quorum, so a certificate has one vote.

#[path = "../tests/lab/mod.rs"]
mod lab;

use lab::Com;
use narwhal_store::{Checked, Committee, Digest, Limits, Peek, Session, Store, Subject};
use std::error::Error;
use std::hint::black_box;
use std::time::Instant;

type Result<T> = std::result::Result<T, Box<dyn Error>>;

/// Some of the 100 members that the largest committee tolerates as faulty.
const FAULTY: u16 = 33;

fn main() -> Result<()> {
    drops_and_checks()?;
    for (members, rounds) in [(4, 600), (20, 120), (100, 24)] {
        arrivals(members, rounds)?;
    }
    for (members, rounds, lag) in [
        (50, 32, 32),
        (50, 512, 32),
        (100, 512, 512),
        (100, 655, 655),
    ] {
        restarts(members, rounds, lag)?;
    }
    for (rounds, parents) in [(64, 1), (64, 100), (512, 1), (512, 100)] {
        withheld_certificate(rounds, parents)?;
    }
    for rounds in [64, 512] {
        unmet_parents(rounds)?;
    }
    large_walk()
}

/// A walk of 1,000 blocks of 100 KB that reads every part, beside a copy of their bodies.
fn large_walk() -> Result<()> {
    let mut lab = Lab::heavy(1)?;
    let (mut bodies, mut parents, mut last) = (Vec::new(), Vec::new(), None);
    for round in 0..1_000 {
        let transactions = vec![vec![round as u8; 1_024]; 100];
        let (message, subject) = lab.com.block(0, round, &parents, &transactions);
        bodies.push(message[1..message.len() - 64].to_vec());
        lab.take(&[message])?;
        lab.certify(&[subject])?;
        parents = vec![(0, subject.digest)];
        last = Some(subject.digest);
    }
    let answer = lab.session.causal(&last.ok_or("a block")?)?;
    let ticket = answer.into_ticket().map_err(|why| format!("{why:?}"))?;
    mean("copy 1,000 bodies of 100 KB", 1, || {
        for body in &bodies {
            black_box(body.clone());
        }
    });
    mean("walk their blocks, all parts", 1, || {
        for block in ticket.walk().expect("memory") {
            black_box(block.subject());
            for bytes in block.transactions() {
                black_box(bytes);
            }
        }
    });
    Ok(())
}

/// Messages that are dropped, and messages whose last signature is bad.
fn drops_and_checks() -> Result<()> {
    let mut lab = Lab::new(&[1; 100])?;
    let everybody: Vec<u16> = (0..100).collect();
    let (block, subject) = lab.com.block(0, 0, &[], &[vec![7; 10_000]]);
    let known = lab.com.certificate(&subject, &everybody[..67]);
    let long = lab.com.certificate(&subject, &everybody);
    lab.take(&[block.clone(), known.clone()])?;
    mean("peek at a certificate", 2_000_000, || {
        black_box(Peek::of(black_box(&known)));
    });
    mean("look at a round and author", 2_000_000, || {
        black_box(lab.session.look(black_box(0), 0));
    });
    let messages = [
        ("block of 10,000 bytes", block),
        ("certificate of 67 votes", known),
    ];
    let messages = messages
        .into_iter()
        .chain([("certificate of 100 votes", long)]);
    for (name, mut message) in messages {
        *message.last_mut().ok_or("a signature")? ^= 1;
        mean(&format!("check a bad {name}"), 20, || {
            assert!(lab.com.committee.check(black_box(&message)).is_err());
        });
    }
    Ok(())
}

/// Calls with the blocks and certificates of these rounds, in four orders.
fn arrivals(members: u16, rounds: u64) -> Result<()> {
    let com = Com::weighted(&Lab::heavy_weights(members));
    let (mut blocks, mut certificates, mut parents) = (Vec::new(), Vec::new(), Vec::new());
    for round in 0..rounds {
        let made: Vec<_> = (0..members)
            .map(|author| com.block(author, round, &parents, &[]))
            .collect();
        parents = made.iter().map(|(_, of)| (of.author, of.digest)).collect();
        let certificate = |(_, of): &(Vec<u8>, Subject)| com.certificate(of, &[0]);
        certificates.push(checked(&com.committee, made.iter().map(certificate))?);
        blocks.push(checked(&com.committee, made.into_iter().map(|it| it.0))?);
    }
    let in_pairs = || blocks.iter().zip(&certificates);
    let pairs = |round: (_, _)| Iterator::zip(<&Vec<_>>::into_iter(round.0), round.1);
    let each = |(block, certificate)| [block, certificate];
    let late = blocks[1..].iter().zip(&certificates);
    let orders: [(&str, Vec<&Checked>); 4] = [
        (
            "each block with its certificate",
            in_pairs().flat_map(pairs).flat_map(each).collect(),
        ),
        (
            "blocks of the next round first",
            blocks[0]
                .iter()
                .chain(late.flat_map(|(next, made)| next.iter().chain(made)))
                .chain(certificates.iter().last().into_iter().flatten())
                .collect(),
        ),
        (
            "all blocks first",
            blocks.iter().chain(&certificates).flatten().collect(),
        ),
        (
            "newest round first",
            in_pairs().rev().flat_map(pairs).flat_map(each).collect(),
        ),
    ];
    for (order, messages) in orders {
        let what = format!("a call, {members} members, {order}");
        let micros = (0..3).map(|_| arrival(members, &messages));
        let least = micros
            .collect::<Result<Vec<_>>>()?
            .into_iter()
            .reduce(f64::min);
        println!("{what:60} {:>12.3} us", least.ok_or("a run")?);
    }
    Ok(())
}

/// The mean time of a call with one of these messages, in a new store.
fn arrival(members: u16, messages: &[&Checked]) -> Result<f64> {
    let mut lab = Lab::heavy(members)?;
    let start = Instant::now();
    for message in messages {
        lab.call(message)?;
    }
    let time = start.elapsed().as_secs_f64();
    let complete = lab.session.status()?.into_reply().complete;
    assert_eq!(2 * complete as usize, messages.len());
    Ok(1e6 * time / messages.len() as f64)
}

/// The checked messages.
fn checked(committee: &Committee, messages: impl Iterator<Item = Vec<u8>>) -> Result<Vec<Checked>> {
    let messages: Vec<_> = messages.collect();
    let all = committee.check_all(&messages, 4).into_iter();
    Ok(all.collect::<std::result::Result<_, _>>()?)
}

/// Restarts of a store with this many rounds, of which the last `lag` ones are stored, with an empty and a full history.
fn restarts(members: u16, rounds: u64, lag: u64) -> Result<()> {
    let mut lab = Lab::heavy(members)?;
    let mut parents = Vec::new();
    for round in 0..rounds {
        let made = lab.round(round, 0..members, &parents)?;
        lab.certify(&made)?;
        parents = vec![(0, made[0].digest)];
        if round >= lag {
            drop(lab.session.collect(round + 1 - lag)?);
        }
    }
    let status = lab.session.status()?.into_reply();
    let (blocks, collections) = (status.blocks, rounds - lag);
    let what = format!("{blocks} stored and certified blocks");
    if collections > 0 {
        println!(
            "{} events, {collections} of them collections",
            lab.store.events()
        );
    } else {
        drop(lab.session.restart()?);
    }
    once(&format!("restart, {what}"), || {
        Ok(lab.session.restart().map(drop)?)
    })?;
    let (message, _) = lab.com.block(0, rounds - 1, &[(0, Digest([1; 32]))], &[]);
    let Checked::Block(twin) = lab.com.committee.check(&message)? else {
        return Err("no block".into());
    };
    for _ in 0..3 {
        while lab.store.events() < 65_536 {
            drop(lab.session.write(&twin)?);
        }
        once(&format!("restart, {what}, 65,536 events"), || {
            Ok(lab.session.restart().map(drop)?)
        })?;
    }
    Ok(())
}

/// A certificate that completes all blocks above it.
fn withheld_certificate(rounds: u64, parents: usize) -> Result<()> {
    let mut lab = Lab::heavy(100)?;
    let first = lab.round(0, 0..100, &[])?;
    lab.certify(&first[1..])?;
    let mut last = first.clone();
    for round in 1..rounds {
        let of_last: Vec<_> = last
            .iter()
            .map(|subject| (subject.author, subject.digest))
            .collect();
        last = lab.round(round, 0..100, &of_last[..parents])?;
        lab.certify(&last)?;
    }
    drop(lab.session.restart()?);
    let what = format!("certify, {rounds} rounds of 100 blocks with {parents} parents each");
    let message = lab.com.certificate(&first[0], &[0]);
    let Checked::Certificate(certificate) = lab.com.committee.check(&message)? else {
        return Err("no certificate".into());
    };
    once(&what, || Ok(lab.session.certify(&certificate).map(drop)?))?;
    let ready = lab.session.causal(&last[0].digest)?.into_ticket();
    ready.map(drop).map_err(|fault| format!("{fault:?}").into())
}

/// A collection of blocks whose 100 parents do not exist.
fn unmet_parents(rounds: u64) -> Result<()> {
    let mut lab = Lab::heavy(100)?;
    for round in 1..rounds {
        let parent = |author| (author, Digest::of(&[round as u8, author as u8]));
        let parents: Vec<_> = (0..100).map(parent).collect();
        lab.round(round, 1..FAULTY + 1, &parents)?;
    }
    drop(lab.session.restart()?);
    let what = format!(
        "collect, {} blocks with 100 unmet parents",
        33 * (rounds - 1)
    );
    once(&what, || Ok(lab.session.collect(rounds).map(drop)?))
}

/// A committee with its store.
struct Lab {
    com: Com,
    store: Store,
    session: Session,
}

impl Lab {
    fn new(weights: &[u32]) -> Result<Lab> {
        let com = Com::weighted(weights);
        let limits = Limits {
            window: 1_024,
            ..Limits::MAX
        };
        let builder = Store::builder(&com.committee).limits(limits);
        let store = builder.never_restart().open()?;
        Ok(Lab {
            session: store.session()?,
            store,
            com,
        })
    }

    /// A committee whose member 0 has the weight of a quorum.
    fn heavy(members: u16) -> Result<Lab> {
        Lab::new(&Lab::heavy_weights(members))
    }

    fn heavy_weights(members: u16) -> Vec<u32> {
        let weight = |member| if member == 0 { 1_000 } else { 1 };
        (0..members).map(weight).collect()
    }

    /// Stores a block of each of these members for the round.
    fn round(
        &mut self,
        round: u64,
        authors: std::ops::Range<u16>,
        parents: &[(u16, Digest)],
    ) -> Result<Vec<Subject>> {
        let block = |author| self.com.block(author, round, parents, &[]);
        let (messages, subjects): (Vec<_>, Vec<_>) = authors.map(block).unzip();
        self.take(&messages)?;
        Ok(subjects)
    }

    fn certify(&mut self, subjects: &[Subject]) -> Result<()> {
        let certificate = |subject: &Subject| self.com.certificate(subject, &[0]);
        self.take(&subjects.iter().map(certificate).collect::<Vec<_>>())
    }

    fn take(&mut self, messages: &[Vec<u8>]) -> Result<()> {
        if self.store.events() + messages.len() > 65_000 {
            drop(self.session.restart()?);
        }
        for message in self.com.committee.check_all(messages, 4) {
            self.call(&message?)?;
        }
        Ok(())
    }

    fn call(&mut self, message: &Checked) -> Result<()> {
        match message {
            Checked::Block(block) => drop(self.session.write(block)?),
            Checked::Certificate(certificate) => drop(self.session.certify(certificate)?),
            Checked::Vote(_) => return Err("a vote".into()),
        }
        Ok(())
    }
}

/// Prints the mean time of a call, in the best of five batches: other programs disturb it least.
fn mean(what: &str, calls: u32, mut call: impl FnMut()) {
    let mut batch = || {
        let start = Instant::now();
        (0..calls).for_each(|_| call());
        1e6 * start.elapsed().as_secs_f64() / f64::from(calls)
    };
    let micros = (0..5).map(|_| batch()).fold(f64::INFINITY, f64::min);
    println!("{what:60} {micros:>12.3} us");
}

/// Prints the time of one call.
fn once(what: &str, call: impl FnOnce() -> Result<()>) -> Result<()> {
    let start = Instant::now();
    call()?;
    let micros = 1e6 * start.elapsed().as_secs_f64();
    println!("{what:60} {micros:>12.1} us");
    Ok(())
}

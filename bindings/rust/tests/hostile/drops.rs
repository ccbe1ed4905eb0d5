//! What a validator drops before it checks it, and what it asks for.

use crate::honest::{ALLOWANCE, Honest, Rules};
use crate::lab::Com;
use crate::world::{Checks, Packet, Post};
use narwhal_store::{CertifyReply, Checked, Digest, Limits, Store, Subject};
use narwhal_store::{CollectReply, WriteReply};
use narwhal_validator::{Flow, Request};

const WINDOW: u32 = 16;

/// A store with its flow, and one session.
struct Drops {
    com: Com,
    store: Store,
    flow: Flow,
}

impl Drops {
    fn new(members: u16) -> Drops {
        let com = Com::new(members);
        let limits = Limits {
            window: WINDOW,
            ..Limits::default()
        };
        let store = Store::new(&com.committee, limits).unwrap();
        Drops {
            flow: Flow::over(&store, store.session().unwrap(), 0),
            store,
            com,
        }
    }

    /// What the certified blocks lack, and what all others do.
    fn lacks(&mut self) -> [Vec<(Subject, Subject)>; 2] {
        let missing = self.flow.missing(usize::MAX).unwrap();
        [missing, self.flow.doubtful(usize::MAX)]
    }

    /// Writes a block that the store takes. Returns the subjects to vote for.
    fn write(&mut self, message: &[u8]) -> Vec<Subject> {
        let Ok(Checked::Block(block)) = self.com.committee.check(message) else {
            panic!("no block");
        };
        match *self.flow.session().write(&block).unwrap().reply() {
            WriteReply::Stored { .. } => self.flow.stored(&block),
            other => panic!("{other:?}"),
        }
    }

    /// Certifies a subject. Returns the subjects to vote for.
    fn certify(&mut self, subject: &Subject) -> Vec<Subject> {
        let signers: Vec<u16> = (0..self.com.committee.quorum() as u16).collect();
        let message = self.com.certificate(subject, &signers);
        let Ok(Checked::Certificate(made)) = self.com.committee.check(&message) else {
            panic!("no certificate");
        };
        let reply = self.flow.session().certify(&made).unwrap().into_reply();
        assert_eq!(reply, CertifyReply::Certified);
        self.flow.certified(subject)
    }

    /// Raises the garbage round. Returns the subjects to vote for.
    fn collect(&mut self, round: u64) -> Vec<Subject> {
        let reply = self.flow.session().collect(round).unwrap().into_reply();
        assert!(matches!(reply, CollectReply::Raised { .. }));
        self.flow.collected(round)
    }

    /// A block of round 0, which is stored and certified.
    fn stands(&mut self, author: u16) -> Subject {
        let (message, subject) = self.com.block(author, 0, &[], &[]);
        assert_eq!(self.write(&message), [subject]);
        self.certify(&subject);
        subject
    }

    fn made_up(&self, author: u16, round: u64) -> Vec<u8> {
        let quorum = self.com.committee.quorum() as u16;
        let parent = |number| (number, Digest::of(&[author as u8, number as u8]));
        let parents: Vec<_> = (0..quorum).map(parent).collect();
        self.com.block(author, round, &parents, &[]).0
    }
}

/// Copies of a certificate, also with a byte of a vote changed.
#[test]
fn copies_of_a_certificate_are_dropped_without_a_check() {
    let mut drops = Drops::new(100);
    let subject = drops.stands(7);
    let signers: Vec<u16> = (0..67).collect();
    let mut copy = drops.com.certificate(&subject, &signers);
    assert_eq!(copy.len(), 4_465);
    assert!(!drops.flow.wants(&copy));
    copy[100] ^= 1;
    assert!(!drops.flow.wants(&copy));
    let (_, other) = drops.com.block(8, 0, &[], &[]);
    let certificate = drops.com.certificate(&other, &signers);
    assert!(drops.flow.wants(&certificate));
}

/// Repeated blocks, twins, and blocks outside of the window.
#[test]
fn refused_blocks_are_dropped_without_a_check() {
    let mut drops = Drops::new(4);
    let (first, subject) = drops.com.block(1, 0, &[], &[]);
    let (twin, of_twin) = drops.com.block(1, 0, &[], &[vec![1]]);
    assert!(drops.flow.wants(&first) && drops.flow.wants(&twin));
    assert_eq!(drops.write(&first), [subject]);
    assert!(!drops.flow.wants(&first) && !drops.flow.wants(&twin));
    let window = u64::from(WINDOW);
    let [far, near] = [window, window - 1].map(|round| drops.made_up(2, round));
    assert!(!drops.flow.wants(&far));
    assert!(drops.flow.wants(&near));
    // The twin is wanted once it is certified, and until it is stored.
    drops.certify(&of_twin);
    assert!(drops.flow.wants(&twin));
    assert_eq!(drops.flow.absent().unwrap(), [of_twin]);
    assert!(drops.write(&twin).is_empty());
    assert!(!drops.flow.wants(&twin) && drops.flow.absent().unwrap().is_empty());
    drops.collect(1);
    assert!(!drops.flow.wants(&first));
}

/// Of two blocks of a slot, only the certified one waits for its parents, whichever was stored first.
#[test]
fn no_block_beside_the_certified_one_waits() {
    for certified_comes_first in [false, true] {
        let mut drops = Drops::new(4);
        let block = |author| (author, Digest([7 + author as u8; 32]));
        let (one, other) = ([0, 1, 2].map(block), [1, 2, 3].map(block));
        let (first, _) = drops.com.block(1, 1, &one, &[]);
        let (twin, of_twin) = drops.com.block(1, 1, &other, &[]);
        if certified_comes_first {
            drops.certify(&of_twin);
            drops.write(&first);
        } else {
            drops.write(&first);
            assert_eq!(drops.lacks().map(|lacks| lacks.len()), [0, 3]);
            drops.certify(&of_twin);
        }
        assert_eq!(drops.lacks(), [vec![], vec![]]);
        assert_eq!(drops.flow.absent().unwrap(), [of_twin]);
        drops.write(&twin);
        let [missing, doubtful] = drops.lacks();
        assert!(missing.iter().all(|(child, _)| *child == of_twin) && doubtful.is_empty());
        let parents: Vec<_> = missing
            .iter()
            .map(|(_, of)| (of.author, of.digest))
            .collect();
        assert_eq!(parents, other);
        assert!(drops.collect(1).is_empty(), "the first block got the vote");
    }
}

/// 33 of 100 members invent parents. The one parent that a certified block lacks is still found.
#[test]
fn invented_parents_do_not_hide_the_missing_parent_of_a_certified_block() {
    let mut drops = Drops::new(100);
    let mut parents: Vec<_> = (33..99)
        .map(|author| (author, drops.stands(author).digest))
        .collect();
    let (_, lacking) = drops.com.block(99, 0, &[], &[]);
    parents.push((99, lacking.digest));
    for author in 0..33 {
        for round in 1..u64::from(WINDOW) {
            assert!(drops.write(&drops.made_up(author, round)).is_empty());
        }
    }
    let (message, child) = drops.com.block(50, 1, &parents, &[]);
    assert!(drops.write(&message).is_empty());
    drops.certify(&child);
    let [missing, doubtful] = drops.lacks();
    assert_eq!(missing, [(child, lacking)]);
    assert_eq!(doubtful.len(), 33 * 15 * 67);
    // Only the author of such a block is asked, and for a few parents at a time.
    let doubtful = drops.flow.doubtful(8);
    assert_eq!(doubtful.len(), 33 * 8);
    let requests = drops.flow.requests(8).unwrap();
    let asked = |of: Subject| -> Vec<u16> {
        let requests = requests.iter().filter(|(_, it)| *it == Request::Of(of));
        requests.map(|(to, _)| *to).collect()
    };
    for (child, parent) in doubtful {
        assert_eq!(asked(parent), [child.author]);
    }
    assert_eq!(asked(lacking), [50, 1], "the author, and others in turn");
    let others = 99; // They are asked how far they are.
    assert_eq!(requests.len(), others + 33 * 8 + 2);
    // And only a few of its blocks are looked at again for a vote.
    let before = drops.store.events();
    assert!(drops.flow.due(8).is_empty());
    assert_eq!(drops.store.events(), before);
}

/// 33 of 100 members write blocks with 100 made-up parents, and all others theirs, before the certificates of the round below. No look at
/// parents is an event.
#[test]
fn no_certificate_asks_for_the_parents_of_all_waiting_blocks() {
    let mut drops = Drops::new(100);
    let made: Vec<_> = (0..100)
        .map(|author| drops.com.block(author, 0, &[], &[]))
        .collect();
    let all: Vec<_> = made.iter().map(|(_, of)| (of.author, of.digest)).collect();
    let made_up: Vec<_> = (0..100)
        .map(|author| (author, Digest([author as u8; 32])))
        .collect();
    let before = drops.store.events();
    let mut children = Vec::new();
    for author in 0..100 {
        let parents = if author < 33 { &made_up } else { &all };
        let (message, child) = drops.com.block(author, 1, parents, &[]);
        assert!(drops.write(&message).is_empty());
        children.extend((author >= 33).then_some(child));
    }
    for (message, subject) in &made {
        assert_eq!(drops.write(message), [*subject]);
    }
    for (_, subject) in &made[..99] {
        assert!(drops.certify(subject).is_empty());
    }
    assert_eq!(drops.certify(&made[99].1), children);
    assert_eq!(drops.flow.due(8), children);
    assert_eq!(drops.store.events() - before, 200 + 100);
}

/// Blocks of 33 members that invent 100 parents each wait for nothing once their rounds are collected.
#[test]
fn blocks_with_100_unmet_parents_are_collected() {
    let mut drops = Drops::new(100);
    let parents: Vec<_> = (0..100)
        .map(|author| (author, Digest([author as u8; 32])))
        .collect();
    let rounds = 1..u64::from(WINDOW);
    for (author, round) in (0..33).flat_map(|author| rounds.clone().map(move |at| (author, at))) {
        let (message, _) = drops.com.block(author, round, &parents, &[]);
        assert!(drops.write(&message).is_empty());
    }
    assert_eq!(drops.lacks().map(|lacks| lacks.len()), [0, 33 * 15 * 100]);
    // Blocks of the garbage round need no parents.
    assert_eq!(drops.collect(rounds.end - 1).len(), 33);
    assert!(drops.collect(rounds.end).is_empty() && drops.lacks() == [vec![], vec![]]);
    assert_eq!(drops.flow.session().status().unwrap().reply().blocks, 0);
    assert!(drops.flow.session().missing(1).unwrap().reply().is_empty());
}

/// A vote waits for all parents, whichever comes last: a block, a certificate, or a collection.
#[test]
fn a_vote_waits_for_all_parents() {
    let mut drops = Drops::new(4);
    let made: Vec<_> = (0..3)
        .map(|author| drops.com.block(author, 0, &[], &[]))
        .collect();
    let parents: Vec<_> = made
        .iter()
        .map(|(_, subject)| (subject.author, subject.digest))
        .collect();
    let (message, child) = drops.com.block(3, 1, &parents, &[]);
    assert!(drops.write(&message).is_empty());
    for (message, subject) in &made[..2] {
        assert_eq!(drops.write(message), [*subject]);
        assert!(drops.certify(subject).is_empty());
    }
    // The last certificate comes before its block.
    let (message, subject) = &made[2];
    assert!(drops.certify(subject).is_empty());
    // It needs no vote then, but the block over it gets one.
    assert_eq!(drops.write(message), [child]);
    assert_eq!(drops.flow.due(1), [child]);
    let others = [0, 1, 2].map(|author| (author, child.digest));
    let (message, next) = drops.com.block(2, 2, &others, &[]);
    assert!(drops.write(&message).is_empty());
    let due = drops.certify(&child);
    assert!(due.is_empty(), "no parent has the named author");
    assert_eq!(drops.collect(2), [next]);
}

/// Blocks with bad signatures, each new: the bytes of one peer that are checked have a bound, and other peers have their own.
#[test]
fn a_peer_over_its_budget_is_not_checked() {
    let com = Com::new(4);
    let mut honest = Honest::new(&com, 0, Rules::Follows);
    let (mut checks, mut post) = (Checks::default(), Post::new(4));
    let (mut forged, _) = com.block(2, 0, &[], &[vec![7; 1_000]]);
    let most = ALLOWANCE.bytes / forged.len();
    let mut flood = |honest: &mut Honest, from, checks: &mut Checks, post: &mut Post| {
        for number in 0..1_000_u32 {
            let at = forged.len() - 4;
            forged[at..].copy_from_slice(&[&[from as u8][..], &number.to_be_bytes()[1..]].concat());
            let message = Packet::Message(forged.as_slice().into());
            honest.take(from, &message, checks, post);
        }
    };
    flood(&mut honest, 1, &mut checks, &mut post);
    assert_eq!(checks.0.len(), most);
    flood(&mut honest, 3, &mut checks, &mut post);
    assert_eq!(checks.0.len(), 2 * most);
    let (block, _) = com.block(2, 0, &[], &[]);
    honest.take(2, &Packet::Message(block.into()), &mut checks, &mut post);
    assert_eq!(honest.store.changes(), 1);
}

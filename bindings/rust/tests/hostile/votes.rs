//! When a validator votes: after each call of a drawn order, the votes that are due are compared with looks at all parents.

use crate::lab::Com;
use crate::simulator_draw::Draw;
use narwhal_store::{Block, Checked, Digest, Limits, Store, Subject};
use narwhal_validator::Flow;
use std::collections::BTreeSet;

const MEMBERS: u16 = 5;
const ROUNDS: u64 = 8;

type Key = (u64, u16, Digest);

fn keys(subjects: &[Subject]) -> BTreeSet<Key> {
    let key = |subject: &Subject| (subject.round, subject.author, subject.digest);
    subjects.iter().map(key).collect()
}

/// One or two blocks for each slot, over drawn parents, and a certificate of one of them. Some parents are twins or made up, and some
/// certificates never come.
fn messages(com: &Com, draw: &mut Draw) -> Vec<Checked> {
    let (mut messages, mut before) = (Vec::new(), Vec::new());
    for round in 0..ROUNDS {
        let mut slots: Vec<(u16, Vec<Digest>)> = Vec::new();
        for author in 0..MEMBERS {
            let mut made = Vec::new();
            for twin in 0..draw.between(1, 6).saturating_sub(4).max(1) {
                let parents = parents(draw, round, &before);
                let (message, subject) = com.block(author, round, &parents, &[vec![twin as u8]]);
                messages.push(message);
                made.push(subject);
            }
            if draw.chance(90) {
                let subject = made[draw.index(made.len())];
                messages.push(com.certificate(&subject, &[0, 1, 2, 3]));
            }
            slots.push((author, made.iter().map(|of| of.digest).collect()));
        }
        before = slots;
    }
    let check = |message: &Vec<u8>| com.committee.check(message).expect("valid");
    let checked = messages.iter().map(check);
    let mut late: Vec<_> = checked.zip(0u64..).collect();
    late.sort_by_cached_key(|(_, at)| at + draw.below(20));
    late.into_iter().map(|(checked, _)| checked).collect()
}

/// At least a quorum of authors of the round before, mostly with one of their blocks.
fn parents(draw: &mut Draw, round: u64, before: &[(u16, Vec<Digest>)]) -> Vec<(u16, Digest)> {
    if round == 0 {
        return Vec::new();
    }
    let left_out = draw.below(u64::from(MEMBERS) + 1) as u16;
    let mut parents = Vec::new();
    for (author, digests) in before.iter().filter(|(author, _)| *author != left_out) {
        let made_up = Digest::of(&draw.next().to_be_bytes());
        let real = digests[draw.index(digests.len())];
        parents.push((*author, if draw.chance(3) { made_up } else { real }));
    }
    parents
}

/// The blocks whose vote is due: the first of their slot, without a certificate there, and with all their parents.
fn due(flow: &mut Flow, blocks: &[Block]) -> BTreeSet<Key> {
    let mut due = Vec::new();
    for block in blocks {
        let look = flow.session().look(block.round(), block.author());
        let is_first = look.first == Some(block.digest()) && look.certified.is_none();
        if is_first && (look.garbage_round == block.round() || has_parents(flow, block)) {
            due.push(block.subject());
        }
    }
    keys(&due)
}

fn has_parents(flow: &mut Flow, block: &Block) -> bool {
    let is_satisfied = |(author, digest): &(u16, Digest)| {
        let look = flow.session().look(block.round() - 1, *author);
        look.satisfies(digest)
    };
    block.parents().iter().all(is_satisfied)
}

#[test]
fn a_vote_is_due_when_the_last_parent_comes() {
    let com = Com::new(MEMBERS);
    let (mut votes, mut waited) = (0, 0);
    for seed in 0..100 {
        let mut draw = Draw::new(seed);
        let store = Store::new(&com.committee, Limits::default()).expect("a store");
        let mut flow = Flow::over(&store, store.session().expect("a session"), 0);
        let messages = messages(&com, &mut draw);
        let block = |checked: &Checked| match checked {
            Checked::Block(block) => Some(block.block()),
            _ => None,
        };
        let blocks: Vec<Block> = messages.iter().filter_map(block).collect();
        let mut before = BTreeSet::new();
        for message in &messages {
            let answered = flow.call(message).expect("memory").unwrap_or_default();
            let now = due(&mut flow, &blocks);
            let new: BTreeSet<Key> = now.difference(&before).copied().collect();
            assert_eq!(keys(&answered), new, "seed {seed}");
            let is_own = |key: &&Key| block(message).is_some_and(|of| of.digest() == key.2);
            votes += new.len();
            waited += new.iter().filter(|key| !is_own(key)).count();
            before = now;
            if draw.chance(5) {
                let garbage_round = flow.session().look(0, 0).garbage_round + 1;
                let answered = flow.collect(garbage_round).expect("memory");
                let answered = keys(&answered.expect("it is raised"));
                let now = due(&mut flow, &blocks);
                assert!(answered.is_subset(&now), "seed {seed}");
                assert!(now.difference(&before).all(|key| answered.contains(key)));
                before = now;
            }
        }
        let again = flow.due(usize::MAX);
        assert_eq!(keys(&again), before, "seed {seed}");
    }
    println!("{votes} votes, {waited} of them after a parent came");
    assert!(votes > 500 && waited > 100, "too few votes");
}

//! What a round of 100 members costs a flow and its store, without the checks: also if 33 of them write blocks of the next round with 100 made-up
//! parents, before this round's certificates.

use crate::costs::thread_time;
use crate::lab::Com;
use narwhal_store::{Checked, Digest, Limits, Store, Subject};
use narwhal_validator::Flow;

const MEMBERS: u16 = 100;
const FAULTY: u16 = 33;
const ROUNDS: u64 = 24;
/// How far the garbage round stays behind.
const LAG: u64 = 8;

/// What the last members make in a round, and what the first ones send before its certificates.
fn messages(
    com: &Com,
    [early, members]: [u16; 2],
    round: u64,
    parents: &mut Vec<Subject>,
) -> Vec<Checked> {
    let check = |message: &[u8]| com.committee.check(message).expect("valid");
    let named: Vec<_> = parents.iter().map(|of| (of.author, of.digest)).collect();
    let made: Vec<_> = (MEMBERS - members..MEMBERS)
        .map(|author| com.block(author, round, &named, &[]))
        .collect();
    *parents = made.iter().map(|(_, of)| *of).collect();
    // Member 99 has the weight of a quorum.
    let certificate = |of: &Subject| check(&com.certificate(of, &[MEMBERS - 1]));
    let certificates: Vec<_> = parents.iter().map(certificate).collect();
    let made_up = |author: u16| (author, Digest::of(&[round as u8, author as u8]));
    let made_up: Vec<_> = (0..MEMBERS).map(made_up).collect();
    let early = (0..early).map(|author| com.block(author, round + 1, &made_up, &[]));
    let blocks = made.iter().map(|(message, _)| check(message));
    let early = early.map(|(message, _)| check(&message));
    blocks.chain(early).chain(certificates).collect()
}

/// The microseconds and the events of a round, and the votes in all.
fn round_of(members: [u16; 2]) -> (f64, u64, usize) {
    let weight = |member| if member == MEMBERS - 1 { 1_000 } else { 1 };
    let com = Com::weighted(&(0..MEMBERS).map(weight).collect::<Vec<u32>>());
    let store = Store::new(&com.committee, Limits::default()).expect("a store");
    let mut flow = Flow::over(&store, store.session().expect("a session"), 0);
    let mut parents = Vec::new();
    let (mut time, mut votes) = (f64::INFINITY, 0);
    let before = store.events();
    for round in 0..ROUNDS {
        let messages = messages(&com, members, round, &mut parents);
        let start = thread_time();
        for message in &messages {
            votes += flow.call(message).expect("memory").expect("new").len();
        }
        if round > LAG {
            drop(flow.collect(round - LAG).expect("memory"));
            time = time.min(thread_time() - start);
        }
    }
    (time / 1e3, (store.events() - before) as u64 / ROUNDS, votes)
}

#[test]
fn a_round_with_made_up_parents_costs_at_most_four_times() {
    let honest = MEMBERS - FAULTY;
    let (usual, events, votes) = round_of([0, MEMBERS]);
    let (silent, _, _) = round_of([0, honest]);
    let (attacked, attacked_events, attacked_votes) = round_of([FAULTY, honest]);
    println!("{usual:.0} us and {events} events, {silent:.0} us if they are silent");
    println!("{attacked:.0} us and {attacked_events} events under attack");
    assert!(
        attacked <= 4.0 * usual,
        "{attacked} us, and else {usual} us"
    );
    // A write, a certificate and a collection are events, and no look is one.
    assert!(events <= 201 && attacked_events <= 168);
    assert_eq!(votes as u64, ROUNDS * u64::from(MEMBERS));
    // No early block gets a vote.
    assert_eq!(attacked_votes as u64, ROUNDS * u64::from(honest));
}

//! Runs of whole committees under attack.

use crate::faulty::Attack;
use crate::honest::Rules;
use crate::lab::Com;
use crate::world::{Ran, World};
use std::sync::atomic::{AtomicU64, Ordering};
use std::thread;

/// The fewest leaders that each honest member decides in a run.
const LEADERS: usize = 4;
/// The most rounds between the last of them and the last block.
const BEHIND: u64 = 10;

fn number_of(variable: &str) -> Option<u64> {
    let value = std::env::var(variable).ok()?;
    Some(value.parse().expect("a number of seeds"))
}

/// A committee of 4 for an even seed, and of 7 for an odd one.
fn run(seed: u64, attack: Option<Attack>, rules: Option<Rules>) -> Ran {
    let com = Com::new([4, 7][seed as usize % 2]);
    World::new(&com, seed, attack, rules).run()
}

/// Leaders are decided until the end of the run.
fn check(ran: &Ran, what: &str) {
    println!("{what}: {ran:?}");
    assert!(ran.leaders.0 >= LEADERS, "too few leaders: {what}");
    let behind = ran.round - ran.last_leader;
    assert!(behind <= BEHIND, "the last leader is old: {what}");
}

#[test]
fn no_committee_halts_or_grows_under_attack() {
    let seeds = match (number_of("SEED"), number_of("SEEDS")) {
        (Some(seed), _) => seed..seed + 1,
        (None, most) => 0..most.unwrap_or(200),
    };
    let next = AtomicU64::new(seeds.start);
    let play = || {
        loop {
            let seed = next.fetch_add(1, Ordering::Relaxed);
            if seed >= seeds.end {
                return;
            }
            let ran = thread::spawn(move || run(seed, None, None)).join();
            let ran = ran.unwrap_or_else(|_| panic!("run it alone with SEED={seed}"));
            check(&ran, &format!("SEED={seed}"));
        }
    };
    thread::scope(|scope| {
        (0..2).for_each(|_| drop(scope.spawn(play)));
    });
}

/// Each attack alone, by as many members as a committee tolerates.
fn decides_under(attack: Attack) {
    for seed in 0..4 {
        let ran = run(seed, Some(attack), None);
        check(&ran, &format!("{attack:?} {seed}"));
    }
}

#[test]
fn one_block_with_made_up_parents_halts_nobody() {
    decides_under(Attack::OneBlock);
}

#[test]
fn made_up_parents_halt_nobody() {
    decides_under(Attack::MadeUpParents);
}

#[test]
fn twins_halt_nobody() {
    decides_under(Attack::Twins);
}

#[test]
fn far_rounds_halt_nobody() {
    decides_under(Attack::FarRounds);
}

#[test]
fn floods_of_refused_bodies_halt_nobody() {
    decides_under(Attack::RefusedBodies);
}

#[test]
fn replays_halt_nobody() {
    decides_under(Attack::Replays);
}

#[test]
fn invented_references_in_many_blocks_halt_nobody() {
    decides_under(Attack::InventedReferences);
}

#[test]
fn a_withheld_certificate_halts_nobody() {
    decides_under(Attack::WithheldCertificate);
}

#[test]
fn silence_halts_nobody() {
    decides_under(Attack::Silence);
}

/// The tests above can fail: one block halts validators that vote without the parents.
#[test]
fn validators_that_vote_at_once_are_halted() {
    let ran = run(0, Some(Attack::OneBlock), Some(Rules::VotesAtOnce));
    println!("{ran:?}");
    assert!(ran.leaders.1 < LEADERS && ran.round > 20, "{ran:?}");
}

/// Validators that keep all refused blocks exceed the bound.
#[test]
#[should_panic(expected = "bytes are kept")]
fn validators_that_keep_all_refused_blocks_grow() {
    run(0, Some(Attack::RefusedBodies), Some(Rules::KeepsAll));
}

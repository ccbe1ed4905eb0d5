//! A validator that was away comes back: with its log, with an older one or with none, after 1 to 5,000 rounds, and with crashes while it catches
//! up. It delivers the same order from its checkpoint on, and signs no two blocks or votes for a slot.
//!
//! ```text
//! cargo test --release --test comeback                    200 seeds, and six long absences
//! SEED=17 cargo test --release --test comeback            one seed, which a failure prints
//! SEEDS=10000 cargo test --release --test comeback        the first 10,000 seeds
//! ```

#[path = "../examples/validator/decide.rs"]
mod decide;
mod lab;
#[path = "../examples/validator/node.rs"]
mod node;
#[allow(dead_code)] // Only the simulator tallies.
#[path = "simulator/draw.rs"]
mod simulator_draw;
#[path = "comeback/world.rs"]
mod world;

use simulator_draw::Draw;
use std::panic::catch_unwind;
use std::sync::atomic::{AtomicU64, Ordering};
use std::thread;
use world::{Away, Kept, World};

fn number_of(variable: &str) -> Option<u64> {
    let value = std::env::var(variable).ok()?;
    Some(value.parse().expect("a number of seeds"))
}

/// Most absences are short. A window of 32 rounds makes 40 a long one.
fn drawn(seed: u64) -> Away {
    let mut draw = Draw::new(seed);
    let kept = [Kept::Whole, Kept::Older, Kept::Nothing][seed as usize % 3];
    Away {
        members: if draw.chance(25) { 7 } else { 4 },
        rounds: [0, 1, 3, 10, 10, 25, 40, 90][draw.index(8)],
        kept,
        says_so: true,
        crashes: draw.below(4),
    }
}

fn run(seed: u64, away: Away) {
    let caught_up = World::new(seed, away).run();
    println!("SEED={seed}: {away:?}: {caught_up:?}");
}

#[test]
fn a_member_comes_back() {
    let seeds = match (number_of("SEED"), number_of("SEEDS")) {
        (Some(seed), _) => seed..seed + 1,
        (None, most) => 0..most.unwrap_or(200),
    };
    let next = AtomicU64::new(seeds.start);
    let play = || {
        loop {
            let seed = next.fetch_add(1, Ordering::Relaxed);
            if seed >= seeds.end {
                return;
            }
            let ran = catch_unwind(|| run(seed, drawn(seed)));
            assert!(ran.is_ok(), "run it alone with SEED={seed}");
        }
    };
    thread::scope(|scope| {
        (0..2).for_each(|_| drop(scope.spawn(play)));
    });
}

fn long(rounds: u64, kept: Kept) {
    let away = Away {
        members: 4,
        rounds,
        kept,
        says_so: true,
        crashes: 2,
    };
    run(rounds, away);
}

#[test]
fn a_member_comes_back_after_500_rounds() {
    for kept in [Kept::Whole, Kept::Older, Kept::Nothing] {
        long(500, kept);
    }
}

#[test]
fn a_member_comes_back_after_5000_rounds_with_its_log() {
    long(5_000, Kept::Whole);
}

#[test]
fn a_member_comes_back_after_5000_rounds_with_an_older_log() {
    long(5_000, Kept::Older);
}

#[test]
fn a_member_comes_back_after_5000_rounds_without_a_log() {
    long(5_000, Kept::Nothing);
}

/// The tests above can fail: a member that takes an older log, or none, for its whole log signs twice for a slot.
#[test]
fn a_member_that_does_not_say_what_it_lost_signs_twice() {
    for kept in [Kept::Older, Kept::Nothing] {
        let twice = |seed: &u64| {
            let away = Away {
                rounds: 0,
                kept,
                says_so: false,
                ..drawn(*seed)
            };
            let ran = catch_unwind(|| run(*seed, away));
            let why = ran.err().and_then(|why| why.downcast::<String>().ok());
            why.is_some_and(|why| why.contains("signs twice"))
        };
        assert!((0..20).any(|seed| twice(&seed)), "{kept:?}");
    }
}

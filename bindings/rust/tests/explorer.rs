//! Drives the example `explorer` over HTTP, without a browser: each button, the two documents of JSON, and bad requests.

#[path = "explorer/client.rs"]
mod client;
#[path = "hostile/decide.rs"]
mod decide;
#[path = "../examples/explorer/http.rs"]
mod http;
#[path = "../examples/explorer/json.rs"]
mod json;
mod lab;
#[path = "../examples/explorer/log.rs"]
mod log;
#[path = "../examples/explorer/node.rs"]
mod node;
#[path = "../examples/explorer/post.rs"]
mod post;
#[path = "explorer/requests.rs"]
mod requests;
#[path = "../examples/explorer/site.rs"]
mod site;
#[path = "../examples/explorer/validator.rs"]
mod validator;
#[path = "../examples/explorer/world.rs"]
mod world;

use client::{Explorer, Shown, Value, until};
use std::collections::BTreeSet;

const STORES: [u64; 4] = [0, 1, 2, 3];

#[test]
fn a_pause_stops_all_and_a_step_makes_one_round() {
    let explorer = Explorer::start();
    until("the rounds go on by themselves", || explorer.round(0) >= 2);
    explorer.act("pause", 0);
    let before = STORES.map(|store| explorer.state(store));
    let beats = before[0].number("beats");
    until("four halves of a round pass", || {
        explorer.state(0).number("beats") >= beats + 4
    });
    for (store, before) in STORES.into_iter().zip(&before) {
        let after = explorer.state(store);
        assert!(after.is("paused"));
        for name in ["content", "verified", "logged"] {
            assert_eq!(after.get(name), before.get(name), "{name} of store {store}");
        }
    }
    let round = explorer.round(0);
    explorer.step(1);
    for store in STORES {
        assert_eq!(explorer.round(store), round + 1);
        for author in STORES {
            let slot = explorer.slot(store, round + 1, author);
            assert!(
                matches!(&slot[..], [one] if one.state == "complete"),
                "{slot:?}"
            );
        }
    }
    explorer.act("resume", 0);
    until("the rounds go on", || explorer.round(0) > round + 1);
}

/// Old rounds are collected, histories restart, and the page, the store and the log keep a bounded number of blocks.
#[test]
fn eighty_rounds_are_bounded() {
    let explorer = Explorer::paused();
    let (mut events, mut restarts) = (0, 0);
    for _ in 0..80 {
        explorer.step(1);
        let state = explorer.state(1);
        let content = state.get("content");
        let garbage = content.number("garbage");
        assert!(
            content.number("round") - garbage <= 10,
            "the garbage round is {garbage}"
        );
        assert!(content.number("stored") <= 44 && content.list("blocks").len() <= 84);
        assert!(state.number("logged") <= 88);
        restarts += u32::from(content.number("events") < events);
        events = content.number("events");
    }
    assert!(restarts > 0, "the history never restarted");
    let states: BTreeSet<_> = explorer
        .blocks(1)
        .into_iter()
        .map(|shown| shown.state)
        .collect();
    assert!(states.iter().eq(["collected", "complete"]), "{states:?}");
    let walk = explorer.state(1).get("content").list("walk").len();
    assert!(walk > 20, "the walk of the last leader has {walk} blocks");
}

#[test]
fn a_block_shows_its_parts_its_votes_and_its_history() {
    let explorer = Explorer::paused();
    let round = explorer.round(2);
    let digest = &explorer.slot(2, round, 1)[0].digest;
    let block = explorer.block(2, digest);
    assert_eq!(block.get("digest").text(), digest);
    assert!(block.list("signers").len() >= 3);
    let written = block.get("written");
    assert!(written.list("parents").len() >= 3);
    let parents = explorer.certified(2);
    for parent in written.list("parents") {
        let named = (parent.number("author"), parent.get("digest").text());
        let is_named = |one: &Shown| one.round == round - 1 && (one.author, &*one.digest) == named;
        assert!(parents.iter().any(is_named), "{parent:?}");
    }
    let history = written.list("history");
    let last = history.last().expect("the call itself");
    assert_eq!(last.get("call").text(), format!("Write(Digest({digest}))"));
    assert_eq!(last.get("reply").text(), "Stored { vote: true }");
    assert_eq!(written.get("reply"), last.get("reply"));
    assert!(history.len() as u64 <= written.number("length"));
    assert!(history.len() > 10, "{} events", history.len());
    let sessions: BTreeSet<u64> = history
        .iter()
        .map(|event| event.number("session"))
        .collect();
    // The looks of the other two sessions are no events, and the calls of the page are left out.
    assert!(sessions.contains(&0) && !sessions.contains(&2));
    assert_eq!(
        explorer
            .ask("GET", &format!("/block?store=2&digest={}", "0".repeat(64)))
            .0,
        404
    );
}

#[test]
fn of_two_blocks_of_a_round_at_most_one_is_certified() {
    let explorer = Explorer::paused();
    explorer.act("equivocate", 1);
    assert!(explorer.state(0).list("validators")[1].is("equivocates"));
    explorer.step(1);
    let round = explorer.round(0);
    for store in STORES {
        let slot = explorer.slot(store, round, 1);
        let states: BTreeSet<&str> = slot.iter().map(|shown| &*shown.state).collect();
        let [first, twin] = match store {
            2 => ["not stored", "stored"], // Validator 2 got the twin first.
            _ => ["complete", "not stored"],
        };
        assert_eq!(states, BTreeSet::from([first, twin]), "store {store}");
    }
    explorer.step(3);
    let mut certified = BTreeSet::new();
    for store in STORES {
        let slot = explorer.slot(store, round, 1);
        assert_eq!(slot.len(), 2, "store {store}");
        for shown in slot {
            let signers = explorer.signers(store, &shown.digest);
            let expected = match store {
                _ if signers.is_some() => "complete",
                2 => "stored",
                _ => "not stored",
            };
            assert_eq!(shown.state, expected, "store {store}");
            let reply = explorer
                .block(store, &shown.digest)
                .get("written")
                .get("reply")
                .text()
                .to_string();
            match (signers.is_some(), store) {
                (true, 2) => assert_eq!(reply, "Stored { vote: false }"),
                (true, _) | (false, 2) => assert_eq!(reply, "Stored { vote: true }"),
                (false, _) => assert!(reply.starts_with("Equivocates("), "{reply}"),
            }
            certified.extend(signers.map(|_| shown.digest));
        }
    }
    assert_eq!(certified.len(), 1, "the certified blocks of one slot");
    assert_eq!(explorer.state(0).number("double_votes"), 0);
    assert_eq!(
        explorer.slot(0, round + 1, 1).len(),
        1,
        "it made one block in the next round"
    );
}

#[test]
fn a_silent_validator_stops_and_the_others_go_on() {
    let explorer = Explorer::paused();
    let round = explorer.round(0);
    explorer.act("silent", 2);
    assert!(explorer.state(0).list("validators")[2].is("silent"));
    explorer.step(5);
    assert_eq!(explorer.round(0), round + 5);
    assert!(
        explorer
            .blocks(0)
            .iter()
            .all(|shown| shown.author != 2 || shown.round <= round)
    );
    for author in [0, 1, 3] {
        let slot = explorer.slot(2, round + 5, author);
        assert!(
            matches!(&slot[..], [one] if one.state == "complete"),
            "{slot:?}"
        );
        let signers = explorer.signers(2, &slot[0].digest).expect("a certificate");
        assert!(!signers.contains(&Value::Number(2)), "{signers:?}");
    }
    explorer.act("silent", 0); // Two of four are no quorum.
    explorer.step(2);
    assert!(
        STORES
            .iter()
            .all(|&store| explorer.round(store) <= round + 6)
    );
    explorer.act("silent", 0);
    explorer.act("silent", 2);
    explorer.step(4);
    let newest = explorer.round(0);
    assert!(newest >= round + 8, "round {newest}");
    assert_eq!(explorer.slot(0, newest, 2)[0].state, "complete");
}

#[test]
fn a_lost_block_is_fetched_and_becomes_complete() {
    let explorer = Explorer::paused();
    let asked = explorer.state(3).number("asked");
    explorer.act("lose", 3);
    assert!(explorer.state(3).is("loses") && !explorer.state(2).is("loses"));
    explorer.step(1);
    assert!(!explorer.state(3).is("loses"));
    assert_eq!(explorer.state(3).get("content").number("absent"), 1);
    let absent: Vec<_> = explorer
        .blocks(3)
        .into_iter()
        .filter(|shown| shown.state == "not stored")
        .collect();
    let [lost] = &absent[..] else {
        panic!("one block is not stored: {absent:?}");
    };
    assert_eq!(lost.round, explorer.round(3));
    assert_eq!(*explorer.block(3, &lost.digest).get("written"), Value::Null);
    assert_eq!(
        explorer.state_of(0, &lost.digest).as_deref(),
        Some("complete")
    );
    assert_eq!(explorer.state(3).number("asked"), asked);
    explorer.step(1);
    assert_eq!(
        explorer.state_of(3, &lost.digest).as_deref(),
        Some("complete")
    );
    assert_eq!(explorer.state(3).number("asked"), asked + 1);
    let content = explorer.state(3).get("content").clone();
    assert_eq!(
        (content.number("missing"), content.number("absent")),
        (0, 0)
    );
}

/// Validator 3 is silent and validator 1 makes two blocks, so none of the two is certified. Validator 2 votes for one of them, crashes,
/// and then gets the other one again. If it had forgotten its vote, it would vote for that one.
#[test]
fn a_validator_replays_its_log_and_does_not_vote_twice() {
    let explorer = Explorer::paused();
    explorer.act("silent", 3);
    explorer.act("equivocate", 1);
    explorer.step(1);
    let (round, before) = (explorer.round(2), explorer.certified(2));
    let logged = explorer.state(2).number("logged");
    assert!(
        before.len() >= 10 && logged >= 20,
        "{} blocks, {logged} calls",
        before.len()
    );
    explorer.act("crash", 2);
    let down = explorer.state(2);
    assert!(down.list("validators")[2].is("down"));
    assert_eq!(*down.get("content"), Value::Null);
    assert_eq!(
        explorer
            .ask(
                "GET",
                &format!("/block?store=2&digest={}", before[0].digest)
            )
            .0,
        404
    );
    explorer.step(1);
    assert_eq!(
        explorer.round(2),
        round,
        "two active validators and a replay make no round"
    );
    assert_eq!(explorer.certified(2), before);
    assert_eq!(explorer.state(2).number("replayed"), logged);
    assert_eq!(explorer.state(2).number("double_votes"), 0);
    assert_eq!(
        explorer.slot(2, round, 1).len(),
        2,
        "it got the other block again"
    );
    explorer.act("silent", 3);
    explorer.step(4);
    assert!(
        explorer.round(2) >= round + 3,
        "round {}",
        explorer.round(2)
    );
    assert_eq!(explorer.state(2).number("double_votes"), 0);
    let newest = explorer.round(2);
    assert!(
        STORES
            .iter()
            .all(|&author| explorer.slot(2, newest, author)[0].state == "complete")
    );
}

//! Small faults that the Rust layer could have, each with one test: weights, limits, iterators, restarts and settlements.

mod lab;

use lab::Com;
use narwhal_store::{
    AgreeError, Block, Checked, CheckedBlock, CheckedCertificate, Digest, Gather, GatherError,
    Limits, Member, OpenError,
};
use narwhal_store::{Call, Event, PublicKey, Reply, Session, SettleError, Store, Subject, Ticket};
use narwhal_store::{Note, WriteReply};
use std::collections::HashSet;
use std::fmt::Debug;
use std::thread;

fn checked(com: &Com, message: &[u8]) -> Checked {
    com.committee.check(message).expect("a message")
}

#[test]
fn a_member_votes_with_its_weight() {
    let com = Com::weighted(&[3, 1, 1, 1]);
    let committee = &com.committee;
    assert_eq!((committee.size(), committee.quorum()), (4, 5));
    let weights = [0, 1, 2, 3].map(|author| committee.member(author).expect("a member").weight);
    assert_eq!(weights, [3, 1, 1, 1]);
    assert_eq!(committee.member(4), None);
    let (_, subject) = com.block(0, 0, &[], &[]);
    let mut gather = Gather::new(committee, &subject).expect("a gatherer");
    for (signer, is_quorum) in [(0, false), (1, false), (3, true)] {
        let Checked::Vote(vote) = checked(&com, &com.vote(&subject, signer)) else {
            panic!("the message is a vote");
        };
        assert_eq!(gather.certificate().err(), Some(GatherError::FewVotes));
        assert_eq!(gather.add(&vote), Ok(is_quorum));
    }
    gather.certificate().expect("a certificate");
    // Three members of weight 1 are three of four members, and have half of the votes.
    let light = com.certificate(&subject, &[1, 2, 3]);
    committee.check(&light).expect_err("too few votes");
    let Checked::Certificate(heavy) = checked(&com, &com.certificate(&subject, &[0, 1, 3])) else {
        panic!("the message is a certificate");
    };
    assert_eq!(heavy.signers(), [0, 1, 3]);
}

#[test]
fn members_have_their_keys() {
    let member = |byte: u8| Member {
        key: PublicKey([byte; 32]),
        weight: u32::from(byte),
    };
    let members = [member(9), member(2), member(5)];
    let committee = narwhal_store::Committee::new(&members).expect("a committee");
    let found: Vec<_> = (0..3)
        .filter_map(|author| committee.member(author))
        .collect();
    assert_eq!((found, committee.quorum()), (members.to_vec(), 11));
}

#[test]
fn a_store_has_the_limits_that_it_was_opened_with() {
    let com = Com::new(1);
    let open = |limits| Store::new(&com.committee, limits);
    let own = Limits {
        blocks: 3,
        events: 5,
        window: 7,
        sessions: 2,
    };
    let store = open(own).expect("a store");
    assert_eq!(store.limits(), own);
    let sessions = [store.session(), store.session(), store.session()];
    let [Ok(first), Ok(second), Err(OpenError::TooManySessions)] = &sessions else {
        panic!("{sessions:?} of two sessions");
    };
    assert_eq!((first.id(), second.id()), (0, 1));
    let least = Limits {
        blocks: 1,
        events: 1,
        window: 1,
        sessions: 1,
    };
    assert!(open(least).is_ok() && open(Limits::MAX).is_ok());
    let set: [fn(&mut Limits) -> &mut u32; 4] = [
        |limits| &mut limits.blocks,
        |limits| &mut limits.events,
        |limits| &mut limits.window,
        |limits| &mut limits.sessions,
    ];
    for limit in set {
        let (mut low, mut high) = (least, Limits::MAX);
        *limit(&mut low) -= 1;
        *limit(&mut high) += 1;
        for limits in [low, high] {
            let refused = open(limits).err();
            assert_eq!(refused, Some(OpenError::BadLimits), "{limits:?}");
        }
    }
}

/// Nobody fills a store of the default limits: 100 members have a block a round, and 33 faulty ones a second one with a certificate.
#[test]
fn the_default_limits_have_room_for_the_largest_committee() {
    let limits = Limits::default();
    assert!(limits.window * (100 + 33) <= limits.blocks && limits.window >= 480);
    assert_eq!((limits.blocks, limits.events), (65_536, 65_536));
}

/// A block with three missing parents, and a certificate of it that was gathered.
fn gathered(com: &Com) -> (CheckedBlock, CheckedCertificate) {
    let parents = [0, 1, 2].map(|author| (author, Digest([author as u8; 32])));
    let (message, subject) = com.block(3, 1, &parents, &[vec![7; 500]]);
    let mut gather = Gather::new(&com.committee, &subject).expect("a gatherer");
    for signer in [3, 0, 2] {
        match checked(com, &com.vote(&subject, signer)) {
            Checked::Vote(vote) => drop(gather.add(&vote).expect("a vote")),
            other => panic!("{other:?}"),
        }
    }
    let certificate = gather.certificate().expect("a certificate");
    match checked(com, &message) {
        Checked::Block(block) => (block, certificate),
        other => panic!("{other:?}"),
    }
}

/// A call: the bytes that its event can take, those that it takes, and whether it is a change.
type Counted<'a> = (&'a dyn Fn(&mut Session), u64, u64, bool);

#[test]
fn each_call_has_the_bytes_of_its_event_and_may_be_a_change() {
    let com = Com::new(4);
    let (block, certificate) = gathered(&com);
    let digest = block.subject().digest;
    let [of_block, of_certificate] =
        [block.message(), certificate.message()].map(|message| 250 + message.len() as u64);
    let all = 150 + 48 * 100;
    let calls: [Counted; 14] = [
        (
            &|own| drop(own.write(&block).expect("a write")),
            of_block,
            of_block,
            true,
        ),
        (
            &|own| drop(own.write(&block).expect("a write")),
            of_block,
            150,
            false,
        ),
        (
            &|own| drop(own.missing(2).expect("a list")),
            150 + 48 * 2,
            150 + 48 * 2,
            false,
        ),
        (
            &|own| drop(own.missing(9).expect("a list")),
            150 + 48 * 9,
            150 + 48 * 3,
            false,
        ),
        (
            &|own| drop(own.missing_of(&digest).expect("a list")),
            all,
            150 + 48 * 3,
            false,
        ),
        (
            &|own| drop(own.certify(&certificate).expect("a certificate")),
            of_certificate,
            of_certificate,
            true,
        ),
        (
            &|own| drop(own.certify(&certificate).expect("a certificate")),
            of_certificate,
            150,
            false,
        ),
        (
            &|own| drop(own.read(&digest).expect("a read")),
            150,
            150,
            false,
        ),
        (
            &|own| drop(own.certificate(&digest).expect("a lookup")),
            150,
            150,
            false,
        ),
        (
            &|own| drop(own.causal(&digest).expect("a causal read")),
            150,
            150,
            false,
        ),
        (
            &|own| drop(own.status().expect("a status")),
            150,
            150,
            false,
        ),
        (
            &|own| drop(own.collect(1).expect("a collection")),
            150,
            150,
            true,
        ),
        (
            &|own| drop(own.collect(1).expect("a collection")),
            150,
            150,
            false,
        ),
        (
            &|own| drop(own.missing_of(&digest).expect("a list")),
            all,
            150,
            false,
        ),
    ];
    let (store, mut own) = sessions(&com, 1);
    let (mut bytes, mut changes) = (0, 0);
    for (place, (call, most, taken, is_change)) in calls.into_iter().enumerate() {
        call(&mut own[0]);
        (bytes, changes) = (bytes + taken, changes + u64::from(is_change));
        assert_eq!(
            (store.history_bytes(), store.changes()),
            (bytes, changes),
            "call {place}"
        );
        // After two calls, the history restarts exactly if the event may exceed the bound.
        for (spare, events) in [(0, 3), (1, 1)] {
            let builder = Store::builder(&com.committee).restart_when(300 + most - spare, u32::MAX);
            let mut session = builder
                .open()
                .and_then(|store| store.session())
                .expect("a session");
            for call in [calls[10].0, calls[10].0, call] {
                call(&mut session);
            }
            let note = session.note().expect("a note");
            assert_eq!(
                note.history().len(),
                events,
                "call {place} with {spare} bytes less"
            );
        }
    }
}

/// A call of a session whose run has ended restarts the present history, if that is due.
#[test]
fn a_call_in_a_new_run_restarts_a_full_history() {
    let com = Com::new(1);
    let builder = Store::builder(&com.committee).restart_when(300, u32::MAX);
    let store = builder.open().expect("a store");
    let [mut one, mut other] = [(); 2].map(|()| store.session().expect("a session"));
    for events in [1, 2, 1, 2] {
        let _ = one.status().expect("a status");
        assert_eq!(store.events(), events);
    }
    assert_eq!((one.run(), other.run()), (1, 0));
    let _ = other.status().expect("a status");
    assert_eq!(
        (other.run(), store.events(), store.history_bytes()),
        (2, 1, 150)
    );
}

#[test]
fn the_largest_committee_has_a_look_and_a_vote_for_each_member() {
    let com = Com::new(100);
    let all: Vec<u16> = (0..100).collect();
    let (_, mut own) = sessions(&com, 1);
    let mut last = None;
    for &author in &all {
        let (message, subject) = com.block(author, 0, &[], &[]);
        match checked(&com, &message) {
            Checked::Block(block) => drop(own[0].write(&block).expect("a write")),
            other => panic!("{other:?}"),
        }
        last = Some(subject);
    }
    let looks = own[0].look_round(0).expect("memory");
    assert!(
        looks
            .iter()
            .map(|(author, _)| *author)
            .eq(all.iter().copied())
    );
    assert_eq!(looks[99].1.first, last.map(|subject| subject.digest));
    let message = com.certificate(&last.expect("a subject"), &all);
    let Checked::Certificate(certificate) = checked(&com, &message) else {
        panic!("the message is a certificate");
    };
    assert_eq!(certificate.signers(), all);
}

/// A round of 2^48 or more has no block, and its look has the garbage round.
#[test]
fn a_look_at_no_round_is_empty() {
    let com = Com::new(1);
    let (_, mut own) = sessions(&com, 1);
    let _ = own[0].collect(4).expect("a collection");
    for round in [4, (1 << 48) - 1, 1 << 48, u64::MAX] {
        let look = own[0].look(round, 0);
        assert_eq!(
            (look.garbage_round, look.first, look.certified, look.stands),
            (4, None, None, false)
        );
        assert_eq!(own[0].look_round(round), Ok(Vec::new()));
    }
}

/// The next session of a store continues one that was dropped, also in a later run.
#[test]
fn a_dropped_session_is_continued() {
    let com = Com::new(1);
    let limits = Limits {
        sessions: 2,
        ..Limits::default()
    };
    let store = Store::new(&com.committee, limits).expect("a store");
    let mut one = store.session().expect("a session");
    for round in 1..=300 {
        let mut other = store.session().expect("a session");
        assert!(matches!(store.session(), Err(OpenError::TooManySessions)));
        let answer = other.collect(round).expect("a collection");
        let event = answer.history().events().next_back().expect("an event");
        let number = if round > 200 { round - 200 } else { round };
        assert_eq!(
            (other.id(), event.session, event.number),
            (1, 1, number as u32)
        );
        drop(other);
        if round == 200 {
            let ended = one.restart().expect("a restart");
            assert_eq!(ended.history().len(), 200);
        }
    }
    let other = store.session().expect("a session");
    assert_eq!((other.id(), other.run()), (1, 1));
    let settled = Store::settle(vec![other, one]).expect("all sessions");
    assert_eq!(
        (settled.journal(0).count(), settled.journal(1).count()),
        (0, 100)
    );
}

#[test]
#[allow(clippy::mutable_key_type)] // A lock of a value changes nothing of its hash.
fn values_are_equal_if_their_bytes_are() {
    let com = Com::new(4);
    let again = Com::new(4);
    let subjects = [b"one", b"two"].map(|text| com.block(0, 0, &[], &[text.to_vec()]).1);
    let message = |text: &[u8]| com.block(0, 0, &[], &[text.to_vec()]).0;
    let texts = [
        message(b"one"),
        message(b"two"),
        com.certificate(&subjects[0], &[0, 1, 2]),
        com.certificate(&subjects[0], &[0, 1, 3]),
        com.certificate(&subjects[1], &[0, 1, 2]),
        com.vote(&subjects[0], 0),
        com.vote(&subjects[0], 1),
        com.vote(&subjects[1], 0),
    ];
    let [all, others] = [&com, &again].map(|com| {
        let checked = texts.iter().map(|text| checked(com, text));
        checked.collect::<Vec<_>>()
    });
    for (place, one) in all.iter().enumerate() {
        for (other_place, other) in others.iter().enumerate() {
            assert_eq!(one == other, place == other_place, "{one:?} and {other:?}");
        }
    }
    let kept: HashSet<Checked> = all.iter().chain(&others).cloned().collect();
    assert_eq!(kept.len(), texts.len());
    let [Checked::Block(one), Checked::Block(two)] = &all[..2] else {
        panic!("the first two messages are blocks");
    };
    assert!(one.block() == one.block() && one.block() != two.block());
    assert_eq!(
        HashSet::from([one.block(), one.block().clone(), two.block()]).len(),
        2
    );
    let weighted = Com::weighted(&[1, 1, 1, 2]).committee;
    assert!(com.committee == again.committee && com.committee != weighted);
    assert_eq!(
        HashSet::from([com.committee.clone(), again.committee.clone(), weighted]).len(),
        2
    );
}

/// A store with a chain of complete blocks, one for each round, and their subjects.
fn chain(com: &Com, rounds: u64) -> (Session, Vec<Subject>) {
    let store = Store::new(&com.committee, Limits::default()).expect("a store");
    let mut session = store.session().expect("a session");
    let mut subjects: Vec<Subject> = Vec::new();
    for round in 0..rounds {
        let parents: Vec<_> = subjects
            .last()
            .map(|subject| (subject.author, subject.digest))
            .into_iter()
            .collect();
        let (message, subject) = com.block(0, round, &parents, &[vec![round as u8; 3], vec![]]);
        for message in [message, com.certificate(&subject, &[0])] {
            match checked(com, &message) {
                Checked::Block(block) => drop(session.write(&block).expect("a write")),
                Checked::Certificate(one) => drop(session.certify(&one).expect("a certificate")),
                Checked::Vote(vote) => panic!("{vote:?}"),
            }
        }
        subjects.push(subject);
    }
    (session, subjects)
}

fn ticket(session: &mut Session, subject: &Subject) -> Ticket {
    let causal = session.causal(&subject.digest).expect("a causal read");
    causal.into_ticket().expect("a complete block")
}

/// The iterator gives these items by each method, in each order of four calls, as that of a slice does.
fn goes_each_way<I, K: Debug + PartialEq>(
    fresh: impl Fn() -> I,
    items: &[K],
    key: impl Fn(I::Item) -> K,
) where
    I: DoubleEndedIterator + ExactSizeIterator,
{
    for order in 0..6_usize.pow(4) {
        let (mut left, mut expected) = (fresh(), items.iter());
        for place in 0..4 {
            let (found, wanted) = match order / 6_usize.pow(place) % 6 {
                0 => (left.next(), expected.next()),
                1 => (left.next_back(), expected.next_back()),
                2 => (left.nth(2), expected.nth(2)),
                3 => (left.nth(1), expected.nth(1)),
                4 => (left.nth_back(1), expected.nth_back(1)),
                _ => (left.nth(usize::MAX), expected.nth(usize::MAX)),
            };
            let what = format!("call {place} in order {order}");
            assert_eq!(found.map(&key).as_ref(), wanted, "{what}");
            assert_eq!(left.len(), expected.len(), "what is left after {what}");
        }
        assert_eq!(left.last().map(&key).as_ref(), expected.last());
    }
}

#[test]
fn events_and_walks_go_each_way() {
    let com = Com::new(1);
    let (mut session, subjects) = chain(&com, 6);
    let ticket = ticket(&mut session, &subjects[5]);
    goes_each_way(
        || ticket.walk().expect("a walk"),
        &subjects,
        |block| block.subject(),
    );
    let store = Store::new(&com.committee, Limits::default()).expect("a store");
    let mut session = store.session().expect("a session");
    let answers = [1, 2, 3, 4, 5, 6].map(|_| session.status().expect("a status"));
    let history = answers[5].history();
    goes_each_way(
        || history.events(),
        &[1, 2, 3, 4, 5, 6],
        |event| event.number,
    );
}

/// Clones go on where they were cloned.
#[test]
fn clones_of_iterators_go_on_alone() {
    let com = Com::new(1);
    let (mut session, subjects) = chain(&com, 6);
    let ticket = ticket(&mut session, &subjects[5]);
    let (mut walk, mut events) = (ticket.walk().expect("a walk"), ticket.history().events());
    let _ = (walk.next(), walk.next_back(), events.next());
    let (kept, kept_events) = (walk.clone(), events.clone());
    assert_eq!((walk.by_ref().count(), events.by_ref().count()), (4, 12));
    assert!(
        kept.map(|block| block.subject())
            .eq(subjects[1..5].iter().copied())
    );
    assert_eq!((kept_events.len(), walk.len()), (12, 0));
    let block = ticket.walk().expect("a walk").next().expect("a block");
    let mut transactions = block.transactions();
    assert_eq!(transactions.clone().count(), transactions.by_ref().count());
}

/// `walk_after` lists what only the later ticket lists, for each two of many tickets.
#[test]
fn a_walk_after_another_lists_the_rest() {
    let com = Com::new(4);
    let store = Store::new(&com.committee, Limits::default()).expect("a store");
    let mut session = store.session().expect("a session");
    let (mut before, mut tickets): (Vec<(u16, Digest)>, Vec<Ticket>) = Default::default();
    for round in 0..3 {
        let mut parents = Vec::new();
        for author in 0..4 {
            let mut own = before.clone();
            if round > 0 {
                own.remove(usize::from(author));
            }
            let (message, subject) = com.block(author, round, &own, &[]);
            for message in [message, com.certificate(&subject, &[0, 1, 2])] {
                match checked(&com, &message) {
                    Checked::Block(block) => drop(session.write(&block).expect("a write")),
                    Checked::Certificate(one) => {
                        drop(session.certify(&one).expect("a certificate"))
                    }
                    Checked::Vote(vote) => panic!("{vote:?}"),
                }
            }
            parents.push((author, subject.digest));
            tickets.push(ticket(&mut session, &subject));
        }
        before = parents;
        if round == 1 {
            let _ = session.collect(1).expect("a collection");
        }
    }
    for earlier in &tickets {
        let seen: HashSet<_> = earlier
            .walk()
            .expect("a walk")
            .map(|block| block.subject())
            .collect();
        for later in &tickets {
            let all = later.walk().expect("a walk").map(|block| block.subject());
            let rest: Vec<_> = all.filter(|subject| !seen.contains(subject)).collect();
            let after = later.walk_after(earlier).expect("a walk");
            assert!(after.iter().map(Block::subject).eq(rest));
        }
    }
}

#[test]
fn tickets_of_two_blocks_or_garbage_rounds_are_not_compared() {
    let com = Com::new(1);
    let (mut session, subjects) = chain(&com, 3);
    let [low, high, again] = [1, 2, 2].map(|round: usize| ticket(&mut session, &subjects[round]));
    assert_eq!(high.agrees(&again), Ok(true));
    assert_eq!(high.agrees(&low), Err(AgreeError::NotComparable));
    let _ = session.collect(1).expect("a collection");
    let collected = ticket(&mut session, &subjects[2]);
    assert_eq!(high.agrees(&collected), Err(AgreeError::NotComparable));
    assert_eq!((high.garbage_round(), collected.garbage_round()), (0, 1));
}

/// A store with some sessions.
fn sessions(com: &Com, count: usize) -> (Store, Vec<Session>) {
    let store = Store::new(&com.committee, Limits::default()).expect("a store");
    let sessions = (0..count).map(|_| store.session().expect("a session"));
    let sessions = sessions.collect();
    (store, sessions)
}

fn numbers(sessions: &[Session]) -> Vec<u16> {
    sessions.iter().map(Session::id).collect()
}

/// The sessions do not settle, for this reason, and come back.
fn does_not_settle(sessions: Vec<Session>, why: SettleError) -> Vec<Session> {
    let refused = Store::settle(sessions).expect_err("sessions that do not settle");
    assert_eq!((refused.why(), refused.to_string()), (why, why.to_string()));
    refused.into_sessions()
}

#[test]
fn only_all_sessions_of_one_store_settle() {
    let com = Com::new(1);
    let (store, mut own) = sessions(&com, 3);
    let (_, mut others) = sessions(&com, 3);
    for session in &mut own {
        let _ = session.status().expect("a status");
    }
    assert!(does_not_settle(Vec::new(), SettleError::Missing).is_empty());
    for place in 0..3 {
        let left_out = own.remove(place);
        own = does_not_settle(own, SettleError::Missing);
        assert!(!numbers(&own).contains(&left_out.id()) && own.len() == 2);
        // A session of another store with the missing number, or with any other one.
        for number in 0..3 {
            own.push(others.remove(number));
            own = does_not_settle(own, SettleError::OtherStore);
            // The sort is stable, so the other store's session is after the own one of its number.
            let at = numbers(&own)
                .iter()
                .rposition(|id| usize::from(*id) == number);
            others.insert(number, own.remove(at.expect("the other session")));
        }
        own.insert(place, left_out);
    }
    assert_eq!((numbers(&own), store.events()), (vec![0, 1, 2], 3));
    others.append(&mut own);
    let mut mixed = does_not_settle(others, SettleError::OtherStore);
    assert_eq!(numbers(&mixed), [0, 0, 1, 1, 2, 2]);
    mixed
        .iter_mut()
        .for_each(|one| drop(one.status().expect("a status")));
    assert_eq!(store.events(), 6, "a session that came back is another one");
}

#[test]
fn sessions_settle_in_any_order_and_go_on() {
    let com = Com::new(1);
    let (store, mut own) = sessions(&com, 3);
    for round in 1..=4 {
        for at in [2, 0, 0] {
            let _ = own[at].collect(round).expect("a collection");
        }
        own.rotate_left(1);
        let settled = Store::settle(own).expect("all sessions");
        assert_eq!(settled.history().len(), 3 * round as usize);
        let journals = (0..3).flat_map(|id| settled.journal(id));
        assert_eq!(journals.count(), 3 * round as usize);
        assert_eq!(settled.journal(3).count(), 0);
        for (number, event) in (1..).zip(settled.journal(2)) {
            let (call, reply) = (Call::Collect(number), Reply::Raised { dropped: 0 });
            let (session, number) = (2, number as u32);
            assert_eq!(
                event,
                Event {
                    session,
                    number,
                    call,
                    reply
                }
            );
        }
        own = settled.into_sessions();
        assert_eq!(numbers(&own), [0, 1, 2]);
    }
    let (same, mut own) = Store::settle(own)
        .expect("all sessions")
        .reopen()
        .expect("memory");
    assert_eq!((same.events(), store.events()), (0, 0));
    assert_eq!(own[1].status().expect("a status").reply().garbage_round, 4);
    assert_eq!((same.events(), store.events()), (1, 1));
    let settled = Store::settle(own).expect("all sessions");
    assert_eq!(settled.history().len(), 1);
}

/// A checked block of member 1 for round 0.
fn first_block(com: &Com, transaction: &[u8]) -> CheckedBlock {
    let (message, _) = com.block(1, 0, &[], &[transaction.to_vec()]);
    match checked(com, &message) {
        Checked::Block(block) => block,
        other => panic!("{other:?}"),
    }
}

/// One session ends the run while the others are in use. A look, a note and a hearing take them into the new run, and are no calls.
#[test]
fn a_restart_ends_the_run_of_all_sessions() {
    let com = Com::new(2);
    let (store, own) = sessions(&com, 3);
    let [mut one, mut other, mut third] = <[Session; 3]>::try_from(own).expect("three");
    let block = first_block(&com, b"one");
    let answer = one.write(&block).expect("a write");
    let early = third.note().expect("a note");
    assert_eq!((one.run(), other.run(), store.events()), (0, 0, 1));
    let ended = other.restart().expect("a restart");
    assert_eq!((one.run(), other.run(), store.events()), (0, 1, 0));
    assert!(answer.history().is_prefix_of(ended.history()));
    assert_eq!((ended.history().len(), ended.events().count()), (1, 1));

    assert_eq!(one.look(0, 1).first, Some(block.subject().digest));
    assert_eq!(third.hear(&early), Ok(false), "a note of the ended run");
    assert_eq!(third.hear(&ended), Ok(false), "the last history");
    let empty = third.note().expect("a note");
    assert_eq!((one.run(), third.run(), store.events()), (1, 1, 0));
    assert!(empty.history().is_empty());
    assert_eq!(other.hear(&empty), Ok(true));
    // A session of an ended run hears a note of the present one.
    let present = other.restart().and_then(|_| other.note()).expect("a note");
    assert_eq!((one.run(), one.hear(&present)), (1, Ok(true)));
    assert_eq!(one.run(), 2);
    // Two restarts in a row, and one by a session of an ended run.
    let _ = third.status().expect("a status");
    assert_eq!(other.restart().expect("a restart").history().len(), 1);
    assert!(one.restart().expect("a restart").history().is_empty());
    assert_eq!((one.run(), other.run(), store.changes()), (4, 3, 1));
    let _ = other.status().expect("a status");
    assert_eq!((other.run(), store.events()), (4, 1));
}

#[test]
fn a_note_of_another_store_is_not_heard() {
    let com = Com::new(1);
    let (store, mut own) = sessions(&com, 2);
    let (_, mut others) = sessions(&com, 1);
    let _ = own[0].collect(1).expect("a collection");
    let _ = others[0].collect(2).expect("a collection");
    let [note, foreign] =
        [&mut own[0], &mut others[0]].map(|session| session.note().expect("a note"));
    assert_eq!(own[1].hear(&foreign), Ok(false));
    assert_eq!(own[1].hear(&note), Ok(true));
    let clone = note.clone();
    let answer = thread::spawn(move || (own[1].status(), own)).join();
    let (answer, _) = answer.expect("no panic");
    let answer = answer.expect("a status");
    assert!(clone.history().is_prefix_of(answer.history()));
    assert!(!foreign.history().is_prefix_of(answer.history()));
    let last = clone.events().next_back().map(|event| event.call);
    assert_eq!((last, store.events()), (Some(Call::Collect(1)), 2));
}

/// Threads compare the same two notes, in both orders.
#[test]
fn threads_that_share_notes_do_not_wait_for_ever() {
    let com = Com::new(1);
    let (_, mut own) = sessions(&com, 1);
    let early = own[0].note().expect("a note");
    let _ = own[0].status().expect("a status");
    let late = own[0].note().expect("a note");
    let compare = |one: &Note, other: &Note, is_prefix: bool| {
        for _ in 0..20_000 {
            assert_eq!(one.history().is_prefix_of(other.history()), is_prefix);
        }
    };
    thread::scope(|scope| {
        scope.spawn(|| compare(&early, &late, true));
        scope.spawn(|| compare(&late, &early, false));
        scope.spawn(|| compare(&late.clone(), &late, true));
    });
}

#[test]
fn a_new_run_has_the_votes_and_none_of_the_calls_before() {
    let com = Com::new(2);
    let (_, own) = sessions(&com, 2);
    let [mut one, mut other] = <[Session; 2]>::try_from(own).expect("two");
    let (first, twin) = (first_block(&com, b"one"), first_block(&com, b"other"));
    let answer = one.write(&first).expect("a write");
    assert_eq!(answer.reply(), &WriteReply::Stored { vote: true });
    drop(other.restart().expect("a restart"));
    let again = one.write(&twin).expect("a write");
    let voted = first.subject().digest;
    assert_eq!(again.reply(), &WriteReply::Equivocates(voted));
    let call = Event {
        session: 0,
        number: 1,
        call: Call::Write(twin.subject().digest),
        reply: Reply::Equivocates(voted),
    };
    assert!(again.history().events().eq([call]));
    assert!(!answer.history().is_prefix_of(again.history()));
    assert_eq!(answer.history().len(), 1, "an answer of the ended run");
}

/// The library of another interface does not link: the crate refers to the function that is named for its own.
#[test]
fn the_program_refers_to_the_interface_of_its_library() {
    let path = std::env::current_exe().expect("a path");
    let program = std::fs::read(path).expect("a program");
    let name = b"nw_interface_";
    let ends = |part: &[u8]| part.starts_with(name) && part[name.len()].is_ascii_digit();
    assert!(program.windows(name.len() + 1).any(ends));
}

//! Tests that fail each allocation of the library in turn, and tests that count what is not freed.

use crate::ffi::Handle;
use crate::lock::{Rank, tests::is_held};
use crate::raw::Empty;
use crate::settled::Given;
use crate::{
    AgreeError, Block, BlockError, Causal, CheckError, Checked, CheckedBlock, CheckedCertificate,
    CheckedVote, Committee, CommitteeError, Digest, Gather, GatherError, History, Limits, NoMemory,
    OpenError, Reply, Session, SettleError, Status, StepError, Store, Subject, Ticket,
};
use lab::Com;
use std::cell::Cell;
use std::ffi::c_void;
use std::fmt::Debug;
use std::panic::{AssertUnwindSafe, catch_unwind};
use std::ptr;

#[path = "../examples/data/mod.rs"]
pub(crate) mod data;
#[path = "../tests/lab/mod.rs"]
mod lab;

thread_local! {
    /// The allocation of this thread that fails: 1 is the next one, and 0 is none.
    static FAILS: Cell<usize> = const { Cell::new(0) };
    /// The bytes that this thread allocated, without those that it freed.
    static LIVE: Cell<isize> = const { Cell::new(0) };
    /// The bytes that this thread freed in its turns. Only a debug build counts them.
    static FREED_IN_TURN: Cell<isize> = const { Cell::new(0) };
}

/// Counts bytes that were allocated, or fewer than none that were freed.
pub(crate) fn note(bytes: isize) {
    LIVE.set(LIVE.get() + bytes);
    if bytes < 0 && is_held(Rank::Turn) {
        FREED_IN_TURN.set(FREED_IN_TURN.get() - bytes);
    }
}

/// An allocator of which the chosen allocation fails.
pub(crate) fn failing(
    allocate: impl FnOnce(usize) -> *mut c_void,
) -> impl FnOnce(usize) -> *mut c_void {
    let fails = FAILS.get();
    FAILS.set(fails.saturating_sub(1));
    move |size| match fails {
        1 => ptr::null_mut(),
        _ => allocate(size),
    }
}

/// A store that has some messages, and the messages to come.
struct World {
    committee: Committee,
    store: Store,
    session: Session,
    other: Session,
    block: CheckedBlock,
    certificate: CheckedCertificate,
    /// A complete digest.
    leader: Digest,
    tickets: [Ticket; 2],
    votes: Vec<CheckedVote>,
}

impl World {
    /// A store that has all messages except the last block and the last certificate.
    fn new() -> World {
        let committee = Committee::equal(&data::keys()).unwrap();
        let store = Store::new(&committee, Limits::default()).unwrap();
        let mut session = store.session().unwrap();
        let (mut blocks, mut certificates) = (Vec::new(), Vec::new());
        for checked in committee.check_all(&data::values("message"), 1) {
            match checked.unwrap() {
                Checked::Block(block) => blocks.push(block),
                Checked::Certificate(certificate) => certificates.push(certificate),
                Checked::Vote(vote) => panic!("{vote:?}"),
            }
        }
        let (block, certificate) = (blocks.pop().unwrap(), certificates.pop().unwrap());
        let mut write = |block| session.write(block).unwrap();
        blocks.iter().for_each(|block| drop(write(block)));
        let mut certify = |certificate| session.certify(certificate).unwrap();
        certificates.iter().for_each(|one| drop(certify(one)));
        let leader = certificates.last().unwrap().subject().digest;
        let mut ticket = || session.causal(&leader).unwrap().into_ticket().unwrap();
        let votes = committee.check_all(&data::values("vote"), 1).into_iter();
        let vote = |checked| match checked {
            Ok(Checked::Vote(vote)) => vote,
            other => panic!("{other:?}"),
        };
        World {
            tickets: [ticket(), ticket()],
            votes: votes.map(vote).collect(),
            committee,
            other: store.session().unwrap(),
            store,
            session,
            block,
            certificate,
            leader,
        }
    }

    fn status(&mut self) -> Status {
        self.session.status().unwrap().into_reply()
    }
}

/// Refuses each allocation of the call in turn. A call that fails must leave the store as it was,
/// and succeed when it is repeated.
#[track_caller]
fn fail_each<T: Debug + PartialEq, E: Debug + PartialEq>(
    no_memory: E,
    call: impl Fn(&mut World) -> Result<T, E>,
) {
    let wanted = call(&mut World::new());
    assert!(wanted.is_ok(), "{wanted:?}");
    for number in 1.. {
        let mut world = World::new();
        let (before, events) = (world.status(), world.store.events());
        FAILS.set(number);
        let outcome = call(&mut world);
        if FAILS.replace(0) > 0 {
            assert_eq!(outcome, wanted);
            assert!(number > 1, "the call makes no allocation");
            return;
        }
        if let Err(error) = outcome {
            assert_eq!(error, no_memory);
            assert_eq!(world.store.events(), events);
            assert_eq!(world.status(), before);
            assert_eq!(call(&mut world), wanted);
        }
    }
}

#[test]
fn committees_and_stores() {
    fail_each(CommitteeError::NoMemory, |_| {
        Committee::equal(&data::keys()).map(|committee| committee.quorum())
    });
    fail_each(OpenError::NoMemory, |world| {
        Store::new(&world.committee, Limits::default()).map(|store| store.events())
    });
    fail_each(OpenError::NoMemory, |world| {
        world.store.session().map(|session| session.id())
    });
    fail_each(NoMemory, |world| world.session.restart().map(drop));
}

#[test]
fn checks() {
    for message in [0, 1] {
        let message = data::values("message").remove(message);
        fail_each(CheckError::NoMemory, |world| {
            let checked = world.committee.check(&message)?;
            Ok(format!("{checked:?}"))
        });
    }
    // Without memory for a handle of the committee, nothing is checked.
    let (world, messages) = (World::new(), data::values("message"));
    FAILS.set(1);
    let all = world.committee.check_all(&messages, 1);
    assert_eq!(FAILS.replace(0), 0);
    assert_eq!(all, vec![Err(CheckError::NoMemory); messages.len()]);
    fail_each(BlockError::NoMemory, |_| {
        Block::new(0, 1, &[(0, Digest([1; 32]))], &["x"]).map(drop)
    });
}

#[test]
fn gathering() {
    fail_each(GatherError::NoMemory, |world| {
        let mut gather = Gather::new(&world.committee, &world.votes[0].subject())?;
        for vote in &world.votes {
            gather.add(vote)?;
        }
        gather
            .certificate()
            .map(|certificate| certificate.subject())
    });
}

#[test]
fn writes_and_certificates() {
    let no_memory = StepError::NoMemory;
    fail_each(no_memory, |world| {
        Ok(*world.session.write(&world.block)?.reply())
    });
    fail_each(no_memory, |world| {
        Ok(*world.session.certify(&world.certificate)?.reply())
    });
}

#[test]
fn other_steps() {
    let no_memory = StepError::NoMemory;
    fail_each(no_memory, |world| Ok(*world.session.collect(1)?.reply()));
    fail_each(no_memory, |world| {
        Ok(world.session.missing(9)?.into_reply())
    });
    fail_each(no_memory, |world| {
        Ok(world.session.missing_of(&world.leader)?.into_reply())
    });
    fail_each(no_memory, |world| Ok(*world.session.status()?.reply()));
}

#[test]
fn notes() {
    fail_each(NoMemory, |world| world.session.note().map(drop));
}

/// The call takes its session into the new run first.
#[test]
fn calls_after_a_restart_of_another_session() {
    for number in 1.. {
        let mut world = World::new();
        drop(world.other.restart().unwrap());
        FAILS.set(number);
        let outcome = world.session.status().map(drop);
        if FAILS.replace(0) > 0 {
            assert_eq!(outcome, Ok(()));
            assert!(number > 1, "the call makes no allocation");
            return;
        }
        if let Err(error) = outcome {
            assert_eq!(error, StepError::NoMemory);
            assert_eq!(world.store.events(), 0);
            let _ = world.session.status().unwrap();
        }
        assert_eq!(world.store.events(), 1);
    }
}

/// Each allocation fails until the sessions have settled. Then the sessions are taken back.
#[test]
fn settlements() {
    for number in 1.. {
        let World {
            store,
            session,
            mut other,
            ..
        } = World::new();
        let _ = other.status().unwrap();
        let mut sessions = [session, other];
        FAILS.set(number);
        let mut given = Given::new(&mut sessions).map_err(SettleError::from);
        let settled = given
            .as_mut()
            .map_err(|error| *error)
            .and_then(Given::settle);
        let is_last = FAILS.replace(0) > 0;
        drop(given);
        if let Err(error) = &settled {
            assert_eq!(*error, SettleError::NoMemory);
        }
        let events = store.events();
        sessions
            .iter_mut()
            .for_each(|own| drop(own.status().unwrap()));
        assert_eq!(store.events(), events + 2);
        let again = Store::settle(sessions.into()).unwrap();
        assert_eq!(again.history().len(), events + 2);
        assert_eq!(again.journal(1).count(), 2);
        if is_last {
            assert_eq!(settled.unwrap().history().len(), events);
            assert!(number > 1, "a settlement makes no allocation");
            return;
        }
    }
}

/// Another session ends the run between the settlement's look at it and its end.
#[test]
fn a_run_that_ended_does_not_settle() {
    let World {
        session, mut other, ..
    } = World::new();
    let mut sessions = [session];
    let mut given = Given::new(&mut sessions).unwrap();
    drop(other.restart().unwrap());
    assert_eq!(given.settle().err(), Some(SettleError::Ended));
    drop(given);
    let [session] = sessions;
    let settled = Store::settle(vec![session, other]).unwrap();
    assert!(settled.history().is_empty());
}

/// A settlement that is not reopened gives the sessions back, in the run that they settled.
#[test]
fn reopenings() {
    for number in 1.. {
        let world = World::new();
        let (store, sessions) = (world.store, vec![world.session, world.other]);
        let settled = Store::settle(sessions).unwrap();
        let events = settled.history().len();
        FAILS.set(number);
        let reopened = settled.reopen();
        let is_last = FAILS.replace(0) > 0;
        let (sessions, left) = match reopened {
            Ok((_, sessions)) => (sessions, 0),
            Err(unsettled) => {
                assert_eq!(unsettled.why(), SettleError::NoMemory);
                (unsettled.into_sessions(), events)
            }
        };
        assert_eq!(store.events(), left);
        assert_eq!(Store::settle(sessions).unwrap().history().len(), left);
        if is_last {
            assert!(number > 1 && left == 0);
            return;
        }
    }
}

#[test]
fn looks() {
    fail_each(NoMemory, |world| world.session.look_round(0));
}

#[test]
fn causal_reads() {
    fail_each(StepError::NoMemory, |world| {
        Ok(world.session.causal(&world.leader)?.fault())
    });
    fail_each(NoMemory, |world| Ok(world.tickets[0].walk()?.len()));
    fail_each(AgreeError::NoMemory, |world| {
        let [one, other] = &world.tickets;
        one.agrees(other)
    });
}

#[test]
fn all_is_freed_at_the_end() {
    let before = LIVE.get();
    for _ in 0..2 {
        let mut world = World::new();
        let [one, other] = &world.tickets;
        assert!(one.agrees(other).unwrap());
        drop([(); 3].map(|()| world.session.status().unwrap()));
        let blocks: Vec<Block> = one.walk().unwrap().collect();
        assert!(blocks.iter().all(|block| !block.body().is_empty()));
        let mut gather = Gather::new(&world.committee, &world.votes[0].subject()).unwrap();
        world
            .votes
            .iter()
            .for_each(|vote| assert!(gather.add(vote).is_ok()));
        drop(gather.certificate().unwrap().message());
        drop(world.session.restart().unwrap());
        assert!(
            world
                .session
                .read(&world.leader)
                .unwrap()
                .into_reply()
                .is_some()
        );
        assert!(LIVE.get() > before);
        let settled = Store::settle(vec![world.session, world.other]).unwrap();
        assert_eq!(settled.history().len(), 1);
    }
    assert_eq!(LIVE.get(), before);
}

#[test]
fn a_restart_frees_the_history() {
    let mut world = World::new();
    let mut live_after = |calls: usize| {
        (0..calls).for_each(|_| drop(world.session.status().unwrap()));
        drop(world.session.restart().unwrap());
        LIVE.get()
    };
    let few = live_after(1);
    assert_eq!(live_after(1000), few);
}

/// The bytes in use after this, without those in use before.
fn live_after<T>(run: impl FnOnce() -> T) -> (T, isize) {
    let before = LIVE.get();
    let result = run();
    (result, LIVE.get() - before)
}

/// Each of ten runs has eight blocks of 100 KB. Of each run, two blocks are kept, and never used: one
/// that was read, and one of a walk.
#[test]
fn a_block_keeps_only_itself() {
    let com = Com::new(1);
    let store = Store::new(&com.committee, Limits::default()).unwrap();
    let mut session = store.session().unwrap();
    let mut parent = None;
    let mut run = |first: u64| {
        let mut kept = Vec::new();
        for round in first..first + 8 {
            let parents: Vec<_> = parent.map(|digest| (0, digest)).into_iter().collect();
            let texts = [vec![round as u8; 50_000], vec![7; 50_000]];
            let (message, subject) = com.block(0, round, &parents, &texts);
            for message in [message, com.certificate(&subject, &[0])] {
                match com.committee.check(&message).unwrap() {
                    Checked::Block(block) => drop(session.write(&block).unwrap()),
                    Checked::Certificate(one) => drop(session.certify(&one).unwrap()),
                    Checked::Vote(vote) => panic!("{vote:?}"),
                }
            }
            let read = session.read(&subject.digest).unwrap().into_reply();
            kept.push(read.unwrap());
            parent = Some(subject.digest);
        }
        let causal = session.causal(&parent.unwrap()).unwrap();
        let mut walk = causal.into_ticket().unwrap().walk().unwrap();
        kept.truncate(1);
        kept.extend(walk.nth(1));
        let _ = session.collect(first + 8).unwrap();
        drop(session.restart().unwrap());
        store.compact().unwrap();
        kept
    };
    let (kept, live) = live_after(|| (0..10).flat_map(|place| run(8 * place)).collect::<Vec<_>>());
    assert_eq!(kept.len(), 20);
    let bytes = 20 * 100_000;
    assert!(
        (bytes..bytes * 5 / 4).contains(&live),
        "{live} bytes for {bytes}"
    );
    let (_, live) = live_after(|| drop(kept));
    assert!(live < -bytes, "{live} bytes were freed");
}

/// A call that restarts the history frees the old one after its turn.
#[test]
fn a_history_is_freed_after_the_turn() {
    let com = Com::new(1);
    let builder = Store::builder(&com.committee).restart_when(u64::MAX, 2);
    let store = builder.open().unwrap();
    let mut session = store.session().unwrap();
    let (message, _) = com.block(0, 0, &[], &vec![vec![7; 60_000]; 15]);
    let Checked::Block(block) = com.committee.check(&message).unwrap() else {
        panic!("the message is a block");
    };
    let _ = session.write(&block).unwrap();
    drop(block);
    let _ = session.collect(1).unwrap();
    store.compact().unwrap();
    let before = FREED_IN_TURN.get();
    let (_, live) = live_after(|| session.status().unwrap());
    assert!(live < -900_000, "{live} bytes of a history were freed");
    let freed = FREED_IN_TURN.get() - before;
    assert!(freed < 100_000, "{freed} bytes were freed in the turn");
}

/// Nothing stays of an answer that is dropped, and of a session that is dropped nothing large.
#[test]
fn a_dropped_answer_leaves_nothing() {
    let com = Com::new(1);
    let store = Store::new(&com.committee, Limits::default()).unwrap();
    let mut session = store.session().unwrap();
    let (message, _) = com.block(0, 0, &[], &vec![vec![7; 60_000]; 15]);
    let ((), live) = live_after(|| {
        let Checked::Block(block) = com.committee.check(&message).unwrap() else {
            panic!("the message is a block");
        };
        let answers = [session.write(&block), session.write(&block)];
        let status = session.status().unwrap();
        let _ = session.collect(1).unwrap();
        drop(session.restart().unwrap());
        store.compact().unwrap();
        drop((answers, status, session));
    });
    assert!(live < 10_000, "{live} bytes stay");
}

/// A closed handle, which no part of the library can be read from.
pub(crate) fn closed() -> Handle {
    let mut handle = Handle::answer().unwrap();
    drop(handle.take());
    handle
}

/// Decodes what cannot be read. That must panic, and not give an empty value.
#[track_caller]
pub(crate) fn refuses<T>(decode: impl FnOnce() -> T) {
    let Err(panic) = catch_unwind(AssertUnwindSafe(|| drop(decode()))) else {
        panic!("what cannot be read was decoded");
    };
    let text = panic.downcast_ref::<String>().unwrap();
    let begin = "the linked library does not match narwhal-store: it answered code ";
    assert!(text.starts_with(begin), "{text}");
}

#[test]
fn what_cannot_be_read_is_not_empty() {
    refuses(|| History::new(closed()).len());
    refuses(|| History::new(closed()).event(0));
    refuses(|| History::new(closed()).is_prefix_of(&History::new(closed())));
    refuses(|| Ticket::new(closed()).digest());
    refuses(|| Ticket::new(closed()).walk());
    refuses(|| Causal::of(closed()));
    refuses(|| Reply::read(&mut closed()));
    refuses(|| CheckedCertificate::of(closed(), Subject::EMPTY));
    let certificate = World::new().certificate;
    drop(certificate.text.handle.lock().take());
    refuses(|| certificate.signers());
}

/// Refuses each allocation of a call that is about to restart the history. Returns the outcomes,
/// with the events after each.
fn restarting_calls(limits: Limits, bytes: u64) -> Vec<(Option<StepError>, usize)> {
    let committee = Committee::equal(&data::keys()).unwrap();
    let mut outcomes = Vec::new();
    for number in 1.. {
        let builder = Store::builder(&committee).limits(limits);
        let store = builder.restart_when(bytes, u32::MAX).open().unwrap();
        let mut session = store.session().unwrap();
        (0..4).for_each(|_| drop(session.status().unwrap()));
        FAILS.set(number);
        let outcome = session.status().map(drop).err();
        let is_last = FAILS.replace(0) > 0;
        outcomes.push((outcome, store.events()));
        let _ = session.status().unwrap();
        if is_last {
            break;
        }
    }
    outcomes
}

#[test]
fn automatic_restarts() {
    // A bound on bytes is advisory: without memory for the restart, the call goes on.
    let outcomes = restarting_calls(Limits::default(), 600);
    // The first allocation is that of the room for the answer, and the second that of the restart.
    assert_eq!(outcomes[0], (Some(StepError::NoMemory), 4));
    assert_eq!(outcomes[1], (None, 5));
    assert_eq!(outcomes.last(), Some(&(None, 1)));
    let full = Limits {
        events: 4,
        ..Limits::default()
    };
    let outcomes = restarting_calls(full, u64::MAX);
    assert_eq!(outcomes[..2], [(Some(StepError::NoMemory), 4); 2]);
    assert_eq!(outcomes.last(), Some(&(None, 1)));
}

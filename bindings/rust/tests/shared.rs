//! Threads that share values: each value has one handle of the library, on which calls must not overlap.
//!
//! A debug build ends the process if two calls use one handle at once, or if a thread takes two locks in the wrong order. Run these tests in
//! both kinds of build.

mod lab;

use lab::Com;
use narwhal_store::{
    Block, Checked, CheckedBlock, CheckedCertificate, CheckedVote, Event, Gather, Limits, Note,
    Session, Signature, Store, Subject, Walk,
};
use std::collections::HashSet;
use std::panic::{AssertUnwindSafe, catch_unwind};
use std::sync::{Barrier, Condvar, Mutex};
use std::thread::{self, ThreadId};
use std::time::Duration;

const THREADS: usize = 4;
/// How often each thread uses a value.
const USES: usize = 100;

/// One value of each kind.
struct Values {
    com: Com,
    store: Store,
    /// The message of a block, of its certificate and of a vote for it.
    messages: [Vec<u8>; 3],
    block: CheckedBlock,
    certificate: CheckedCertificate,
    vote: CheckedVote,
    notes: [Note; 2],
    events: Vec<Event>,
    walk: Walk,
    subjects: Vec<Subject>,
}

impl Values {
    /// A store of one member with a chain of five complete blocks.
    fn new() -> Values {
        let com = Com::new(1);
        let limits = Limits {
            sessions: 256,
            ..Limits::default()
        };
        let builder = Store::builder(&com.committee).limits(limits);
        let store = builder.open().expect("a store");
        let mut session = store.session().expect("a session");
        let (mut subjects, mut notes, mut made) = (Vec::<Subject>::new(), Vec::new(), None);
        for round in 0..5 {
            notes.push(session.note().expect("a note"));
            let parents: Vec<_> = subjects
                .last()
                .map(|last| (0, last.digest))
                .into_iter()
                .collect();
            let (message, subject) = com.block(0, round, &parents, &[vec![7; 100], vec![1]]);
            let messages = [
                message,
                com.certificate(&subject, &[0]),
                com.vote(&subject, 0),
            ];
            let checked = messages.each_ref().map(|message| check(&com, message));
            let [
                Checked::Block(block),
                Checked::Certificate(certificate),
                Checked::Vote(vote),
            ] = checked
            else {
                panic!("{checked:?}");
            };
            let _ = session.write(&block).expect("a write");
            let _ = session.certify(&certificate).expect("a certificate");
            subjects.push(subject);
            made = Some((messages, block, certificate, vote));
        }
        let last = session.note().expect("a note");
        let causal = session.causal(&subjects[4].digest).expect("a causal read");
        let (messages, block, certificate, vote) = made.expect("five blocks");
        Values {
            walk: causal
                .into_ticket()
                .expect("a ticket")
                .walk()
                .expect("a walk"),
            events: last.events().collect(),
            notes: [notes.swap_remove(2), last],
            com,
            store,
            messages,
            block,
            certificate,
            vote,
            subjects,
        }
    }

    /// All threads do this at once, each with a session of its own.
    fn in_threads(&self, act: impl Fn(&mut Session) + Sync) {
        let start = Barrier::new(THREADS);
        let work = || {
            let mut session = self.store.session().expect("a session");
            start.wait();
            (0..USES).for_each(|_| act(&mut session));
        };
        thread::scope(|scope| (0..THREADS).for_each(|_| drop(scope.spawn(work))));
    }
}

fn check(com: &Com, message: &[u8]) -> Checked {
    com.committee.check(message).expect("a message")
}

#[test]
fn threads_share_a_committee_and_a_store() {
    let values = Values::new();
    let messages = values.messages.each_ref();
    values.in_threads(|_| {
        let checked = messages.map(|message| check(&values.com, message));
        assert!(matches!(&checked[0], Checked::Block(block) if *block == values.block));
    });
    let builder = Store::builder(&values.com.committee).without_turns();
    let without_turns = builder.open().expect("a store");
    for store in [&values.store, &without_turns] {
        values.in_threads(|_| {
            let session = store.session().expect("a session");
            store.compact().expect("memory");
            assert_eq!(session.run(), 0);
        });
    }
}

#[test]
fn threads_share_blocks() {
    let values = Values::new();
    let (body, signature) = (values.block.block().body(), Signature([7; 64]));
    let whole = |block: &Block| {
        assert_eq!(
            block.message(&signature),
            [&[1], &body[..], &[7; 64]].concat()
        );
        assert_eq!(
            (block.body(), block.clone().digest()),
            (body.clone(), values.subjects[4].digest)
        );
    };
    let block = values.block.block();
    values.in_threads(|_| whole(&block));
    // The first use of the parents copies them, by one thread.
    let fresh: Vec<_> = (0..USES).map(|_| values.block.block()).collect();
    values.in_threads(|_| {
        for block in &fresh {
            assert_eq!(block.body(), body);
            assert_eq!(block.parents(), [(0, values.subjects[3].digest)]);
            assert!(block.transactions().eq([&[7; 100][..], &[1]]));
        }
    });
}

#[test]
fn threads_share_checked_messages() {
    let values = Values::new();
    let Values {
        block,
        certificate,
        vote,
        messages,
        ..
    } = &values;
    let other = Store::new(&values.com.committee, Limits::default()).expect("a store");
    values.in_threads(|session| {
        assert_eq!(
            [block.message(), certificate.message(), vote.message()],
            *messages
        );
        assert_eq!(
            (block.block().subject(), certificate.signers()),
            (block.subject(), vec![0])
        );
        let mut gather = Gather::new(&values.com.committee, &vote.subject()).expect("a gatherer");
        assert_eq!(gather.add(vote), Ok(true));
        let mut others = other.session().expect("a session");
        for session in [session, &mut others] {
            let _ = session.write(block).expect("a write");
            let _ = session.certify(certificate).expect("a certificate");
        }
    });
}

#[test]
fn threads_share_notes_and_walks() {
    let values = Values::new();
    let [early, late] = &values.notes;
    values.in_threads(|session| {
        assert!(early.history().is_prefix_of(late.history()));
        assert!(!late.history().is_prefix_of(early.history()));
        assert_eq!(
            (early.history().len(), late.history().event(9)),
            (4, Some(values.events[9]))
        );
        assert!(late.events().eq(values.events.iter().copied()));
        assert_eq!(session.hear(late), Ok(true));
        assert!(
            values
                .walk
                .clone()
                .map(|block| block.subject())
                .eq(values.subjects.iter().copied())
        );
    });
}

/// A message that waits for a second thread, and then panics in the thread that did not call.
struct Panics<'a>(&'a Mutex<HashSet<ThreadId>>, &'a Condvar, ThreadId);

impl AsRef<[u8]> for Panics<'_> {
    fn as_ref(&self) -> &[u8] {
        let mut seen = self.0.lock().expect("no panic under the lock");
        seen.insert(thread::current().id());
        self.1.notify_all();
        let alone = |seen: &mut HashSet<ThreadId>| seen.len() < 2;
        drop(
            self.1
                .wait_timeout_while(seen, Duration::from_secs(60), alone),
        );
        assert_eq!(thread::current().id(), self.2, "a worker panics");
        &[]
    }
}

#[test]
fn a_panic_of_a_worker_is_that_of_its_caller() {
    let (com, seen, met) = (Com::new(1), Mutex::default(), Condvar::new());
    let messages = [(); 2].map(|()| Panics(&seen, &met, thread::current().id()));
    let all = || com.committee.check_all(&messages, 2);
    catch_unwind(AssertUnwindSafe(all)).expect_err("the panic of a worker is lost");
}

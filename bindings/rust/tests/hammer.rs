//! Several threads make every call of one store at once, and every answer must fit into one order of all calls.
//!
//! The tests look for races in the Rust layer: a lock that is released too early, or that is not taken. They take a few seconds. A race
//! appears by chance, so one run can miss a fault.
//!
//! The threads of a store wait for their turns at a lock of the Rust layer. No answer rests on that lock, so the tests pass without it too.

mod lab;

use lab::Com;
use narwhal_store::{Call, Causal, Checked, Event, History, Limits, Reply};
use narwhal_store::{Session, Store, Subject, WriteReply};
use std::collections::{BTreeMap, HashMap};
use std::hash::{DefaultHasher, Hash, Hasher};
use std::sync::atomic::{AtomicBool, Ordering};
use std::sync::{Barrier, Mutex};
use std::thread;

const THREADS: usize = 4;
/// How many calls each thread makes. All of them fit into the largest history.
const CALLS: usize = if cfg!(debug_assertions) { 400 } else { 15_000 };
const MEMBERS: u16 = 4;
const ROUNDS: u64 = 8;
/// The round that the callers collect to.
const FLOOR: u64 = 2;
/// How many sessions each thread makes.
const SESSIONS: usize = 40;

/// Whether the threads of a store wait for their turns.
#[derive(Clone, Copy, PartialEq, Eq)]
enum Turns {
    Taken,
    /// A thread calls again while the library is busy.
    NotTaken,
}

/// The blocks of all members and rounds, and their certificates.
struct Network {
    com: Com,
    messages: Vec<Vec<u8>>,
    subjects: Vec<Subject>,
}

impl Network {
    fn new() -> Network {
        let com = Com::new(MEMBERS);
        let (mut messages, mut subjects, mut parents) = (Vec::new(), Vec::new(), Vec::new());
        for round in 0..ROUNDS {
            let mut blocks = Vec::new();
            for author in 0..MEMBERS {
                let (message, subject) = com.block(author, round, &parents, &[vec![1; 300]]);
                messages.push(message);
                messages.push(com.certificate(&subject, &[0, 1, 2]));
                blocks.push((author, subject.digest));
                subjects.push(subject);
            }
            parents = blocks;
        }
        Network {
            com,
            messages,
            subjects,
        }
    }

    fn checked(&self) -> Vec<Checked> {
        let check = |message: &Vec<u8>| self.com.committee.check(message);
        let checked = self.messages.iter().map(check);
        checked.map(|checked| checked.expect("a message")).collect()
    }

    fn store(&self, events: u32, turns: Turns) -> Store {
        let limits = Limits {
            events,
            sessions: 256,
            ..Limits::default()
        };
        let builder = Store::builder(&self.com.committee).limits(limits);
        let builder = builder.restart_when(u64::MAX, u32::MAX);
        let builder = match turns {
            Turns::Taken => builder,
            Turns::NotTaken => builder.without_turns(),
        };
        builder.open().expect("a store")
    }
}

/// What a thread learnt from one answer.
struct Seen {
    len: usize,
    /// A hash of the history before this call.
    before: u64,
    /// A hash of the history up to this call.
    after: u64,
}

/// One thread that makes calls, by its own sessions and by those that all threads share.
struct Caller<'a> {
    network: &'a Network,
    shared: &'a [Mutex<Session>],
    own: Vec<Session>,
    checked: Vec<Checked>,
    seen: Vec<Seen>,
    votes: Vec<Subject>,
}

impl<'a> Caller<'a> {
    fn new(network: &'a Network, store: &Store, shared: &'a [Mutex<Session>]) -> Caller<'a> {
        let session = |_| store.session().expect("a session");
        Caller {
            network,
            shared,
            own: (0..SESSIONS).map(session).collect(),
            checked: network.checked(),
            seen: Vec::new(),
            votes: Vec::new(),
        }
    }

    /// Makes one call, which `choice` determines.
    fn call(&mut self, choice: usize) {
        let (own, shared) = (self.own.len(), self.shared.len());
        let mut locked;
        let session = match choice % 3 {
            0 => &mut self.own[choice % own],
            _ => {
                locked = self.shared[choice % shared].lock().expect("no panic");
                &mut locked
            }
        };
        let id = session.id();
        let digest = self.network.subjects[choice % self.network.subjects.len()].digest;
        let seen = match choice % 11 {
            0..4 => match &self.checked[choice / 11 % self.checked.len()] {
                Checked::Block(block) => {
                    let answer = session.write(block).expect("a write");
                    let reply = *answer.reply();
                    if reply == (WriteReply::Stored { vote: true }) {
                        self.votes.push(block.subject());
                    }
                    let call = Call::Write(block.subject().digest);
                    Seen::of(answer.history(), id, call, reply_of(reply))
                }
                Checked::Certificate(certificate) => {
                    let answer = session.certify(certificate).expect("a certificate");
                    let call = Call::Certify(certificate.subject().digest);
                    Seen::of(answer.history(), id, call, None)
                }
                Checked::Vote(_) => unreachable!("the network has no votes"),
            },
            4 => {
                let answer = session.read(&digest).expect("a read");
                let reply = match answer.reply() {
                    Some(block) => {
                        assert_eq!(block.digest(), digest);
                        Reply::Found
                    }
                    None => Reply::Unknown,
                };
                Seen::of(answer.history(), id, Call::Read(digest), Some(reply))
            }
            5 => {
                let answer = session.certificate(&digest).expect("a lookup");
                let found = answer.reply().is_some();
                let reply = if found { Reply::Found } else { Reply::Unknown };
                Seen::of(answer.history(), id, Call::Certificate(digest), Some(reply))
            }
            6 => match session.causal(&digest).expect("a causal read") {
                Causal::Ready(ticket) => {
                    let last = ticket.walk().expect("a walk").last();
                    assert_eq!(last.expect("a block").digest(), digest);
                    Seen::of(
                        ticket.history(),
                        id,
                        Call::Causal(digest),
                        Some(Reply::Ready),
                    )
                }
                Causal::NotReady(answer) => {
                    Seen::of(answer.history(), id, Call::Causal(digest), None)
                }
            },
            7 => {
                let answer = session.missing(choice as u16).expect("a list");
                Seen::of(answer.history(), id, Call::Missing(choice as u16), None)
            }
            8 => {
                let round = if choice % 3 == 0 { FLOOR } else { 0 };
                let answer = session.collect(round).expect("a collection");
                Seen::of(answer.history(), id, Call::Collect(round), None)
            }
            _ => {
                let answer = session.status().expect("a status");
                Seen::of(answer.history(), id, Call::Status, Some(Reply::Status))
            }
        };
        self.seen.push(seen);
    }
}

/// The reply in the history for a reply to a write.
fn reply_of(reply: WriteReply) -> Option<Reply> {
    match reply {
        WriteReply::Stored { vote } => Some(Reply::Stored { vote }),
        WriteReply::Held => Some(Reply::Held),
        WriteReply::Collected { garbage_round } => Some(Reply::Collected { garbage_round }),
        other => panic!("{other:?} to a block of the network"),
    }
}

impl Seen {
    /// Checks the history of an answer. The calls of each session have the numbers 1, 2, 3, .., and the last event is the answered call
    /// with its reply, if that is given.
    fn of(history: &History, session: u16, call: Call, reply: Option<Reply>) -> Seen {
        let (mut calls, mut hasher, mut before) = ([0; 256], DefaultHasher::new(), 0);
        let mut last = None;
        for event in history.events() {
            let number = &mut calls[usize::from(event.session)];
            *number += 1;
            assert_eq!(event.number, *number, "the number of {event:?}");
            before = hasher.finish();
            (event.session, event.number, event.call, event.reply).hash(&mut hasher);
            last = Some(event);
        }
        let last = last.expect("a history is never empty");
        let expected = Event {
            session,
            call,
            reply: reply.unwrap_or(last.reply),
            ..last
        };
        assert_eq!(last, expected, "the last event is the answered call");
        Seen {
            len: history.len(),
            before,
            after: hasher.finish(),
        }
    }
}

/// Runs a store whose history has at most `limit` events. Several threads make calls, while another thread counts the events and compacts
/// the store. If `by_hand` is set, that thread restarts the history too.
fn run(network: &Network, limit: u32, by_hand: bool, turns: Turns) {
    let store = network.store(limit, turns);
    let shared = [(); 2].map(|()| Mutex::new(store.session().unwrap()));
    let mut watching = store.session().unwrap();
    let (start, is_done) = (Barrier::new(THREADS), AtomicBool::new(false));
    let first = shared[0].lock().unwrap().status().expect("the first call");
    let first = Seen::of(first.history(), 0, Call::Status, None);
    let work = |thread: usize| {
        start.wait();
        let mut caller = Caller::new(network, &store, &shared);
        (0..CALLS).for_each(|call| caller.call(7919 * call + 31 * thread));
        caller
    };
    let mut watch = || {
        let mut restarts = 0;
        while !is_done.load(Ordering::Relaxed) {
            for _ in 0..500 {
                let events = store.events();
                // In one turn, an automatic restart and its call are one step, which leaves one event.
                let least = usize::from(!by_hand && turns == Turns::Taken);
                assert!(
                    (least..=limit as usize).contains(&events),
                    "{events} events"
                );
            }
            store.compact().expect("a compaction");
            if by_hand {
                drop(watching.restart().expect("a restart"));
                restarts += 1;
            }
        }
        restarts
    };
    let (callers, restarts) = thread::scope(|scope| {
        let watcher = scope.spawn(&mut watch);
        let callers: Vec<_> = (0..THREADS)
            .map(|thread| scope.spawn(move || work(thread)))
            .collect();
        let callers: Vec<_> = callers.into_iter().map(|caller| caller.join()).collect();
        is_done.store(true, Ordering::Relaxed);
        let callers: Vec<_> = callers
            .into_iter()
            .map(|caller| caller.expect("a caller"))
            .collect();
        (callers, watcher.join().expect("a watcher"))
    });
    check_sessions(&callers);
    check_votes(network, &callers);
    let seen = callers.iter().flat_map(|caller| &caller.seen);
    let seen: Vec<_> = seen.chain([&first]).collect();
    check_chain(&seen);
    check_lengths(&seen, limit as usize, by_hand.then_some(restarts));
}

/// No two sessions have the same number.
fn check_sessions(callers: &[Caller]) {
    let ids = callers
        .iter()
        .flat_map(|caller| &caller.own)
        .map(Session::id);
    let mut ids: Vec<_> = ids.collect();
    ids.sort_unstable();
    assert!(
        ids.into_iter().eq(3..3 + (THREADS * SESSIONS) as u16),
        "the numbers of the sessions"
    );
}

/// Each block above the garbage round got one vote, and each other block at most one.
fn check_votes(network: &Network, callers: &[Caller]) {
    for subject in &network.subjects {
        let votes = callers.iter().flat_map(|caller| &caller.votes);
        let votes = votes.filter(|vote| *vote == subject).count();
        assert!(
            votes == 1 || votes == 0 && subject.round < FLOOR,
            "{votes} votes for {subject:?}"
        );
    }
}

/// Each answer adds its call to the history of another answer, and no history is continued twice.
fn check_chain(seen: &[&Seen]) {
    let mut open: HashMap<u64, usize> = HashMap::new();
    seen.iter()
        .for_each(|seen| *open.entry(seen.after).or_default() += 1);
    for seen in seen.iter().filter(|seen| seen.len > 1) {
        let continued = open.get_mut(&seen.before).filter(|left| **left > 0);
        *continued.expect("a history that no other answer continues") -= 1;
    }
}

/// Without restarts by hand, all histories but the last one are full. With them, each restart cuts one history short.
fn check_lengths(seen: &[&Seen], limit: usize, restarts: Option<usize>) {
    let mut lengths: BTreeMap<usize, usize> = (1..=limit).map(|len| (len, 0)).collect();
    for seen in seen {
        *lengths
            .get_mut(&seen.len)
            .expect("a length within the limit") += 1;
    }
    let (full, rest) = (seen.len() / limit, seen.len() % limit);
    match restarts {
        None => {
            let whole = |len: usize| full + usize::from(len <= rest);
            assert!(
                lengths.iter().all(|(&len, &count)| count == whole(len)),
                "a history was cut short: {lengths:?}"
            );
        }
        Some(restarts) => assert!(
            lengths[&1] - lengths[&limit] <= restarts + 1,
            "{restarts} restarts: {lengths:?}"
        ),
    }
}

#[test]
fn an_automatic_restart_is_part_of_its_call() {
    let network = Network::new();
    for limit in [1, 2, 3, 5, 50] {
        run(&network, limit, false, Turns::Taken);
    }
}

#[test]
fn restarts_by_hand_come_between_calls() {
    let network = Network::new();
    for limit in [3, 200] {
        run(&network, limit, true, Turns::Taken);
    }
}

/// The lock of the Rust layer is replaced by nothing. All answers fit one order of all calls as before.
#[test]
fn no_answer_rests_on_turns() {
    let network = Network::new();
    for limit in [1, 2, 3, 5, 50] {
        run(&network, limit, false, Turns::NotTaken);
    }
    for limit in [3, 200] {
        run(&network, limit, true, Turns::NotTaken);
    }
}

#[test]
fn events_are_counted_between_calls() {
    let network = Network::new();
    for _ in 0..20 {
        count(&network.store(Limits::default().events, Turns::Taken));
    }
}

/// Several threads make calls and count the events. The count is at least the length of each history that was answered before, and below
/// the length of each later one.
fn count(store: &Store) {
    let start = Barrier::new(THREADS);
    let work = || {
        start.wait();
        let mut session = store.session().expect("a session");
        let (mut counted, mut lengths) = (0, Vec::new());
        for _ in 0..CALLS {
            let answer = session.status().expect("a status");
            let len = answer.history().len();
            assert!(counted < len, "{counted} events before {len}");
            counted = store.events();
            assert!(len <= counted, "{counted} events after {len}");
            lengths.push(len);
        }
        lengths
    };
    let mut lengths: Vec<_> = thread::scope(|scope| {
        let threads: Vec<_> = (0..THREADS).map(|_| scope.spawn(work)).collect();
        let threads = threads.into_iter().map(|thread| thread.join());
        threads
            .flat_map(|lengths| lengths.expect("a thread"))
            .collect()
    });
    lengths.sort_unstable();
    let whole = lengths.into_iter().eq(1..=THREADS * CALLS);
    assert!(whole, "each call adds one event");
    assert_eq!(store.events(), THREADS * CALLS);
}

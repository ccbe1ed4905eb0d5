//! Threads that call one store at the same time, each through sessions of its own.
//!
//! A seed determines what each thread does, but not how the threads interleave. The answers are compared with the model afterwards: the
//! last history of a run has the order in which the store took the calls.

use super::answers::{Explained, Got, ask_store, block_of, event_of, look_of};
use super::corpus::{Case, Delivery};
use super::node::RawTagged;
use super::{Draw, Tally};
use crate::model::{Call, Look, Model, Reply};
use narwhal_store::{Event, History, Limits, Note, Session, Settled, StepError, Store};
use std::collections::{BTreeMap, HashMap};
use std::sync::Barrier;
use std::sync::atomic::{AtomicUsize, Ordering};
use std::sync::mpsc::{Receiver, Sender, channel};
use std::thread;

/// The choices of a seed before its run.
struct Plan {
    threads: usize,
    /// How many sessions each thread has.
    sessions: usize,
    calls: u64,
    limits: Limits,
    /// The events at which the store restarts its history. `None` if it never does.
    restart: Option<u32>,
    /// Whether the threads wait for their turns.
    takes_turns: bool,
    /// How many of 1,000 acts end the run.
    ends: u64,
    /// How far the garbage round stays behind the newest round.
    lag: u64,
    /// Whether to deliver the certificates that only a faulty quorum signs.
    faulty: bool,
}

impl Plan {
    fn new(draw: &mut Draw, size: u64) -> Plan {
        let (threads, sessions) = (draw.between(2, 4) as usize, draw.between(1, 2) as usize);
        let (lag, slack) = (draw.between(1, 9), draw.between(2, 8));
        let mut small_or = |small: u64, large| match draw.chance(25) {
            true => small as u32,
            false => large,
        };
        let blocks = small_or((lag + slack) * size, Limits::MAX.blocks);
        let window = small_or(lag + slack, Limits::MAX.window);
        Plan {
            threads,
            sessions,
            calls: draw.between(30, 90),
            limits: Limits {
                blocks,
                window,
                sessions: (threads * sessions) as u32,
                ..Limits::MAX
            },
            restart: draw.chance(40).then(|| draw.between(1, 60) as u32),
            takes_turns: draw.chance(50),
            ends: [0, 0, 15][draw.index(3)],
            lag,
            faulty: draw.chance(30),
        }
    }

    fn store(&self, case: &Case) -> Store {
        let builder = Store::builder(&case.committee).limits(self.limits);
        let builder = match self.restart {
            Some(events) => builder.restart_when(u64::MAX, events),
            None => builder.never_restart(),
        };
        let builder = match self.takes_turns {
            true => builder,
            false => builder.without_turns(),
        };
        builder.open().expect("a store")
    }
}

/// A call of a session, with what it got.
struct Answered {
    run: u64,
    told: RawTagged,
    got: Got,
}

/// A look at a round. The session had made so many calls in the run.
struct Looked {
    run: u64,
    session: u16,
    calls: u32,
    round: u64,
    floor: Option<u64>,
    looks: BTreeMap<u16, Look>,
}

/// The network: the messages in their order, of which each thread takes the next, and the way from thread to thread.
struct Network<'a> {
    plan: &'a Plan,
    order: Vec<&'a Delivery>,
    next: AtomicUsize,
    posts: Vec<Sender<(u64, Note)>>,
    start: Barrier,
}

/// A session with the number of calls that it made in its run, and the last note of the run that it heard.
struct Seat {
    session: Session,
    run: u64,
    calls: u32,
    heard: Option<Note>,
}

/// What one thread does, and what it saw.
struct Worker<'a> {
    network: &'a Network<'a>,
    draw: Draw,
    seats: Vec<Seat>,
    inbox: Receiver<(u64, Note)>,
    newest: u64,
    answered: Vec<Answered>,
    looked: Vec<Looked>,
    /// Notes of any session, with their runs.
    notes: Vec<(u64, Note)>,
    /// The last histories of the runs that a session ended.
    ended: Vec<(u64, Note)>,
    seen: BTreeMap<&'static str, u64>,
}

impl Seat {
    fn new(session: Session) -> Seat {
        Seat {
            session,
            run: 0,
            calls: 0,
            heard: None,
        }
    }

    /// The session may be in a new run after a call, and then has no calls in it before.
    fn enter(&mut self) {
        let run = self.session.run();
        assert!(run >= self.run, "a session goes back to run {run}");
        if run > self.run {
            (self.run, self.calls, self.heard) = (run, 0, None);
        }
    }
}

impl<'a> Worker<'a> {
    fn new(
        network: &'a Network<'a>,
        store: &Store,
        draw: Draw,
        inbox: Receiver<(u64, Note)>,
    ) -> Worker<'a> {
        let seat = |_| Seat::new(store.session().expect("a session"));
        Worker {
            network,
            draw,
            seats: (0..network.plan.sessions).map(seat).collect(),
            inbox,
            newest: 0,
            answered: Vec::new(),
            looked: Vec::new(),
            notes: Vec::new(),
            ended: Vec::new(),
            seen: BTreeMap::new(),
        }
    }

    fn count(&mut self, what: &'static str) {
        *self.seen.entry(what).or_default() += 1;
    }

    fn run(mut self) -> Self {
        self.network.start.wait();
        for _ in 0..self.network.plan.calls {
            let at = self.draw.index(self.seats.len());
            self.hear_all(at);
            self.act(at);
            if self.draw.chance(30) {
                thread::yield_now();
            }
        }
        self
    }

    fn act(&mut self, at: usize) {
        if self.draw.below(1_000) < self.network.plan.ends {
            return self.end_run(at);
        }
        match self.draw.below(100) {
            0..55 => self.deliver(at),
            55..60 => self.note(at),
            60..65 => self.look(at),
            65..70 => self.collect(at),
            70..72 => self.bad_round(at),
            what => {
                let digest = self.some().digest;
                let call = match what {
                    72..77 => Call::Read(digest),
                    77..81 => Call::Certificate(digest),
                    81..90 => Call::Causal(digest),
                    90..94 => Call::MissingOf(digest),
                    94..97 => Call::Missing(self.draw.below(20) as u16),
                    _ => Call::Status,
                };
                self.ask(at, call, None);
            }
        }
    }

    /// A message that some thread took last, or one beside it.
    fn some(&mut self) -> &Delivery {
        let next = self.network.next.load(Ordering::Relaxed);
        let back = self.draw.index(next.min(20) + 1);
        let order = &self.network.order;
        order[(next - back).min(order.len() - 1)]
    }

    /// Takes the next message, or one that some thread took before.
    fn deliver(&mut self, at: usize) {
        let order = &self.network.order;
        let index = match self.draw.chance(70) {
            true => self.network.next.fetch_add(1, Ordering::Relaxed),
            false => {
                let next = self.network.next.load(Ordering::Relaxed);
                next - self.draw.index(next.min(20) + 1)
            }
        };
        let delivery = order[index % order.len()];
        self.ask(at, delivery.call.clone(), Some(delivery));
    }

    /// Makes a call. Its history begins with the last note that the session heard in the run.
    fn ask(&mut self, at: usize, call: Call, delivery: Option<&Delivery>) {
        let seat = &mut self.seats[at];
        let checked = delivery.map(|delivery| &delivery.checked);
        let heard = ask_store(&mut seat.session, &call, checked).expect("a step");
        seat.enter();
        seat.calls += 1;
        let told = RawTagged {
            session: seat.session.id(),
            number: seat.calls,
            call,
            reply: heard.reply,
        };
        let history = heard.answer.history();
        assert_eq!(history.event(history.len() - 1), Some(event_of(&told)));
        if let Some(note) = &seat.heard {
            let is_known = note.history().is_prefix_of(history);
            assert!(
                is_known,
                "a history does not begin with a note that was heard"
            );
        }
        if let (Some(delivery), Reply::Stored { .. }) = (delivery, &told.reply) {
            self.newest = self.newest.max(delivery.slot.0);
        }
        self.answered.push(Answered {
            run: seat.run,
            told,
            got: heard.answer,
        });
    }

    /// Sends a note of what the session knows to some thread.
    fn note(&mut self, at: usize) {
        let seat = &mut self.seats[at];
        let note = seat.session.note().expect("memory");
        seat.enter();
        let run = seat.run;
        let to = self.draw.index(self.network.posts.len());
        // The note is lost if that thread has ended.
        let _ = self.network.posts[to].send((run, note.clone()));
        self.notes.push((run, note));
    }

    /// Hears the notes that came.
    fn hear_all(&mut self, at: usize) {
        while let Ok((run, note)) = self.inbox.try_recv() {
            let seat = &mut self.seats[at];
            let is_heard = seat.session.hear(&note).expect("memory");
            seat.enter();
            // A note of an ended run can be a prefix of the present history too, as an empty one is if nothing changed.
            assert!(is_heard || run < seat.run, "a note of run {run}");
            let known = seat.heard.as_ref().map(|note| note.history().len());
            if is_heard && known <= Some(note.history().len()) {
                seat.heard = Some(note);
            }
            let what = ["notes of an ended run", "notes heard"];
            self.count(what[usize::from(is_heard)]);
        }
    }

    /// Looks at a round near the newest one.
    fn look(&mut self, at: usize) {
        let round = (self.newest + 2).saturating_sub(self.draw.below(4));
        let seat = &mut self.seats[at];
        let looks = seat.session.look_round(round).expect("memory");
        seat.enter();
        self.looked.push(Looked {
            run: seat.run,
            session: seat.session.id(),
            calls: seat.calls,
            round,
            floor: looks.first().map(|(_, look)| look.garbage_round),
            looks: looks
                .iter()
                .map(|(author, look)| (*author, look_of(look)))
                .collect(),
        });
    }

    fn collect(&mut self, at: usize) {
        let round = self.newest.saturating_sub(self.network.plan.lag);
        self.ask(at, Call::Collect(round), None);
    }

    fn bad_round(&mut self, at: usize) {
        let seat = &mut self.seats[at];
        let refused = seat.session.collect(1 << 48).map(drop);
        assert_eq!(refused, Err(StepError::BadRound));
        seat.enter();
    }

    /// Ends the run, and keeps its last history.
    fn end_run(&mut self, at: usize) {
        let seat = &mut self.seats[at];
        let last = seat.session.restart().expect("memory");
        seat.enter();
        self.ended.push((seat.run - 1, last));
        self.count("runs ended by a session");
    }
}

/// Plays a seed: the threads call, their sessions settle, and the model answers the same calls.
pub fn play(cases: &[Case], seed: u64, seen: &Tally) {
    let mut draw = Draw::new(seed);
    let case = &cases[draw.index(cases.len())];
    let plan = Plan::new(&mut draw, case.committee.size() as u64);
    let store = plan.store(case);
    let (posts, inboxes): (Vec<_>, Vec<_>) = (0..plan.threads).map(|_| channel()).unzip();
    let network = Network {
        plan: &plan,
        order: order(case, &plan, &mut draw),
        next: AtomicUsize::new(1),
        posts,
        start: Barrier::new(plan.threads),
    };
    let worker = |inbox| Worker::new(&network, &store, Draw::new(draw.next()), inbox);
    let workers: Vec<Worker> = inboxes.into_iter().map(worker).collect();
    let workers = thread::scope(|scope| {
        let workers = workers.into_iter();
        let threads: Vec<_> = workers
            .map(|worker| scope.spawn(move || worker.run()))
            .collect();
        let joined = threads.into_iter().map(|thread| thread.join());
        let joined = joined.map(|worker| worker.expect("no panic"));
        joined.collect::<Vec<Worker>>()
    });
    let (outcome, sessions) = Outcome::of(workers, seen);
    let settled = Store::settle(sessions).expect("all sessions of the store");
    let model = outcome.check(&plan, &settled, seen);
    reopen(settled, model);
}

/// The messages in the order of their rounds, more or less.
fn order<'a>(case: &'a Case, plan: &Plan, draw: &mut Draw) -> Vec<&'a Delivery> {
    let deliveries = case.deliveries.iter();
    let is_sent = |delivery: &&Delivery| plan.faulty || !delivery.faulty;
    let mut order: Vec<_> = deliveries.filter(is_sent).collect();
    order.sort_by_cached_key(|delivery| delivery.slot.0 * 10 + draw.below(15));
    order
}

/// The sessions go on in a new run, over the state that all calls led to.
fn reopen(settled: Settled, mut model: Model) {
    let (store, sessions) = settled.reopen().expect("memory");
    assert_eq!(store.events(), 0);
    for (id, mut session) in (0..).zip(sessions) {
        let heard = ask_store(&mut session, &Call::Status, None).expect("a step");
        assert_eq!(heard.reply, model.step(&Call::Status), "the last state");
        let event = heard.answer.history().events().next_back();
        let event = event.expect("the call itself");
        assert_eq!((event.session, event.number), (id, 1));
    }
}

/// What all threads saw of a store.
struct Outcome {
    /// The run of the last call.
    present: u64,
    /// The answers of each run.
    answered: BTreeMap<u64, Vec<Answered>>,
    looked: Vec<Looked>,
    notes: Vec<(u64, Note)>,
    ended: BTreeMap<u64, Note>,
}

impl Outcome {
    /// What the threads saw, and their sessions, in no order.
    fn of(workers: Vec<Worker>, seen: &Tally) -> (Outcome, Vec<Session>) {
        let mut outcome = Outcome {
            present: 0,
            answered: BTreeMap::new(),
            looked: Vec::new(),
            notes: Vec::new(),
            ended: BTreeMap::new(),
        };
        let mut sessions = Vec::new();
        for worker in workers {
            for seat in worker.seats {
                outcome.present = outcome.present.max(seat.run);
                sessions.insert(0, seat.session);
            }
            for answered in worker.answered {
                let of_run = outcome.answered.entry(answered.run).or_default();
                of_run.push(answered);
            }
            outcome.looked.extend(worker.looked);
            outcome.notes.extend(worker.notes);
            outcome.ended.extend(worker.ended);
            for (what, times) in worker.seen {
                (0..times).for_each(|_| seen.count(what.into()));
            }
        }
        (outcome, sessions)
    }

    fn answered(&self, run: u64) -> &[Answered] {
        self.answered.get(&run).map_or(&[], Vec::as_slice)
    }

    /// The last history of a run.
    fn last<'a>(&'a self, run: u64, settled: &'a Settled) -> &'a History {
        let histories = self.answered(run).iter().map(|one| one.got.history());
        match self.ended.get(&run) {
            _ if run == self.present => settled.history(),
            Some(last) => last.history(),
            None => histories
                .max_by_key(|history| history.len())
                .expect("a full history"),
        }
    }

    /// Compares all runs with the model, and the last one with the settlement. Returns the state that all calls lead to.
    fn check(&self, plan: &Plan, settled: &Settled, seen: &Tally) -> Model {
        let mut model = Model::new(plan.limits.blocks, plan.limits.window);
        for run in 0..=self.present {
            let last = self.last(run, settled);
            if run < self.present && !self.ended.contains_key(&run) {
                check_length(last.len(), plan);
                seen.count("runs ended by themselves".into());
            }
            self.replay(run, last, &mut model);
            for (_, note) in self.notes.iter().filter(|(of, _)| *of == run) {
                assert!(note.history().is_prefix_of(last), "a note of run {run}");
            }
            let thread = |event: &Event| usize::from(event.session) / plan.sessions;
            let threads: Vec<_> = last.events().map(|event| thread(&event)).collect();
            let switches = threads.windows(2).filter(|pair| pair[0] != pair[1]);
            switches.for_each(|_| seen.count("calls after another thread's".into()));
        }
        self.check_journals(settled);
        let turns = if plan.takes_turns {
            "with turns"
        } else {
            "without turns"
        };
        seen.count(turns.into());
        self.looked.iter().for_each(|_| seen.count("looks".into()));
        model
    }

    /// The settled history has the calls of each session in the run, once and in order, with what they were answered.
    fn check_journals(&self, settled: &Settled) {
        let answered = self.answered(self.present);
        for session in 0..Limits::default().sessions as u16 {
            let own = answered.iter().filter(|one| one.told.session == session);
            let told = own.map(|one| event_of(&one.told));
            assert!(settled.journal(session).eq(told), "the calls of {session}");
        }
    }

    /// The last history of a run has each answered call once. The model gives the replies in its order.
    fn replay(&self, run: u64, last: &History, model: &mut Model) {
        let answered = self.answered(run);
        assert_eq!(last.len(), answered.len(), "the calls of run {run}");
        let number = |one: &Answered| (one.told.session, one.told.number);
        let answered: HashMap<_, _> = answered.iter().map(|one| (number(one), one)).collect();
        assert_eq!(last.len(), answered.len(), "two answers of a call");
        let mut calls = [0; 256];
        let mut looked: Vec<_> = self.looked.iter().filter(|one| one.run == run).collect();
        looked.retain(|look| !look.sees(model, &calls));
        for (index, event) in last.events().enumerate() {
            let one = answered[&(event.session, event.number)];
            calls[usize::from(event.session)] += 1;
            assert_eq!(event.number, calls[usize::from(event.session)]);
            assert_eq!(event, event_of(&one.told), "an event of a last history");
            one.check(&model.step(&one.told.call), model.floor());
            let history = one.got.history();
            assert_eq!(history.len(), index + 1, "the place of a call");
            assert!(history.is_prefix_of(last), "two histories of run {run}");
            looked.retain(|look| !look.sees(model, &calls));
        }
        assert!(looked.is_empty(), "a look at a state that was not there");
    }
}

/// A history that restarted by itself was full. Without turns, threads can make calls before its events are counted.
fn check_length(events: usize, plan: &Plan) {
    let full = plan.restart.expect("a store that restarts its history") as usize;
    let is_full = if plan.takes_turns {
        events == full
    } else {
        events >= full
    };
    assert!(is_full, "a run of {full} events ended after {events}");
}

impl Answered {
    /// The reply is the model's, and a walk gives its list.
    fn check(&self, reply: &Reply, floor: u64) {
        let Reply::List(list) = reply else {
            return assert_eq!(self.told.reply, *reply, "{:?}", self.told.call);
        };
        let Got::Ticket(ticket) = &self.got else {
            panic!("no ticket for {:?}", self.told.call);
        };
        assert_eq!(
            ticket.garbage_round(),
            floor,
            "the garbage round of a ticket"
        );
        let walked: Vec<_> = ticket.walk().expect("memory").collect();
        assert_eq!(walked.len(), list.len(), "the length of a walk");
        for (block, expected) in walked.iter().zip(list) {
            assert_eq!(block_of(block), **expected, "a block of a walk");
        }
    }
}

impl Looked {
    /// Whether this is the state that the session looked at: after all that it called before, and before its next call.
    fn sees(&self, model: &Model, calls: &[u32; 256]) -> bool {
        calls[usize::from(self.session)] == self.calls
            && self.floor.is_none_or(|floor| floor == model.floor())
            && model.look_round(self.round) == self.looks
    }
}

//! The turns of the threads that call a store, and its counts.
//!
//! The library has a lock of its own, which is proved. A call that finds it taken is told so at
//! once. So a thread waits for its turn before it calls. Neither the clauses of the library nor
//! memory safety rest on turns: without them, a thread calls again until the library is not busy.
//!
//! A thread that finds the turn taken tries a few times more, and then joins a line. Only the first
//! thread in line tries again. After some calls of others, once it is awake, the next turn is promised
//! to it, and after many also while it sleeps. So each thread gets its turn, and a turn rarely waits
//! until another thread is awake.

use crate::caller::Caller;
use crate::changes::Changes;
use crate::code::Code;
use crate::ffi::{self, Handle};
use crate::lock::{Guard, Lock, Rank};
use std::collections::VecDeque;
use std::hint;
use std::sync::atomic::{AtomicU64, Ordering::Relaxed};
use std::sync::{Arc, Condvar};
use std::thread;
use std::time::Duration;

/// How often a thread tries to take its turn before it joins the line. After each try it waits twice
/// as long as before, which takes some 20 microseconds in all. A call takes less than one.
const TRIES: u32 = 9;
/// How long the first thread in line sleeps before it tries again.
const PAUSE: Duration = Duration::from_micros(50);
/// How many turns others have while a thread is in line. Then, once it is first and awake, the next
/// one is promised to it.
const PATIENCE: u64 = 100;
/// How many turns others have at most while one thread is first in line.
const MOST_PATIENCE: u64 = 2_000;

/// The counts of a store, and the lock at which threads wait for their turns.
#[derive(Default)]
pub(crate) struct Turns {
    counts: Lock<Counts>,
    /// The threads that sleep until they are first in line, in the order in which they came, and
    /// before them the first one.
    line: Lock<VecDeque<Arc<Condvar>>>,
    /// How many turns have ended.
    ended: AtomicU64,
    /// The number of ended turns at which the next one is that of the first thread in line. 0 if it is
    /// not promised.
    due: AtomicU64,
    /// The events of the history and their bytes, as the last turn left them.
    events: AtomicU64,
    bytes: AtomicU64,
    pub(crate) changes: Arc<Changes>,
    /// Whether a thread waits for its turn before it calls.
    are_taken: bool,
}

/// What is counted of the calls of the present run.
#[derive(Default)]
pub(crate) struct Counts {
    /// The number of the run.
    run: u64,
    /// The events of its history, and the bytes that they take.
    pub(crate) events: u64,
    pub(crate) bytes: u64,
}

/// The turn of a thread. The others wait until it is dropped.
pub(crate) struct Turn<'a> {
    turns: &'a Turns,
    /// The counts. Without turns, they are locked only while they are read or written.
    held: Option<Guard<'a, Counts>>,
}

impl Turns {
    pub(crate) fn new(are_taken: bool) -> Turns {
        Turns {
            counts: Lock::new(Rank::Turn, Counts::default()),
            are_taken,
            ..Turns::default()
        }
    }

    /// The events of the history and their bytes, between two turns. This waits for no turn.
    pub(crate) fn told(&self) -> (u64, u64) {
        (self.events.load(Relaxed), self.bytes.load(Relaxed))
    }

    /// The counts, after a wait.
    fn counts(&self) -> Guard<'_, Counts> {
        let once = || match self.is_promised() {
            true => None,
            false => self.counts.try_lock(),
        };
        tries(once).unwrap_or_else(|| self.counts_in_line())
    }

    /// Whether the next turn is that of the first thread in line.
    fn is_promised(&self) -> bool {
        let due = self.due.load(Relaxed);
        due > 0 && self.ended.load(Relaxed) >= due
    }

    /// The counts, after a wait in line.
    #[cold]
    fn counts_in_line(&self) -> Guard<'_, Counts> {
        let (own, came) = (Arc::new(Condvar::new()), self.ended.load(Relaxed));
        let mut line = self.line.lock();
        line.push_back(Arc::clone(&own));
        let is_later = |line: &mut VecDeque<_>| !Arc::ptr_eq(&line[0], &own);
        drop(line.wait_while(&own, Duration::MAX, is_later));
        let counts = self.counts_of_first(came);
        let mut line = self.line.lock();
        line.pop_front();
        let next = line.front().inspect(|next| next.notify_one());
        let due = next.map_or(0, |_| self.ended.load(Relaxed) + MOST_PATIENCE);
        self.due.store(due, Relaxed);
        counts
    }

    /// The counts, for the first thread in line, which came after so many turns.
    fn counts_of_first(&self, came: u64) -> Guard<'_, Counts> {
        loop {
            let is_late = self.ended.load(Relaxed) >= came + PATIENCE;
            let patience = if is_late { PATIENCE } else { MOST_PATIENCE };
            self.due.store(came + patience, Relaxed);
            if let Some(counts) = tries(|| self.counts.try_lock()) {
                return counts;
            }
            thread::sleep(PAUSE);
        }
    }

    /// Waits for the turn of this thread.
    #[inline]
    pub(crate) fn take(&self) -> Turn<'_> {
        Turn {
            turns: self,
            held: self.are_taken.then(|| self.counts()),
        }
    }

    /// Tells what is counted now.
    fn tell(&self, counts: &Counts) {
        self.events.store(counts.events, Relaxed);
        self.bytes.store(counts.bytes, Relaxed);
        self.ended.store(self.ended.load(Relaxed) + 1, Relaxed);
    }
}

/// What one of some tries gives.
fn tries<T>(mut once: impl FnMut() -> Option<T>) -> Option<T> {
    (0..TRIES).find_map(|power| {
        let found = once();
        if found.is_none() {
            (0..1 << power).for_each(|_| hint::spin_loop());
        }
        found
    })
}

impl Counts {
    /// The run of a session, which began. An earlier run has ended.
    fn enter(&mut self, run: u64) {
        if run > self.run {
            (self.run, self.events, self.bytes) = (run, 0, 0);
        }
    }

    /// Counts an event of this run.
    pub(crate) fn count(&mut self, run: u64, bytes: u64) {
        // Without turns, another session may have ended the run after the call.
        if run == self.run {
            self.events += 1;
            self.bytes += bytes;
        }
    }
}

impl Drop for Turn<'_> {
    #[inline]
    fn drop(&mut self) {
        if let Some(counts) = &self.held {
            self.turns.tell(counts);
        }
    }
}

impl Turn<'_> {
    /// Reads or writes the counts.
    #[inline]
    pub(crate) fn counts<R>(&mut self, with: impl FnOnce(&mut Counts) -> R) -> R {
        match &mut self.held {
            Some(counts) => with(counts),
            None => {
                let mut counts = self.turns.counts();
                let result = with(&mut counts);
                self.turns.tell(&counts);
                result
            }
        }
    }

    /// Makes a call of the session, and again while the library is busy. If the session's run has
    /// ended, it first takes the session into the present run.
    #[inline]
    pub(crate) fn call(
        &mut self,
        caller: &mut Caller,
        mut call: impl FnMut(&mut Handle) -> Code,
    ) -> Code {
        loop {
            match caller.call(&mut call) {
                Code::ENDED => match self.renew(caller) {
                    Code::DONE => {}
                    refused => return refused,
                },
                code => return code,
            }
        }
    }

    /// Takes the session into the present run.
    #[cold]
    pub(crate) fn renew(&mut self, caller: &mut Caller) -> Code {
        let code = caller.call(ffi::nw_session_renew);
        self.enter(caller);
        code
    }

    /// Notes the session's run, and begins its counts if it is new.
    pub(crate) fn enter(&mut self, caller: &mut Caller) {
        caller.note_run();
        self.counts(|counts| counts.enter(caller.run()));
    }
}

#[cfg(test)]
mod tests {
    use super::{Counts, MOST_PATIENCE, PATIENCE, PAUSE, Turns};
    use crate::changes::tests::{SOON, soon};
    use std::sync::Arc;
    use std::sync::atomic::Ordering::Relaxed;
    use std::sync::mpsc::{Sender, channel};
    use std::thread;
    use std::time::Instant;

    impl Turns {
        /// How many threads are in line.
        pub(crate) fn in_line(&self) -> usize {
            self.line.lock().len()
        }
    }

    /// A thread waits for a long turn, and has the next one soon after it.
    #[test]
    fn a_thread_waits_for_a_long_turn() {
        let (turns, (has_turn, order)) = (Arc::new(Turns::new(true)), channel());
        let waits = (0..20).map(|_| {
            let turn = turns.take();
            join_line(&turns, 1, &has_turn);
            thread::sleep(60 * PAUSE);
            order.try_recv().expect_err("two turns at once");
            let ended = Instant::now();
            drop(turn);
            order.recv_timeout(SOON).unwrap();
            let wait = ended.elapsed();
            soon(|| turns.in_line() == 0);
            wait
        });
        let least = waits.min().unwrap();
        assert!(
            least < 100 * PAUSE,
            "each of 20 threads waits for {least:?}"
        );
    }

    /// Starts a thread that joins the line as the next one, and says its name when it has its turn.
    fn join_line(turns: &Arc<Turns>, name: usize, has_turn: &Sender<usize>) {
        let (own, has_turn) = (Arc::clone(turns), has_turn.clone());
        let before = turns.in_line();
        thread::spawn(move || {
            let _turn = own.take();
            has_turn.send(name).unwrap();
        });
        soon(|| turns.in_line() > before);
    }

    /// Nobody is forgotten in the line, however many wait.
    #[test]
    fn threads_in_line_have_their_turns_in_order() {
        let (turns, (has_turn, order)) = (Arc::new(Turns::new(true)), channel());
        for round in 0..10 {
            let turn = turns.take();
            (0..9).for_each(|name| join_line(&turns, name, &has_turn));
            thread::sleep(round * PAUSE);
            drop(turn);
            let next = |_| order.recv_timeout(SOON).unwrap();
            assert!((0..9).map(next).eq(0..9));
            soon(|| turns.in_line() == 0);
        }
    }

    /// A thread that takes one turn after the other would mostly get the next one too.
    #[test]
    fn the_turn_after_a_long_wait_is_promised() {
        let (turns, (has_turn, order)) = (Arc::new(Turns::new(true)), channel());
        for _ in 0..20 {
            let turn = turns.take();
            join_line(&turns, 1, &has_turn);
            thread::sleep(2 * PAUSE);
            assert!(!turns.is_promised(), "too early");
            // The turns of others, which this thread ends.
            turns.ended.fetch_add(PATIENCE, Relaxed);
            soon(|| turns.is_promised());
            drop(turn);
            let turn = turns.take();
            assert_eq!(order.try_recv(), Ok(1), "the turn went to another thread");
            drop(turn);
            soon(|| turns.in_line() == 0 && !turns.is_promised());
        }
    }

    /// The next turn is promised to the first thread in line also if it sleeps on.
    #[test]
    fn a_thread_that_sleeps_on_is_not_passed_without_end() {
        let turns = Arc::new(Turns::new(true));
        turns.ended.store(7, Relaxed);
        let (has_turn, order) = channel();
        let (turn, (goes_on, waits)) = (turns.take(), channel::<()>());
        let own = (Arc::clone(&turns), has_turn.clone());
        thread::spawn(move || {
            let _turn = own.0.take();
            own.1.send(0).unwrap();
            waits.recv().unwrap();
        });
        soon(|| turns.in_line() == 1);
        join_line(&turns, 1, &has_turn);
        drop(turn);
        assert_eq!(order.recv_timeout(SOON), Ok(0));
        // The second thread may not be awake yet.
        let due = turns.due.load(Relaxed);
        assert!((8..=8 + MOST_PATIENCE).contains(&due), "due at {due}");
        turns.ended.store(due, Relaxed);
        assert!(turns.is_promised());
        goes_on.send(()).unwrap();
        assert_eq!(order.recv_timeout(SOON), Ok(1));
        soon(|| turns.in_line() == 0 && !turns.is_promised());
    }

    #[test]
    fn only_events_of_the_present_run_are_counted() {
        let mut counts = Counts::default();
        let of = |counts: &Counts| (counts.run, counts.events, counts.bytes);
        counts.count(0, 150);
        counts.count(0, 200);
        assert_eq!(of(&counts), (0, 2, 350));
        counts.enter(2);
        assert_eq!(of(&counts), (2, 0, 0));
        // A call of an ended run is counted late, and its session enters that run late.
        counts.count(1, 150);
        counts.count(0, 150);
        counts.enter(1);
        assert_eq!(of(&counts), (2, 0, 0));
        counts.count(2, 150);
        counts.enter(2);
        assert_eq!(of(&counts), (2, 1, 150));
    }
}

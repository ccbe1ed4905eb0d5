//! The store and its builder.

use crate::builder::RestartWhen;
use crate::caller::{Caller, again};
use crate::code::Code;
use crate::content::EventContent;
use crate::debug::debug_by;
use crate::ffi::{self, Handle};
use crate::lock::Lock;
use crate::turns::{Counts, Turn, Turns};
use crate::{Changed, Committee, Limits, NoMemory, OpenError, Session, StepError};
use std::sync::Arc;
use std::time::Duration;

/// The block store of one validator, in memory.
///
/// It holds blocks and certificates under one committee. Threads call it through [`Session`]s, each
/// through one of its own. Every call is one step under the library's lock. The proofs order the
/// calls of two sessions only by notes ([`Session::note`]). [`Session`] says what else is proved.
/// The step table is in docs/MODEL.md of the repository.
///
/// A thread waits for its turn at a second lock, which is that of this crate. No proof rests on it.
///
/// A store has *runs*. Each run has one history, which begins without events. A
/// [restart](Session::restart) ends a run and begins the next one. Blocks, certificates and votes
/// stay.
///
/// A clone is a second owner of the same store and costs one atomic increment.
///
/// The store writes nothing to disk. [After a crash](crate#after-a-crash) says what a validator
/// must log.
///
/// Collection removes blocks from the tables, but does not free them:
///
/// - The history holds them until it restarts. By default the store restarts it: see
///   [`StoreBuilder::restart_when`](crate::StoreBuilder::restart_when).
/// - The list that causal reads share holds them until [`Store::compact`] or its next rebuild.
/// - Answers and tickets hold them until they are dropped.
///
/// ```
/// # mod data { include!(concat!(env!("CARGO_MANIFEST_DIR"), "/examples/data/mod.rs")); }
/// # let (keys, messages) = (data::keys(), data::values("message"));
/// use narwhal_store::{Checked, Committee, Limits, Store, WriteReply};
///
/// let committee = Committee::equal(&keys)?;
/// let store = Store::new(&committee, Limits::default())?;
/// let mut session = store.session()?;
///
/// if let Checked::Block(block) = committee.check(&messages[0])? {
///     let answer = session.write(&block)?;
///     assert_eq!(answer.reply(), &WriteReply::Stored { vote: true });
///     let found = session.read(&block.subject().digest)?.into_reply();
///     assert_eq!(found.unwrap().subject(), block.subject());
/// }
/// assert_eq!(store.events(), 2);
/// # Ok::<(), Box<dyn std::error::Error>>(())
/// ```
#[derive(Clone)]
pub struct Store {
    pub(crate) inner: Arc<Inner>,
}

/// The state that all owners of a store share.
pub(crate) struct Inner {
    /// The store of the library. Its sessions are called without it.
    pub(crate) store: Lock<Handle>,
    /// The callers of dropped sessions, for the next sessions.
    pub(crate) idle: Lock<Vec<Caller>>,
    pub(crate) turns: Turns,
    pub(crate) committee: Committee,
    pub(crate) limits: Limits,
    pub(crate) restart_when: Option<RestartWhen>,
}

impl Store {
    /// The bytes of a history at which a store restarts it by default: 64 MiB.
    ///
    /// This is room for 63 of the largest blocks, or for some 4,000 blocks of 10,000 bytes with
    /// their certificates of 67 votes: 40 rounds of 100 members.
    pub const HISTORY_BYTES: u64 = 64 << 20;

    /// Opens an empty store under the committee. It restarts its history by itself: see
    /// [`StoreBuilder::restart_when`](crate::StoreBuilder::restart_when).
    ///
    /// # Errors
    ///
    /// [`OpenError::BadLimits`] if a limit is outside its range.
    pub fn new(committee: &Committee, limits: Limits) -> Result<Store, OpenError> {
        Store::builder(committee).limits(limits).open()
    }

    /// Makes a session for one more caller. A store has at most [`Limits::sessions`] sessions at one
    /// time.
    ///
    /// If a session was dropped, the new one continues its calls and has its number. For the proofs,
    /// both are one session.
    ///
    /// # Errors
    ///
    /// - [`OpenError::TooManySessions`] if the store has as many sessions as its limit.
    /// - [`OpenError::NoMemory`] if the library could not allocate memory.
    pub fn session(&self) -> Result<Session, OpenError> {
        let idle = self.inner.idle.lock().pop();
        let caller = match idle {
            Some(caller) => caller,
            None => {
                let mut store = self.inner.store.lock();
                let _turn = self.inner.turns.take();
                let open = |out: &mut Handle| again(|| ffi::nw_store_session(&mut store, out));
                Caller::new(Handle::opened(open)?)
            }
        };
        let mut session = Session::new(Arc::clone(&self.inner), caller);
        session.renew()?;
        Ok(session)
    }

    /// Rebuilds the list of blocks that causal reads share, without the collected blocks.
    ///
    /// Call it after collections to free their memory. Causal reads rebuild the list too, but only
    /// after about as many new complete blocks as it had at the last rebuild.
    ///
    /// Tickets that are opened later share the new list. No answer changes, and this is not a call
    /// of a session.
    ///
    /// # Errors
    ///
    /// [`NoMemory`] if the library could not allocate memory.
    pub fn compact(&self) -> Result<(), NoMemory> {
        let mut store = self.inner.store.lock();
        let _turn = self.inner.turns.take();
        Ok(again(|| ffi::nw_store_compact(&mut store)).done()?)
    }

    /// Returns how many events the history has.
    #[must_use]
    pub fn events(&self) -> usize {
        self.inner.turns.told().0 as usize
    }

    /// Returns how many bytes the events of the history take.
    ///
    /// This is an estimate from above, without the overhead of the allocator:
    ///
    /// - 150 bytes for each event;
    /// - 100 bytes and the message for each certificate or block that was stored, and for each block
    ///   whose reply was `Clash`;
    /// - 48 bytes for each listed missing parent.
    ///
    /// It counts a block that the history shares with the tables. It does not count the state that
    /// the history began with, nor earlier histories that answers and tickets hold.
    ///
    /// ```
    /// # use narwhal_store::{Committee, Limits, PublicKey, Store};
    /// # let committee = Committee::equal(&[PublicKey([7; 32])])?;
    /// let store = Store::new(&committee, Limits::default())?;
    /// let mut session = store.session()?;
    /// let _ = session.status()?;
    /// assert_eq!(store.history_bytes(), 150);
    /// let _ = session.restart()?;
    /// assert_eq!(store.history_bytes(), 0);
    /// # Ok::<(), Box<dyn std::error::Error>>(())
    /// ```
    #[must_use]
    pub fn history_bytes(&self) -> u64 {
        self.inner.turns.told().1
    }

    /// Returns how many calls have changed the store: writes that answered `Stored`, certificates that
    /// answered `Certified`, and collections that answered `Raised`.
    ///
    /// Other calls, looks, restarts and [`compact`](Store::compact) change nothing. A new store has
    /// changed 0 times.
    #[must_use]
    pub fn changes(&self) -> u64 {
        self.inner.turns.changes.count()
    }

    /// Waits until the store has changed more than `seen` times, and returns how often it has
    /// [changed](Store::changes). The result is at most `seen` if the timeout ends first.
    ///
    /// Take `seen` before you look at the store, or from the last wait. Then no change is missed: if
    /// the store changed in between, the call returns at once. Each change wakes all waiting threads.
    /// A waiting thread holds up no call. With `Duration::MAX`, the call waits without a limit.
    ///
    /// This is no call of a session: it adds no event.
    ///
    /// ```
    /// # mod data { include!(concat!(env!("CARGO_MANIFEST_DIR"), "/examples/data/mod.rs")); }
    /// # use narwhal_store::{Checked, Committee, Limits, Store};
    /// # let committee = Committee::equal(&data::keys())?;
    /// # let store = Store::new(&committee, Limits::default())?;
    /// # let mut session = store.session()?;
    /// # let messages = data::values("message");
    /// # let Checked::Block(block) = committee.check(&messages[0])? else { panic!() };
    /// use std::{thread, time::Duration};
    ///
    /// let (subject, mut reader) = (block.subject(), store.session()?);
    /// let waiter = thread::spawn(move || {
    ///     let mut seen = store.changes();
    ///     while reader.look(subject.round, subject.author).first.is_none() {
    ///         let changes = store.wait_for_change(seen, Duration::from_secs(60));
    ///         assert!(changes > seen, "nothing changed for a minute");
    ///         seen = changes;
    ///     }
    /// });
    /// let _ = session.write(&block)?;
    /// waiter.join().unwrap();
    /// # Ok::<(), Box<dyn std::error::Error>>(())
    /// ```
    #[must_use]
    pub fn wait_for_change(&self, seen: u64, timeout: Duration) -> u64 {
        self.inner.turns.changes.wait(seen, timeout)
    }

    /// Returns a future that is ready once the store has changed more than `seen` times. Its output
    /// is how often the store has [changed](Store::changes).
    ///
    /// It does what [`wait_for_change`](Store::wait_for_change) does, for any executor, and without a
    /// thread. Drop the future to end the wait. It keeps no store in memory.
    ///
    /// The thread that makes a change wakes the tasks, after its turn and before its call returns.
    ///
    /// ```
    /// # use narwhal_store::{Committee, Limits, PublicKey, Store};
    /// # let committee = Committee::equal(&[PublicKey([7; 32])])?;
    /// # let store = Store::new(&committee, Limits::default())?;
    /// async fn wait_for_round(store: &Store, session: &mut narwhal_store::Session, round: u64) {
    ///     let mut seen = store.changes();
    ///     while session.look(0, 0).garbage_round < round {
    ///         seen = store.changed(seen).await;
    ///     }
    /// }
    /// # let mut session = store.session()?;
    /// # let wait = wait_for_round(&store, &mut session, 0);
    /// # let mut context = std::task::Context::from_waker(std::task::Waker::noop());
    /// # assert!(std::pin::pin!(wait).poll(&mut context).is_ready());
    /// # Ok::<(), Box<dyn std::error::Error>>(())
    /// ```
    pub fn changed(&self, seen: u64) -> Changed {
        Changed::new(&self.inner.turns.changes, seen)
    }

    /// Returns the limits that the store was opened with.
    #[must_use]
    pub fn limits(&self) -> Limits {
        self.inner.limits
    }

    /// Returns the committee of the store.
    #[must_use]
    pub fn committee(&self) -> &Committee {
        &self.inner.committee
    }
}

impl Inner {
    /// Makes the session's next call, and returns its answer. The room for the answer is made before
    /// the call, so that no event loses its answer.
    ///
    /// This is the only place that decides whether the history restarts. If there is no memory for
    /// the restart, the call goes on without it, and the next call tries again.
    #[inline]
    pub(crate) fn step(
        &self,
        caller: &mut Caller,
        content: EventContent,
        mut call: impl FnMut(&mut Handle, &mut Handle) -> Code,
    ) -> Result<Handle, StepError> {
        let mut answer = Handle::answer()?;
        let mut turn = self.turns.take();
        let mut old = self.restart_due(&mut turn, caller, content);
        let mut code = turn.call(caller, |session| call(session, &mut answer));
        // Without turns, the history can be full before all its events are counted.
        while code == Code::HISTORY_FULL && self.restart_when.is_some() && old.is_ok() {
            old = self.restart(&mut turn, caller);
            code = turn.call(caller, |session| call(session, &mut answer));
        }
        let mut is_change = false;
        if code == Code::DONE {
            let bytes;
            (bytes, is_change) = content.outcome(&mut answer);
            turn.counts(|counts| counts.count(caller.run(), bytes));
        }
        drop(turn);
        if is_change {
            self.turns.changes.note();
        }
        match (old, code) {
            (Err(_), Code::HISTORY_FULL) => Err(StepError::NoMemory),
            (_, code) => Ok(code.done().map(|()| answer)?),
        }
    }

    /// Restarts the history until the call with this content fits.
    #[inline]
    fn restart_due(
        &self,
        turn: &mut Turn,
        caller: &mut Caller,
        content: EventContent,
    ) -> Result<Option<Handle>, Code> {
        let (mut old, is_due) = (None, |counts: &mut Counts| {
            self.restart_when
                .is_some_and(|when| when.is_met(counts, content))
        });
        while turn.counts(is_due) {
            old = self.restart(turn, caller)?;
        }
        Ok(old)
    }

    /// Ends the session's run, and returns its history, which is dropped after the turn: that often
    /// frees it. If the run has ended already, this takes the session into the present run instead.
    #[cold]
    pub(crate) fn restart(
        &self,
        turn: &mut Turn,
        caller: &mut Caller,
    ) -> Result<Option<Handle>, Code> {
        let mut last = Handle::answer()?;
        let code = caller.call(|session| ffi::nw_session_restart(session, &mut last));
        if code == Code::ENDED {
            turn.renew(caller).done()?;
            return Ok(None);
        }
        code.done()?;
        turn.enter(caller);
        Ok(Some(last))
    }
}

debug_by!(Store: limits, events, changes);

#[cfg(test)]
mod tests {
    use crate::lock::tests::panic_under;
    use crate::{Committee, Digest, Limits, PublicKey, Session, StepError, Store};
    use std::sync::Mutex;
    use std::thread;
    use std::time::Duration;

    fn committee() -> Committee {
        Committee::equal(&[PublicKey([1; 32])]).unwrap()
    }

    #[test]
    fn threads_share_sessions_and_restarts() {
        let limits = Limits {
            events: 7,
            sessions: 2,
            ..Limits::default()
        };
        let store = Store::new(&committee(), limits).unwrap();
        let sessions = [(); 2].map(|()| Mutex::new(store.session().unwrap()));
        let status = |place: usize| sessions[place].lock().unwrap().status().unwrap();
        store.session().unwrap_err();
        thread::scope(|scope| {
            for place in 0..4 {
                scope.spawn(move || (0..100).for_each(|_| drop(status(place % 2))));
            }
        });
        // 400 calls are 57 histories of 7 events, and one more event.
        let last = status(0);
        assert_eq!((store.events(), last.history().len()), (2, 2));
        assert_eq!(last.history().event(1).unwrap().session, 0);
    }

    #[test]
    fn a_history_restarts_before_the_call_that_would_exceed_its_bytes() {
        let builder = Store::builder(&committee()).restart_when(1_000, u32::MAX);
        let store = builder.open().unwrap();
        let mut session = store.session().unwrap();
        for call in 0..100 {
            drop(session.read(&Digest([7; 32])).unwrap());
            // Six events take 900 bytes.
            assert_eq!(store.events(), call % 6 + 1);
            assert_eq!(store.history_bytes(), 150 * store.events() as u64);
        }
        // An event that may take more than the bound has a history of its own.
        let _ = session.missing(100).unwrap();
        assert_eq!((store.events(), store.history_bytes()), (1, 150));
    }

    #[test]
    fn a_store_that_never_restarts_refuses_calls() {
        let limits = Limits {
            events: 2,
            ..Limits::default()
        };
        let builder = Store::builder(&committee()).limits(limits);
        let store = builder.never_restart().open().unwrap();
        let mut session = store.session().unwrap();
        let _ = session.status().unwrap();
        let _ = session.status().unwrap();
        let refused = session.status().unwrap_err();
        assert_eq!(refused, StepError::HistoryFull);
        drop(session.restart().unwrap());
        let _ = session.status().unwrap();
    }

    #[test]
    fn a_panic_under_the_lock_stops_nobody() {
        let store = Store::new(&committee(), Limits::default()).unwrap();
        let mut session = store.session().unwrap();
        panic_under(|| (store.inner.store.lock(), store.inner.turns.take()));
        let _ = session.status().unwrap();
        assert_eq!(store.events(), 1);
        store.compact().unwrap();
        drop(session.restart().unwrap());
        store.session().unwrap();
    }

    /// Calls that change nothing wake nobody.
    #[test]
    fn only_changes_end_a_wait() {
        let store = Store::new(&committee(), Limits::default()).unwrap();
        let mut session = store.session().unwrap();
        let short = Duration::from_millis(1);
        let _ = session.status().unwrap();
        let _ = session.collect(0).unwrap();
        drop(session.restart().unwrap());
        store.compact().unwrap();
        assert_eq!((store.changes(), store.wait_for_change(0, short)), (0, 0));
        let _ = session.collect(1).unwrap();
        assert_eq!(store.wait_for_change(0, Duration::MAX), 1);
        assert_eq!(store.wait_for_change(1, short), 1);
        assert_eq!(store.inner.turns.changes.waiting(), (0, 0));
    }

    /// Each thread waits for each of 100 changes, and none is missed.
    #[test]
    fn a_change_wakes_all_threads() {
        let store = Store::new(&committee(), Limits::default()).unwrap();
        let mut session = store.session().unwrap();
        let wait = |session: &mut Session, seen| {
            let changes = store.wait_for_change(seen, Duration::from_secs(60));
            assert!(changes > seen, "change {seen} woke nobody");
            let look = session.look(0, 0);
            assert!(look.garbage_round >= changes);
            changes
        };
        thread::scope(|scope| {
            for _ in 0..4 {
                scope.spawn(|| {
                    let (mut own, mut seen) = (store.session().unwrap(), 0);
                    while seen < 100 {
                        seen = wait(&mut own, seen);
                    }
                });
            }
            for round in 1..=100 {
                let _ = session.collect(round).unwrap();
            }
        });
        assert_eq!(store.changes(), 100);
    }
}

//! Settlements: one history of all sessions.

use crate::caller::again;
use crate::error::{coded_error, error_texts};
use crate::ffi::{self, Handle};
use crate::{Event, History, NoMemory, Note, Session, Store};
use std::sync::Arc;

/// All sessions of a store, and the one history that has their calls.
/// [`Store::settle`](crate::Store::settle) makes it.
#[derive(Debug)]
pub struct Settled {
    sessions: Vec<Session>,
    history: Note,
}

impl Store {
    /// Settles the sessions, which must be all that one store made, in any order. The result has
    /// the store's history, and gives the sessions back.
    ///
    /// It is proved of the history:
    ///
    /// - It has all calls of the run, and each session's calls once and in order.
    /// - The history of each answer and note of the run is a prefix of it.
    ///
    /// No session of the store can be left out. If you dropped some, make them again with
    /// [`Store::session`]. A session that made no call since the last [restart](Session::restart) has
    /// no calls in the history.
    ///
    /// For each session, this takes time in proportion to the events, and to the state that the
    /// history started from. If memory runs out while the sessions are given back, the process ends,
    /// as with `Vec`.
    ///
    /// # Errors
    ///
    /// [`Unsettled`], which gives the sessions back and says why.
    ///
    /// ```
    /// # use narwhal_store::{Committee, Limits, PublicKey, Store};
    /// # let committee = Committee::equal(&[PublicKey([7; 32])])?;
    /// use narwhal_store::{Call, SettleError};
    /// use std::thread;
    ///
    /// let store = Store::new(&committee, Limits::default())?;
    /// let sessions = [store.session()?, store.session()?];
    /// let threads = sessions.map(|mut session| {
    ///     thread::spawn(move || {
    ///         let answers: Vec<_> = (1..4).map(|round| session.collect(round)).collect();
    ///         (session, answers)
    ///     })
    /// });
    /// let joined = threads.map(|thread| thread.join().unwrap());
    /// let (sessions, answers): (Vec<_>, Vec<_>) = joined.into_iter().unzip();
    ///
    /// let settled = Store::settle(sessions)?;
    /// for answer in answers.into_iter().flatten() {
    ///     assert!(answer?.history().is_prefix_of(settled.history()));
    /// }
    /// let calls: Vec<Call> = settled.journal(1).map(|event| event.call).collect();
    /// assert_eq!(calls, [Call::Collect(1), Call::Collect(2), Call::Collect(3)]);
    ///
    /// let mut sessions = settled.into_sessions();
    /// let last = sessions.pop();
    /// let unsettled = Store::settle(sessions).unwrap_err();
    /// assert_eq!(unsettled.why(), SettleError::Missing);
    /// # Ok::<(), Box<dyn std::error::Error>>(())
    /// ```
    pub fn settle(mut sessions: Vec<Session>) -> Result<Settled, Unsettled> {
        sessions.sort_by_key(Session::id);
        match settle(&mut sessions) {
            Ok(history) => Ok(Settled { sessions, history }),
            Err(why) => Err(Unsettled { sessions, why }),
        }
    }
}

impl Settled {
    /// Returns the history of the store's run.
    #[must_use]
    pub fn history(&self) -> &History {
        self.history.history()
    }

    /// Returns an iterator over the calls of the session with this number, in order.
    pub fn journal(&self, session: u16) -> impl Iterator<Item = Event> {
        let events = self.history().events();
        events.filter(move |event| event.session == session)
    }

    /// Returns the sessions, by their numbers. They can make further calls.
    #[must_use]
    pub fn into_sessions(self) -> Vec<Session> {
        self.sessions
    }

    /// Ends the run, and begins the next one with an empty history. Returns the store, and the
    /// sessions by their numbers. See [`Session::restart`].
    ///
    /// # Errors
    ///
    /// [`SettleError::NoMemory`], with the sessions, if the library could not allocate memory.
    ///
    /// ```
    /// # use narwhal_store::{Committee, Limits, PublicKey, Store};
    /// # let committee = Committee::equal(&[PublicKey([7; 32])])?;
    /// let store = Store::new(&committee, Limits::default())?;
    /// let mut session = store.session()?;
    /// let _ = session.collect(3)?;
    /// let (store, mut sessions) = Store::settle(vec![session])?.reopen()?;
    /// assert_eq!(store.events(), 0);
    /// assert_eq!(sessions[0].status()?.reply().garbage_round, 3);
    /// # Ok::<(), Box<dyn std::error::Error>>(())
    /// ```
    pub fn reopen(self) -> Result<(Store, Vec<Session>), Unsettled> {
        let mut sessions = self.sessions;
        // A settlement has at least one session.
        let inner = Arc::clone(&sessions[0].store);
        match sessions[0].restart().map_err(SettleError::from) {
            Ok(_) => Ok((Store { inner }, sessions)),
            Err(why) => Err(Unsettled { sessions, why }),
        }
    }
}

/// The history of all calls of these sessions, which ascend by their numbers.
fn settle(sessions: &mut [Session]) -> Result<Note, SettleError> {
    if sessions.is_empty() {
        return Err(SettleError::Missing);
    }
    let is_own = |session: &Session| Arc::ptr_eq(&session.store, &sessions[0].store);
    if !sessions.iter().all(is_own) {
        return Err(SettleError::OtherStore);
    }
    for session in &mut *sessions {
        session.renew()?;
    }
    Given::new(sessions)?.settle()
}

/// Sessions that are given to a settlement of the library. They are taken back when it is dropped.
pub(crate) struct Given<'a> {
    settlement: Handle,
    sessions: &'a mut [Session],
    /// How many of the sessions are given.
    count: usize,
}

impl Given<'_> {
    pub(crate) fn new(sessions: &mut [Session]) -> Result<Given<'_>, NoMemory> {
        let mut given = Given {
            settlement: Handle::opened(ffi::nw_settlement_new)?,
            sessions,
            count: 0,
        };
        for session in &mut *given.sessions {
            let give = |own: &mut _| ffi::nw_settlement_give(&mut given.settlement, own);
            session.caller.call(give).done()?;
            given.count += 1;
        }
        Ok(given)
    }

    pub(crate) fn settle(&mut self) -> Result<Note, SettleError> {
        let mut history = Handle::answer()?;
        again(|| ffi::nw_settle(&mut self.settlement, &mut history)).done()?;
        Ok(Note::new(history))
    }
}

impl Drop for Given<'_> {
    fn drop(&mut self) {
        for session in self.sessions[..self.count].iter_mut().rev() {
            let take = |own: &mut _| ffi::nw_settlement_take(&mut self.settlement, own);
            session.caller.call(take).or_abort();
        }
    }
}

/// Sessions that do not settle, and why.
#[derive(Debug)]
pub struct Unsettled {
    sessions: Vec<Session>,
    why: SettleError,
}

impl Unsettled {
    /// Returns why the sessions do not settle.
    #[must_use]
    pub fn why(&self) -> SettleError {
        self.why
    }

    /// Returns the sessions, by their numbers. They can make further calls.
    #[must_use]
    pub fn into_sessions(self) -> Vec<Session> {
        self.sessions
    }
}

error_texts!(Unsettled {
    Unsettled { why, .. } => "{why}",
});

/// Why sessions do not settle.
#[derive(Clone, Copy, Debug, PartialEq, Eq, Hash)]
#[non_exhaustive]
pub enum SettleError {
    /// The sessions are not all that the store made.
    Missing,
    /// The sessions are of two stores.
    OtherStore,
    /// A session that was not given ended the run meanwhile.
    Ended,
    /// The library could not allocate memory.
    NoMemory,
}

coded_error!(SettleError {
    Missing = UNSETTLED => "a session of the store is missing",
    OtherStore => "the sessions are of two stores",
    Ended = ENDED => "another session ended the run",
});

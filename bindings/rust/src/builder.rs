//! The settings of a new store.

use crate::content::EventContent;
use crate::ffi::{self, Handle};
use crate::lock::{Lock, Rank};
use crate::store::Inner;
use crate::turns::{Counts, Turns};
use crate::{Committee, Limits, OpenError, Store};
use std::sync::Arc;

/// The settings of a new store. [`Store::builder`] makes them.
#[derive(Clone, Debug)]
#[must_use]
pub struct StoreBuilder {
    committee: Committee,
    limits: Limits,
    restart_when: Option<RestartWhen>,
    takes_turns: bool,
}

impl Store {
    /// Returns a builder for a store under the committee, with [`Limits::default`] and automatic
    /// restarts.
    ///
    /// ```
    /// # use narwhal_store::{Committee, PublicKey};
    /// use narwhal_store::{Limits, Store};
    ///
    /// # let committee = Committee::equal(&[PublicKey([7; 32])])?;
    /// let store = Store::builder(&committee)
    ///     .limits(Limits { window: 64, ..Limits::default() })
    ///     .restart_when(Store::HISTORY_BYTES, 2)
    ///     .open()?;
    /// let mut session = store.session()?;
    /// for _ in 0..3 {
    ///     let _ = session.status()?;
    /// }
    /// // The third call found two events, and began a new history.
    /// assert_eq!(store.events(), 1);
    /// # Ok::<(), Box<dyn std::error::Error>>(())
    /// ```
    pub fn builder(committee: &Committee) -> StoreBuilder {
        StoreBuilder {
            committee: committee.clone(),
            limits: Limits::default(),
            restart_when: Some(RestartWhen {
                bytes: Store::HISTORY_BYTES,
                events: u32::MAX,
            }),
            takes_turns: true,
        }
    }
}

impl StoreBuilder {
    /// Sets the limits.
    pub fn limits(mut self, limits: Limits) -> StoreBuilder {
        self.limits = limits;
        self
    }

    /// Sets when the store restarts its history. The default is [`Store::HISTORY_BYTES`] and
    /// [`Limits::events`].
    ///
    /// A call restarts the history first if the history has `events` events or as many as
    /// [`Limits::events`], or if the call could raise [`Store::history_bytes`] above `bytes`. So no
    /// call fails with [`StepError::HistoryFull`]. While there is memory for restarts, the history
    /// takes at most `bytes`, except by one event that alone takes more. The largest events are a
    /// write of 1.05 MB and a list of 65,535 missing parents of 3.1 MB.
    ///
    /// - An answer's history has only the events since the last restart.
    /// - The restart runs inside one call, in the turn of its thread. It copies an entry for each
    ///   stored block and certificate, and replays no event. It ends the run: see
    ///   [`Session::restart`].
    /// - The old history is freed after the turn, by the thread that made the call, unless an answer
    ///   that you hold still shares it.
    /// - If there is no memory for the restart, the call goes on without it. It fails with
    ///   [`StepError::NoMemory`] only if the history has as many events as [`Limits::events`].
    ///
    /// [`Session::restart`]: crate::Session::restart
    /// [`StepError::HistoryFull`]: crate::StepError::HistoryFull
    /// [`StepError::NoMemory`]: crate::StepError::NoMemory
    pub fn restart_when(mut self, bytes: u64, events: u32) -> StoreBuilder {
        self.restart_when = Some(RestartWhen { bytes, events });
        self
    }

    /// Makes a store that never restarts its history by itself.
    ///
    /// Calls fail with [`StepError::HistoryFull`] once the history has [`Limits::events`] events,
    /// until a session [restarts](crate::Session::restart) it. A peer can fill the history with
    /// repeated messages. Use this only if you need one history of all calls, and control who can make
    /// them.
    ///
    /// [`StepError::HistoryFull`]: crate::StepError::HistoryFull
    pub fn never_restart(mut self) -> StoreBuilder {
        self.restart_when = None;
        self
    }

    /// Makes a store whose threads do not wait for their turns: a call that finds the library busy is
    /// made again, until the library is not busy. All that is proved of the library holds for such a
    /// store too.
    ///
    /// Use it if one thread makes all calls, or if the program has a lock of its own around them.
    pub fn without_turns(mut self) -> StoreBuilder {
        self.takes_turns = false;
        self
    }

    /// Opens an empty store.
    ///
    /// # Errors
    ///
    /// [`OpenError::BadLimits`] if a limit is outside its range.
    pub fn open(self) -> Result<Store, OpenError> {
        let mut members = self.committee.share()?;
        let store = Handle::opened(|out| ffi::nw_store_new(&mut members, &self.limits, out))?;
        let restart_when = self.restart_when.map(|when| RestartWhen {
            events: when.events.min(self.limits.events),
            ..when
        });
        Ok(Store {
            inner: Arc::new(Inner {
                store: Lock::new(Rank::Store, store),
                idle: Lock::of(Vec::new()),
                turns: Turns::new(self.takes_turns),
                committee: self.committee,
                limits: self.limits,
                restart_when,
            }),
        })
    }
}

/// When a history restarts: at this many events, or before its bytes exceed the bound.
#[derive(Clone, Copy, Debug)]
pub(crate) struct RestartWhen {
    bytes: u64,
    events: u32,
}

impl RestartWhen {
    /// Whether a history of these counts restarts before a call with this content.
    #[inline]
    pub(crate) fn is_met(self, counts: &Counts, content: EventContent) -> bool {
        let is_over = counts.bytes + content.most() > self.bytes;
        counts.events > 0 && (is_over || counts.events >= u64::from(self.events))
    }
}

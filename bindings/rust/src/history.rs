//! The histories that explain answers.

use crate::Event;
use crate::code::{find, read};
use crate::debug::debug_by;
use crate::ffi::{self, Handle};
use crate::indexed::iterate_by_index;
use crate::lock::{Guard, Lock};
use std::ops::Range;
use std::ptr;

/// The history that explains an answer: the events of the run up to the answered call, which is
/// the last event. The history of a [`Note`](crate::Note) has the events up to the note.
///
/// It is proved that the answer is what the step table of docs/MODEL.md gives after the earlier
/// events, in this order, whatever other threads did.
///
/// The history is a view of the answer or note, and never changes. Events are decoded on use. The
/// type is `Send` and `Sync`.
///
/// ```
/// # use narwhal_store::{Committee, Digest, Limits, PublicKey, Store};
/// use narwhal_store::{Call, Event, Reply};
///
/// # let committee = Committee::equal(&[PublicKey([7; 32])])?;
/// # let mut session = Store::new(&committee, Limits::default())?.session()?;
/// let digest = Digest::of(b"nothing");
/// let first = session.read(&digest)?;
/// let second = session.collect(4)?;
///
/// let calls: Vec<Call> = second.history().events().map(|event| event.call).collect();
/// assert_eq!(calls, [Call::Read(digest), Call::Collect(4)]);
/// let last = Event { session: 0, number: 2, call: calls[1], reply: Reply::Raised { dropped: 0 } };
/// assert_eq!(second.history().event(1), Some(last));
/// assert!(first.history().is_prefix_of(second.history()));
/// assert!(!second.history().is_prefix_of(first.history()));
/// # Ok::<(), Box<dyn std::error::Error>>(())
/// ```
pub struct History(
    /// Only the threads that share a note wait for each other here.
    Lock<Handle>,
);

impl History {
    pub(crate) fn new(handle: Handle) -> History {
        History(Lock::of(handle))
    }

    /// What has the history in the library, for one call.
    #[inline]
    pub(crate) fn handle(&self) -> Guard<'_, Handle> {
        self.0.lock()
    }

    /// Returns the number of events. The history of an answer has at least 1.
    #[must_use]
    pub fn len(&self) -> usize {
        read(|out| ffi::nw_answer_events(&mut self.handle(), out))
    }

    /// Returns whether there are no events. This is `false` for the history of an answer.
    #[must_use]
    pub fn is_empty(&self) -> bool {
        self.len() == 0
    }

    /// Returns the event at the index, counted from 0, or `None` past the last one.
    #[must_use]
    pub fn event(&self, index: usize) -> Option<Event> {
        find(|out| ffi::nw_answer_event(&mut self.handle(), index, out)).map(Event::of)
    }

    /// Returns an iterator over the events, from the first.
    #[must_use]
    pub fn events(&self) -> Events<'_> {
        Events {
            history: self,
            left: 0..self.len(),
        }
    }

    /// Returns whether this history is a prefix of the other: both began from the same state, and the
    /// first events of the other are those of this one.
    ///
    /// Of any two answers or notes of one run of a store, the history of one is a prefix of that of
    /// the other.
    ///
    /// This takes time in proportion to the events, and to the state that the history started from.
    #[must_use]
    pub fn is_prefix_of(&self, other: &History) -> bool {
        if ptr::eq(self, other) {
            return true;
        }
        let (mut this, mut other) = both(self, other);
        read(|out| ffi::nw_answer_is_prefix(&mut this, &mut other, out))
    }
}

/// The handles of two histories. They are locked in the order of their places, so that two threads
/// that compare the same notes do not wait for each other for ever.
pub(crate) fn both<'a>(
    one: &'a History,
    other: &'a History,
) -> (Guard<'a, Handle>, Guard<'a, Handle>) {
    if ptr::from_ref(one) < ptr::from_ref(other) {
        let one = one.handle();
        (one, other.handle())
    } else {
        let other = other.handle();
        (one.handle(), other)
    }
}

debug_by!(History: len);

/// The events of a history. [`History::events`] returns it.
#[derive(Clone, Debug)]
pub struct Events<'a> {
    history: &'a History,
    left: Range<usize>,
}

impl Events<'_> {
    fn at(&self, index: usize) -> Option<Event> {
        self.history.event(index)
    }
}

iterate_by_index!(Events<'_>: Event);

//! Locks that ignore poisoning. A debug build also checks the order in which each thread takes them.

use std::cell::RefCell;
use std::ops::{Deref, DerefMut};
use std::ptr;
use std::sync::{Condvar, Mutex, MutexGuard, PoisonError, TryLockError};
use std::time::Duration;

/// The order of locks. A thread that holds one takes only those of a later rank, or of the same rank
/// at a higher address. So threads never wait for each other in a circle.
#[derive(Clone, Copy, Debug, Default, PartialEq, Eq, PartialOrd, Ord)]
pub(crate) enum Rank {
    /// The lock of a store's handle.
    Store,
    /// The lock of the thread whose turn it is.
    Turn,
    /// Any other lock.
    #[default]
    Value,
}

/// A mutex that ignores poisoning. No thread leaves the content half changed, so its panic does no
/// harm to the others.
#[derive(Default)]
pub(crate) struct Lock<T> {
    content: Mutex<T>,
    rank: Rank,
}

/// The content of a lock, until this is dropped.
pub(crate) struct Guard<'a, T> {
    content: MutexGuard<'a, T>,
    held: Held,
}

impl<T> Lock<T> {
    pub(crate) fn new(rank: Rank, content: T) -> Lock<T> {
        let content = Mutex::new(content);
        Lock { content, rank }
    }

    /// A lock of the last rank.
    pub(crate) fn of(content: T) -> Lock<T> {
        Lock::new(Rank::Value, content)
    }

    pub(crate) fn into_inner(self) -> T {
        let content = self.content.into_inner();
        content.unwrap_or_else(PoisonError::into_inner)
    }

    /// Waits for the content.
    #[inline]
    pub(crate) fn lock(&self) -> Guard<'_, T> {
        let held = Held::note(self);
        let content = self.content.lock().unwrap_or_else(PoisonError::into_inner);
        Guard { content, held }
    }

    /// The content, if no thread uses it.
    #[inline]
    pub(crate) fn try_lock(&self) -> Option<Guard<'_, T>> {
        let held = Held::note(self);
        let content = match self.content.try_lock() {
            Ok(content) => content,
            Err(TryLockError::Poisoned(content)) => content.into_inner(),
            Err(TryLockError::WouldBlock) => return None,
        };
        Some(Guard { content, held })
    }
}

impl<T> Guard<'_, T> {
    /// Unlocks the content while it is so, but not after the timeout, and sleeps until another thread
    /// notifies.
    pub(crate) fn wait_while(
        self,
        notified: &Condvar,
        timeout: Duration,
        is_so: impl FnMut(&mut T) -> bool,
    ) -> Self {
        let Guard { content, held } = self;
        let waited = notified.wait_timeout_while(content, timeout, is_so);
        let (content, _) = waited.unwrap_or_else(PoisonError::into_inner);
        Guard { content, held }
    }
}

impl<T> Deref for Guard<'_, T> {
    type Target = T;

    #[inline]
    fn deref(&self) -> &T {
        &self.content
    }
}

impl<T> DerefMut for Guard<'_, T> {
    #[inline]
    fn deref_mut(&mut self) -> &mut T {
        &mut self.content
    }
}

thread_local! {
    /// The locks that this thread holds, in a debug build: the rank and the address of each.
    static HELD: RefCell<Vec<(Rank, usize)>> = const { RefCell::new(Vec::new()) };
}

/// The note of a debug build that this thread holds a lock, or tries to take it.
struct Held((Rank, usize));

impl Held {
    #[inline]
    fn note<T>(lock: &Lock<T>) -> Held {
        let place = (lock.rank, ptr::from_ref(lock).addr());
        let note = |held: &RefCell<Vec<_>>| {
            let last = held.borrow().last().copied();
            let is_later = last.is_none_or(|last| last < place);
            assert!(is_later, "a lock of rank {:?} after {last:?}", lock.rank);
            held.borrow_mut().push(place);
        };
        // While a thread ends, nothing is noted.
        let _ = cfg!(debug_assertions).then(|| HELD.try_with(note));
        Held(place)
    }
}

impl Drop for Held {
    #[inline]
    fn drop(&mut self) {
        let forget = |held: &RefCell<Vec<_>>| held.borrow_mut().retain(|place| *place != self.0);
        let _ = cfg!(debug_assertions).then(|| HELD.try_with(forget));
    }
}

#[cfg(test)]
pub(crate) mod tests {
    use super::{HELD, Lock, Rank};
    use std::thread;

    /// Whether this thread holds a lock of this rank. A release build does not know.
    pub(crate) fn is_held(rank: Rank) -> bool {
        HELD.with(|held| held.borrow().iter().any(|(other, _)| *other == rank))
    }

    /// Panics in a thread that holds what this takes.
    pub(crate) fn panic_under<T>(take: impl FnOnce() -> T + Send) {
        thread::scope(|scope| {
            let panics = scope.spawn(|| {
                let _guard = take();
                panic!("under the lock");
            });
            panics.join().unwrap_err();
        });
    }

    #[test]
    fn a_panic_under_a_lock_stops_nobody() {
        let lock = Lock::of(7);
        panic_under(|| lock.lock());
        assert!(lock.content.is_poisoned());
        assert_eq!(*lock.lock(), 7);
        assert_eq!(lock.try_lock().as_deref(), Some(&7));
    }

    /// Whether a thread can take two locks, one after the other.
    fn goes(first: &Lock<()>, second: &Lock<()>) -> bool {
        let take = || drop((first.lock(), second.lock()));
        thread::scope(|scope| scope.spawn(take).join().is_ok())
    }

    #[test]
    fn a_debug_build_takes_locks_in_one_order_only() {
        let ranks = [Rank::Store, Rank::Turn, Rank::Value, Rank::Value];
        let locks = ranks.map(|rank| Lock::new(rank, ()));
        for (place, first) in locks.iter().enumerate() {
            for (other, second) in locks.iter().enumerate() {
                if place != other {
                    let is_wrong = cfg!(debug_assertions) && other < place;
                    assert_eq!(goes(first, second), !is_wrong, "{place} and {other}");
                }
            }
        }
    }
}

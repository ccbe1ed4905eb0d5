//! Waits for changes of a store.

use crate::debug::debug_by;
use crate::lock::Lock;
use std::collections::BTreeMap;
use std::future::Future;
use std::mem;
use std::pin::Pin;
use std::sync::{Arc, Condvar};
use std::task::{Context, Poll, Waker};
use std::time::Duration;

/// The count of a store's changes, and what waits for the next one. Its lock is never held during a
/// call, so a wait does not wait for calls.
#[derive(Default)]
pub(crate) struct Changes {
    state: Lock<State>,
    /// Wakes the threads that wait.
    noted: Condvar,
}

#[derive(Default)]
struct State {
    count: u64,
    /// How many threads wait.
    threads: usize,
    /// The tasks that wait, by the numbers of their futures.
    tasks: BTreeMap<u64, Waker>,
    /// The number of the last future.
    last: u64,
}

impl Changes {
    /// How many changes there were.
    pub(crate) fn count(&self) -> u64 {
        self.state.lock().count
    }

    /// Notes a change, and wakes all that wait.
    pub(crate) fn note(&self) {
        let mut state = self.state.lock();
        state.count += 1;
        let (threads, tasks) = (state.threads, mem::take(&mut state.tasks));
        drop(state);
        if threads > 0 {
            self.noted.notify_all();
        }
        tasks.into_values().for_each(Waker::wake);
    }

    /// Waits for a change after the first `seen`, and returns how many there are.
    pub(crate) fn wait(&self, seen: u64, timeout: Duration) -> u64 {
        let mut state = self.state.lock();
        state.threads += 1;
        let is_old = |state: &mut State| state.count <= seen;
        let mut state = state.wait_while(&self.noted, timeout, is_old);
        state.threads -= 1;
        state.count
    }
}

/// The future of [`Store::changed`](crate::Store::changed): it is ready once the store has changed.
#[must_use = "a future does nothing until it is polled"]
pub struct Changed {
    changes: Arc<Changes>,
    seen: u64,
    /// The number of this future, once it waits.
    number: u64,
}

impl Changed {
    pub(crate) fn new(changes: &Arc<Changes>, seen: u64) -> Changed {
        let changes = Arc::clone(changes);
        Changed {
            changes,
            seen,
            number: 0,
        }
    }

    fn seen(&self) -> u64 {
        self.seen
    }
}

impl Future for Changed {
    type Output = u64;

    fn poll(mut self: Pin<&mut Self>, context: &mut Context<'_>) -> Poll<u64> {
        let (waker, changes) = (context.waker().clone(), Arc::clone(&self.changes));
        let mut state = changes.state.lock();
        if state.count > self.seen {
            return Poll::Ready(state.count);
        }
        if self.number == 0 {
            state.last += 1;
            self.number = state.last;
        }
        let before = state.tasks.insert(self.number, waker);
        drop(state);
        drop(before);
        Poll::Pending
    }
}

impl Drop for Changed {
    fn drop(&mut self) {
        let waker = self.changes.state.lock().tasks.remove(&self.number);
        drop(waker);
    }
}

debug_by!(Changed: seen);

#[cfg(test)]
pub(crate) mod tests {
    use super::{Changed, Changes};
    use crate::no_memory::data;
    use crate::{Checked, Committee, Limits, PublicKey, Session, Store};
    use std::future::Future;
    use std::hint;
    use std::pin::{Pin, pin};
    use std::sync::atomic::{AtomicUsize, Ordering::SeqCst};
    use std::sync::mpsc::{Receiver, Sender, channel};
    use std::sync::{Arc, Mutex, Weak};
    use std::task::{Context, Poll, Wake, Waker};
    use std::thread;
    use std::time::{Duration, Instant};

    impl Changes {
        /// How many threads and tasks wait.
        pub(crate) fn waiting(&self) -> (usize, usize) {
            let state = self.state.lock();
            (state.threads, state.tasks.len())
        }
    }

    /// More than any thread needs to go on, and less than any of the waits.
    pub(crate) const SOON: Duration = Duration::from_secs(60);
    const LONG: Duration = Duration::from_secs(600);

    /// Waits until it is so, which must be soon.
    #[track_caller]
    pub(crate) fn soon(mut is_so: impl FnMut() -> bool) {
        let begun = Instant::now();
        for tries in 0.. {
            if is_so() {
                return;
            }
            assert!(begun.elapsed() < SOON, "it takes too long");
            match tries {
                0..100 => thread::yield_now(),
                _ => thread::sleep(Duration::from_micros(50)),
            }
        }
    }

    /// What another thread returns, which must be soon.
    #[track_caller]
    fn soon_in_thread<T: Send + 'static>(run: impl FnOnce() -> T + Send + 'static) -> T {
        let (done, result) = channel();
        thread::spawn(move || done.send(run()));
        result.recv_timeout(SOON).expect("it takes too long")
    }

    fn store() -> (Store, Session) {
        let committee = Committee::equal(&[PublicKey([1; 32])]).unwrap();
        let store = Store::new(&committee, Limits::default()).unwrap();
        let session = store.session().unwrap();
        (store, session)
    }

    fn waiting(store: &Store) -> (usize, usize) {
        store.inner.turns.changes.waiting()
    }

    /// Each of 20 changes wakes all of 8 threads that sleep, and at once.
    #[test]
    fn a_change_wakes_each_thread_that_waits() {
        let (store, mut session) = store();
        let (done, woken) = channel();
        for _ in 0..8 {
            let (store, done) = (store.clone(), done.clone());
            thread::spawn(move || {
                let mut seen = 0;
                while seen < 20 {
                    let begun = Instant::now();
                    seen = store.wait_for_change(seen, LONG);
                    done.send((seen, begun.elapsed())).unwrap();
                }
            });
        }
        for round in 1..=20 {
            soon(|| waiting(&store) == (8, 0));
            let _ = session.collect(round).unwrap();
            for _ in 0..8 {
                let (seen, time) = woken.recv_timeout(SOON).expect("a thread sleeps on");
                assert!(seen == round && time < SOON, "{time:?} for {seen} changes");
            }
        }
        assert_eq!(waiting(&store), (0, 0));
    }

    /// An executor of one thread. It polls a task again when its waker was called.
    struct Executor {
        tasks: Vec<Pin<Box<dyn Future<Output = ()>>>>,
        called: Receiver<usize>,
        wakers: Vec<Waker>,
    }

    /// The waker of a task.
    struct Bell(Sender<usize>, usize);

    impl Wake for Bell {
        fn wake(self: Arc<Self>) {
            self.0.send(self.1).unwrap();
        }
    }

    impl Executor {
        fn new(tasks: Vec<Pin<Box<dyn Future<Output = ()>>>>) -> Executor {
            let (call, called) = channel();
            let waker = |task| Waker::from(Arc::new(Bell(call.clone(), task)));
            let wakers: Vec<_> = (0..tasks.len()).map(waker).collect();
            wakers.iter().for_each(Waker::wake_by_ref);
            Executor {
                tasks,
                called,
                wakers,
            }
        }

        /// Polls tasks until this many have ended, each soon after the last poll.
        fn run(&mut self, mut left: usize) {
            while left > 0 {
                let task = self.called.recv_timeout(SOON).expect("a task sleeps on");
                let mut context = Context::from_waker(&self.wakers[task]);
                left -= usize::from(self.tasks[task].as_mut().poll(&mut context).is_ready());
            }
        }
    }

    /// 50 tasks wait for each of 40 changes, which another thread makes once all wait.
    #[test]
    fn a_change_wakes_each_task_that_waits() {
        let (store, mut session) = store();
        let changing = store.clone();
        let changes = thread::spawn(move || {
            for round in 1..=40 {
                soon(|| waiting(&changing) == (0, 50));
                let _ = session.collect(round).unwrap();
            }
        });
        let task = |_| {
            let store = store.clone();
            let wait = async move {
                for seen in 0..40 {
                    assert_eq!(store.changed(seen).await, seen + 1);
                }
            };
            Box::pin(wait) as Pin<Box<dyn Future<Output = ()>>>
        };
        Executor::new((0..50).map(task).collect()).run(50);
        changes.join().unwrap();
        assert_eq!(waiting(&store), (0, 0));
    }

    /// A waker that counts its calls.
    #[derive(Default)]
    struct Counted(AtomicUsize);

    impl Wake for Counted {
        fn wake(self: Arc<Self>) {
            self.0.fetch_add(1, SeqCst);
        }
    }

    fn poll(future: &mut Changed, waker: &Arc<impl Wake + Send + Sync + 'static>) -> Poll<u64> {
        let waker = Waker::from(Arc::clone(waker));
        Pin::new(future).poll(&mut Context::from_waker(&waker))
    }

    #[test]
    fn a_future_calls_its_last_waker_once_for_a_change() {
        let (store, mut session) = store();
        let (first, last) = (Arc::new(Counted::default()), Arc::new(Counted::default()));
        let calls = || [&first, &last].map(|waker| waker.0.load(SeqCst));
        let mut future = store.changed(0);
        assert_eq!(poll(&mut future, &first), Poll::Pending);
        assert_eq!(poll(&mut future, &last), Poll::Pending);
        assert_eq!(waiting(&store), (0, 1));
        // These change nothing.
        let _ = session.status().unwrap();
        let _ = session.collect(0).unwrap();
        drop(session.restart().unwrap());
        assert_eq!((calls(), poll(&mut future, &last)), ([0, 0], Poll::Pending));
        let _ = session.collect(1).unwrap();
        assert_eq!((calls(), waiting(&store)), ([0, 1], (0, 0)));
        assert_eq!(poll(&mut future, &last), Poll::Ready(1));
        let _ = session.collect(2).unwrap();
        for seen in [0, 1] {
            let output = poll(&mut store.changed(seen), &first);
            assert_eq!((calls(), output), ([0, 1], Poll::Ready(2)));
        }
    }

    #[test]
    fn a_dropped_future_leaves_nothing() {
        let (store, mut session) = store();
        let waker = Arc::new(Counted::default());
        let mut futures = [0, 0, 5].map(|seen| store.changed(seen));
        for future in &mut futures {
            assert_eq!(poll(future, &waker), Poll::Pending);
        }
        drop(store.changed(0));
        let [first, second, third] = futures;
        drop(second);
        assert_eq!((waiting(&store), Arc::strong_count(&waker)), ((0, 2), 3));
        let inner: Weak<_> = Arc::downgrade(&store.inner);
        let _ = session.collect(1).unwrap();
        drop((store, session));
        assert_eq!(inner.strong_count(), 0, "a future keeps the store");
        drop((first, third));
        assert_eq!((waker.0.load(SeqCst), Arc::strong_count(&waker)), (2, 1));
    }

    /// A waker that makes a call, and drops another future of its store.
    struct Calls(Mutex<(Session, Vec<Changed>)>);

    impl Wake for Calls {
        fn wake(self: Arc<Self>) {
            let (session, futures) = &mut *self.0.lock().unwrap();
            let _ = session.status().unwrap();
            futures.clear();
        }
    }

    /// Wakers are called without a lock, in the thread of the change, and before its call returns.
    #[test]
    fn a_waker_can_use_the_store() {
        let counts = soon_in_thread(|| {
            let (store, mut session) = store();
            let mut futures = vec![store.changed(0), store.changed(9)];
            for future in &mut futures {
                let waker = Arc::new(Counted::default());
                assert_eq!(poll(future, &waker), Poll::Pending);
            }
            let calls = Calls(Mutex::new((store.session().unwrap(), futures)));
            let mut future = store.changed(0);
            assert_eq!(poll(&mut future, &Arc::new(calls)), Poll::Pending);
            let _ = session.collect(1).unwrap();
            (store.events(), waiting(&store))
        });
        assert_eq!(counts, (2, (0, 0)));
    }

    /// A change at the same moment as a poll is seen by the poll, or wakes the task. This tries it
    /// often, for five seconds at most.
    #[test]
    fn no_change_is_missed_by_a_poll() {
        let (changes, waker) = (Arc::new(Changes::default()), Arc::new(Counted::default()));
        let (begin, begun) = channel();
        let own = Arc::clone(&changes);
        let noting = thread::spawn(move || {
            while let Ok(spins) = begun.recv() {
                (0..spins).for_each(|_| hint::spin_loop());
                own.note();
            }
        });
        let (first, mut round) = (Instant::now(), 0);
        while round < 20_000 && first.elapsed() < Duration::from_secs(5) {
            let (woken, mut future) = (waker.0.load(SeqCst), Changed::new(&changes, round));
            begin.send(round % 64).unwrap();
            (0..round / 64 % 64).for_each(|_| hint::spin_loop());
            if poll(&mut future, &waker).is_pending() {
                soon(|| waker.0.load(SeqCst) > woken);
            }
            round += 1;
            assert_eq!(poll(&mut future, &waker), Poll::Ready(round));
        }
        drop(begin);
        noting.join().unwrap();
    }

    /// While another thread has its turn, counts are read and waits end.
    #[test]
    fn counts_and_waits_wait_for_no_turn() {
        let (store, mut session) = store();
        let _ = session.collect(1).unwrap();
        let turn = store.inner.turns.take();
        let (own, short) = (store.clone(), Duration::from_millis(1));
        let read = soon_in_thread(move || {
            let future = pin!(own.changed(0)).poll(&mut Context::from_waker(Waker::noop()));
            let counted = (own.events(), own.history_bytes(), own.changes());
            (counted, own.wait_for_change(1, short), future)
        });
        assert_eq!(read, ((1, 150, 1), 1, Poll::Ready(1)));
        drop(turn);
    }

    /// While a call waits for its turn, the message that it hands in is free.
    #[test]
    fn a_message_is_free_while_a_call_waits() {
        let committee = Committee::equal(&data::keys()).unwrap();
        let message = data::values("message").remove(0);
        let Checked::Block(block) = committee.check(&message).unwrap() else {
            panic!("the first message is a block");
        };
        let stores = [(); 2].map(|()| Store::new(&committee, Limits::default()).unwrap());
        let [mut one, mut other] = [0, 1].map(|place: usize| stores[place].session().unwrap());
        let turn = stores[0].inner.turns.take();
        let own = block.clone();
        let waits = thread::spawn(move || one.write(&own).map(|answer| *answer.reply()));
        soon(|| stores[0].inner.turns.in_line() > 0);
        let (body, read) = (block.block().body(), block.message());
        let replies = soon_in_thread(move || {
            assert_eq!((block.block().body(), block.message()), (body, read));
            other.write(&block).map(|answer| *answer.reply())
        });
        drop(turn);
        assert_eq!(waits.join().unwrap(), replies);
    }
}

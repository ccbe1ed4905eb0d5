//! Checks of messages, of one or of many with several threads.

use crate::lock::Lock;
use crate::{CheckError, Checked, Committee};
use std::thread::{self, Builder};

/// The most threads that one call of [`Committee::check_all`] uses.
const MOST_THREADS: usize = 64;

impl Committee {
    /// Decodes a message and checks it under the committee.
    ///
    /// A block that passes is well formed and signed by its author. Its author and the authors of
    /// its parents are members, and its parents reach the quorum unless its round is 0. A
    /// certificate that passes is valid: its signers are members and reach the quorum, and every
    /// signature verifies. The signature of a vote is not verified here: [`Gather::add`] does that.
    ///
    /// A validator's own blocks are checked too, because a store takes only what was checked. Write
    /// the checked block before you send its message, and hand in the certificate that
    /// [`Gather::certificate`] returns: then no signature is verified twice, and your own store
    /// drops the copies that the network brings back.
    ///
    /// Several threads can check messages at once, under one committee. A check takes no lock of a
    /// store.
    ///
    /// # Errors
    ///
    /// - [`CheckError::Text`] if the bytes are not a message. The error names the first fault in
    ///   reading order.
    /// - [`CheckError::Block`] or [`CheckError::Certificate`] if the message breaks a rule. The
    ///   error names the first rule.
    /// - [`CheckError::NoMemory`] if the library could not allocate memory.
    ///
    /// ```
    /// # mod data { include!(concat!(env!("CARGO_MANIFEST_DIR"), "/examples/data/mod.rs")); }
    /// # let (keys, mut bytes) = (data::keys(), data::values("message").remove(0));
    /// use narwhal_store::{BlockFault, CheckError, Checked, Committee};
    ///
    /// let committee = Committee::equal(&keys)?;
    /// let Checked::Block(block) = committee.check(&bytes)? else {
    ///     panic!("the first message is a block");
    /// };
    /// assert_eq!(block.subject(), block.block().subject());
    ///
    /// // The message ends with the signature. With another last byte it does not verify.
    /// *bytes.last_mut().unwrap() ^= 1;
    /// let refused = committee.check(&bytes).unwrap_err();
    /// assert_eq!(refused, CheckError::Block(BlockFault::Signature));
    /// # Ok::<(), Box<dyn std::error::Error>>(())
    /// ```
    ///
    /// [`Gather::add`]: crate::Gather::add
    /// [`Gather::certificate`]: crate::Gather::certificate
    pub fn check(&self, message: &[u8]) -> Result<Checked, CheckError> {
        Checked::of(&mut self.share()?, message)
    }

    /// Checks many messages with several threads, and returns one result for each message, in order.
    ///
    /// Each result is that of [`check`](Committee::check). The calling thread checks messages too, so
    /// `threads` below 2 starts no other thread. At most 64 threads check, and at most one for each
    /// message, however large `threads` is. If the system does not start a thread, the others do its
    /// work.
    ///
    /// ```
    /// # mod data { include!(concat!(env!("CARGO_MANIFEST_DIR"), "/examples/data/mod.rs")); }
    /// # let (keys, mut messages) = (data::keys(), data::values("message"));
    /// use narwhal_store::{CheckError, Committee, TextFault};
    ///
    /// let committee = Committee::equal(&keys)?;
    /// messages.push(b"no message".to_vec());
    /// let results = committee.check_all(&messages, 4);
    /// assert_eq!(results.len(), messages.len());
    /// assert!(results[0].is_ok());
    /// let last = results.last().unwrap();
    /// assert!(matches!(last, Err(CheckError::Text(TextFault::Tag))));
    /// # Ok::<(), narwhal_store::CommitteeError>(())
    /// ```
    pub fn check_all(
        &self,
        messages: &[impl AsRef<[u8]> + Sync],
        threads: usize,
    ) -> Vec<Result<Checked, CheckError>> {
        let threads = threads.min(messages.len()).clamp(1, MOST_THREADS);
        let left = Lock::of(messages.iter().enumerate());
        let all = Lock::of(vec![Err(CheckError::NoMemory); messages.len()]);
        let work = || {
            // Without memory for a handle of the committee, the thread checks nothing.
            let Ok(mut committee) = self.share() else {
                return;
            };
            let next = || left.lock().next();
            while let Some((index, message)) = next() {
                let checked = Checked::of(&mut committee, message.as_ref());
                all.lock()[index] = checked;
            }
        };
        thread::scope(|scope| {
            let start = |_| drop(Builder::new().spawn_scoped(scope, work));
            (1..threads).for_each(start);
            work();
        });
        all.into_inner()
    }
}

#[cfg(test)]
mod tests {
    use super::MOST_THREADS;
    use crate::{Committee, PublicKey};
    use std::collections::HashSet;
    use std::sync::{Condvar, Mutex};
    use std::thread::{self, ThreadId};
    use std::time::Duration;

    /// A message that notes which thread checks it, and takes time.
    struct Slow<'a>(&'a Mutex<HashSet<ThreadId>>);

    impl AsRef<[u8]> for Slow<'_> {
        fn as_ref(&self) -> &[u8] {
            self.0.lock().unwrap().insert(thread::current().id());
            thread::sleep(Duration::from_millis(2));
            &[]
        }
    }

    #[test]
    fn a_call_uses_a_bounded_number_of_threads() {
        let committee = Committee::equal(&[PublicKey([1; 32])]).unwrap();
        for (threads, messages, most) in [
            (10_000, 1000, MOST_THREADS),
            (10_000, 3, 3),
            (2, 100, 2),
            (0, 100, 1),
        ] {
            let seen = Mutex::new(HashSet::new());
            let slow: Vec<_> = (0..messages).map(|_| Slow(&seen)).collect();
            assert_eq!(committee.check_all(&slow, threads).len(), messages);
            let used = seen.lock().unwrap().len();
            assert!((1..=most).contains(&used), "{used} of {threads} threads");
        }
    }

    /// A message that is checked only once two threads check messages. It gives up after ten seconds.
    struct Meeting<'a>(&'a Mutex<HashSet<ThreadId>>, &'a Condvar);

    impl AsRef<[u8]> for Meeting<'_> {
        fn as_ref(&self) -> &[u8] {
            let mut seen = self.0.lock().unwrap();
            seen.insert(thread::current().id());
            self.1.notify_all();
            let alone = |seen: &mut HashSet<ThreadId>| seen.len() < 2;
            drop(
                self.1
                    .wait_timeout_while(seen, Duration::from_secs(10), alone),
            );
            &[]
        }
    }

    #[test]
    fn two_threads_check_at_once() {
        let committee = Committee::equal(&[PublicKey([1; 32])]).unwrap();
        let (seen, met) = (Mutex::new(HashSet::new()), Condvar::new());
        let messages = [Meeting(&seen, &met), Meeting(&seen, &met)];
        assert_eq!(committee.check_all(&messages, 2).len(), 2);
        assert_eq!(seen.lock().unwrap().len(), 2);
    }
}

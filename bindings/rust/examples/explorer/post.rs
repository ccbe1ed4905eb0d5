//! The network of the explorer: it counts the messages on their way, loses some, and watches the votes.

use crate::lab::Com;
use narwhal_store::{Digest, Peek, Subject};
use std::collections::BTreeMap;
use std::error::Error;
use std::sync::mpsc::Sender;
use std::sync::{Condvar, Mutex, MutexGuard, PoisonError};
use std::time::Duration;

/// The first byte of a request for the block of a digest, which follows. No message of the store begins with it.
pub const REQUEST: u8 = 4;
/// For how many rounds the network remembers the votes.
const MEMORY: u64 = 64;
/// A round fails if its messages are not handled after this long.
const PATIENCE: Duration = Duration::from_secs(120);

pub const MEMBERS: u16 = 4;

pub type Outcome<T> = Result<T, Box<dyn Error + Send + Sync>>;

/// A message, with the member that sent it.
pub type Packet = (u16, Vec<u8>);

pub struct Post {
    /// The committee, and the signers of its members.
    pub com: Com,
    inboxes: Vec<Sender<Packet>>,
    traffic: Mutex<Traffic>,
    is_quiet: Condvar,
}

#[derive(Default)]
struct Traffic {
    on_their_way: usize,
    /// Whether the next block for a member is lost.
    is_losing: [bool; MEMBERS as usize],
    /// The votes that were sent, by round, author and signer.
    votes: BTreeMap<(u64, u16, u16), Digest>,
    double_votes: u64,
}

impl Post {
    pub fn new(inboxes: Vec<Sender<Packet>>) -> Post {
        Post {
            com: Com::new(MEMBERS),
            inboxes,
            traffic: Mutex::default(),
            is_quiet: Condvar::new(),
        }
    }

    fn traffic(&self) -> MutexGuard<'_, Traffic> {
        self.traffic.lock().unwrap_or_else(PoisonError::into_inner)
    }

    pub fn send(&self, from: u16, to: u16, message: &[u8]) {
        let mut traffic = self.traffic();
        match Peek::of(message) {
            Some(Peek::Block { .. }) if traffic.is_losing[usize::from(to)] => {
                traffic.is_losing[usize::from(to)] = false;
                return;
            }
            Some(Peek::Vote { subject, signer }) => traffic.note_vote(&subject, signer),
            _ => {}
        }
        traffic.on_their_way += 1;
        drop(traffic);
        let _ = self.inboxes[usize::from(to)].send((from, message.to_vec()));
    }

    pub fn send_to_others(&self, from: u16, message: &[u8]) {
        let others = (0..MEMBERS).filter(|member| *member != from);
        others.for_each(|member| self.send(from, member, message));
    }

    /// Loses the next block for the member.
    pub fn lose_next(&self, to: u16) {
        self.traffic().is_losing[usize::from(to)] = true;
    }

    /// Whether the next block for the member is lost.
    pub fn is_losing(&self, to: u16) -> bool {
        self.traffic().is_losing[usize::from(to)]
    }

    /// How often a member voted for a second block of a round and author.
    pub fn double_votes(&self) -> u64 {
        self.traffic().double_votes
    }

    /// Notes that a member has handled a message.
    pub fn handled(&self) {
        let mut traffic = self.traffic();
        traffic.on_their_way -= 1;
        if traffic.on_their_way == 0 {
            self.is_quiet.notify_all();
        }
    }

    /// Waits until all messages are handled.
    pub fn wait_until_quiet(&self) -> Outcome<()> {
        let is_busy = |traffic: &mut Traffic| traffic.on_their_way > 0;
        let waited = self
            .is_quiet
            .wait_timeout_while(self.traffic(), PATIENCE, is_busy);
        match waited.unwrap_or_else(PoisonError::into_inner) {
            (_traffic, waited) if waited.timed_out() => {
                Err("a validator does not handle its messages".into())
            }
            _ => Ok(()),
        }
    }
}

impl Traffic {
    fn note_vote(&mut self, subject: &Subject, signer: u16) {
        let key = (subject.round, subject.author, signer);
        let first = *self.votes.entry(key).or_insert(subject.digest);
        self.double_votes += u64::from(first != subject.digest);
        let oldest = subject.round.saturating_sub(MEMORY);
        self.votes = self.votes.split_off(&(oldest, 0, 0));
    }
}

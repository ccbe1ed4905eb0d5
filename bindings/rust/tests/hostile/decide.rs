//! A consensus over the store: which leaders are decided, and the order of blocks that follows.
//!
//! Every second round has a leader. A leader is decided if f + 1 certified blocks of the next round refer to it. Before it, the leaders in its
//! causal list are decided. A later leader always has such a leader in its list, so all validators decide the same leaders.

use narwhal_store::{CheckedBlock, Digest, Session, Ticket};
use std::collections::{BTreeMap, BTreeSet, VecDeque};

/// How far the garbage round stays behind the last leader.
const LAG: u64 = 8;

type Key = (u64, u16, [u8; 32]);
type Parents = Vec<(u16, Digest)>;

pub struct Decider {
    members: u16,
    /// The parents of the stored blocks of odd rounds.
    parents: BTreeMap<Key, Parents>,
    /// The leaders to deliver, in order.
    due: VecDeque<(u64, Digest)>,
    /// The round of the next leader to decide.
    next: u64,
    delivered: BTreeSet<(u64, u16)>,
    pub order: Vec<(u64, u16)>,
    pub leaders: Vec<u64>,
}

impl Decider {
    pub fn new(members: u16) -> Decider {
        Decider {
            members,
            parents: BTreeMap::new(),
            due: VecDeque::new(),
            next: 2,
            delivered: BTreeSet::new(),
            order: Vec::new(),
            leaders: Vec::new(),
        }
    }

    /// Notes a stored block.
    pub fn stored(&mut self, block: &CheckedBlock) {
        let subject = block.subject();
        if subject.round % 2 == 1 && subject.round > self.next {
            let key = (subject.round, subject.author, subject.digest.0);
            self.parents.insert(key, block.block().parents().to_vec());
        }
    }

    /// Delivers the next decided leader, and returns the garbage round that follows.
    pub fn decide(&mut self, session: &mut Session) -> Option<u64> {
        if self.due.is_empty() {
            self.find(session);
        }
        let (round, digest) = self.due.pop_front()?;
        for block in causal(session, &digest)?.walk().expect("memory") {
            let slot = (block.round(), block.author());
            if self.delivered.insert(slot) {
                self.order.push(slot);
            }
        }
        self.leaders.push(round);
        self.next = round + 2;
        let floor = round.saturating_sub(LAG);
        self.parents = self.parents.split_off(&(self.next, 0, [0; 32]));
        self.delivered = self.delivered.split_off(&(floor, 0));
        Some(floor)
    }

    fn leader(&self, round: u64, session: &mut Session) -> Option<Digest> {
        let author = (round / 2 % u64::from(self.members)) as u16;
        let look = session.look(round, author);
        look.certified.filter(|_| look.stands)
    }

    /// Finds the first leader with enough support, and the leaders before it.
    fn find(&mut self, session: &mut Session) {
        let newest = self.parents.last_key_value().map_or(0, |(key, _)| key.0);
        for round in (self.next..newest).step_by(2) {
            let Some(digest) = self.leader(round, session) else {
                continue;
            };
            if !self.is_supported(round, digest, session) {
                continue;
            }
            let Some(mut ticket) = causal(session, &digest) else {
                return; // An ancestor is missing.
            };
            self.due.push_front((round, digest));
            for earlier in (self.next..round).rev().filter(|round| round % 2 == 0) {
                let Some(digest) = self.leader(earlier, session) else {
                    continue;
                };
                let mut list = ticket.walk().expect("memory");
                if list.any(|block| block.round() == earlier && block.digest() == digest) {
                    self.due.push_front((earlier, digest));
                    ticket = causal(session, &digest).expect("an ancestor of a complete block");
                }
            }
            return;
        }
    }

    /// Whether f + 1 certified blocks of the next round refer to the leader.
    fn is_supported(&self, round: u64, leader: Digest, session: &mut Session) -> bool {
        let of_next = (round + 1, 0, [0; 32])..(round + 2, 0, [0; 32]);
        let supports = |(key, parents): &(&Key, &Parents)| {
            let is_certified = session.look(key.0, key.1).certified == Some(Digest(key.2));
            is_certified && parents.iter().any(|(_, digest)| *digest == leader)
        };
        let support = self.parents.range(of_next).filter(supports).count();
        support > usize::from((self.members - 1) / 3)
    }
}

fn causal(session: &mut Session, digest: &Digest) -> Option<Ticket> {
    session.causal(digest).expect("memory").into_ticket().ok()
}

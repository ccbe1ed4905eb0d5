//! The network: it delivers messages to stores that have the model beside them.

mod answers;
mod corpus;
mod draw;
mod node;
pub mod threads;

use crate::model::{Call, Digest, Reply};
use answers::block_of;
pub use answers::{code_of, subject_of};
pub use corpus::{Case, corpus, votes_of};
pub use draw::{Draw, Tally};
use narwhal_store::{AgreeError, Limits, Ticket};
use node::{Kept, Node};
use std::collections::{BTreeMap, BTreeSet};
use std::rc::Rc;

/// From this time on nothing is sent again. Each round takes 10 units of time.
const LAST: u64 = 600;

/// The choices of a seed before its run.
pub struct Plan<'a> {
    pub seen: &'a Tally,
    pub limits: Limits,
    /// The bytes and events at which the store restarts its history. `None` if it never does.
    pub restart: Option<(u64, u32)>,
    /// The percentages of lost, late and repeated messages.
    lost: u64,
    late: u64,
    twice: u64,
    /// Whether to deliver the certificates that only a faulty quorum signs.
    faulty: bool,
    /// How many of 1,000 deliveries end in a crash.
    crashes: u64,
    /// How far the garbage round stays behind the newest round. `None` if no garbage is collected.
    lag: Option<u64>,
    /// The percentage of deliveries that another call follows.
    busy: u64,
}

impl<'a> Plan<'a> {
    pub fn new(draw: &mut Draw, size: u64, seen: &'a Tally) -> Plan<'a> {
        let (lag, slack) = (draw.between(1, 9), draw.between(2, 8));
        let mut small_or = |percent, small, large| match draw.chance(percent) {
            true => small as u32,
            false => large,
        };
        // A store that collects garbage gets by with the small limits, but it meets them.
        let blocks = small_or(25, (lag + slack) * size, Limits::MAX.blocks);
        let window = small_or(25, lag + slack, Limits::MAX.window);
        let events = small_or(40, 0, Limits::MAX.events);
        Plan {
            seen,
            limits: Limits {
                blocks,
                events: events.max(draw.between(1, 200) as u32),
                window,
                sessions: draw.between(1, 4) as u32,
            },
            restart: draw.chance(60).then(|| {
                let bytes = [u64::MAX, draw.between(300, 30_000)][draw.index(2)];
                (
                    bytes,
                    [u32::MAX, draw.between(1, 200) as u32][draw.index(2)],
                )
            }),
            lost: [0, 5, 20][draw.index(3)],
            late: [5, 20, 60][draw.index(3)],
            twice: [0, 5, 20][draw.index(3)],
            faulty: draw.chance(50),
            crashes: [0, 2, 6][draw.index(3)],
            lag: draw.chance(85).then_some(lag),
            busy: [10, 30, 60][draw.index(3)],
        }
    }
}

/// All validators of a committee, and the messages on their way.
pub struct World<'a> {
    case: &'a Case,
    /// Another committee.
    other: &'a Case,
    plan: &'a Plan<'a>,
    draw: Draw,
    nodes: Vec<Node<'a>>,
    /// The time when a message arrives, with a random number that orders the messages of one time, and its node and index.
    agenda: BTreeMap<(u64, u64), (usize, usize)>,
    /// The causal list of a digest at a garbage round, which is the same on all stores, with one of its tickets.
    lists: BTreeMap<(Digest, u64), (Vec<Digest>, Rc<Ticket>)>,
}

impl<'a> World<'a> {
    pub fn new(case: &'a Case, other: &'a Case, plan: &'a Plan<'a>, mut draw: Draw) -> World<'a> {
        let nodes = (0..case.committee.size())
            .map(|_| Node::new(case, plan, &mut draw))
            .collect();
        let mut world = World {
            case,
            other,
            plan,
            draw,
            nodes,
            agenda: BTreeMap::new(),
            lists: BTreeMap::new(),
        };
        for node in 0..world.nodes.len() {
            world.send_all(node);
        }
        world
    }

    /// Sends all messages to the node.
    fn send_all(&mut self, node: usize) {
        for (index, delivery) in self.case.deliveries.iter().enumerate() {
            if delivery.faulty && !self.plan.faulty || self.draw.chance(self.plan.lost) {
                continue;
            }
            let sent = delivery.slot.0.min(50) * 10 + self.draw.below(8);
            let late = if self.draw.chance(self.plan.late) {
                self.draw.below(100)
            } else {
                0
            };
            self.send(sent + late, node, index);
            if self.draw.chance(self.plan.twice) {
                let again = self.draw.below(100);
                self.send(sent + again, node, index);
            }
        }
    }

    fn send(&mut self, time: u64, node: usize, index: usize) {
        self.agenda.insert((time, self.draw.next()), (node, index));
    }

    /// Delivers all messages, with other calls in between.
    pub fn run(&mut self) {
        while let Some(((time, _), (node, index))) = self.agenda.pop_first() {
            self.deliver(time, node, index);
            if self.draw.chance(self.plan.busy) {
                self.act(time, node, index);
            }
        }
        self.settle();
        for node in 0..self.nodes.len() {
            self.ask(node, Call::Status);
            if self.draw.chance(25) {
                self.ask(node, Call::Collect((1 << 48) - 1));
                self.ask(node, Call::Status);
            }
            self.nodes[node].restart(&mut self.draw);
        }
    }

    /// All nodes raise their garbage rounds to the highest one, take missing blocks, and read the newest blocks causally.
    fn settle(&mut self) {
        let floor = self
            .nodes
            .iter()
            .map(|node| node.model.floor())
            .max()
            .expect("a node");
        let newest = self
            .case
            .deliveries
            .iter()
            .filter(|delivery| (36..40).contains(&delivery.slot.0));
        let newest: BTreeSet<_> = newest.map(|delivery| delivery.digest).collect();
        for node in 0..self.nodes.len() {
            self.ask(node, Call::Collect(floor));
            let mut before = Vec::new();
            loop {
                let Reply::Missing(missing) = self.ask(node, Call::Missing(u16::MAX)) else {
                    unreachable!()
                };
                if missing == before {
                    break;
                }
                let indices = missing
                    .iter()
                    .filter_map(|(_, digest)| self.case.of_digest.get(digest))
                    .flatten();
                for &index in indices.filter(|index| !self.case.deliveries[**index].faulty) {
                    self.nodes[node].take(&mut self.draw, &self.case.deliveries[index]);
                }
                before = missing;
            }
            for digest in &newest {
                if let Reply::List(_) = self.ask(node, Call::Causal(*digest)) {
                    self.walk(node, self.nodes[node].tickets.len() - 1);
                }
            }
        }
    }

    fn ask(&mut self, node: usize, call: Call) -> Reply {
        self.nodes[node].ask(&mut self.draw, &call, None)
    }

    /// Delivers a message. It comes again later if the store could not take it yet.
    fn deliver(&mut self, time: u64, node: usize, index: usize) {
        let crashes = self.draw.below(1_000) < self.plan.crashes;
        let delivery = &self.case.deliveries[index];
        let is_to_come_again = if crashes {
            self.nodes[node].crash(&mut self.draw, delivery);
            true
        } else {
            let reply = self.nodes[node].take(&mut self.draw, delivery);
            matches!(reply, Reply::TooFar | Reply::Full | Reply::Equivocates(_))
        };
        if is_to_come_again && time < LAST && self.draw.chance(60) {
            let again = time + self.draw.between(5, 50);
            self.send(again, node, index);
        }
    }

    /// Makes some other call.
    fn act(&mut self, time: u64, node: usize, index: usize) {
        let digest = self.some_digest(node, index);
        match self.draw.below(100) {
            0..10 => drop(self.ask(node, Call::Read(digest))),
            10..15 => drop(self.ask(node, Call::Certificate(digest))),
            15..20 => drop(self.ask(node, Call::MissingOf(digest))),
            20..45 => self.read_causally(time, node, digest),
            45..60 => self.walk_some(node),
            60..63 => drop(self.ask(node, Call::Status)),
            63..66 => self.look_round(node),
            66..74 => self.fetch_missing(time, node),
            74..84 => self.collect(node),
            84..87 => self.nodes[node].restart(&mut self.draw),
            87..89 => self.nodes[node].compact(),
            89..91 => self.nodes[node].open_session(),
            91..96 => self.take_foreign(node),
            _ => self.nodes[node].take_bad_round(&mut self.draw),
        }
    }

    fn some_digest(&mut self, node: usize, index: usize) -> Digest {
        let recent = &self.nodes[node].recent;
        match self.draw.below(10) {
            0 => [7; 32],
            1 => self.case.deliveries[self.draw.index(self.case.deliveries.len())].digest,
            2..4 => self.case.deliveries[index].digest,
            _ if recent.is_empty() => self.case.deliveries[index].digest,
            _ => recent[self.draw.index(recent.len())],
        }
    }

    /// Reads a digest causally, and asks for missing parents if it is incomplete.
    fn read_causally(&mut self, time: u64, node: usize, digest: Digest) {
        if let Reply::Incomplete = self.ask(node, Call::Causal(digest)) {
            self.fetch_missing(time, node);
        }
    }

    /// Looks at a round near the newest one.
    fn look_round(&mut self, node: usize) {
        let newest = self.nodes[node].newest;
        let round = (newest + 2).saturating_sub(self.draw.below(6));
        self.nodes[node].look_round(&mut self.draw, round);
    }

    /// Lists missing parents, and sends some of them.
    fn fetch_missing(&mut self, time: u64, node: usize) {
        let most = [0, 1, 3, 100, u16::MAX][self.draw.index(5)];
        let Reply::Missing(missing) = self.ask(node, Call::Missing(most)) else {
            unreachable!()
        };
        for (_, digest) in missing.into_iter().take(5) {
            for &index in self.case.of_digest.get(&digest).into_iter().flatten() {
                let is_sent = !self.case.deliveries[index].faulty || self.plan.faulty;
                if is_sent && time < LAST && self.draw.chance(70) {
                    let soon = time + self.draw.between(1, 9);
                    self.send(soon, node, index);
                }
            }
        }
    }

    /// Moves the garbage round closer to the newest round. Sometimes the round is too low, or far too high.
    fn collect(&mut self, node: usize) {
        let Some(lag) = self.plan.lag else { return };
        let (floor, newest) = (self.nodes[node].model.floor(), self.nodes[node].newest);
        let round = match self.draw.below(20) {
            0 => 0,
            1 => floor,
            2 => floor + self.draw.below(12),
            _ => newest.saturating_sub(lag),
        };
        self.ask(node, Call::Collect(round));
    }

    /// Walks one of the node's tickets. It may be from before a collection, a restart or a crash.
    fn walk_some(&mut self, node: usize) {
        let kept = self.nodes[node].tickets.len();
        if kept > 0 {
            let which = self.draw.index(kept);
            self.walk(node, which);
        }
    }

    fn walk(&mut self, node: usize, which: usize) {
        let Kept {
            ticket,
            floor,
            list,
        } = &self.nodes[node].tickets[which];
        // The block that was read is the last one of the list.
        let key = (list[list.len() - 1].digest, *floor);
        assert_eq!(
            (ticket.digest().0, ticket.garbage_round()),
            key,
            "what a ticket is for"
        );
        let walked = ticket.walk().expect("memory");
        assert_eq!(walked.len(), list.len(), "the length of a walk");
        for (block, expected) in walked.zip(list) {
            assert_eq!(block_of(&block), **expected, "a block of a walk");
        }
        let digests: Vec<_> = list.iter().map(|block| block.digest).collect();
        if let Some((other, other_ticket)) = self.lists.get(&key) {
            assert_eq!(
                &digests, other,
                "the walks of one digest at one garbage round"
            );
            assert!(
                matches!(ticket.agrees(other_ticket), Ok(true)),
                "tickets of one digest at one garbage round"
            );
            self.plan.seen.count("walks that agree".into());
        }
        if let Some((_, (_, apart))) = self.lists.iter().find(|(other, _)| **other != key) {
            assert!(
                matches!(ticket.agrees(apart), Err(AgreeError::NotComparable)),
                "tickets of two digests or garbage rounds"
            );
        }
        if self.lists.len() == 64 {
            self.lists.pop_first();
        }
        self.lists.insert(key, (digests, ticket.clone()));
    }

    /// Hands in a message that was checked under another committee.
    fn take_foreign(&mut self, node: usize) {
        let delivery = &self.other.deliveries[self.draw.index(self.other.deliveries.len())];
        self.nodes[node].take_foreign(&mut self.draw, delivery);
    }
}

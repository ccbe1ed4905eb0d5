//! A network of honest and faulty members. A seed determines its size, the attacks and the delays.

use crate::faulty::{ATTACKS, Attack, Faulty};
use crate::honest::{Honest, Rules};
use crate::lab::Com;
use crate::simulator_draw::Draw;
use narwhal_store::{CheckError, Checked, Subject};
use std::collections::{BTreeMap, HashMap};
use std::rc::Rc;

/// From this time on nothing happens.
const END: u64 = 700;
/// The time between two ticks of a member.
const TICK: u64 = 10;

#[derive(Clone)]
pub enum Packet {
    Message(Rc<[u8]>),
    /// Asks for the block and the certificate of a digest.
    Fetch(Subject),
}

/// What a member sends, before the network draws the delays.
pub struct Post {
    members: u16,
    sent: Vec<(u16, u16, Packet)>,
    turn: u16,
}

impl Post {
    pub fn new(members: u16) -> Post {
        Post {
            members,
            sent: Vec::new(),
            turn: 0,
        }
    }

    pub fn send(&mut self, from: u16, to: u16, packet: Packet) {
        self.sent.push((from, to, packet));
    }

    pub fn broadcast(&mut self, from: u16, message: &Rc<[u8]>) {
        for to in 0..self.members {
            self.send(from, to, Packet::Message(message.clone()));
        }
    }

    /// Sends the message to about half of the members.
    pub fn some(&mut self, from: u16, draw: &mut Draw, message: &Rc<[u8]>) {
        for to in 0..self.members {
            if draw.chance(50) {
                self.send(from, to, Packet::Message(message.clone()));
            }
        }
    }

    /// Asks the author and two other members, in turn.
    pub fn ask_some(&mut self, from: u16, author: u16, subject: Subject) {
        self.send(from, author, Packet::Fetch(subject));
        for _ in 0..2 {
            self.turn = (self.turn + 1) % self.members;
            self.send(from, self.turn, Packet::Fetch(subject));
        }
    }
}

/// The checked messages. Each is checked once, although each member has to check it.
#[derive(Default)]
pub struct Checks(pub HashMap<Rc<[u8]>, Rc<Result<Checked, CheckError>>>);

impl Checks {
    pub fn check(&mut self, com: &Com, message: &Rc<[u8]>) -> Rc<Result<Checked, CheckError>> {
        let check = || Rc::new(com.committee.check(message));
        self.0.entry(message.clone()).or_insert_with(check).clone()
    }
}

/// What happened in a run.
#[derive(Debug)]
pub struct Ran {
    /// How many leaders the honest members decided, at least and at most.
    pub leaders: (usize, usize),
    /// The highest round of an honest member, and the lowest last leader of one.
    pub round: u64,
    pub last_leader: u64,
}

pub struct World<'a> {
    com: &'a Com,
    draw: Draw,
    honest: BTreeMap<u16, Honest<'a>>,
    faulty: BTreeMap<u16, Faulty<'a>>,
    /// The time when a packet arrives, with a random number that orders the packets of one time, the sender and the receiver. A tick is
    /// `None`.
    agenda: BTreeMap<(u64, u64), (u16, u16, Option<Packet>)>,
    checks: Checks,
    post: Post,
}

impl<'a> World<'a> {
    /// A committee in which each faulty member makes some attacks, or all of them make the given one.
    pub fn new(com: &'a Com, seed: u64, attack: Option<Attack>, rules: Option<Rules>) -> World<'a> {
        let mut draw = Draw::new(seed);
        let members = com.committee.size() as u16;
        let most = u64::from((members - 1) / 3);
        let count = match attack {
            Some(_) => most,
            None => draw.between(1, most),
        };
        let first = draw.below(u64::from(members)) as u16;
        let numbers: Vec<u16> = (0..count as u16).map(|at| (first + at) % members).collect();
        let (mut honest, mut faulty) = (BTreeMap::new(), BTreeMap::new());
        for me in 0..members {
            if numbers.contains(&me) {
                let attacks = attack.map_or_else(|| some_attacks(&mut draw), |one| vec![one]);
                faulty.insert(me, Faulty::new(com, me, numbers.clone(), attacks));
            } else {
                let drawn = [Rules::Follows, Rules::ChecksAll][draw.index(2)];
                honest.insert(me, Honest::new(com, me, rules.unwrap_or(drawn)));
            }
        }
        World {
            com,
            draw,
            honest,
            faulty,
            agenda: BTreeMap::new(),
            checks: Checks::default(),
            post: Post::new(members),
        }
    }

    pub fn run(mut self) -> Ran {
        for me in 0..self.com.committee.size() as u16 {
            self.plan_tick(0, me);
        }
        while let Some(((time, _), (from, to, packet))) = self.agenda.pop_first() {
            match packet {
                Some(packet) => self.deliver(from, to, &packet),
                None => self.tick(time, to),
            }
            for (from, to, packet) in std::mem::take(&mut self.post.sent) {
                let late = if self.draw.chance(5) { 30 } else { 8 };
                let delay = if from == to {
                    1
                } else {
                    self.draw.between(1, late)
                };
                let at = (time + delay, self.draw.next());
                self.agenda.insert(at, (from, to, Some(packet)));
            }
        }
        self.ran()
    }

    fn plan_tick(&mut self, time: u64, me: u16) {
        let at = (
            time + self.draw.between(TICK - 2, TICK + 2),
            self.draw.next(),
        );
        if at.0 < END {
            self.agenda.insert(at, (me, me, None));
        }
    }

    fn deliver(&mut self, from: u16, to: u16, packet: &Packet) {
        if let Some(honest) = self.honest.get_mut(&to) {
            honest.take(from, packet, &mut self.checks, &mut self.post);
            honest.check_memory();
        } else if let Some(faulty) = self.faulty.get_mut(&to) {
            faulty.take(packet, &mut self.draw, &mut self.post);
        }
    }

    fn tick(&mut self, time: u64, me: u16) {
        if let Some(honest) = self.honest.get_mut(&me) {
            honest.check_blocks();
            honest.tick(&mut self.checks, &mut self.post);
        } else if let Some(faulty) = self.faulty.get_mut(&me) {
            faulty.tick(&mut self.draw, &mut self.post);
        }
        self.plan_tick(time, me);
    }

    /// All honest orders are prefixes of one another.
    fn ran(self) -> Ran {
        let mut deciders: Vec<_> = self.honest.values().map(|one| &one.decider).collect();
        deciders.sort_by_key(|decider| decider.order.len());
        for pair in deciders.windows(2) {
            assert!(pair[1].order.starts_with(&pair[0].order), "two orders");
            assert!(pair[1].leaders.starts_with(&pair[0].leaders), "two leaders");
        }
        let leaders = deciders.iter().map(|decider| decider.leaders.len());
        let last_leader = deciders
            .iter()
            .map(|decider| decider.leaders.last().copied().unwrap_or(0));
        let rounds = self.honest.values().map(|one| one.round);
        Ran {
            leaders: (
                leaders.clone().min().unwrap_or(0),
                leaders.max().unwrap_or(0),
            ),
            round: rounds.max().unwrap_or(0),
            last_leader: last_leader.min().unwrap_or(0),
        }
    }
}

fn some_attacks(draw: &mut Draw) -> Vec<Attack> {
    let count = draw.between(1, 4);
    (0..count)
        .map(|_| ATTACKS[draw.index(ATTACKS.len())])
        .collect()
}

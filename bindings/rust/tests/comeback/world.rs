//! A network of validators, each with its log on a disk. A seed determines the delays, the crashes and who is away.

use crate::lab::Com;
use crate::node::{Node, Out};
use crate::simulator_draw::Draw;
use narwhal_store::{Checked, Digest, Limits, Peek};
use narwhal_validator::Checkpoint;
use std::collections::BTreeMap;
use std::fs;
use std::path::PathBuf;
use std::sync::Arc;
use std::sync::atomic::{AtomicU64, Ordering};

const LIMITS: Limits = Limits {
    blocks: 65_536,
    events: 4_096,
    window: 32,
    sessions: 1,
};
/// The most time until a member handles what came, and until its next tick.
const PACE: u64 = 12;
const TICK: u64 = 100;
/// How much time a member has to catch up.
const PATIENCE: u64 = 20_000;

/// What an absent member keeps of its log.
#[derive(Clone, Copy, Debug, PartialEq, Eq)]
pub enum Kept {
    Whole,
    Older,
    Nothing,
}

/// An absence.
#[derive(Clone, Copy, Debug)]
pub struct Away {
    pub members: u16,
    /// How far the others get.
    pub rounds: u64,
    pub kept: Kept,
    /// Whether the member knows that its log is not whole.
    pub says_so: bool,
    /// How often a member crashes while the absent one catches up.
    pub crashes: u64,
}

/// The last checkpoint of the absent member at its end and at its return, and what it delivered and signed then.
#[derive(Debug)]
#[allow(dead_code)] // It is printed.
pub struct CaughtUp {
    left: u64,
    came: u64,
    end: u64,
    delivered: u64,
    signed: u64,
}

#[derive(PartialEq)]
enum Event {
    Packet(u16, Vec<u8>),
    /// The member handles what came, and makes a block if it can.
    Turn,
    Tick,
}

pub struct World {
    com: Arc<Com>,
    draw: Draw,
    away: Away,
    me: u16,
    folder: PathBuf,
    nodes: Vec<Option<Node>>,
    /// What came for each member.
    inboxes: Vec<Vec<(u16, Vec<u8>)>>,
    /// How often each member was opened.
    lives: Vec<u64>,
    agenda: BTreeMap<(u64, u64), (u16, Event)>,
    time: u64,
    /// The digests that each member signed, by whether it is a vote, the round and the author.
    signed: BTreeMap<(u16, bool, u64, u16), Digest>,
    /// The delivered blocks by number, and the checkpoints by the number of delivered blocks.
    order: BTreeMap<u64, Digest>,
    checkpoints: BTreeMap<u64, Checkpoint>,
    /// What the absent member delivered and signed since it came back.
    delivered: u64,
    new: u64,
    /// A faulty member, which makes two blocks for some slots.
    twins: Option<u16>,
}

impl World {
    pub fn new(seed: u64, away: Away) -> World {
        static FOLDERS: AtomicU64 = AtomicU64::new(0);
        let number = FOLDERS.fetch_add(1, Ordering::Relaxed);
        let shared = PathBuf::from("/dev/shm"); // In memory, so that a sync takes no time.
        let room = if shared.is_dir() {
            shared
        } else {
            std::env::temp_dir()
        };
        let folder = room.join(format!("narwhal-comeback-{}-{number}", std::process::id()));
        fs::create_dir(&folder).expect("a folder");
        let mut draw = Draw::new(seed);
        let me = draw.below(away.members.into()) as u16;
        let mut world = World {
            com: Arc::new(Com::new(away.members)),
            draw,
            me,
            away,
            folder,
            nodes: (0..away.members).map(|_| None).collect(),
            inboxes: vec![Vec::new(); away.members.into()],
            lives: vec![0; away.members.into()],
            agenda: BTreeMap::new(),
            time: 0,
            signed: BTreeMap::new(),
            order: BTreeMap::new(),
            checkpoints: BTreeMap::new(),
            delivered: 0,
            new: 0,
            twins: (away.members == 7).then_some((me + 1) % away.members),
        };
        for member in 0..away.members {
            world.open(member, false);
            world.plan(member, Event::Tick, TICK);
            world.plan(member, Event::Turn, PACE);
        }
        world
    }

    fn log(&self, member: u16) -> [PathBuf; 2] {
        ["log", "copy"].map(|name| self.folder.join(format!("{name}{member}")))
    }

    fn open(&mut self, member: u16, is_lost: bool) {
        let com = Arc::clone(&self.com);
        let sign = move |text: &[u8]| com.sign(member, text);
        let (log, sign) = (self.log(member), Box::new(sign));
        let node = Node::open(&self.com.committee, member, LIMITS, log, is_lost, sign);
        self.nodes[usize::from(member)] = Some(node.expect("a validator"));
        self.lives[usize::from(member)] += 1;
    }

    fn plan(&mut self, member: u16, event: Event, time: u64) {
        let late = self.draw.between(1, time);
        let at = (self.time + late, self.draw.next());
        self.agenda.insert(at, (member, event));
    }

    /// Runs until the time, or until this holds.
    fn run_until(&mut self, end: u64, holds: impl Fn(&World) -> bool) -> bool {
        while !holds(self) {
            let Some(((time, _), (member, event))) = self.agenda.pop_first() else {
                return false;
            };
            self.time = time;
            self.happen(member, event);
            if time > end {
                return false;
            }
        }
        true
    }

    fn happen(&mut self, member: u16, event: Event) {
        let (place, is_tick) = (usize::from(member), event == Event::Tick);
        match event {
            Event::Packet(from, packet) => return self.inboxes[place].push((from, packet)),
            Event::Turn => self.plan(member, Event::Turn, PACE),
            Event::Tick => self.plan(member, Event::Tick, TICK),
        }
        let packets = std::mem::take(&mut self.inboxes[place]);
        let Some(node) = &mut self.nodes[place] else {
            return;
        };
        // The blocks of two lives differ.
        let transactions = [vec![self.lives[place] as u8]];
        let out = node.turn(packets.into_iter(), &transactions, is_tick);
        let checkpoint = node.flow.checkpoint();
        self.hand_out(member, out.expect("no failure"));
        let first = *self
            .checkpoints
            .entry(checkpoint.delivered)
            .or_insert(checkpoint);
        assert_eq!(first, checkpoint, "two orders");
    }

    fn hand_out(&mut self, from: u16, out: Out) {
        for (number, block) in out.delivered {
            let first = *self.order.entry(number).or_insert(block.digest());
            assert_eq!(first, block.digest(), "two orders");
            self.delivered += u64::from(from == self.me);
        }
        for (to, packet) in out.sent {
            self.note(from, &packet);
            let packet = self.twin(from, packet);
            if from == to {
                self.inboxes[usize::from(to)].push((from, packet));
            } else if !self.draw.chance(1) {
                self.plan(to, Event::Packet(from, packet), 8);
            }
        }
    }

    /// Notes what a member signed. A block is not noted when others send it.
    fn note(&mut self, from: u16, packet: &[u8]) {
        let (slot, digest) = match Peek::of(packet) {
            Some(Peek::Block { round, author }) if author == from => {
                let body = &packet[1..packet.len() - 64];
                ((from, false, round, author), Digest::of(body))
            }
            Some(Peek::Vote { subject, signer }) if signer == from => {
                ((from, true, subject.round, subject.author), subject.digest)
            }
            _ => return,
        };
        let mut is_new = false;
        let first = *self.signed.entry(slot).or_insert_with(|| {
            is_new = true;
            digest
        });
        self.new += u64::from(is_new && from == self.me);
        assert!(first == digest, "member {from} signs twice: {slot:?}");
    }

    /// The faulty member sends another block of its slot to half of the members.
    fn twin(&mut self, from: u16, packet: Vec<u8>) -> Vec<u8> {
        let is_block =
            matches!(Peek::of(&packet), Some(Peek::Block { author, .. }) if author == from);
        if self.twins != Some(from) || !is_block || self.draw.chance(50) {
            return packet;
        }
        let Ok(Checked::Block(block)) = self.com.committee.check(&packet) else {
            return packet;
        };
        let block = block.block();
        let (twin, _) = self
            .com
            .block(from, block.round(), block.parents(), &[b"twin".to_vec()]);
        twin
    }

    /// The round of a member's last leader.
    fn leader(&self, of: u16) -> u64 {
        let node = self.nodes[usize::from(of)].as_ref();
        node.map_or(0, |node| node.flow.checkpoint().leader.round)
    }

    fn others(&self) -> impl Iterator<Item = u16> + '_ {
        (0..self.away.members).filter(|member| *member != self.me)
    }

    fn newest(&self) -> u64 {
        self.others()
            .map(|member| self.leader(member))
            .max()
            .unwrap_or(0)
    }

    fn copies(&self) -> [Option<Vec<u8>>; 2] {
        self.log(self.me).map(|path| fs::read(path).ok())
    }

    pub fn run(mut self) -> CaughtUp {
        let (older, left) = (self.draw.between(0, 8) * 2, self.draw.between(4, 10) * 2);
        assert!(self.run_until(u64::MAX, |world| world.leader(world.me) >= older));
        let old = self.copies();
        let is_there = |world: &World| world.leader(world.me) >= left + older;
        assert!(
            self.run_until(self.time + PATIENCE, is_there),
            "they stopped"
        );
        let left = self.leader(self.me);
        self.nodes[usize::from(self.me)] = None;
        let until = self.newest() + self.away.rounds;
        let is_away = |world: &World| world.newest() >= until;
        assert!(self.run_until(u64::MAX, is_away), "the others stopped");
        self.come_back(old);
        let came = self.newest();
        (self.delivered, self.new) = (0, 0);
        self.crash();
        let end = came + 20;
        let is_back = |world: &World| {
            let is_up = world.nodes.iter().all(Option::is_some);
            is_up && world.leader(world.me) >= end && world.new > 10 && world.delivered > 10
        };
        let has_caught_up = self.run_until(self.time + PATIENCE, is_back);
        let caught_up = CaughtUp {
            left,
            came,
            end: self.leader(self.me),
            delivered: self.delivered,
            signed: self.new,
        };
        assert!(
            has_caught_up,
            "{:?} {caught_up:?}, the others {}",
            self.away,
            self.newest()
        );
        caught_up
    }

    fn come_back(&mut self, old: [Option<Vec<u8>>; 2]) {
        for (path, old) in self.log(self.me).iter().zip(old) {
            match (self.away.kept, old) {
                (Kept::Whole, _) => {}
                (Kept::Older, Some(old)) => fs::write(path, old).expect("a disk"),
                _ => fs::remove_file(path).expect("a disk"),
            }
        }
        let is_lost = self.away.says_so && self.away.kept != Kept::Whole;
        self.open(self.me, is_lost);
    }

    /// The member that came back crashes some times while it catches up, and sometimes another one.
    fn crash(&mut self) {
        for _ in 0..self.away.crashes {
            let soon = self.time + self.draw.between(1, 300);
            self.run_until(soon, |_| false);
            let other = (self.me + 2) % self.away.members;
            let member = if self.draw.chance(75) { self.me } else { other };
            self.nodes[usize::from(member)] = None;
            let soon = self.time + self.draw.between(1, 100);
            self.run_until(soon, |_| false);
            self.open(member, false);
        }
    }
}

impl Drop for World {
    fn drop(&mut self) {
        fs::remove_dir_all(&self.folder).ok();
    }
}

//! Faulty members: each makes the attacks that the seed gives it.

use crate::honest::LIMITS;
use crate::lab::Com;
use crate::simulator_draw::Draw;
use crate::world::{Packet, Post};
use narwhal_store::{Digest, Peek, Subject};
use std::collections::{BTreeMap, BTreeSet};
use std::rc::Rc;

const WINDOW: u64 = LIMITS.window as u64;

/// What a faulty member does. `Silence` is to do nothing else.
#[derive(Clone, Copy, Debug, PartialEq, Eq, PartialOrd, Ord)]
pub enum Attack {
    /// One block whose parents do not exist, and its certificate if honest members vote.
    OneBlock,
    /// Such a block in each round.
    MadeUpParents,
    /// Two blocks for a slot, to different members, and more and more of them.
    Twins,
    /// Blocks above the window.
    FarRounds,
    /// Large blocks that every store refuses: old ones, far ones and twins.
    RefusedBodies,
    /// Messages of others, again and again.
    Replays,
    /// Blocks with made-up parents in all rounds of the window.
    InventedReferences,
    /// A block like those of honest members, whose certificate comes many rounds late.
    WithheldCertificate,
    Silence,
}

pub const ATTACKS: [Attack; 9] = [
    Attack::OneBlock,
    Attack::MadeUpParents,
    Attack::Twins,
    Attack::FarRounds,
    Attack::RefusedBodies,
    Attack::Replays,
    Attack::InventedReferences,
    Attack::WithheldCertificate,
    Attack::Silence,
];

pub struct Faulty<'a> {
    pub me: u16,
    com: &'a Com,
    attacks: Vec<Attack>,
    /// All faulty members: they sign for each other.
    faulty: Vec<u16>,
    /// The certified digests that it heard of.
    certified: BTreeMap<u64, BTreeMap<u16, Digest>>,
    heard: Vec<Rc<[u8]>>,
    /// Who voted for its blocks.
    voters: BTreeMap<[u8; 32], (Subject, BTreeSet<u16>)>,
    /// The rounds in which it made its one block of each kind.
    made: BTreeSet<(Attack, u64)>,
    /// Certificates to send once the round is reached.
    withheld: Vec<(u64, Rc<[u8]>)>,
}

impl<'a> Faulty<'a> {
    pub fn new(com: &'a Com, me: u16, faulty: Vec<u16>, attacks: Vec<Attack>) -> Faulty<'a> {
        Faulty {
            me,
            com,
            attacks,
            faulty,
            certified: BTreeMap::new(),
            heard: Vec::new(),
            voters: BTreeMap::new(),
            made: BTreeSet::new(),
            withheld: Vec::new(),
        }
    }

    /// The round that the honest members are about to make blocks of.
    fn round(&self) -> u64 {
        let quorum = self.com.committee.quorum() as usize;
        let is_quorum = |(_, slots): &(&u64, &BTreeMap<u16, Digest>)| slots.len() >= quorum;
        let last = self.certified.iter().rev().find(is_quorum);
        last.map_or(0, |(round, _)| round + 1)
    }

    pub fn take(&mut self, packet: &Packet, draw: &mut Draw, post: &mut Post) {
        let Packet::Message(message) = packet else {
            return;
        };
        if self.heard.len() == 100 {
            self.heard.swap_remove(draw.index(100));
        }
        self.heard.push(message.clone());
        match Peek::of(message) {
            Some(Peek::Certificate(subject)) => {
                let round = self.certified.entry(subject.round).or_default();
                round.insert(subject.author, subject.digest);
            }
            Some(Peek::Vote { subject, signer }) => self.count(subject, signer, post),
            _ => {}
        }
    }

    /// Counts a vote for one of its blocks. At a quorum it has a certificate.
    fn count(&mut self, subject: Subject, signer: u16, post: &mut Post) {
        let quorum = self.com.committee.quorum() as usize;
        let Some((_, voters)) = self.voters.get_mut(&subject.digest.0) else {
            return;
        };
        if !voters.insert(signer) || voters.len() != quorum {
            return;
        }
        let signers: Vec<u16> = voters.iter().copied().collect();
        let message: Rc<[u8]> = self.com.certificate(&subject, &signers).into();
        if self
            .made
            .contains(&(Attack::WithheldCertificate, subject.round))
        {
            self.withheld.push((subject.round + 6, message));
        } else {
            post.broadcast(self.me, &message);
        }
    }

    pub fn tick(&mut self, draw: &mut Draw, post: &mut Post) {
        let round = self.round();
        let is_due = |(when, _): &(u64, Rc<[u8]>)| *when <= round;
        for (_, message) in self.withheld.extract_if_due(is_due) {
            post.broadcast(self.me, &message);
        }
        for attack in self.attacks.clone() {
            self.attack(attack, round, draw, post);
        }
    }

    fn attack(&mut self, attack: Attack, round: u64, draw: &mut Draw, post: &mut Post) {
        let is_new = self.made.insert((attack, round));
        match attack {
            Attack::OneBlock if is_new && round == 5 => {
                self.send_made_up([round].into_iter(), 30, draw, post);
            }
            Attack::OneBlock | Attack::Silence => {}
            Attack::MadeUpParents if is_new => {
                self.send_made_up([round].into_iter(), 30, draw, post);
            }
            Attack::WithheldCertificate if is_new => {
                let message = self.block(round, self.parents(round), 30, draw);
                post.broadcast(self.me, &message);
            }
            Attack::MadeUpParents | Attack::WithheldCertificate => {}
            Attack::Twins => {
                for _ in 0..4 {
                    let message = self.block(round, self.parents(round), 40, draw);
                    post.some(self.me, draw, &message);
                }
            }
            Attack::FarRounds => {
                let far = round + WINDOW + draw.below(WINDOW * 10);
                self.send_made_up([far].into_iter(), 30, draw, post);
            }
            Attack::RefusedBodies => {
                let rounds = [round.saturating_sub(12), round + WINDOW, round];
                let bytes = draw.between(1_000, 8_000) as usize;
                self.send_made_up(rounds.into_iter(), bytes, draw, post);
            }
            Attack::Replays => {
                for _ in 0..20.min(self.heard.len()) {
                    let message = self.heard[draw.index(self.heard.len())].clone();
                    post.broadcast(self.me, &message);
                }
            }
            Attack::InventedReferences => {
                let rounds = (round + 1..round + WINDOW).step_by(3);
                self.send_made_up(rounds, 30, draw, post);
            }
        }
    }

    /// Sends a block of this size with made-up parents for each round.
    fn send_made_up(
        &mut self,
        rounds: impl Iterator<Item = u64>,
        bytes: usize,
        draw: &mut Draw,
        post: &mut Post,
    ) {
        for round in rounds {
            let message = self.block(round, self.made_up(draw), bytes, draw);
            post.broadcast(self.me, &message);
        }
    }

    /// A signed block, whose votes are counted.
    fn block(
        &mut self,
        round: u64,
        parents: Vec<(u16, Digest)>,
        bytes: usize,
        draw: &mut Draw,
    ) -> Rc<[u8]> {
        let parents = if round == 0 { Vec::new() } else { parents };
        let transaction = [
            vec![draw.next() as u8; bytes],
            draw.next().to_be_bytes().into(),
        ];
        let (message, subject) = self.com.block(self.me, round, &parents, &transaction);
        let voters = self.faulty.iter().copied().collect();
        self.voters.insert(subject.digest.0, (subject, voters));
        message.into()
    }

    /// A quorum of parents that nobody made.
    fn made_up(&self, draw: &mut Draw) -> Vec<(u16, Digest)> {
        let made_up = |author| (author, Digest::of(&draw.next().to_be_bytes()));
        (0..self.com.committee.quorum() as u16)
            .map(made_up)
            .collect()
    }

    /// The certified blocks of the round before.
    fn parents(&self, round: u64) -> Vec<(u16, Digest)> {
        let before = round
            .checked_sub(1)
            .and_then(|before| self.certified.get(&before));
        before
            .into_iter()
            .flatten()
            .map(|(&author, &digest)| (author, digest))
            .collect()
    }
}

/// `Vec::extract_if` is newer than the crate's oldest Rust.
trait ExtractIfDue<T> {
    fn extract_if_due(&mut self, is_due: impl Fn(&T) -> bool) -> Vec<T>;
}

impl<T> ExtractIfDue<T> for Vec<T> {
    fn extract_if_due(&mut self, is_due: impl Fn(&T) -> bool) -> Vec<T> {
        let (due, rest) = std::mem::take(self).into_iter().partition(is_due);
        *self = rest;
        due
    }
}

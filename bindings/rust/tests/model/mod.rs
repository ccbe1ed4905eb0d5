//! The step table of docs/MODEL.md over maps of the standard library.
//!
//! It is written from that document and shares no code with the store or the crate. The caller decodes messages.

use std::collections::{BTreeMap, BTreeSet};
use std::sync::Arc;

pub type Digest = [u8; 32];

/// A round and an author.
pub type Slot = (u64, u16);

#[derive(Debug, PartialEq)]
pub struct Block {
    pub digest: Digest,
    pub slot: Slot,
    pub parents: Vec<(u16, Digest)>,
    pub body: Vec<u8>,
}

#[derive(Debug, PartialEq)]
pub struct Certificate {
    pub digest: Digest,
    pub slot: Slot,
    pub message: Vec<u8>,
}

#[derive(Clone, Debug)]
pub enum Call {
    Write(Arc<Block>),
    Certify(Arc<Certificate>),
    Certificate(Digest),
    Read(Digest),
    Causal(Digest),
    Collect(u64),
    Missing(u16),
    MissingOf(Digest),
    Status,
}

/// What a state has in a slot.
#[derive(Clone, Copy, Debug, Default, PartialEq)]
pub struct Look {
    pub newest_round: u64,
    pub first: Option<Digest>,
    pub missing: usize,
    pub certified: Option<Digest>,
    pub stands: bool,
    pub complete: bool,
}

#[derive(Clone, Debug, PartialEq)]
pub enum Reply {
    Stored {
        vote: bool,
    },
    Held,
    Clash,
    Equivocates(Digest),
    Certified,
    Already,
    Conflict(Digest),
    Collected(u64),
    TooFar,
    Misfit,
    Full,
    Certificate(Option<Arc<Certificate>>),
    Block(Option<Arc<Block>>),
    Unknown,
    Uncertified,
    Incomplete,
    List(Vec<Arc<Block>>),
    /// Stands for the list in an answer that opens a ticket.
    Ready,
    Raised {
        dropped: u64,
    },
    NotHigher(u64),
    Missing(Vec<(Slot, Digest)>),
    MissingOf(Option<Vec<(Slot, Digest)>>),
    Status(Counts),
}

#[derive(Clone, Copy, Debug, PartialEq)]
pub struct Counts {
    pub garbage_round: u64,
    pub blocks: u64,
    pub certificates: u64,
    pub complete: u64,
    pub wanted: u64,
}

/// A state with its bounds.
#[derive(Clone, Debug, PartialEq)]
pub struct Model {
    blocks: BTreeMap<Digest, Arc<Block>>,
    certificates: BTreeMap<Digest, Arc<Certificate>>,
    firsts: BTreeMap<Slot, Digest>,
    floor: u64,
    most: usize,
    window: u64,
}

impl Model {
    /// The opening state. It holds up to `most` blocks and as many certificates, of `window` rounds from the garbage round on.
    pub fn new(most: u32, window: u32) -> Model {
        Model {
            blocks: BTreeMap::new(),
            certificates: BTreeMap::new(),
            firsts: BTreeMap::new(),
            floor: 0,
            most: most as usize,
            window: window.into(),
        }
    }

    /// The garbage round.
    pub fn floor(&self) -> u64 {
        self.floor
    }

    /// Takes the step and returns the reply.
    pub fn step(&mut self, call: &Call) -> Reply {
        match call {
            Call::Write(block) => self.write(block),
            Call::Certify(certificate) => self.certify(certificate),
            Call::Certificate(digest) => Reply::Certificate(self.certificates.get(digest).cloned()),
            Call::Read(digest) => Reply::Block(self.blocks.get(digest).cloned()),
            Call::Causal(digest) => self.causal(digest),
            Call::Collect(round) => self.collect(*round),
            Call::Missing(most) => {
                Reply::Missing(self.wanted().into_iter().take(usize::from(*most)).collect())
            }
            Call::MissingOf(digest) => Reply::MissingOf(
                self.blocks
                    .get(digest)
                    .map(|block| self.wanted_by(block).into_iter().collect()),
            ),
            Call::Status => Reply::Status(Counts {
                garbage_round: self.floor,
                blocks: self.blocks.len() as u64,
                certificates: self.certificates.len() as u64,
                complete: self.complete().len() as u64,
                wanted: self.wanted().len() as u64,
            }),
        }
    }

    fn write(&mut self, block: &Arc<Block>) -> Reply {
        let (digest, round) = (block.digest, block.slot.0);
        let certified = self.certificates.get(&digest);
        let first = self.firsts.get(&block.slot).copied();
        if round < self.floor {
            Reply::Collected(self.floor)
        } else if round >= self.floor + self.window {
            Reply::TooFar
        } else if let Some(held) = self.blocks.get(&digest) {
            if held == block {
                Reply::Held
            } else {
                Reply::Clash
            }
        } else if certified.is_some_and(|certificate| certificate.slot != block.slot) {
            Reply::Misfit
        } else if let (Some(first), None) = (first.filter(|first| *first != digest), certified) {
            Reply::Equivocates(first)
        } else if self.blocks.len() == self.most {
            Reply::Full
        } else {
            self.blocks.insert(digest, block.clone());
            self.firsts.entry(block.slot).or_insert(digest);
            Reply::Stored {
                vote: first.is_none(),
            }
        }
    }

    fn certify(&mut self, certificate: &Arc<Certificate>) -> Reply {
        let (digest, slot) = (certificate.digest, certificate.slot);
        let held = self.blocks.get(&digest);
        if slot.0 < self.floor {
            return Reply::Collected(self.floor);
        }
        if slot.0 >= self.floor + self.window {
            return Reply::TooFar;
        }
        if let Some(kept) = self.certificates.get(&digest) {
            return if kept.slot == slot {
                Reply::Already
            } else {
                Reply::Misfit
            };
        }
        if held.is_some_and(|block| block.slot != slot) {
            return Reply::Misfit;
        }
        if let Some(other) = self.certificates.values().find(|kept| kept.slot == slot) {
            return Reply::Conflict(other.digest);
        }
        if self.certificates.len() == self.most {
            return Reply::Full;
        }
        self.certificates.insert(digest, certificate.clone());
        Reply::Certified
    }

    fn collect(&mut self, round: u64) -> Reply {
        if round <= self.floor {
            return Reply::NotHigher(self.floor);
        }
        let before = self.blocks.len();
        self.floor = round;
        self.blocks.retain(|_, block| block.slot.0 >= round);
        self.certificates
            .retain(|_, certificate| certificate.slot.0 >= round);
        self.firsts.retain(|slot, _| slot.0 >= round);
        Reply::Raised {
            dropped: (before - self.blocks.len()) as u64,
        }
    }

    fn causal(&self, digest: &Digest) -> Reply {
        if !self.blocks.contains_key(digest) {
            return Reply::Unknown;
        }
        if !self.certificates.contains_key(digest) {
            return Reply::Uncertified;
        }
        let mut ancestors = BTreeMap::new();
        let mut open = vec![*digest];
        while let Some(next) = open.pop() {
            let block = &self.blocks[&next];
            let satisfied = block
                .parents
                .iter()
                .filter(|parent| self.is_satisfied(block, parent));
            let satisfied: Vec<_> = satisfied.map(|(_, parent)| *parent).collect();
            if block.slot.0 > self.floor && satisfied.len() < block.parents.len() {
                return Reply::Incomplete;
            }
            if ancestors.insert(block.slot, block.clone()).is_none() {
                open.extend(satisfied);
            }
        }
        Reply::List(ancestors.into_values().collect())
    }

    /// Whether a reference of `block` is satisfied: its digest stands, and that block has the named author and the round before.
    fn is_satisfied(&self, block: &Block, (author, digest): &(u16, Digest)) -> bool {
        let named = self
            .blocks
            .get(digest)
            .filter(|_| self.certificates.contains_key(digest));
        named.is_some_and(|named| named.slot.1 == *author && named.slot.0 + 1 == block.slot.0)
    }

    /// The complete digests: those that stand and, above the garbage round, have all references satisfied by complete digests.
    fn complete(&self) -> BTreeSet<Digest> {
        let mut ascending: Vec<_> = self.blocks.values().collect();
        ascending.sort_by_key(|block| block.slot);
        let mut complete = BTreeSet::new();
        for block in ascending {
            let is_met = |parent: &(u16, Digest)| {
                self.is_satisfied(block, parent) && complete.contains(&parent.1)
            };
            let is_met = block.slot.0 <= self.floor || block.parents.iter().all(is_met);
            if is_met && self.certificates.contains_key(&block.digest) {
                complete.insert(block.digest);
            }
        }
        complete
    }

    /// The wanted parents: those that some block wants.
    fn wanted(&self) -> BTreeSet<(Slot, Digest)> {
        let blocks = self.blocks.values();
        blocks.flat_map(|block| self.wanted_by(block)).collect()
    }

    /// The parents that a block wants: if it is above the garbage round, those named by its references that are not satisfied.
    fn wanted_by(&self, block: &Block) -> BTreeSet<(Slot, Digest)> {
        let is_open = |parent: &&(u16, Digest)| {
            block.slot.0 > self.floor && !self.is_satisfied(block, parent)
        };
        let open = block.parents.iter().filter(is_open);
        open.map(|(author, digest)| ((block.slot.0 - 1, *author), *digest))
            .collect()
    }

    /// What the state has in each slot of the round with a first or a certified digest, by author.
    pub fn look_round(&self, round: u64) -> BTreeMap<u16, Look> {
        let mut looks: BTreeMap<u16, Look> = BTreeMap::new();
        let complete = self.complete();
        for ((_, author), first) in self.firsts.range((round, 0)..=(round, u16::MAX)) {
            let look = looks.entry(*author).or_default();
            look.first = Some(*first);
            look.missing = self.wanted_by(&self.blocks[first]).len();
        }
        let kept = self.certificates.values();
        for kept in kept.filter(|kept| kept.slot.0 == round) {
            let look = looks.entry(kept.slot.1).or_default();
            look.certified = Some(kept.digest);
            look.stands = self.blocks.contains_key(&kept.digest);
            look.complete = complete.contains(&kept.digest);
        }
        let kept = self.certificates.values().map(|kept| kept.slot.0);
        let rounds = self.firsts.keys().map(|slot| slot.0).chain(kept);
        let newest_round = rounds.fold(self.floor, u64::max);
        for look in looks.values_mut() {
            look.newest_round = newest_round;
        }
        looks
    }
}

//! What a member that was away asks the others for, and what it may conclude from their answers.

use crate::Checkpoint;
use crate::order::{bytes_of, subject_at};
use narwhal_store::{Checked, Committee, Subject};
use std::collections::{BTreeMap, BTreeSet, VecDeque};
use std::iter;

const OF_SUBJECT: u8 = b'B';
const ROUND: u8 = b'R';
const STANDING: u8 = b'?';
pub(crate) const ANSWER: u8 = b'A';
const SIGNS_FROM: u8 = b'S';
/// The most checkpoints of a standing.
pub(crate) const RECENT: usize = 8;

/// What a member asks another one for. [`Log::answer`](crate::Log::answer) answers it.
#[derive(Clone, Copy, Debug, PartialEq, Eq)]
pub enum Request {
    /// A block and its certificate.
    Of(Subject),
    /// All blocks and certificates of a round.
    Round(u64),
    /// How far the member is. Ask this over connections that began after this member started.
    Standing,
}

impl Request {
    /// The bytes to send. No message of a store begins with the same byte.
    #[must_use]
    pub fn bytes(&self) -> Vec<u8> {
        match self {
            Request::Of(of) => [vec![OF_SUBJECT], bytes_of(of)].concat(),
            Request::Round(round) => [&[ROUND][..], &round.to_be_bytes()].concat(),
            Request::Standing => vec![STANDING],
        }
    }

    /// The request of these bytes, if they are one.
    #[must_use]
    pub fn read(bytes: &[u8]) -> Option<Request> {
        match bytes.split_first()? {
            (&OF_SUBJECT, rest) => {
                let (of, rest) = subject_at(rest)?;
                rest.is_empty().then_some(Request::Of(of))
            }
            (&ROUND, rest) => Some(Request::Round(u64::from_be_bytes(rest.try_into().ok()?))),
            (&STANDING, []) => Some(Request::Standing),
            _ => None,
        }
    }
}

/// How far a member is: its last checkpoints, and the message of its newest certificate.
pub(crate) fn standing(checkpoints: &VecDeque<Checkpoint>, newest: &[u8]) -> Vec<u8> {
    let records: Vec<u8> = checkpoints.iter().flat_map(Checkpoint::record).collect();
    [&[ANSWER, checkpoints.len() as u8], &records[..], newest].concat()
}

/// The record of a promise: from now on, the member signs nothing of a round below this one.
#[must_use]
pub fn promise(signs_from: u64) -> Vec<u8> {
    [&[SIGNS_FROM][..], &signs_from.to_be_bytes()].concat()
}

/// The round of a promise, if the record is one.
pub(crate) fn promised(record: &[u8]) -> Option<u64> {
    let round = record.strip_prefix(&[SIGNS_FROM])?;
    Some(u64::from_be_bytes(round.try_into().ok()?))
}

/// The sum of the weights of members.
pub(crate) fn weight_of(committee: &Committee, members: impl Iterator<Item = u16>) -> u32 {
    members.filter_map(|member| committee.member(member)).map(|it| it.weight).sum()
}

/// What the other members say about how far they are. Each may say it again.
pub struct Heard {
    committee: Committee,
    me: u16,
    /// The checkpoints of each member, and the round of its newest certificate.
    said: BTreeMap<u16, (BTreeSet<Checkpoint>, Option<u64>)>,
}

impl Heard {
    /// Nothing is heard yet.
    #[must_use]
    pub fn new(committee: &Committee, me: u16) -> Heard {
        Heard { committee: committee.clone(), me, said: BTreeMap::new() }
    }

    /// Takes an answer to [`Request::Standing`], and checks its certificate. Returns whether it is one.
    pub fn hear(&mut self, from: u16, answer: &[u8]) -> bool {
        let said = self.read(answer);
        let is_answer = said.is_some();
        let is_other = from != self.me && self.committee.member(from).is_some();
        self.said.extend(said.filter(|_| is_other).map(|said| (from, said)));
        is_answer
    }

    fn read(&self, answer: &[u8]) -> Option<(BTreeSet<Checkpoint>, Option<u64>)> {
        let (&count, rest) = answer.strip_prefix(&[ANSWER])?.split_first()?;
        let count = usize::from(count);
        let records = rest.get(..count * Checkpoint::BYTES)?;
        let newest = &rest[records.len()..];
        let records = records.chunks_exact(Checkpoint::BYTES);
        let checkpoints: Option<_> = records.take(RECENT).map(Checkpoint::read).collect();
        let newest = match self.committee.check(newest) {
            Ok(Checked::Certificate(certificate)) => Some(certificate.subject().round),
            _ if newest.is_empty() => None,
            _ => return None,
        };
        Some((checkpoints?, newest))
    }

    /// The newest checkpoint that members of more than the tolerated weight, so an honest one, say.
    #[must_use]
    pub fn checkpoint(&self) -> Option<Checkpoint> {
        let all = weight_of(&self.committee, 0..self.committee.size() as u16);
        let tolerated = all - self.committee.quorum();
        let mut weights = BTreeMap::new();
        for (member, (checkpoints, _)) in &self.said {
            let weight = weight_of(&self.committee, iter::once(*member));
            checkpoints.iter().for_each(|it| *weights.entry(it).or_insert(0) += weight);
        }
        let mut enough = weights.into_iter().rev();
        let (checkpoint, _) = enough.find(|(_, weight)| *weight > tolerated)?;
        Some(*checkpoint)
    }

    /// The first round that a member without its log may sign, once others that reach the quorum
    /// answered. Had it signed something of round r, it had certificates of round r - 1. An honest
    /// signer of one of them is among those that answered, and had certificates of round r - 2.
    #[must_use]
    pub fn signs_from(&self) -> Option<u64> {
        let newest = self.said.values().map(|(_, newest)| *newest).max()?;
        let weight = weight_of(&self.committee, self.said.keys().copied());
        let is_enough = weight >= self.committee.quorum();
        is_enough.then(|| newest.map_or(2, |newest| newest + 3))
    }
}

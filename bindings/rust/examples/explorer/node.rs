//! The part of a validator that a crash loses: its store, and what is derived from it.

use crate::decide::Decider;
use crate::log::digest_of;
use crate::post::{MEMBERS, Outcome};
use narwhal_store::{Answer, Block, CertifyReply, Checked, CheckedBlock, CheckedCertificate};
use narwhal_store::{CollectReply, Committee, Digest, Gather, Limits, Look};
use narwhal_store::{Peek, Session, Status, Store, Subject, WriteReply};
use narwhal_validator::Flow;
use std::collections::{BTreeMap, BTreeSet};

/// How far the garbage round stays below the last leader.
const LAG: u64 = 6;
/// How many rounds the page shows at most.
const SHOWN: u64 = 20;
/// The most parents that it asks one author for at a time, if they may not exist, and the most blocks of one author for which it votes again.
pub const ASKED: usize = 8;
/// The most missing parents that the page shows.
const LISTED: u16 = 64;
/// The session of the page. Its calls change nothing, and the histories that the page shows leave them out.
pub const PAGE: u16 = 2;
const LIMITS: Limits = Limits {
    blocks: 4_096,
    events: 512,
    window: 64,
    sessions: 3,
};

/// A round, an author and a digest.
pub type Key = (u64, u16, Digest);

pub fn key_of(subject: &Subject) -> Key {
    (subject.round, subject.author, subject.digest)
}

/// The authors and digests of parents.
pub type Parents = Vec<(u16, Digest)>;

/// A block that was written, with the answer to its last write.
pub type Seen = (Block, Answer<WriteReply>);

pub struct Node {
    me: u16,
    pub store: Store,
    session: Session,
    /// The questions to its store, in a session of their own.
    pub flow: Flow,
    page: Session,
    decider: Decider,
    /// The votes for its last block until it has a certificate, the messages of that block, and the round of its next one.
    pub gather: Option<Gather>,
    pub own: Vec<Vec<u8>>,
    round: u64,
    pub seen: BTreeMap<Key, Seen>,
    /// The signers of the certificates.
    pub signers: BTreeMap<Key, Vec<u16>>,
    /// The walk of the last leader, which is the last digest.
    pub walk: Vec<Digest>,
    pub status: Status,
    /// The certified blocks that are not stored, and the missing parents.
    pub absent: BTreeSet<Key>,
}

impl Node {
    pub fn new(me: u16, committee: &Committee) -> Outcome<Node> {
        let store = Store::new(committee, LIMITS)?;
        let (session, reader, mut page) = (store.session()?, store.session()?, store.session()?);
        let flow = Flow::over(&store, reader, me);
        Ok(Node {
            me,
            decider: Decider::new(MEMBERS),
            status: page.status()?.into_reply(),
            store,
            session,
            flow,
            page,
            gather: None,
            own: Vec::new(),
            round: 0,
            seen: BTreeMap::new(),
            signers: BTreeMap::new(),
            walk: Vec::new(),
            absent: BTreeSet::new(),
        })
    }

    /// The highest round of a block or certificate.
    pub fn newest(&self) -> u64 {
        let newest = |key: Option<&Key>| key.map_or(0, |key| key.0);
        newest(self.seen.keys().next_back()).max(newest(self.signers.keys().next_back()))
    }

    /// Whether the message is worth its check.
    pub fn wants(&mut self, message: &[u8]) -> bool {
        match Peek::of(message) {
            Some(Peek::Vote { subject, .. }) => self
                .gather
                .as_ref()
                .is_some_and(|own| own.subject() == subject),
            Some(Peek::Block { round, author }) => {
                self.flow.wants(message) || self.is_twin(round, author, message)
            }
            _ => self.flow.wants(message),
        }
    }

    /// Whether this is another block than the first one. A validator drops it. The explorer writes it, so that a history shows `Equivocates`.
    fn is_twin(&mut self, round: u64, author: u16, message: &[u8]) -> bool {
        let has_first = self.flow.session().look(round, author).first.is_some();
        let is_new = |digest| !self.seen.contains_key(&(round, author, digest));
        has_first && digest_of(message).is_some_and(is_new)
    }

    /// Makes the call of a message. Returns the subjects to vote for if the store changed.
    pub fn call(&mut self, committee: &Committee, message: &[u8]) -> Outcome<Option<Vec<Subject>>> {
        match committee.check(message) {
            Ok(Checked::Block(block)) => self.write(&block, message),
            Ok(Checked::Certificate(certificate)) => self.certify(&certificate),
            Ok(Checked::Vote(vote)) => {
                let _ = self.gather.as_mut().map(|gather| gather.add(&vote));
                Ok(None)
            }
            Err(_) => Ok(None),
        }
    }

    fn write(&mut self, block: &CheckedBlock, message: &[u8]) -> Outcome<Option<Vec<Subject>>> {
        let (subject, answer) = (block.subject(), self.session.write(block)?);
        let reply = *answer.reply();
        self.seen.insert(key_of(&subject), (block.block(), answer));
        let WriteReply::Stored { vote } = reply else {
            return Ok(None);
        };
        if vote && subject.author == self.me {
            self.gather = Some(Gather::new(self.store.committee(), &subject)?);
            (self.own, self.round) = (vec![message.to_vec()], subject.round + 1);
        }
        self.decider.stored(block);
        Ok(Some(self.flow.stored(block)))
    }

    fn certify(&mut self, certificate: &CheckedCertificate) -> Outcome<Option<Vec<Subject>>> {
        if *self.session.certify(certificate)?.reply() != CertifyReply::Certified {
            return Ok(None);
        }
        let subject = certificate.subject();
        // docs/FORMATS.md: the signers begin after 43 bytes, and each has 2 bytes and a signature.
        let message = certificate.message();
        let signer = |seal: &[u8]| u16::from_be_bytes([seal[0], seal[1]]);
        let signers = message[43..].chunks_exact(66).map(signer).collect();
        self.signers.insert(key_of(&subject), signers);
        if self
            .gather
            .take_if(|own| own.subject() == subject)
            .is_some()
        {
            self.own.push(message);
        }
        Ok(Some(self.flow.certified(&subject)))
    }

    /// Raises the garbage round. Returns the subjects to vote for if it was raised.
    pub fn collect(&mut self, round: u64) -> Outcome<Option<Vec<Subject>>> {
        Ok(match self.session.collect(round)?.into_reply() {
            CollectReply::Raised { .. } => Some(self.flow.collected(round)),
            CollectReply::NotHigher { .. } => None,
        })
    }

    /// Decides all leaders that it can. Returns the garbage round if it was raised, and the subjects to vote for.
    pub fn decide(&mut self) -> Outcome<(Option<u64>, Vec<Subject>)> {
        let (mut raised, mut due) = (None, Vec::new());
        while self.decider.decide(&mut self.session).is_some() {
            let leader = self.decider.leaders.pop().unwrap_or(0);
            self.decider.order.clear();
            let author = (leader / 2 % u64::from(MEMBERS)) as u16;
            if let Some(digest) = self.session.look(leader, author).certified {
                let ticket = self.session.causal(&digest)?.into_ticket()?;
                self.walk = ticket.walk()?.map(|block| block.digest()).collect();
            }
            let garbage_round = leader.saturating_sub(LAG);
            if let Some(more) = self.collect(garbage_round)? {
                raised = Some(garbage_round);
                due.extend(more);
            }
        }
        Ok((raised, due))
    }

    /// The round and the parents of its next block, if a quorum of parents is satisfied.
    pub fn next_block(&mut self) -> Outcome<Option<(u64, Parents)>> {
        let quorum = self.store.committee().quorum() as usize;
        for round in (self.round.max(1)..self.newest() + 2).rev() {
            let looks = self.flow.session().look_round(round - 1)?;
            let parent = |(author, look): (u16, Look)| {
                let digest = look.certified.filter(|_| look.stands)?;
                Some((author, digest))
            };
            let parents: Parents = looks.into_iter().filter_map(parent).collect();
            if parents.len() >= quorum {
                return Ok(Some((round, parents)));
            }
        }
        Ok((self.round == 0).then(|| (0, Vec::new())))
    }

    /// The digests to ask for: certified blocks that are not stored, and missing parents.
    pub fn unknown(&mut self) -> Outcome<BTreeSet<Digest>> {
        let flow = &mut self.flow;
        let missing = flow
            .missing(usize::MAX)?
            .into_iter()
            .chain(flow.doubtful(ASKED));
        let parents = missing.map(|(_, parent)| parent);
        let subjects = flow.absent()?.into_iter().chain(parents);
        Ok(subjects.map(|subject| subject.digest).collect())
    }

    /// Reads what the page shows, and forgets what it no longer shows.
    pub fn observe(&mut self) -> Outcome<()> {
        let oldest = (self.newest().saturating_sub(SHOWN), 0, Digest([0; 32]));
        self.seen = self.seen.split_off(&oldest);
        self.signers = self.signers.split_off(&oldest);
        self.status = self.page.status()?.into_reply();
        let missing = self.page.missing(LISTED)?.into_reply();
        let absent = self.flow.absent()?;
        self.absent = absent.iter().chain(&missing).map(key_of).collect();
        Ok(())
    }

    /// The blocks that the page shows, each with its state.
    pub fn rows(&mut self) -> BTreeMap<Key, &'static str> {
        let mut keys: BTreeSet<Key> = self.seen.keys().copied().collect();
        keys.extend(&self.absent);
        let state = |key: Key| (key, self.state(&key));
        keys.into_iter().map(state).collect()
    }

    fn state(&mut self, (round, author, digest): &Key) -> &'static str {
        let look = self.flow.session().look(*round, *author);
        match look.certified == Some(*digest) {
            _ if *round < look.garbage_round => "collected",
            true if look.complete => "complete",
            true if look.stands => "certified",
            false if look.first == Some(*digest) => "stored",
            _ => "not stored",
        }
    }
}

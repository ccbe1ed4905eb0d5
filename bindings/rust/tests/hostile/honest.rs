//! A validator that follows docs/EMBEDDING.md: peek, drop, check, write, vote once the parents are satisfied, send.

use crate::decide::Decider;
use crate::lab::Com;
use crate::world::{Checks, Packet, Post};
use narwhal_store::WriteReply;
use narwhal_store::{CertifyReply, Checked, CheckedBlock, CheckedCertificate, CollectReply};
use narwhal_store::{Digest, Gather, Limits, Look, Peek, Store, Subject};
use narwhal_validator::{Allowance, Budgets, Flow};
use std::collections::{BTreeMap, HashMap};
use std::rc::Rc;

pub const LIMITS: Limits = Limits {
    blocks: 65_536,
    events: 300,
    window: 24,
    sessions: 1,
};
/// The most bytes that a validator keeps outside of its store and its disk.
const KEPT_BYTES: usize = 20_000;
/// The bytes at which a store restarts its history.
pub const HISTORY_BYTES: u64 = 60_000;
/// The most that a validator checks of one peer, and sends one to answer requests, between two ticks.
pub const ALLOWANCE: Allowance = Allowance {
    bytes: 40_000,
    signatures: 200,
    served: 40_000,
};
/// The most parents that a validator asks one author for between two ticks.
const ASKED: usize = 8;

/// What a validator does that the documents advise against, or leave open.
#[derive(Clone, Copy, Debug, PartialEq, Eq)]
pub enum Rules {
    /// It follows the documents.
    Follows,
    /// It follows them, and skips the step that drops messages before their check.
    ChecksAll,
    /// It votes on `Stored { vote: true }`, without the parents.
    VotesAtOnce,
    /// It checks all messages, and keeps each refused block.
    KeepsAll,
}

pub struct Honest<'a> {
    pub me: u16,
    com: &'a Com,
    rules: Rules,
    pub store: Store,
    flow: Flow,
    pub decider: Decider,
    /// The votes for its last own block, and the messages of that block and its certificate.
    gather: Option<Gather>,
    own: Vec<Rc<[u8]>>,
    /// The round of its next block.
    pub round: u64,
    /// The messages of its stored blocks and certificates, which a validator has on its disk.
    disk: HashMap<Digest, Vec<Rc<[u8]>>>,
    votes: BTreeMap<(u64, u16), Digest>,
    budgets: Budgets,
    kept: Vec<Rc<[u8]>>,
}

impl<'a> Honest<'a> {
    pub fn new(com: &'a Com, me: u16, rules: Rules) -> Honest<'a> {
        let builder = Store::builder(&com.committee).limits(LIMITS);
        let builder = builder.restart_when(HISTORY_BYTES, LIMITS.events);
        let store = builder.open().expect("a store");
        let members = com.committee.size() as u16;
        Honest {
            me,
            com,
            rules,
            flow: Flow::over(&store, store.session().expect("a session"), me),
            store,
            decider: Decider::new(members),
            gather: None,
            own: Vec::new(),
            round: 0,
            disk: HashMap::new(),
            votes: BTreeMap::new(),
            budgets: Budgets::new(members.into(), ALLOWANCE),
            kept: Vec::new(),
        }
    }

    /// The bytes that it keeps outside of its store and its disk.
    fn bytes(&self) -> usize {
        let messages = self.own.iter().chain(&self.kept);
        messages.map(|message| message.len()).sum()
    }

    /// Handles a packet from a member.
    pub fn take(&mut self, from: u16, packet: &Packet, checks: &mut Checks, post: &mut Post) {
        match packet {
            Packet::Fetch(subject) => {
                let found = self.disk.get(&subject.digest).into_iter().flatten();
                for message in found {
                    if !self.budgets.serve(from, message.len()) {
                        return;
                    }
                    post.send(self.me, from, Packet::Message(message.clone()));
                }
            }
            Packet::Message(message) => {
                if self.wants(from, message) {
                    self.handle(message, checks, post);
                }
            }
        }
    }

    fn checks_all(&self) -> bool {
        matches!(self.rules, Rules::ChecksAll | Rules::KeepsAll)
    }

    /// Whether the message is worth its check.
    fn wants(&mut self, from: u16, message: &[u8]) -> bool {
        let is_own = |gather: &Gather, subject: Subject| gather.subject() == subject;
        let is_wanted = match Peek::of(message) {
            Some(Peek::Vote { subject, .. }) => {
                self.gather.as_ref().is_some_and(|own| is_own(own, subject))
            }
            _ => self.checks_all() || self.flow.wants(message),
        };
        is_wanted && (from == self.me || self.budgets.check(from, message))
    }

    fn handle(&mut self, message: &Rc<[u8]>, checks: &mut Checks, post: &mut Post) {
        match &*checks.check(self.com, message) {
            Ok(Checked::Block(block)) => self.write(block, message, post),
            Ok(Checked::Certificate(certificate)) => self.certify(certificate, message, post),
            Ok(Checked::Vote(vote)) => {
                let Some(gather) = &mut self.gather else {
                    return;
                };
                if gather.add(vote) == Ok(true) {
                    let certificate = gather.certificate().expect("a quorum");
                    self.gather = None;
                    let message: Rc<[u8]> = certificate.message().into();
                    self.own.push(message.clone());
                    post.broadcast(self.me, &message);
                }
            }
            Err(_) => {}
        }
    }

    fn write(&mut self, block: &CheckedBlock, message: &Rc<[u8]>, post: &mut Post) {
        let subject = block.subject();
        match self
            .flow
            .session()
            .write(block)
            .expect("memory")
            .into_reply()
        {
            WriteReply::Stored { vote } => {
                self.disk
                    .entry(subject.digest)
                    .or_default()
                    .push(message.clone());
                self.decider.stored(block);
                let due = self.flow.stored(block);
                match self.rules {
                    Rules::VotesAtOnce if vote => self.vote(&[subject], post),
                    Rules::VotesAtOnce => {}
                    _ => self.vote(&due, post),
                }
                self.decide(post);
            }
            WriteReply::Clash | WriteReply::Misfit => panic!("a broken digest"),
            _ if self.rules == Rules::KeepsAll => self.kept.push(message.clone()),
            _ => {}
        }
    }

    fn certify(&mut self, certificate: &CheckedCertificate, message: &Rc<[u8]>, post: &mut Post) {
        let subject = certificate.subject();
        match self
            .flow
            .session()
            .certify(certificate)
            .expect("memory")
            .into_reply()
        {
            CertifyReply::Certified => {
                self.disk
                    .entry(subject.digest)
                    .or_default()
                    .push(message.clone());
                let due = self.flow.certified(&subject);
                self.vote_later(&due, post);
                self.decide(post);
            }
            CertifyReply::Conflict(_) | CertifyReply::Misfit => panic!("a false quorum"),
            _ => {}
        }
    }

    fn vote_later(&mut self, due: &[Subject], post: &mut Post) {
        if self.rules != Rules::VotesAtOnce {
            self.vote(due, post);
        }
    }

    fn vote(&mut self, due: &[Subject], post: &mut Post) {
        for subject in due {
            let slot = (subject.round, subject.author);
            let first = self.votes.entry(slot).or_insert(subject.digest);
            assert_eq!(*first, subject.digest, "votes for two blocks of {slot:?}");
            let vote = self.com.vote(subject, self.me);
            post.send(self.me, subject.author, Packet::Message(vote.into()));
        }
    }

    /// Decides leaders, and collects what they leave behind.
    fn decide(&mut self, post: &mut Post) {
        while let Some(floor) = self.decider.decide(self.flow.session()) {
            let reply = self
                .flow
                .session()
                .collect(floor)
                .expect("memory")
                .into_reply();
            if let CollectReply::Raised { .. } = reply {
                let due = self.flow.collected(floor);
                self.vote_later(&due, post);
            }
        }
    }

    /// Makes its next block if a quorum of parents is satisfied, asks for what is missing, and gives each peer a new budget.
    pub fn tick(&mut self, checks: &mut Checks, post: &mut Post) {
        self.budgets.renew();
        for message in self.own.clone() {
            post.broadcast(self.me, &message);
        }
        self.propose(checks, post);
        self.ask(post);
    }

    fn propose(&mut self, checks: &mut Checks, post: &mut Post) {
        let quorum = self.com.committee.quorum() as usize;
        let floor = self.flow.session().look(0, 0).garbage_round;
        for round in (self.round..floor + u64::from(LIMITS.window)).rev() {
            let parents = self.parents(round);
            if round > 0 && parents.len() < quorum {
                continue;
            }
            let transactions = [vec![self.me as u8; 20]];
            let (message, subject) = self.com.block(self.me, round, &parents, &transactions);
            self.round = round + 1;
            self.gather = Some(Gather::new(&self.com.committee, &subject).expect("a member"));
            let message: Rc<[u8]> = message.into();
            self.own = vec![message.clone()];
            // It takes its own block before the others do, as it takes a block of the network.
            self.handle(&message, checks, post);
            return post.broadcast(self.me, &message);
        }
    }

    /// The parents of a block of this round: the certified blocks of the preceding round that are stored.
    fn parents(&mut self, round: u64) -> Vec<(u16, Digest)> {
        let Some(preceding) = round.checked_sub(1) else {
            return Vec::new();
        };
        let looks = self.flow.session().look_round(preceding).expect("memory");
        let parent = |(author, look): (u16, Look)| {
            let digest = look.certified.filter(|_| look.stands)?;
            Some((author, digest))
        };
        looks.into_iter().filter_map(parent).collect()
    }

    /// Asks several members for what certified blocks need, and only the author for what its other blocks need.
    fn ask(&mut self, post: &mut Post) {
        for subject in self.flow.absent().expect("memory") {
            post.ask_some(self.me, subject.author, subject);
        }
        for (child, parent) in self.flow.missing(usize::MAX).expect("memory") {
            post.ask_some(self.me, child.author, parent);
        }
        for (child, parent) in self.flow.doubtful(ASKED) {
            post.send(self.me, child.author, Packet::Fetch(parent));
        }
    }

    /// The memory of the validator is within its bounds at this moment.
    pub fn check_memory(&self) {
        assert!(self.store.history_bytes() <= HISTORY_BYTES, "the history");
        let bytes = self.bytes();
        assert!(bytes <= KEPT_BYTES, "{bytes} bytes are kept");
    }

    /// The store has at most as many blocks as the window has slots.
    pub fn check_blocks(&mut self) {
        let status = self.flow.session().status().expect("memory").into_reply();
        let most = self.com.committee.size() as u64 * u64::from(LIMITS.window);
        assert!(status.blocks <= most, "{} blocks are stored", status.blocks);
    }
}

//! What a validator drops before it checks a message, and when it votes for a stored block.
//!
//! The order for each message is: peek, drop, check, write, vote once no parent is missing, log,
//! sync, send. A flow looks at the parents of a first block when it is stored, which is no event, and
//! notes those that are not satisfied: 34 bytes for each, until the block has a certificate.

mod asking;

use crate::Checkpoint;
use crate::heard::{ANSWER, weight_of};
use narwhal_store::{
    Block, CertifyReply, Checked, CheckedBlock, CheckedCertificate, CheckedVote, CollectReply,
    Committee, Digest, Gather, Look, NoMemory, Peek, Session, StepError, Store, Subject,
    WriteReply,
};
use std::collections::BTreeMap;
use std::error::Error;
use std::fmt;

/// The delivered blocks, in order, and the subjects to vote for.
pub type Delivered = (Vec<Block>, Vec<Subject>);

/// The authors and digests of a block's parents.
pub type Parents = Vec<(u16, Digest)>;

/// Why a call was not made, or why the validator stops.
#[derive(Clone, Copy, Debug, PartialEq, Eq)]
#[non_exhaustive]
pub enum FlowError {
    /// The store took no step.
    Step(StepError),
    /// The hash is broken, or a quorum signed something false. End the process: the block or the
    /// certificate with this subject contradicts what is stored.
    Broken(Subject),
}

impl fmt::Display for FlowError {
    fn fmt(&self, f: &mut fmt::Formatter<'_>) -> fmt::Result {
        match self {
            FlowError::Step(error) => error.fmt(f),
            FlowError::Broken(subject) => write!(f, "{subject} contradicts what is stored"),
        }
    }
}

impl Error for FlowError {}

/// A first block without a certificate, and its parents that are not satisfied, by author.
struct Waiting {
    block: Subject,
    unmet: Parents,
}

/// The questions of a validator to its store. A store has one flow. If a function of it fails, a call
/// was not made, or the store has no memory for its looks: ask again.
pub struct Flow {
    me: u16,
    session: Session,
    pub(crate) committee: Committee,
    pub(crate) window: u64,
    /// The first blocks without a certificate, by round and author.
    waiting: BTreeMap<(u64, u16), Waiting>,
    /// The newest round with a certificate.
    newest: u64,
    /// It votes for no block of a round below this one, and makes none.
    pub(crate) signs_from: u64,
    /// The votes for its last block, until that has a certificate.
    gather: Option<Gather>,
    checkpoint: Checkpoint,
    /// The checkpoint when it last asked others, and the member that it asked last.
    asked: Checkpoint,
    last: u16,
}

impl Flow {
    /// The flow of a member over a new store, which it hears everything of, and one of its sessions.
    #[must_use]
    pub fn over(store: &Store, session: Session, me: u16) -> Flow {
        Flow {
            me,
            session,
            committee: store.committee().clone(),
            window: store.limits().window.into(),
            waiting: BTreeMap::new(),
            newest: 0,
            signs_from: 0,
            gather: None,
            checkpoint: Checkpoint::START,
            asked: Checkpoint::START,
            last: me,
        }
    }

    /// Its session, for other calls.
    pub fn session(&mut self) -> &mut Session {
        &mut self.session
    }

    /// The newest round with a certificate.
    #[must_use]
    pub fn newest(&self) -> u64 {
        self.newest
    }

    /// The checkpoint of the last leader.
    #[must_use]
    pub fn checkpoint(&self) -> Checkpoint {
        self.checkpoint
    }

    /// Whether a packet is worth a check: a block or a certificate that the store may take, and does
    /// not have, a vote for this member's last block, if that has no certificate, or an answer to
    /// [`Request::Standing`].
    pub fn wants(&mut self, message: &[u8]) -> bool {
        let Some(peek) = Peek::of(message) else {
            return message.first() == Some(&ANSWER);
        };
        let look = self.session.look(peek.round(), peek.author());
        let is_new = match peek {
            // A block beside the first one is wanted only if it may be the certified one.
            Peek::Block { .. } => {
                !look.stands && (look.first.is_none() || look.certified.is_some())
            }
            Peek::Certificate(subject) => look.certified != Some(subject.digest),
            Peek::Vote { subject, .. } => {
                return self.gather.as_ref().is_some_and(|own| own.subject() == subject);
            }
        };
        let rounds = look.garbage_round..look.garbage_round + self.window;
        is_new && rounds.contains(&peek.round())
    }

    /// Makes the call of a checked message. Returns `None` if it did not change the store: drop the
    /// message. Otherwise log the message, sync the log, and then vote for these subjects.
    ///
    /// # Errors
    ///
    /// The call was not made, or the validator must stop.
    pub fn call(&mut self, checked: &Checked) -> Result<Option<Vec<Subject>>, FlowError> {
        let step = FlowError::Step;
        let broken = |of| Err(FlowError::Broken(of));
        match checked {
            Checked::Block(of) => match *self.session.write(of).map_err(step)?.reply() {
                WriteReply::Stored { .. } => Ok(Some(self.stored(of))),
                WriteReply::Clash | WriteReply::Misfit => broken(of.subject()),
                _ => Ok(None),
            },
            Checked::Certificate(of) => match *self.session.certify(of).map_err(step)?.reply() {
                CertifyReply::Certified => Ok(Some(self.certified(&of.subject()))),
                CertifyReply::Conflict(_) | CertifyReply::Misfit => broken(of.subject()),
                _ => Ok(None),
            },
            Checked::Vote(_) => Ok(None),
        }
    }

    /// Counts a vote for this member's last block. At a quorum, it returns the certificate: make its
    /// call, and send it to all.
    pub fn count(&mut self, vote: &CheckedVote) -> Option<CheckedCertificate> {
        let own = self.gather.as_mut()?;
        (own.add(vote) == Ok(true)).then(|| own.certificate().ok())?
    }

    /// Delivers a leader, whose causal list has the last leader, and raises the garbage round, to at
    /// most its round. Returns the blocks of its list that the lists before do not have. Then log the
    /// checkpoint. All members must choose the same leaders, with the same garbage rounds. Returns
    /// `None`, and changes nothing, if this leader or the last one is not complete.
    ///
    /// The first block has the number `delivered` of the checkpoint before. After a crash, the blocks
    /// after the last logged checkpoint are delivered again, with the same numbers.
    pub fn deliver(
        &mut self,
        leader: &Subject,
        garbage_round: u64,
    ) -> Result<Option<Delivered>, StepError> {
        let Ok(ticket) = self.session.causal(&leader.digest)?.into_ticket() else {
            return Ok(None);
        };
        let new = match self.session.causal(&self.checkpoint.leader.digest)?.into_ticket() {
            Ok(last) => ticket.walk_after(&last)?,
            Err(_) if self.checkpoint == Checkpoint::START => ticket.walk()?.collect(),
            Err(_) => return Ok(None),
        };
        let due = self.collect(garbage_round)?.unwrap_or_default();
        let Checkpoint { delivered, order, .. } = self.checkpoint;
        let next = |order: Digest, of: &Block| Digest::of(&[order.0, of.digest().0].concat());
        self.checkpoint = Checkpoint {
            leader: *leader,
            garbage_round,
            delivered: delivered + new.len() as u64,
            order: new.iter().fold(order, next),
        };
        Ok(Some((new, due)))
    }

    /// Raises the garbage round. Returns as [`Flow::call`] does.
    pub fn collect(&mut self, garbage_round: u64) -> Result<Option<Vec<Subject>>, StepError> {
        let reply = self.session.collect(garbage_round)?.into_reply();
        let is_raised = matches!(reply, CollectReply::Raised { .. });
        Ok(is_raised.then(|| self.collected(garbage_round)))
    }

    /// The subjects to vote for after a write that answered `Stored`.
    pub fn stored(&mut self, block: &CheckedBlock) -> Vec<Subject> {
        let subject = block.subject();
        let look = self.session.look(subject.round, subject.author);
        let mut due = self.met(&subject, &look);
        if look.first == Some(subject.digest) && look.certified.is_none() {
            let unmet = match look.missing {
                0 => Vec::new(),
                _ => self.unmet(&block.block()),
            };
            let is_due = unmet.is_empty() || subject.round == look.garbage_round;
            due.extend(is_due.then_some(subject));
            let (slot, block) = ((subject.round, subject.author), subject);
            self.waiting.insert(slot, Waiting { block, unmet });
            let last = self.gather.as_ref().map(|own| own.subject().round);
            if subject.author == self.me && last < Some(subject.round) {
                self.gather = Gather::new(&self.committee, &subject).ok();
            }
        }
        self.signed(due)
    }

    /// The subjects to vote for after a certificate that answered `Certified`.
    pub fn certified(&mut self, subject: &Subject) -> Vec<Subject> {
        self.waiting.remove(&(subject.round, subject.author)); // It needs no vote.
        self.gather.take_if(|own| own.subject() == *subject);
        self.newest = self.newest.max(subject.round);
        let look = self.session.look(subject.round, subject.author);
        let due = self.met(subject, &look);
        self.signed(due)
    }

    /// The subjects to vote for after a collection that answered `Raised`: blocks of the garbage
    /// round need no parents.
    pub fn collected(&mut self, garbage_round: u64) -> Vec<Subject> {
        self.waiting = self.waiting.split_off(&(garbage_round, 0));
        let of_round = self.waiting.range(..(garbage_round + 1, 0));
        let due = of_round.map(|(_, waiting)| waiting.block).collect();
        self.signed(due)
    }

    /// The subjects whose vote is due, also those whose vote was sent, among each author's `most`
    /// oldest blocks without a certificate. Send these votes again from time to time.
    pub fn due(&mut self, most: usize) -> Vec<Subject> {
        let garbage_round = self.garbage_round();
        let mut left = vec![most; self.committee.size()];
        let mut due = Vec::new();
        for Waiting { block, unmet } in self.waiting.values() {
            let left = &mut left[usize::from(block.author)];
            let is_due = *left > 0 && (unmet.is_empty() || block.round == garbage_round);
            due.extend(is_due.then_some(block));
            *left = left.saturating_sub(1);
        }
        self.signed(due)
    }

    /// The round and the parents of this member's next block: the newest round with a quorum of
    /// satisfied parents, if it has made no block of that round.
    pub fn next_block(&mut self) -> Result<Option<(u64, Parents)>, NoMemory> {
        let garbage_round = self.garbage_round();
        let end = (self.newest + 2).min(garbage_round + self.window);
        for round in (garbage_round.max(self.signs_from)..end).rev() {
            let parents = match round {
                0 => Vec::new(),
                _ => self.certified_of(round - 1, |look| look.stands)?,
            };
            if round == 0 || self.is_quorum(&parents) {
                let look = self.session.look(round, self.me);
                let is_new = look.first.is_none() && look.certified.is_none();
                let parents = parents.iter().map(|of| (of.author, of.digest));
                return Ok(is_new.then(|| (round, parents.collect())));
            }
        }
        Ok(None)
    }

    /// This member's last block in the store. Send it again from time to time, with its certificate:
    /// a crash or the network may have lost them.
    pub fn own(&mut self) -> Option<Subject> {
        let rounds = self.garbage_round()..self.newest + 2;
        rounds.rev().find_map(|round| {
            let look = self.session.look(round, self.me);
            Some(Subject { digest: look.certified.or(look.first)?, round, author: self.me })
        })
    }

    fn garbage_round(&mut self) -> u64 {
        self.session.look(0, 0).garbage_round
    }

    /// Those that it may sign.
    fn signed(&self, mut due: Vec<Subject>) -> Vec<Subject> {
        due.retain(|subject| subject.round >= self.signs_from);
        due
    }

    fn is_quorum(&self, of: &[Subject]) -> bool {
        weight_of(&self.committee, of.iter().map(|of| of.author)) >= self.committee.quorum()
    }

    /// The certified digests of a round with such a look.
    fn certified_of(
        &mut self,
        round: u64,
        is_such: impl Fn(&Look) -> bool,
    ) -> Result<Vec<Subject>, NoMemory> {
        let of = |(author, look): (u16, Look)| {
            let digest = look.certified.filter(|_| is_such(&look))?;
            Some(Subject { digest, round, author })
        };
        let looks = self.session.look_round(round)?.into_iter();
        Ok(looks.filter_map(of).collect())
    }

    /// The parents that are not satisfied. A slot with a waiting block has no certificate: it needs no look.
    fn unmet(&mut self, block: &Block) -> Parents {
        let round = block.round() - 1;
        let mut unmet = block.parents().to_vec();
        unmet.retain(|(author, digest)| {
            self.waiting.contains_key(&(round, *author))
                || !self.session.look(round, *author).satisfies(digest)
        });
        unmet
    }

    /// The blocks that now miss no parent, after a look at this one, which was stored or certified.
    fn met(&mut self, parent: &Subject, look: &Look) -> Vec<Subject> {
        if !look.satisfies(&parent.digest) {
            return Vec::new();
        }
        let round = parent.round + 1;
        let children = self.waiting.range_mut((round, 0)..(round + 1, 0));
        let met = children.filter_map(|(_, child)| {
            let place = child.unmet.binary_search(&(parent.author, parent.digest)).ok()?;
            child.unmet.remove(place);
            child.unmet.is_empty().then_some(child.block)
        });
        met.collect()
    }
}

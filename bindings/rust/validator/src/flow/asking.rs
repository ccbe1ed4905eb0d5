//! What a validator asks other members for, and how it uses what they say.

use super::{Flow, Waiting};
use crate::heard::promise;
use crate::{Checkpoint, Heard, Request};
use narwhal_store::{Look, NoMemory, StepError, Subject};

/// The most rounds, and the most incomplete blocks, that it asks for at a time.
const BEHIND: usize = 64;

impl Flow {
    /// The certified digests without a stored block. The signers have these blocks.
    pub fn absent(&mut self) -> Result<Vec<Subject>, NoMemory> {
        self.certified_by(|look| !look.stands)
    }

    /// The `most` oldest incomplete certified blocks, each with the parents that it misses, in pairs. The
    /// signers of each block have its parents.
    pub fn missing(&mut self, most: usize) -> Result<Vec<(Subject, Subject)>, StepError> {
        let mut missing = Vec::new();
        let incomplete = self.certified_by(|look| look.stands && !look.complete)?;
        for block in incomplete.into_iter().take(most) {
            let parents = self.session.missing_of(&block.digest)?.into_reply();
            let with_block = |parent| (block, parent);
            missing.extend(parents.into_iter().flatten().map(with_block));
        }
        Ok(missing)
    }

    /// Blocks without a certificate, each with a parent that it misses: for each author at most `most`
    /// pairs, of its oldest blocks. Nobody may have made these parents, so ask only the author.
    pub fn doubtful(&mut self, most: usize) -> Vec<(Subject, Subject)> {
        let from = (self.garbage_round() + 1, 0);
        let mut left = vec![most; self.committee.size()];
        let mut doubtful = Vec::new();
        for (_, Waiting { block, unmet }) in self.waiting.range(from..) {
            let left = &mut left[usize::from(block.author)];
            let some = &unmet[..unmet.len().min(*left)];
            let round = block.round - 1;
            let parent = |&(author, digest)| (*block, Subject { digest, round, author });
            doubtful.extend(some.iter().map(parent));
            *left -= some.len();
        }
        doubtful
    }

    /// What to ask for now, each with the member to ask. Call it from time to time.
    ///
    /// It asks the others how far they are, if it delivered nothing since the last call or signs
    /// nothing. It asks one member after the other for the 64 oldest rounds without a quorum of
    /// complete blocks, for all `absent` blocks, and for what 64 blocks are `missing`. It asks the
    /// author for these blocks too, and only the author for `most` of its `doubtful` parents.
    pub fn requests(&mut self, most: usize) -> Result<Vec<(u16, Request)>, StepError> {
        let members = self.committee.size() as u16;
        let is_stuck = self.asked == self.checkpoint || self.signs_from == u64::MAX;
        self.asked = self.checkpoint;
        let others = (0..members).filter(|to| is_stuck && *to != self.me);
        let mut requests = Vec::from_iter(others.map(|to| (to, Request::Standing)));
        let mut in_turn = Vec::new();
        for round in self.garbage_round()..self.newest.saturating_sub(1) {
            let complete = self.certified_of(round, |look| look.complete)?;
            in_turn.extend((!self.is_quorum(&complete)).then_some(Request::Round(round)));
        }
        in_turn.truncate(BEHIND);
        let absent = self.absent()?.into_iter().map(|of| (of, of));
        for (child, of) in absent.chain(self.missing(BEHIND)?) {
            requests.push((child.author, Request::Of(of)));
            in_turn.push(Request::Of(of));
        }
        let doubtful = self.doubtful(most).into_iter();
        requests.extend(doubtful.map(|(child, parent)| (child.author, Request::Of(parent))));
        for request in in_turn {
            self.last = (self.last + 1) % members;
            requests.push((self.last, request));
        }
        Ok(requests)
    }

    /// Uses what the others said. If it signs nothing, it promises from which round on it signs. If
    /// their garbage round is a window or more above its own, it jumps to their checkpoint: the blocks
    /// before are not delivered. Otherwise `requests` has the rounds. Returns the records to log.
    pub fn come_back(&mut self, heard: &Heard) -> Result<Vec<Vec<u8>>, StepError> {
        let mut records = Vec::new();
        if let Some(round) = heard.signs_from().filter(|_| self.signs_from == u64::MAX) {
            self.signs_from = round;
            records.push(promise(round));
        }
        if let Some(checkpoint) = heard.checkpoint() {
            let end = self.garbage_round() + self.window;
            self.newest = self.newest.max((checkpoint.leader.round + 2).min(end - 1));
            if checkpoint.garbage_round >= end {
                self.jump(&checkpoint)?;
                records.push(checkpoint.record());
            }
        }
        Ok(records)
    }

    /// Goes on from a checkpoint: signs nothing up to the leader's round.
    pub(crate) fn jump(&mut self, to: &Checkpoint) -> Result<(), StepError> {
        if *to != Checkpoint::START {
            self.collect(to.garbage_round)?;
            self.signs_from = self.signs_from.max(to.leader.round + 1);
            self.newest = self.newest.max(to.leader.round + 2);
            self.checkpoint = *to;
        }
        Ok(())
    }

    /// The certified digests with such a look, of all rounds.
    fn certified_by(&mut self, is_such: impl Fn(&Look) -> bool) -> Result<Vec<Subject>, NoMemory> {
        let rounds = self.garbage_round()..=self.newest;
        let lists: Result<Vec<_>, _> = rounds.map(|at| self.certified_of(at, &is_such)).collect();
        Ok(lists?.concat())
    }
}

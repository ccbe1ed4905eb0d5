//! A validator: it follows docs/EMBEDDING.md, and makes the faults that the page asks for.

use crate::log::Log;
use crate::node::{ASKED, Node};
use crate::post::{MEMBERS, Outcome, Post, REQUEST};
use narwhal_store::{Digest, Peek, Subject};

#[derive(Default)]
pub struct Validator {
    me: u16,
    /// What a crash loses. It is `None` while the validator is down.
    pub node: Option<Node>,
    pub log: Log,
    /// It makes no blocks, votes or certificates, and answers no requests.
    pub is_silent: bool,
    /// It makes two blocks in its next round.
    pub makes_twin: bool,
    /// The second block of this round, until all members get it.
    twin: Option<Vec<u8>>,
    /// How many signatures it verified. A repeated vote counts too.
    pub verified: u64,
    /// How many blocks it asked for.
    pub asked: u64,
    /// How many calls its last replay repeated.
    pub replayed: usize,
}

impl Validator {
    pub fn new(me: u16) -> Validator {
        Validator {
            me,
            ..Validator::default()
        }
    }

    /// Handles a message of the network. It is lost if the validator is down.
    pub fn take(&mut self, from: u16, message: &[u8], post: &Post) -> Outcome<()> {
        if let Some((&REQUEST, digest)) = message.split_first() {
            self.serve(from, Digest::try_from(digest)?, post);
        } else if self.node.as_mut().is_some_and(|node| node.wants(message)) {
            self.handle(message, post)?;
        }
        Ok(())
    }

    /// Makes the call of a message, logs it, and sends the votes that are due. Returns whether the store changed.
    fn handle(&mut self, message: &[u8], post: &Post) -> Outcome<bool> {
        let Some(node) = &mut self.node else {
            return Ok(false);
        };
        self.verified += signatures_of(message);
        let Some(mut due) = node.call(&post.com.committee, message)? else {
            return Ok(false);
        };
        self.log.append(message);
        let (raised, more) = node.decide()?;
        if let Some(garbage_round) = raised {
            self.log.collect(garbage_round);
        }
        due.extend(more);
        self.vote(&due, post);
        Ok(true)
    }

    /// Answers a request from the log.
    fn serve(&self, to: u16, digest: Digest, post: &Post) {
        if !self.is_silent && self.node.is_some() {
            let found = self.log.find(&digest);
            found.for_each(|message| post.send(self.me, to, message));
        }
    }

    fn vote(&self, due: &[Subject], post: &Post) {
        due.iter().for_each(|subject| self.send_vote(subject, post));
    }

    fn send_vote(&self, subject: &Subject, post: &Post) {
        if !self.is_silent {
            post.send(self.me, subject.author, &post.com.vote(subject, self.me));
        }
    }

    /// Makes it silent, or lets it speak again. Returns what it did.
    pub fn change_silence(&mut self) -> String {
        self.is_silent = !self.is_silent;
        let me = self.me;
        match self.is_silent {
            true => format!("Validator {me} is silent: it makes no blocks and no votes."),
            false => format!("Validator {me} makes blocks and votes again."),
        }
    }

    /// Drops the store and everything else that is not logged.
    pub fn crash(&mut self) {
        self.node = None;
    }

    /// Opens a store and repeats the calls of the log, if the validator is down.
    pub fn wake(&mut self, post: &Post) -> Outcome<()> {
        if self.node.is_some() {
            return Ok(());
        }
        let mut node = Node::new(self.me, &post.com.committee)?;
        node.collect(self.log.garbage_round)?;
        for message in &self.log.messages {
            self.verified += signatures_of(message);
            let due = node.call(&post.com.committee, message)?;
            due.ok_or("a call of the log got another reply")?;
        }
        self.replayed = self.log.messages.len();
        // The second time that a vote is sent does no harm.
        let due = node.flow.due(ASKED);
        self.vote(&due, post);
        self.node = Some(node);
        Ok(())
    }

    /// Begins a round: asks for missing blocks, votes again for blocks without a certificate, and proposes a block.
    pub fn tick(&mut self, post: &Post) -> Outcome<()> {
        let Some(node) = &mut self.node else {
            return Ok(());
        };
        for digest in node.unknown()? {
            self.asked += 1;
            post.send_to_others(self.me, &[&[REQUEST][..], &digest.0].concat());
        }
        let (due, next) = (node.flow.due(ASKED), node.next_block()?);
        self.vote(&due, post);
        match next {
            _ if self.is_silent => {}
            Some((round, parents)) => self.propose(round, &parents, post)?,
            None => self.send_again(post),
        }
        Ok(())
    }

    /// Sends the messages of its last block again.
    fn send_again(&self, post: &Post) {
        let own = self.node.iter().flat_map(|node| &node.own);
        own.for_each(|message| post.send_to_others(self.me, message));
    }

    fn propose(&mut self, round: u64, parents: &[(u16, Digest)], post: &Post) -> Outcome<()> {
        let block = |text: &str| {
            let transaction = format!("{text} of validator {} for round {round}", self.me);
            post.com
                .block(self.me, round, parents, &[transaction.into()])
        };
        let ((message, _), (twin, _)) = (block("block"), block("second block"));
        if !self.handle(&message, post)? {
            return Ok(()); // It made another block for this round before a crash.
        }
        self.twin = std::mem::take(&mut self.makes_twin).then_some(twin);
        if let Some(twin) = &self.twin {
            post.send(self.me, self.victim(), twin);
        }
        post.send_to_others(self.me, &message);
        Ok(())
    }

    /// The member that gets its second block before the first one. The others vote for the first one, so it can get a certificate.
    fn victim(&self) -> u16 {
        (self.me + 1) % MEMBERS
    }

    /// Sends the certificate of its last block, if the votes reach the quorum, and then its second block.
    pub fn certify(&mut self, post: &Post) -> Outcome<()> {
        let gather = self.node.as_mut().and_then(|node| node.gather.as_mut());
        let certificate = gather.and_then(|gather| gather.certificate().ok());
        let Some(certificate) = certificate.filter(|_| !self.is_silent) else {
            return Ok(());
        };
        let message = certificate.message();
        self.handle(&message, post)?;
        post.send_to_others(self.me, &message);
        if let Some(twin) = self.twin.take() {
            self.handle(&twin, post)?;
            let others = (0..MEMBERS).filter(|to| ![self.me, self.victim()].contains(to));
            others.for_each(|to| post.send(self.me, to, &twin));
        }
        Ok(())
    }
}

/// How many signatures the check of a message verifies.
fn signatures_of(message: &[u8]) -> u64 {
    match Peek::of(message) {
        Some(Peek::Certificate(_)) => (message.len() as u64 - 43) / 66,
        _ => 1,
    }
}

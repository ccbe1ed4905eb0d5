//! A validator without its network: it takes packets, and returns what to send and what is delivered. It has no table of blocks, votes or
//! parents: it asks its store (`Flow`) and its log.

use crate::decide::{LAG, next_leader};
use narwhal_store::{Block, Checked, Committee, Limits, Signature, Store, Subject};
use narwhal_store::{text_of_vote, vote_message};
use narwhal_validator::{Allowance, Budgets, Flow, Heard, Log, Request};
use std::error::Error;
use std::path::PathBuf;

pub type Sign = Box<dyn Fn(&[u8]) -> Signature + Send>;
pub type Result<T> = std::result::Result<T, Box<dyn Error + Send + Sync>>;

/// The largest message of a block that it checks, and the most rounds in a second.
const BLOCK: usize = 1_024;
const ROUNDS: usize = 1_000;
/// The most parents that it asks one author for at a time, if they may not exist, and the most blocks of one author for which it votes again.
const ASKED: usize = 8;

/// What a validator sends, with the receivers, and what it delivers, with the numbers in the order. All that it sends follows from what is
/// synced.
#[derive(Default)]
pub struct Out {
    pub sent: Vec<(u16, Vec<u8>)>,
    pub delivered: Vec<(u64, Block)>,
}

pub struct Node {
    me: u16,
    committee: Committee,
    sign: Sign,
    pub flow: Flow,
    log: Log,
    heard: Heard,
    budgets: Budgets,
    out: Out,
}

impl Node {
    /// Opens the log, and repeats its calls. Say so if it is not the whole log: it was lost, or is an older one.
    pub fn open(
        committee: &Committee,
        me: u16,
        limits: Limits,
        log: [PathBuf; 2],
        is_lost: bool,
        sign: Sign,
    ) -> Result<Node> {
        let opened = Log::open(log.each_ref().map(PathBuf::as_path))?;
        let store = Store::new(committee, limits)?;
        let mut flow = Flow::over(&store, store.session()?, me);
        Ok(Node {
            me,
            committee: committee.clone(),
            sign,
            log: opened.replay(&mut flow, is_lost)?,
            flow,
            heard: Heard::new(committee, me),
            budgets: Budgets::new(committee.size(), Allowance::of(committee, BLOCK, ROUNDS)),
            out: Out::default(),
        })
    }

    /// Takes packets, each with the member that sent it, and makes its next block, if it can. Once in a second, it also begins new budgets, sends
    /// again what the network may have lost, and asks for what is missing.
    pub fn turn(
        &mut self,
        packets: impl Iterator<Item = (u16, Vec<u8>)>,
        transactions: &[Vec<u8>],
        is_tick: bool,
    ) -> Result<Out> {
        for (from, packet) in packets {
            self.take(from, packet)?;
        }
        self.propose(transactions)?;
        if is_tick {
            self.tick()?;
        }
        self.log.sync()?;
        Ok(std::mem::take(&mut self.out))
    }

    fn take(&mut self, from: u16, packet: Vec<u8>) -> Result<()> {
        if let Some(request) = Request::read(&packet) {
            let mut answers = self.log.answer(&request)?;
            answers.retain(|answer| self.budgets.serve(from, answer.len()));
            self.out
                .sent
                .extend(answers.into_iter().map(|answer| (from, answer)));
            return Ok(());
        }
        if !self.flow.wants(&packet) || from != self.me && !self.budgets.check(from, &packet) {
            return Ok(());
        }
        match self.committee.check(&packet) {
            Ok(Checked::Vote(vote)) => {
                let Some(certificate) = self.flow.count(&vote) else {
                    return Ok(());
                };
                let message = certificate.message();
                self.broadcast(&message);
                self.make(&Checked::Certificate(certificate), message)?;
            }
            Ok(checked) => drop(self.make(&checked, packet)?),
            Err(_) if self.heard.hear(from, &packet) => {
                let records = self.flow.come_back(&self.heard)?;
                records.into_iter().for_each(|it| self.log.append(it));
            }
            Err(_) => {} // It drops what does not pass its check.
        }
        Ok(())
    }

    /// Makes the call of a message, and delivers what is decided. Returns whether the store changed.
    fn make(&mut self, checked: &Checked, message: Vec<u8>) -> Result<bool> {
        let Some(due) = self.flow.call(checked)? else {
            return Ok(false);
        };
        self.log.append(message);
        self.vote(due)?;
        while let Some(leader) = next_leader(&mut self.flow, self.committee.size() as u16)? {
            let number = self.flow.checkpoint().delivered;
            let garbage_round = leader.round.saturating_sub(LAG);
            let Some((blocks, due)) = self.flow.deliver(&leader, garbage_round)? else {
                break;
            };
            self.log.append(self.flow.checkpoint().record());
            self.out.delivered.extend((number..).zip(blocks));
            self.vote(due)?;
        }
        Ok(true)
    }

    fn vote(&mut self, due: Vec<Subject>) -> Result<()> {
        for subject in due {
            let signature = (self.sign)(&text_of_vote(&subject)?);
            let vote = vote_message(&subject, self.me, &signature)?;
            self.out.sent.push((subject.author, vote));
        }
        Ok(())
    }

    fn broadcast(&mut self, packet: &[u8]) {
        let others = (0..self.committee.size() as u16).filter(|to| *to != self.me);
        let sent = others.map(|to| (to, packet.to_vec()));
        self.out.sent.extend(sent);
    }

    fn propose(&mut self, transactions: &[Vec<u8>]) -> Result<()> {
        let Some((round, parents)) = self.flow.next_block()? else {
            return Ok(());
        };
        let block = Block::new(self.me, round, &parents, transactions)?;
        let message = block.message(&(self.sign)(&block.text_to_sign()));
        if self.make(&self.committee.check(&message)?, message.clone())? {
            self.broadcast(&message);
        }
        Ok(())
    }

    fn tick(&mut self) -> Result<()> {
        self.budgets.renew();
        let due = self.flow.due(ASKED);
        self.vote(due)?;
        if let Some(own) = self.flow.own() {
            for message in self.log.answer(&Request::Of(own))? {
                self.broadcast(&message);
            }
        }
        let requests = self.flow.requests(ASKED)?.into_iter();
        self.out
            .sent
            .extend(requests.map(|(to, of)| (to, of.bytes())));
        Ok(())
    }
}

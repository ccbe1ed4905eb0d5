//! A validator: its store with the model beside it, its log, and the votes that it sent.

use super::answers::{Explained, Got, ask_store, event_of, look_of, row_of};
use super::corpus::{Case, Delivery, committee};
use super::{Draw, Plan};
use crate::model::{Block, Call, Digest, Model, Reply, Slot};
use narwhal_store::{
    Checked, Committee, Event, Limits, OpenError, Session, StepError, Store, Ticket,
};
use std::collections::{BTreeMap, VecDeque};
use std::rc::Rc;
use std::sync::Arc;

/// A call with the model's reply.
pub struct RawTagged {
    pub session: u16,
    pub number: u32,
    pub call: Call,
    pub reply: Reply,
}

/// A call that changed the state, as the log records it.
struct Logged<'a> {
    call: Call,
    checked: Option<&'a Checked>,
    reply: Reply,
}

/// A ticket with the garbage round of its step, and the list that its walk must give.
pub struct Kept {
    pub ticket: Rc<Ticket>,
    pub floor: u64,
    pub list: Vec<Arc<Block>>,
}

pub struct Node<'a> {
    plan: &'a Plan<'a>,
    committee: Committee,
    store: Store,
    /// The sessions, with the number of calls that each made in the history.
    sessions: Vec<(Session, u32)>,
    pub model: Model,
    /// The state that the history starts from, and its events.
    base: Model,
    told: Vec<RawTagged>,
    /// The bytes of these events.
    bytes: u64,
    /// The last answer of the history, and some of the earlier ones.
    last: Option<Rc<dyn Explained>>,
    earlier: Vec<Rc<dyn Explained>>,
    /// An answer of the history before, with the index of its last event, and that event.
    outlived: Option<(Rc<dyn Explained>, usize, Event)>,
    log: Vec<Logged<'a>>,
    votes: BTreeMap<Slot, Digest>,
    pub tickets: Vec<Kept>,
    /// The newest round of a stored block, and the last digests that were stored or certified.
    pub newest: u64,
    pub recent: VecDeque<Digest>,
}

impl<'a> Node<'a> {
    pub fn new(case: &Case, plan: &'a Plan<'a>, draw: &mut Draw) -> Node<'a> {
        // Committees are compared by their members. So the store takes messages that were checked under an equal committee.
        let committee = match draw.chance(50) {
            true => case.committee.clone(),
            false => committee(&case.keys),
        };
        let Limits { blocks, window, .. } = plan.limits;
        let model = Model::new(blocks, window);
        let store = open(&committee, plan);
        let mut node = Node {
            plan,
            committee,
            sessions: Vec::new(),
            store,
            base: model.clone(),
            model,
            told: Vec::new(),
            bytes: 0,
            last: None,
            earlier: Vec::new(),
            outlived: None,
            log: Vec::new(),
            votes: BTreeMap::new(),
            tickets: Vec::new(),
            newest: 0,
            recent: VecDeque::new(),
        };
        node.open_session();
        node
    }

    /// Opens a session, unless the store has reached its limit on sessions.
    pub fn open_session(&mut self) {
        match self.store.session() {
            Ok(session) => {
                assert_eq!(
                    usize::from(session.id()),
                    self.sessions.len(),
                    "the number of a session"
                );
                self.sessions.push((session, 0));
            }
            Err(refused) => assert!(matches!(refused, OpenError::TooManySessions), "{refused}"),
        }
        assert!(
            self.sessions.len() <= self.plan.limits.sessions as usize,
            "too many sessions"
        );
    }

    /// Looks at a round, and at each of its slots. The looks must be the model's.
    pub fn look_round(&mut self, draw: &mut Draw, round: u64) {
        let at = draw.index(self.sessions.len());
        let (session, _) = &mut self.sessions[at];
        let looks = session.look_round(round).expect("memory");
        let expected = self.model.look_round(round);
        assert_eq!(looks.len(), expected.len(), "the authors of a round");
        for ((author, look), (expected_author, expected)) in looks.iter().zip(&expected) {
            let found = look_of(look);
            assert_eq!((author, &found), (expected_author, expected), "a look");
            assert_eq!(look.garbage_round, self.model.floor(), "a garbage round");
            assert_eq!(*look, session.look(round, *author), "a look at a slot");
        }
        self.plan.seen.count("looks at a round".into());
    }

    /// Makes a call. If it changed the state, it is logged, and then the vote is sent.
    pub fn ask(&mut self, draw: &mut Draw, call: &Call, checked: Option<&'a Checked>) -> Reply {
        let reply = self.step(draw, call, checked);
        if matches!(
            reply,
            Reply::Stored { .. } | Reply::Certified | Reply::Raised { .. }
        ) {
            self.log.push(Logged {
                call: call.clone(),
                checked,
                reply: reply.clone(),
            });
        }
        if let (Call::Write(block), Reply::Stored { vote: true }) = (call, &reply) {
            let before = self.votes.insert(block.slot, block.digest);
            assert_eq!(before, None, "a second vote for the slot {:?}", block.slot);
        }
        match (call, &reply) {
            (Call::Write(block), Reply::Stored { .. }) => {
                self.newest = self.newest.max(block.slot.0);
                self.recent.push_back(block.digest);
            }
            (Call::Certify(certificate), Reply::Certified) => {
                self.recent.push_back(certificate.digest)
            }
            _ => {}
        }
        if self.recent.len() > 20 {
            self.recent.pop_front();
        }
        reply
    }

    /// Hands a message to the store. Only a faulty quorum certifies two blocks of a slot, or a block for another slot.
    pub fn take(&mut self, draw: &mut Draw, delivery: &'a Delivery) -> Reply {
        let reply = self.ask(draw, &delivery.call, Some(&delivery.checked));
        let is_fault = matches!(reply, Reply::Conflict(_) | Reply::Misfit);
        assert!(
            self.plan.faulty || !is_fault,
            "{reply:?} with an honest quorum"
        );
        reply
    }

    /// Crashes while it takes the message, before or after the log has it, and replays the log.
    pub fn crash(&mut self, draw: &mut Draw, delivery: &'a Delivery) {
        let mut logged = self.model.clone();
        if draw.chance(50) {
            self.take(draw, delivery);
            logged = self.model.clone();
        } else {
            self.step(draw, &delivery.call, Some(&delivery.checked));
        }
        self.replay_history();
        self.sessions.clear();
        self.store = open(&self.committee, self.plan);
        self.open_session();
        self.model = Model::new(self.plan.limits.blocks, self.plan.limits.window);
        self.begin_history();
        self.replay_log(draw, logged.floor());
        self.plan.seen.count("crash and replay".into());
        assert_eq!(self.model, logged, "the state that the log leads to");
    }

    /// Repeats the calls of the log. Sometimes the log is cut first: it begins with the last collection, and no call below that
    /// round follows.
    fn replay_log(&mut self, draw: &mut Draw, floor: u64) {
        if floor > 0 && draw.chance(50) {
            let collect = Logged {
                call: Call::Collect(floor),
                checked: None,
                reply: Reply::Raised { dropped: 0 },
            };
            self.log
                .retain(|logged| round_of(&logged.call).is_some_and(|round| round >= floor));
            self.log.insert(0, collect);
        }
        let log = std::mem::take(&mut self.log);
        for logged in &log {
            let reply = self.step(draw, &logged.call, logged.checked);
            assert_eq!(reply, logged.reply, "the reply to a call of the log");
            if let (Call::Write(block), Reply::Stored { vote: true }) = (&logged.call, reply) {
                assert_eq!(
                    self.votes.get(&block.slot),
                    Some(&block.digest),
                    "another vote for the slot {:?}",
                    block.slot
                );
            }
        }
        self.log = log;
    }

    /// Makes a call in some session, and compares the reply and the history with the model's.
    fn step(&mut self, draw: &mut Draw, call: &Call, checked: Option<&Checked>) -> Reply {
        self.meet_the_limit(draw, call, checked);
        let at = draw.index(self.sessions.len());
        let (session, calls) = &mut self.sessions[at];
        *calls += 1;
        let heard = ask_store(session, call, checked).expect("a step");
        let reply = self.model.step(call);
        let expected = if let Reply::List(_) = reply {
            Reply::Ready
        } else {
            reply.clone()
        };
        assert_eq!(heard.reply, expected, "the reply to {call:?}");
        self.bytes += bytes_of(call, &reply);
        assert_eq!(
            self.store.history_bytes(),
            self.bytes,
            "bytes after {call:?}"
        );
        self.told.push(RawTagged {
            session: at as u16,
            number: *calls,
            call: call.clone(),
            reply: reply.clone(),
        });
        self.plan
            .seen
            .count(row_of(&event_of(&self.told[self.told.len() - 1])));
        let explained = self.keep(draw, heard.answer, &reply);
        self.compare_history(draw, explained);
        reply
    }

    /// The store restarts a history that is due before the call. A store that never restarts refuses the call if the history is full.
    fn meet_the_limit(&mut self, draw: &mut Draw, call: &Call, checked: Option<&Checked>) {
        let (events, most) = (self.told.len(), self.plan.limits.events);
        if let Some((bytes, restart_events)) = self.plan.restart {
            let is_over = self.bytes + most_bytes_of(call) > bytes;
            if events > 0 && (is_over || events >= most.min(restart_events) as usize) {
                self.plan.seen.count("automatic restart".into());
                self.replay_history();
                self.begin_history();
            }
        } else if events == most as usize {
            let refused = ask_store(&mut self.sessions[0].0, call, checked);
            assert!(
                matches!(refused, Err(StepError::HistoryFull)),
                "a call after the last event"
            );
            self.plan.seen.count("history full".into());
            self.restart(draw);
        }
    }

    /// Checks the whole history, and begins another one over the same state. The restart gives the history that ends.
    pub fn restart(&mut self, draw: &mut Draw) {
        self.replay_history();
        let at = draw.index(self.sessions.len());
        let ended = self.sessions[at].0.restart().expect("memory");
        let told = self.told.iter().map(event_of);
        assert!(ended.events().eq(told), "the last history of a run");
        if let Some(last) = &self.last {
            assert!(
                last.history().is_prefix_of(ended.history())
                    && ended.history().is_prefix_of(last.history())
            );
        }
        self.begin_history();
    }

    /// The store has a new history without events, over the same state. Each session numbers its calls from 1 again.
    fn begin_history(&mut self) {
        if let Some((explained, last, event)) = &self.outlived {
            let history = explained.history();
            assert_eq!(history.len(), last + 1, "the length of an old history");
            assert_eq!(
                history.event(*last),
                Some(*event),
                "the last event of an old history"
            );
        }
        if let (Some(explained), Some(told)) = (self.last.take(), self.told.last()) {
            self.outlived = Some((explained, self.told.len() - 1, event_of(told)));
        }
        self.base = self.model.clone();
        self.told.clear();
        self.bytes = 0;
        self.sessions.iter_mut().for_each(|(_, calls)| *calls = 0);
        self.earlier.clear();
    }

    /// Compacts the store, which is no event.
    pub fn compact(&mut self) {
        self.store.compact().expect("memory");
        assert_eq!(
            self.store.events(),
            self.told.len(),
            "an event of compacting"
        );
    }

    /// Hands in a message that was checked under another committee.
    pub fn take_foreign(&mut self, draw: &mut Draw, delivery: &Delivery) {
        let refused = self.refused(draw, &delivery.call, Some(&delivery.checked));
        assert_eq!(
            refused,
            StepError::OtherCommittee,
            "a message of another committee"
        );
    }

    /// Asks for a garbage round that does not fit into 48 bits.
    pub fn take_bad_round(&mut self, draw: &mut Draw) {
        let refused = self.refused(draw, &Call::Collect(1 << 48), None);
        assert_eq!(refused, StepError::BadRound, "a round of 2^48");
    }

    /// Makes a call that is refused: it is no event.
    fn refused(&mut self, draw: &mut Draw, call: &Call, checked: Option<&Checked>) -> StepError {
        if self.plan.restart.is_some() {
            self.meet_the_limit(draw, call, checked);
        }
        let at = draw.index(self.sessions.len());
        let (session, _) = &mut self.sessions[at];
        let refused = ask_store(session, call, checked).map(|heard| heard.reply);
        assert_eq!(
            self.store.events(),
            self.told.len(),
            "an event of a refused call"
        );
        refused.expect_err("a call that is refused")
    }

    /// Keeps a ticket to walk it later. Returns what has the history of the answer.
    fn keep(&mut self, draw: &mut Draw, answer: Got, reply: &Reply) -> Rc<dyn Explained> {
        let ticket = match answer {
            Got::Ticket(ticket) => Rc::new(ticket),
            Got::Other(explained) => return Rc::from(explained as Box<dyn Explained>),
        };
        if let Reply::List(list) = reply {
            if self.tickets.len() == 6 {
                self.tickets.swap_remove(draw.index(6));
            }
            self.tickets.push(Kept {
                ticket: ticket.clone(),
                floor: self.model.floor(),
                list: list.clone(),
            });
        }
        ticket
    }

    /// The answer's history is the one before with one more event, which is the call.
    fn compare_history(&mut self, draw: &mut Draw, explained: Rc<dyn Explained>) {
        let (history, len) = (explained.history(), self.told.len());
        assert_eq!(history.len(), len, "the length of a history");
        assert!(history.event(len).is_none(), "an event after the last");
        for index in [len - 1, draw.index(len)] {
            let event = history.event(index).expect("an event");
            assert_eq!(
                event,
                event_of(&self.told[index]),
                "event {index} of a history"
            );
        }
        // `begins` takes time for each event, so long histories are compared less often.
        if draw.index(len) < 4 {
            let earlier = (!self.earlier.is_empty()).then(|| draw.index(self.earlier.len()));
            for earlier in self
                .last
                .iter()
                .chain(earlier.map(|index| &self.earlier[index]))
            {
                let earlier = earlier.history();
                assert!(
                    earlier.is_prefix_of(history),
                    "the first {} events differ",
                    earlier.len()
                );
                assert!(
                    !history.is_prefix_of(earlier),
                    "a history begins a shorter one"
                );
            }
            if self.earlier.len() == 8 {
                self.earlier.swap_remove(draw.index(8));
            }
            self.earlier.push(explained.clone());
        }
        self.last = Some(explained);
    }

    /// The whole history of the last answer is legal: the model gives the reply of each event to its call.
    pub fn replay_history(&self) {
        let Some(last) = &self.last else { return };
        let (mut model, history) = (self.base.clone(), last.history());
        assert_eq!(
            history.len(),
            self.store.events(),
            "the length of the last history"
        );
        for (event, told) in history.events().zip(&self.told) {
            let reply = model.step(&told.call);
            assert_eq!(reply, told.reply, "the reply to a call of a history");
            assert_eq!(event, event_of(told), "an event of a history");
        }
        assert_eq!(model, self.model, "the state that the history leads to");
    }
}

fn open(committee: &Committee, plan: &Plan) -> Store {
    let builder = Store::builder(committee).limits(plan.limits);
    let builder = match plan.restart {
        Some((bytes, events)) => builder.restart_when(bytes, events),
        None => builder.never_restart(),
    };
    builder.open().expect("a store")
}

/// The most bytes that the event of the call can take.
fn most_bytes_of(call: &Call) -> u64 {
    match call {
        // The message is a tag, the body and a signature.
        Call::Write(block) => 250 + 65 + block.body.len() as u64,
        Call::Certify(certificate) => 250 + certificate.message.len() as u64,
        Call::Missing(most) => 150 + 48 * u64::from(*most),
        Call::MissingOf(_) => 150 + 48 * 100,
        _ => 150,
    }
}

/// The bytes of the event. A block or a certificate that is not stored, and parents that are not listed, take none.
fn bytes_of(call: &Call, reply: &Reply) -> u64 {
    match reply {
        Reply::Stored { .. } | Reply::Clash | Reply::Certified => most_bytes_of(call),
        Reply::Missing(listed) | Reply::MissingOf(Some(listed)) => 150 + 48 * listed.len() as u64,
        _ => 150,
    }
}

fn round_of(call: &Call) -> Option<u64> {
    match call {
        Call::Write(block) => Some(block.slot.0),
        Call::Certify(certificate) => Some(certificate.slot.0),
        _ => None,
    }
}

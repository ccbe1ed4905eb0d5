//! Converts the crate's answers to the model's types.

use super::corpus::certificate_of;
use super::node::RawTagged;
use crate::model::{Block, Call, Certificate, Counts, Look, Reply, Slot};
use narwhal_store::{
    Answer, Causal, CausalFault, Checked, Digest, Event, History, Note, Session, StepError, Ticket,
};
use narwhal_store::{BlockFault, CertificateFault, CheckError, TextFault};
use narwhal_store::{Call as ToldCall, Reply as ToldReply};
use narwhal_store::{CertifyReply, CollectReply, Status, Subject, WriteReply};
use std::sync::Arc;

/// An answer, a ticket or a note, which carries a history.
pub trait Explained {
    fn history(&self) -> &History;
}

impl<R> Explained for Answer<R> {
    fn history(&self) -> &History {
        Answer::history(self)
    }
}

impl Explained for Ticket {
    fn history(&self) -> &History {
        Ticket::history(self)
    }
}

impl Explained for Note {
    fn history(&self) -> &History {
        Note::history(self)
    }
}

/// The result of a call.
pub struct Heard {
    pub reply: Reply,
    pub answer: Got,
}

/// What a call gave. It can be sent to another thread.
pub enum Got {
    Ticket(Ticket),
    Other(Box<dyn Explained + Send>),
}

impl Heard {
    fn of<R: Send + 'static>(answer: Answer<R>, reply: impl FnOnce(&R) -> Reply) -> Heard {
        Heard {
            reply: reply(answer.reply()),
            answer: Got::Other(Box::new(answer)),
        }
    }
}

impl Explained for Got {
    fn history(&self) -> &History {
        match self {
            Got::Ticket(ticket) => ticket.history(),
            Got::Other(explained) => explained.history(),
        }
    }
}

/// Makes the call. `checked` is the message to write or certify.
pub fn ask_store(
    session: &mut Session,
    call: &Call,
    checked: Option<&Checked>,
) -> Result<Heard, StepError> {
    Ok(match (call, checked) {
        (Call::Write(_), Some(Checked::Block(block))) => Heard::of(session.write(block)?, to_write),
        (Call::Certify(_), Some(Checked::Certificate(certificate))) => {
            Heard::of(session.certify(certificate)?, to_certify)
        }
        (Call::Certificate(digest), _) => {
            Heard::of(session.certificate(&Digest(*digest))?, |found| {
                Reply::Certificate(
                    found
                        .as_ref()
                        .map(|message| Arc::new(certificate_of(message))),
                )
            })
        }
        (Call::Read(digest), _) => Heard::of(session.read(&Digest(*digest))?, |found| {
            Reply::Block(found.as_ref().map(|block| Arc::new(block_of(block))))
        }),
        (Call::Causal(digest), _) => match session.causal(&Digest(*digest))? {
            Causal::Ready(ticket) => Heard {
                reply: Reply::Ready,
                answer: Got::Ticket(ticket),
            },
            Causal::NotReady(answer) => Heard::of(answer, |fault| match fault {
                CausalFault::Unknown => Reply::Unknown,
                CausalFault::Uncertified => Reply::Uncertified,
                CausalFault::Incomplete => Reply::Incomplete,
            }),
        },
        (Call::Collect(round), _) => Heard::of(session.collect(*round)?, |reply| match *reply {
            CollectReply::Raised { dropped } => Reply::Raised { dropped },
            CollectReply::NotHigher { garbage_round } => Reply::NotHigher(garbage_round),
        }),
        (Call::Missing(most), _) => Heard::of(session.missing(*most)?, |subjects| {
            Reply::Missing(subjects_of(subjects))
        }),
        (Call::MissingOf(digest), _) => Heard::of(session.missing_of(&Digest(*digest))?, |found| {
            Reply::MissingOf(found.as_deref().map(subjects_of))
        }),
        (Call::Status, _) => Heard::of(session.status()?, |status| {
            let Status {
                garbage_round,
                blocks,
                certificates,
                complete,
                wanted,
            } = *status;
            Reply::Status(Counts {
                garbage_round,
                blocks,
                certificates,
                complete,
                wanted,
            })
        }),
        (Call::Write(_) | Call::Certify(_), _) => panic!("the message is not that of the call"),
    })
}

fn subjects_of(subjects: &[Subject]) -> Vec<(Slot, [u8; 32])> {
    subjects
        .iter()
        .map(|subject| ((subject.round, subject.author), subject.digest.0))
        .collect()
}

fn to_write(reply: &WriteReply) -> Reply {
    match *reply {
        WriteReply::Stored { vote } => Reply::Stored { vote },
        WriteReply::Held => Reply::Held,
        WriteReply::Clash => Reply::Clash,
        WriteReply::Misfit => Reply::Misfit,
        WriteReply::Equivocates(first) => Reply::Equivocates(first.0),
        WriteReply::Collected { garbage_round } => Reply::Collected(garbage_round),
        WriteReply::TooFar => Reply::TooFar,
        WriteReply::Full => Reply::Full,
    }
}

fn to_certify(reply: &CertifyReply) -> Reply {
    match *reply {
        CertifyReply::Certified => Reply::Certified,
        CertifyReply::Already => Reply::Already,
        CertifyReply::Misfit => Reply::Misfit,
        CertifyReply::Conflict(other) => Reply::Conflict(other.0),
        CertifyReply::Collected { garbage_round } => Reply::Collected(garbage_round),
        CertifyReply::TooFar => Reply::TooFar,
        CertifyReply::Full => Reply::Full,
    }
}

/// The model's block.
pub fn block_of(block: &narwhal_store::Block) -> Block {
    Block {
        digest: block.digest().0,
        slot: (block.round(), block.author()),
        parents: block
            .parents()
            .iter()
            .map(|(author, digest)| (*author, digest.0))
            .collect(),
        body: block.body(),
    }
}

/// The model's look.
pub fn look_of(look: &narwhal_store::Look) -> Look {
    Look {
        newest_round: look.newest_round,
        missing: look.missing,
        first: look.first.map(|digest| digest.0),
        certified: look.certified.map(|digest| digest.0),
        stands: look.stands,
        complete: look.complete,
    }
}

/// The crate's subject.
pub fn subject_of(certificate: &Certificate) -> Subject {
    let (round, author) = certificate.slot;
    Subject {
        digest: Digest(certificate.digest),
        round,
        author,
    }
}

/// The event that a history must have for the call.
pub fn event_of(told: &RawTagged) -> Event {
    let call = match &told.call {
        Call::Write(block) => ToldCall::Write(Digest(block.digest)),
        Call::Certify(certificate) => ToldCall::Certify(Digest(certificate.digest)),
        Call::Certificate(digest) => ToldCall::Certificate(Digest(*digest)),
        Call::Read(digest) => ToldCall::Read(Digest(*digest)),
        Call::Causal(digest) => ToldCall::Causal(Digest(*digest)),
        Call::Collect(round) => ToldCall::Collect(*round),
        Call::Missing(most) => ToldCall::Missing(*most),
        Call::MissingOf(digest) => ToldCall::MissingOf(Digest(*digest)),
        Call::Status => ToldCall::Status,
    };
    Event {
        session: told.session,
        number: told.number,
        call,
        reply: to_told(&told.reply),
    }
}

/// The row of the step table that the event belongs to.
pub fn row_of(event: &Event) -> String {
    let word = |text: String| {
        text.split([' ', '('])
            .next()
            .map(String::from)
            .unwrap_or_default()
    };
    match event.reply {
        ToldReply::Stored { vote } => format!("Write: Stored, vote {vote}"),
        reply => format!(
            "{}: {}",
            word(format!("{:?}", event.call)),
            word(format!("{reply:?}"))
        ),
    }
}

fn to_told(reply: &Reply) -> ToldReply {
    match reply {
        Reply::Stored { vote } => ToldReply::Stored { vote: *vote },
        Reply::Held => ToldReply::Held,
        Reply::Clash => ToldReply::Clash,
        Reply::Equivocates(first) => ToldReply::Equivocates(Digest(*first)),
        Reply::Certified => ToldReply::Certified,
        Reply::Already => ToldReply::Already,
        Reply::Conflict(other) => ToldReply::Conflict(Digest(*other)),
        Reply::Collected(garbage_round) => ToldReply::Collected {
            garbage_round: *garbage_round,
        },
        Reply::TooFar => ToldReply::TooFar,
        Reply::Misfit => ToldReply::Misfit,
        Reply::Full => ToldReply::Full,
        Reply::Certificate(Some(_)) | Reply::Block(Some(_)) => ToldReply::Found,
        Reply::Certificate(None) | Reply::Block(None) | Reply::MissingOf(None) | Reply::Unknown => {
            ToldReply::Unknown
        }
        Reply::Uncertified => ToldReply::Uncertified,
        Reply::Incomplete => ToldReply::Incomplete,
        Reply::List(_) | Reply::Ready => ToldReply::Ready,
        Reply::Raised { dropped } => ToldReply::Raised { dropped: *dropped },
        Reply::NotHigher(garbage_round) => ToldReply::NotHigher {
            garbage_round: *garbage_round,
        },
        Reply::Missing(subjects) | Reply::MissingOf(Some(subjects)) => ToldReply::Missing {
            listed: subjects.len() as u64,
        },
        Reply::Status(_) => ToldReply::Status,
    }
}

/// The code of the fault in nw.h, and its signer or 0.
pub fn code_of(fault: &CheckError) -> (u8, u16) {
    let code = match fault {
        CheckError::Text(TextFault::Short) => 10,
        CheckError::Text(TextFault::Trailing) => 11,
        CheckError::Text(TextFault::Tag) => 12,
        CheckError::Text(TextFault::Version) => 13,
        CheckError::Text(TextFault::ManyParents) => 14,
        CheckError::Text(TextFault::ParentOrder) => 15,
        CheckError::Text(TextFault::ManyTransactions) => 16,
        CheckError::Text(TextFault::LongTransaction) => 17,
        CheckError::Text(TextFault::LongBody) => 18,
        CheckError::Text(TextFault::ManyVotes) => 19,
        CheckError::Text(TextFault::VoteOrder) => 20,
        CheckError::Block(BlockFault::Author) => 30,
        CheckError::Block(BlockFault::ParentAuthor) => 31,
        CheckError::Block(BlockFault::GenesisParents) => 32,
        CheckError::Block(BlockFault::FewParents) => 33,
        CheckError::Block(BlockFault::Signature) => 34,
        CheckError::Certificate(CertificateFault::Author) => 40,
        CheckError::Certificate(CertificateFault::Signer) => 41,
        CheckError::Certificate(CertificateFault::FewVotes) => 42,
        CheckError::Certificate(CertificateFault::Signature { signer }) => return (43, *signer),
        other => panic!("a fault without a code: {other:?}"),
    };
    (code, 0)
}

//! Answers to calls.

use crate::debug::debug_by;
use crate::ffi::Handle;
use crate::{CausalFault, History, Reply, Ticket};
use std::cell::OnceCell;

/// The answer to a call: the reply, and the history that explains it.
///
/// The type is `Send` and not `Sync`.
#[must_use = "the reply says what a validator does next, so write `let _ =` if it does not matter"]
pub struct Answer<R> {
    history: History,
    reply: OnceCell<R>,
    decode: fn(&mut Handle) -> R,
}

impl<R> Answer<R> {
    #[inline]
    pub(crate) fn new(handle: Handle, decode: fn(&mut Handle) -> R) -> Answer<R> {
        Answer {
            history: History::new(handle),
            reply: OnceCell::new(),
            decode,
        }
    }

    /// Returns the reply, which is decoded on first use.
    #[must_use]
    pub fn reply(&self) -> &R {
        let decode = || (self.decode)(&mut self.history.handle());
        self.reply.get_or_init(decode)
    }

    /// Returns the reply and drops the history.
    #[must_use]
    pub fn into_reply(self) -> R {
        let decode = || (self.decode)(&mut self.history.handle());
        self.reply.into_inner().unwrap_or_else(decode)
    }

    /// Returns the history that explains the reply. Its last event is this call.
    #[must_use]
    pub fn history(&self) -> &History {
        &self.history
    }
}

debug_by!(Answer<R>: reply, history);

/// The answer to a causal read.
///
/// ```
/// # use narwhal_store::{Committee, Digest, Limits, PublicKey, Store};
/// use narwhal_store::{Causal, CausalFault};
///
/// # let committee = Committee::equal(&[PublicKey([7; 32])])?;
/// # let mut session = Store::new(&committee, Limits::default())?.session()?;
/// # let digest = Digest::of(b"nothing");
/// match session.causal(&digest)? {
///     Causal::Ready(ticket) => println!("{} blocks", ticket.walk()?.len()),
///     Causal::NotReady(answer) => assert_eq!(answer.reply(), &CausalFault::Unknown),
/// }
/// # Ok::<(), Box<dyn std::error::Error>>(())
/// ```
#[derive(Debug)]
#[must_use = "a causal read changes nothing: its ticket or its fault is all that it gives"]
pub enum Causal {
    /// The block is complete: the ticket lists it with its certified ancestors.
    Ready(Ticket),
    /// The block is not complete. The reply says why.
    NotReady(Answer<CausalFault>),
}

impl Causal {
    pub(crate) fn of(mut handle: Handle) -> Causal {
        match Reply::read(&mut handle) {
            Reply::Ready => Causal::Ready(Ticket::new(handle)),
            _ => Causal::NotReady(Answer::new(handle, CausalFault::read)),
        }
    }

    /// Returns the ticket.
    ///
    /// # Errors
    ///
    /// The [`CausalFault`] if the block is not complete.
    pub fn into_ticket(self) -> Result<Ticket, CausalFault> {
        match self {
            Causal::Ready(ticket) => Ok(ticket),
            Causal::NotReady(answer) => Err(answer.into_reply()),
        }
    }

    /// Returns why there is no ticket, or `None` if there is one.
    #[must_use]
    pub fn fault(&self) -> Option<CausalFault> {
        match self {
            Causal::Ready(_) => None,
            Causal::NotReady(answer) => Some(*answer.reply()),
        }
    }

    /// Returns the history that explains the answer.
    #[must_use]
    pub fn history(&self) -> &History {
        match self {
            Causal::Ready(ticket) => ticket.history(),
            Causal::NotReady(answer) => answer.history(),
        }
    }
}

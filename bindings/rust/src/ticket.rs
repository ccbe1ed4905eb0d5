//! Tickets of causal reads.

use crate::code::Code;
use crate::debug::debug_by;
use crate::error::coded_error;
use crate::ffi::{self, Handle};
use crate::history::both;
use crate::{Block, Digest, History, NoMemory, Walk};
use std::cell::Cell;
use std::marker::PhantomData;
use std::ptr;

/// A causal read that is ready to be walked. It is a snapshot of a block and its certified
/// ancestors of rounds not below the garbage round, as of the call that opened the ticket.
///
/// [`Session::causal`](crate::Session::causal) opens it. A walk takes no lock, so other calls go on
/// meanwhile. Later calls and collections do not change the list. A ticket outlives its store.
///
/// A ticket keeps in memory its history and all blocks that were complete when it was opened, not
/// only those of its list. Drop it when you no longer need it.
///
/// The type is `Send`, so another thread can walk it, and it is not `Sync`.
pub struct Ticket {
    history: History,
    /// Threads that share a ticket would wait for each other, but a walk waits for nobody.
    is_not_shared: PhantomData<Cell<()>>,
}

impl Ticket {
    pub(crate) fn new(handle: Handle) -> Ticket {
        Ticket {
            history: History::new(handle),
            is_not_shared: PhantomData,
        }
    }

    /// Returns the digest of the block that the causal read is for.
    #[must_use]
    pub fn digest(&self) -> Digest {
        self.about().0
    }

    /// Returns the garbage round at the call that opened the ticket. The list has no blocks of
    /// rounds below it.
    #[must_use]
    pub fn garbage_round(&self) -> u64 {
        self.about().1
    }

    fn about(&self) -> (Digest, u64) {
        let (mut digest, mut garbage_round) = (Digest([0; 32]), 0);
        let handle = &mut self.history.handle();
        ffi::nw_ticket_scope(handle, &mut digest, &mut garbage_round).or_abort();
        (digest, garbage_round)
    }

    /// Lists the block and its certified ancestors of rounds not below the garbage round, as of the
    /// call that opened the ticket. The order is ascending by round and author.
    ///
    /// Every walk of a ticket returns the same list. So do walks of all tickets for the same digest
    /// with the same [`garbage_round`](Ticket::garbage_round), of any store, unless two blocks have
    /// the same digest.
    ///
    /// # Errors
    ///
    /// [`NoMemory`] if the library could not allocate memory.
    ///
    /// ```
    /// # mod data { include!(concat!(env!("CARGO_MANIFEST_DIR"), "/examples/data/mod.rs")); }
    /// # let (mut session, certified) = data::filled()?;
    /// # let last = certified[certified.len() - 1];
    /// let ticket = session.causal(&last)?.into_ticket()?;
    /// let _ = session.collect(1)?; // It drops the blocks of round 0, but not from the ticket.
    /// let walker = std::thread::spawn(move || ticket.walk());
    /// let blocks: Vec<_> = walker.join().unwrap()?.collect();
    /// assert_eq!(blocks[0].round(), 0);
    /// assert_eq!(blocks.last().unwrap().digest(), last);
    /// # Ok::<(), Box<dyn std::error::Error>>(())
    /// ```
    pub fn walk(&self) -> Result<Walk, NoMemory> {
        let ticket = &mut self.history.handle();
        let mut list = Handle::opened(|out| ffi::nw_ticket_walk(ticket, out))?;
        let mut len = 0;
        ffi::nw_list_len(&mut list, &mut len).done()?;
        Ok(Walk::new(list, len))
    }

    /// Lists the blocks of this ticket that the earlier ticket does not list, in the order of
    /// [`walk`](Ticket::walk).
    ///
    /// A validator that delivered the list of one leader delivers these blocks for the next. If the
    /// earlier ticket's block is an ancestor of this one's, its list is contained in this one,
    /// except for blocks below this ticket's garbage round.
    ///
    /// # Errors
    ///
    /// [`NoMemory`] if the library could not allocate memory.
    ///
    /// ```
    /// # mod data { include!(concat!(env!("CARGO_MANIFEST_DIR"), "/examples/data/mod.rs")); }
    /// # let (mut session, certified) = data::filled()?;
    /// // `certified` are the digests of a chain of certified blocks, in order.
    /// let first = session.causal(&certified[0])?.into_ticket()?;
    /// let last = session.causal(certified.last().unwrap())?.into_ticket()?;
    /// let after = last.walk_after(&first)?;
    /// assert_eq!(after.len(), last.walk()?.len() - first.walk()?.len());
    /// assert!(last.walk_after(&last)?.is_empty());
    /// # Ok::<(), Box<dyn std::error::Error>>(())
    /// ```
    pub fn walk_after(&self, earlier: &Ticket) -> Result<Vec<Block>, NoMemory> {
        let place = |block: &Block| (block.round(), block.author());
        let mut seen = earlier.walk()?.peekable();
        // Both lists ascend by round and author.
        let is_new = |block: &Block| {
            while seen.next_if(|other| place(other) < place(block)).is_some() {}
            seen.next_if(|other| other.digest() == block.digest())
                .is_none()
        };
        Ok(self.walk()?.filter(is_new).collect())
    }

    /// Returns whether two tickets have equal lists. They must be for the same digest with the same
    /// [`garbage_round`](Ticket::garbage_round), and may come from two stores.
    ///
    /// The lists are always equal, unless two different blocks have the same digest.
    ///
    /// # Errors
    ///
    /// - [`AgreeError::NotComparable`] if the tickets are for two digests, or have two garbage rounds.
    /// - [`AgreeError::NoMemory`] if the library could not allocate memory.
    pub fn agrees(&self, other: &Ticket) -> Result<bool, AgreeError> {
        if ptr::eq(self, other) {
            return Ok(true);
        }
        let (mut this, mut other) = both(&self.history, &other.history);
        let mut same = false;
        agreement(ffi::nw_ticket_agree(&mut this, &mut other, &mut same), same)
    }

    /// Returns the history that explains the ticket. Its last event is the call that opened the
    /// ticket.
    #[must_use]
    pub fn history(&self) -> &History {
        &self.history
    }
}

/// The outcome of a comparison that the library answered in this way.
fn agreement(code: Code, same: bool) -> Result<bool, AgreeError> {
    code.done()?;
    Ok(same)
}

debug_by!(Ticket: digest, garbage_round);

/// Why two tickets cannot be compared.
#[derive(Clone, Copy, Debug, PartialEq, Eq, Hash)]
#[non_exhaustive]
pub enum AgreeError {
    /// The tickets are for two digests, or have two garbage rounds.
    NotComparable,
    /// The library could not allocate memory.
    NoMemory,
}

coded_error!(AgreeError {
    NotComparable = NOT_COMPARABLE => "the tickets are for two digests or have two garbage rounds",
});

#[cfg(test)]
mod tests {
    use super::{AgreeError, agreement};
    use crate::code::Code;

    // Two lists differ only if two blocks have one digest, so no two tickets of a test differ.
    #[test]
    fn tickets_agree_if_the_library_says_so() {
        assert_eq!(agreement(Code::DONE, true), Ok(true));
        assert_eq!(agreement(Code::DONE, false), Ok(false));
        let refused = agreement(Code::NOT_COMPARABLE, true);
        assert_eq!(refused, Err(AgreeError::NotComparable));
        assert_eq!(agreement(Code::NO_MEMORY, true), Err(AgreeError::NoMemory));
    }
}

//! What the events of calls hold, and the bytes that they take.

use crate::Reply;
use crate::ffi::Handle;

/// What the event of a call holds in the history.
#[derive(Clone, Copy)]
pub(crate) enum EventContent {
    /// Only numbers and digests, of a call that changes nothing.
    Small,
    /// The numbers of a collection.
    Collection,
    /// A block or a certificate, whose message has this many bytes.
    HandedIn(u64),
    /// A list of at most this many missing parents.
    Parents(u16),
}

impl EventContent {
    /// A list of missing parents of one block: at most one of each member of the largest committee.
    pub(crate) const PARENTS_OF_ONE: EventContent = EventContent::Parents(100);
    /// The bytes of any event.
    const EVENT: u64 = 150;
    /// The bytes of a block or a certificate beside its message.
    const HANDED_IN: u64 = 100;
    /// The bytes of a listed parent.
    const PARENT: u64 = 48;

    /// The most bytes that the event can take.
    #[inline]
    pub(crate) fn most(self) -> u64 {
        EventContent::EVENT
            + match self {
                EventContent::Small | EventContent::Collection => 0,
                EventContent::HandedIn(bytes) => EventContent::HANDED_IN + bytes,
                EventContent::Parents(most) => EventContent::PARENT * u64::from(most),
            }
    }

    /// The bytes that the event of the answer takes, and whether the call changed the store.
    #[inline]
    pub(crate) fn outcome(self, answer: &mut Handle) -> (u64, bool) {
        match self {
            EventContent::Small => (self.most(), false),
            _ => self.after(Reply::read(answer)),
        }
    }

    /// The same after this reply. The event has the block or the certificate only if the call stored
    /// it, or if the reply is `Clash`.
    #[inline]
    fn after(self, reply: Reply) -> (u64, bool) {
        let (held, is_change) = match reply {
            Reply::Stored { .. } | Reply::Certified | Reply::Raised { .. } => (self, true),
            Reply::Clash => (self, false),
            Reply::Missing { listed } => (EventContent::Parents(listed as u16), false),
            _ => (EventContent::Small, false),
        };
        (held.most(), is_change)
    }
}

#[cfg(test)]
mod tests {
    use super::EventContent;
    use crate::{Digest, Reply};

    /// No two blocks of a test have one digest, so none of its calls answers `Clash`.
    #[test]
    fn a_refused_block_is_held_only_after_a_clash() {
        let after = |reply| EventContent::HandedIn(1_000).after(reply);
        assert_eq!(after(Reply::Clash), (1_250, false));
        assert_eq!(after(Reply::Stored { vote: false }), (1_250, true));
        assert_eq!(after(Reply::Certified), (1_250, true));
        for reply in [Reply::Held, Reply::Misfit, Reply::TooFar, Reply::Full] {
            assert_eq!(after(reply), (150, false));
        }
        for reply in [Reply::Equivocates, Reply::Conflict] {
            assert_eq!(after(reply(Digest([7; 32]))), (150, false));
        }
    }
}

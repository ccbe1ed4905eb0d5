//! Committees.

use crate::PublicKey;
use crate::code::{Code, read};
use crate::debug::{debug_by, equal_by};
use crate::error::coded_error;
use crate::ffi::{self, Handle};
use crate::lock::Lock;
use std::sync::Arc;

/// A member of a committee.
#[derive(Clone, Copy, Debug, PartialEq, Eq, Hash)]
#[repr(C)]
pub struct Member {
    /// The key that the member signs with.
    pub key: PublicKey,
    /// The member's share of the votes, from 1 to 1,000,000.
    pub weight: u32,
}

/// The members that may author blocks and vote for them, with their keys and weights.
///
/// A member's number is its place in the list that the committee is made from. The committee never
/// changes. A clone is a second owner of the same committee and costs one atomic increment. Two
/// committees are equal if they have the same members in the same order.
///
/// ```
/// use narwhal_store::{Committee, Member, PublicKey};
///
/// let keys = [1, 2, 3, 4].map(|byte| PublicKey([byte; 32]));
/// let committee = Committee::equal(&keys)?;
/// assert_eq!(committee.size(), 4);
/// assert_eq!(committee.quorum(), 3);
/// assert_eq!(committee.member(2), Some(Member { key: keys[2], weight: 1 }));
/// # Ok::<(), narwhal_store::CommitteeError>(())
/// ```
#[derive(Clone)]
pub struct Committee(Arc<Inner>);

struct Inner {
    /// Locked only to make a second handle of the committee.
    handle: Lock<Handle>,
    members: Box<[Member]>,
    quorum: u32,
}

impl Committee {
    /// Makes a committee of these members, in this order, and prepares their keys.
    ///
    /// With prepared keys, checks of blocks, certificates and votes take less than half the time. They
    /// cost 24 KiB of memory for each member and 384 KiB once, and 20 to 40 ms for 100 members. Make a
    /// committee once, and clone it: all clones and threads share the prepared keys.
    ///
    /// # Errors
    ///
    /// [`CommitteeError::Invalid`] unless there are 1 to 100 members with distinct keys, each with
    /// a weight from 1 to 1,000,000.
    pub fn new(members: &[Member]) -> Result<Committee, CommitteeError> {
        let handle = ffi::committee_new(members)?;
        Ok(Committee(Arc::new(Inner::of(handle, members))))
    }

    /// Makes a committee of members of weight 1.
    ///
    /// # Errors
    ///
    /// Those of [`Committee::new`].
    pub fn equal(keys: &[PublicKey]) -> Result<Committee, CommitteeError> {
        let weighted = |&key| Member { key, weight: 1 };
        Committee::new(&keys.iter().map(weighted).collect::<Vec<_>>())
    }

    /// Returns the number of members.
    #[must_use]
    pub fn size(&self) -> usize {
        self.members().len()
    }

    /// Returns the weight of a quorum: two thirds of the sum of all weights, rounded down, plus 1.
    ///
    /// Of 3f + 1 members of weight 1, this is 2f + 1.
    #[must_use]
    pub fn quorum(&self) -> u32 {
        self.0.quorum
    }

    fn members(&self) -> &[Member] {
        &self.0.members
    }

    /// The most members that can be faulty: those of the least weights, which are together less than
    /// a third of the sum of all.
    pub(crate) fn most_faulty(&self) -> u64 {
        let members = self.members().iter();
        let mut weights: Vec<_> = members.map(|of| u64::from(of.weight)).collect();
        weights.sort_unstable();
        let mut left = (weights.iter().sum::<u64>() - 1) / 3;
        let take = |weight: &u64| left.checked_sub(*weight).map(|less| left = less);
        weights.iter().map_while(take).count() as u64
    }

    /// Returns the member with this number, or `None` if there is no such member.
    #[must_use]
    pub fn member(&self, author: u16) -> Option<Member> {
        self.members().get(usize::from(author)).copied()
    }

    /// A handle for calls that run without a lock.
    pub(crate) fn share(&self) -> Result<Handle, Code> {
        let mut handle = self.0.handle.lock();
        Handle::opened(|out| ffi::nw_committee_share(&mut handle, out))
    }
}

impl Inner {
    fn of(mut handle: Handle, members: &[Member]) -> Inner {
        Inner {
            members: members.into(),
            quorum: read(|out| ffi::nw_committee_quorum(&mut handle, out)),
            handle: Lock::of(handle),
        }
    }
}

equal_by!(Committee: members);
debug_by!(Committee: size, quorum);

/// Why a committee cannot be made.
#[derive(Clone, Copy, Debug, PartialEq, Eq, Hash)]
#[non_exhaustive]
pub enum CommitteeError {
    /// There are no members or more than 100, a weight is not from 1 to 1,000,000, or two members
    /// have the same key.
    Invalid,
    /// The library could not allocate memory.
    NoMemory,
}

coded_error!(CommitteeError {
    Invalid = BAD_COMMITTEE =>
        "a committee has 1 to 100 members with distinct keys, and weights from 1 to 1,000,000",
});

#[cfg(test)]
mod tests {
    use super::{Committee, Inner, Member};
    use crate::PublicKey;
    use crate::lock::tests::panic_under;
    use crate::no_memory::{closed, refuses};

    #[test]
    fn what_cannot_be_read_is_not_empty() {
        refuses(|| Inner::of(closed(), &[]));
    }

    #[test]
    fn the_lightest_members_can_be_faulty() {
        let most = |weights: &[u32]| {
            let member = |(byte, &weight)| Member {
                key: PublicKey([byte; 32]),
                weight,
            };
            let members: Vec<_> = (0..).zip(weights).map(member).collect();
            Committee::new(&members).unwrap().most_faulty()
        };
        let faulty = [1, 3, 4, 6, 7, 100].map(|size| most(&vec![1; size]));
        assert_eq!(faulty, [0, 0, 1, 1, 2, 33]);
        assert_eq!((most(&[10, 1, 1, 1]), most(&[5, 5, 1])), (3, 1));
    }

    #[test]
    fn a_panic_under_the_lock_stops_nobody() {
        let committee = Committee::equal(&[PublicKey([1; 32])]).unwrap();
        panic_under(|| committee.0.handle.lock());
        assert!(committee.share().is_ok());
    }
}

//! Looks at slots.

use crate::Digest;
use crate::raw::RawLook;

/// What a store has for a round and an author. [`Session::look`](crate::Session::look) returns it.
#[derive(Clone, Copy, Debug, PartialEq, Eq, Hash)]
#[non_exhaustive]
pub struct Look {
    /// The garbage round. The store keeps and accepts nothing of a round below it.
    pub garbage_round: u64,
    /// The newest round with a first or a certified digest, or the garbage round if none is newer.
    pub newest_round: u64,
    /// The digest of the block whose write answered `Stored { vote: true }`.
    pub first: Option<Digest>,
    /// How many parents this block misses: they are not stored, or not certified. 0 if there is no
    /// first block.
    pub missing: usize,
    /// The certified digest.
    pub certified: Option<Digest>,
    /// Whether the block of the certified digest is stored.
    pub stands: bool,
    /// Whether the certified digest is complete: its block is stored, and each of its ancestors
    /// above the garbage round has its parents stored and certified. A causal read of it gives a
    /// ticket.
    pub complete: bool,
}

impl Look {
    pub(crate) fn of(raw: &RawLook) -> Look {
        Look {
            garbage_round: raw.garbage_round,
            newest_round: raw.newest_round,
            missing: raw.missing,
            first: raw.has_first.then_some(raw.first),
            certified: raw.has_certified.then_some(raw.certified),
            stands: raw.stands,
            complete: raw.complete,
        }
    }

    /// Returns whether a parent with this digest is satisfied, for a block of the next round whose
    /// parent has this look's author: its block is stored and certified.
    ///
    /// Blocks of the garbage round need no parents.
    #[must_use]
    pub fn satisfies(&self, digest: &Digest) -> bool {
        self.stands && self.certified.as_ref() == Some(digest)
    }
}

#[cfg(test)]
mod tests {
    use super::Look;
    use crate::Digest;
    use crate::raw::RawLook;

    const ONE: Digest = Digest([1; 32]);
    const OTHER: Digest = Digest([2; 32]);

    /// The look of these bits.
    fn look(bits: u8) -> Look {
        let [has_first, has_certified, stands, complete] = [1, 2, 4, 8].map(|bit| bits & bit > 0);
        Look::of(&RawLook {
            garbage_round: 7,
            newest_round: 9,
            missing: 3,
            first: ONE,
            certified: OTHER,
            has_first,
            has_certified,
            stands,
            complete,
        })
    }

    #[test]
    fn a_look_has_each_field_of_the_library() {
        for bits in 0..16 {
            let look = look(bits);
            assert_eq!(
                (look.garbage_round, look.newest_round, look.missing),
                (7, 9, 3)
            );
            assert_eq!(look.first, (bits & 1 > 0).then_some(ONE));
            assert_eq!(look.certified, (bits & 2 > 0).then_some(OTHER));
            assert_eq!((look.stands, look.complete), (bits & 4 > 0, bits & 8 > 0));
        }
    }

    #[test]
    fn a_parent_is_satisfied_if_it_is_certified_and_stored() {
        for bits in 0..16 {
            assert_eq!(look(bits).satisfies(&OTHER), bits & 6 == 6, "{bits}");
            assert!(!look(bits).satisfies(&ONE), "{bits}");
        }
    }
}

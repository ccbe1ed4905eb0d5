//! Replies to calls.

use crate::error::error_texts;
use crate::ffi::Handle;
use crate::raw::unexpected_kind;
use crate::{Digest, Reply};

/// The reply to [`Session::write`](crate::Session::write).
///
/// The store tests the cases in the order of docs/MODEL.md. That is the order of the variants,
/// except that `Stored` comes last. Only `Stored` changes the store.
#[derive(Clone, Copy, Debug, PartialEq, Eq, Hash)]
pub enum WriteReply {
    /// The block is now stored. Log it.
    Stored {
        /// Whether the block is the first of its round and author.
        ///
        /// If `true`, sign a vote for it once all its parents are satisfied and the log is synced.
        /// The store never answers `true` for another block of the same round and author. If `false`,
        /// send no vote: the block is certified, and another block of its round and author came
        /// first.
        vote: bool,
    },
    /// The block's round is below the garbage round. Drop the block.
    Collected {
        /// The garbage round.
        garbage_round: u64,
    },
    /// The block's round is not below the garbage round plus the window. It is not stored. Drop the
    /// block, and fetch it and its certificate after the garbage round is raised.
    TooFar,
    /// The block was already stored. There is nothing to do.
    Held,
    /// Another block with the same digest is stored. SHA-256 is broken.
    Clash,
    /// The block's digest is certified for another round or author. A quorum signed something
    /// false.
    Misfit,
    /// The author made another block for the round, which came first. This is the digest of that
    /// block. The new block is not stored. Drop it, and fetch it if its certificate answers
    /// `Certified`: it is then stored without a vote.
    Equivocates(Digest),
    /// The number of stored blocks has reached its limit. The block is not stored. Drop it, and
    /// fetch it after the garbage round is raised.
    Full,
}

/// The reply to [`Session::certify`](crate::Session::certify).
///
/// The store tests the cases in the order of docs/MODEL.md. That is the order of the variants,
/// except that `Certified` comes last. Only `Certified` changes the store.
#[derive(Clone, Copy, Debug, PartialEq, Eq, Hash)]
pub enum CertifyReply {
    /// The certificate is now stored. Log it.
    Certified,
    /// The certificate's round is below the garbage round. Drop the certificate.
    Collected {
        /// The garbage round.
        garbage_round: u64,
    },
    /// The certificate's round is not below the garbage round plus the window. Drop the certificate,
    /// and fetch it after the garbage round is raised.
    TooFar,
    /// The digest was already certified. There is nothing to do.
    Already,
    /// The digest is certified for another round or author, or its block has another round or
    /// author. A quorum signed something false.
    Misfit,
    /// Another block of the round and author is certified, and this is its digest. More members are
    /// faulty than the committee tolerates.
    Conflict(Digest),
    /// The number of certificates has reached its limit. Drop the certificate, and fetch it after
    /// the garbage round is raised.
    Full,
}

/// The reply to [`Session::collect`](crate::Session::collect).
#[derive(Clone, Copy, Debug, PartialEq, Eq, Hash)]
pub enum CollectReply {
    /// The garbage round is raised. Log the collection.
    Raised {
        /// How many blocks were removed.
        dropped: u64,
    },
    /// The round is not above the garbage round. Nothing changed.
    NotHigher {
        /// The garbage round.
        garbage_round: u64,
    },
}

/// Why a causal read gets no ticket. It is the reply to [`Session::causal`](crate::Session::causal)
/// in that case.
#[derive(Clone, Copy, Debug, PartialEq, Eq, Hash)]
pub enum CausalFault {
    /// The block is not stored.
    Unknown,
    /// The block is stored and has no certificate.
    Uncertified,
    /// The block is certified, and an ancestor above the garbage round refers to a block that is
    /// not stored or not certified. [`Session::missing`](crate::Session::missing) lists such
    /// blocks.
    Incomplete,
}

error_texts!(CausalFault {
    CausalFault::Unknown => "the block is not stored",
    CausalFault::Uncertified => "the block is not certified",
    CausalFault::Incomplete => "an ancestor of the block is missing",
});

/// The counts of a store. They are the reply to [`Session::status`](crate::Session::status).
#[derive(Clone, Copy, Debug, PartialEq, Eq, Hash)]
#[repr(C)]
pub struct Status {
    /// The garbage round.
    pub garbage_round: u64,
    /// The number of blocks.
    pub blocks: u64,
    /// The number of certificates.
    pub certificates: u64,
    /// The number of complete blocks: those for which a causal read gets a ticket.
    pub complete: u64,
    /// The number of missing parents.
    pub wanted: u64,
}

/// Converts a [`Reply`] to the reply type of one call. The variants have the same names.
macro_rules! of_reply {
    ($name:ident { $($variant:ident $(($digest:ident))? $({ $number:ident })?),+ }) => {
        impl $name {
            /// The reply of an answer to that call.
            #[inline]
            pub(crate) fn read(answer: &mut Handle) -> $name {
                $name::of(Reply::read(answer))
            }

            #[inline]
            pub(crate) fn of(reply: Reply) -> $name {
                match reply {
                    $(Reply::$variant $(($digest))? $({ $number })? => {
                        $name::$variant $(($digest))? $({ $number })?
                    })+
                    other => unexpected_kind(other),
                }
            }
        }
    };
}

of_reply!(WriteReply {
    Stored { vote }, Collected { garbage_round }, TooFar, Held, Clash, Misfit, Equivocates(digest), Full
});
of_reply!(CertifyReply {
    Certified, Collected { garbage_round }, TooFar, Already, Misfit, Conflict(digest), Full
});
of_reply!(CollectReply { Raised { dropped }, NotHigher { garbage_round } });
of_reply!(CausalFault {
    Unknown,
    Uncertified,
    Incomplete
});

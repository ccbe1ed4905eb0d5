//! Subjects, and the texts that authors and voters sign.

use crate::ffi;
use crate::{BadRound, Digest, Signature};
use std::cmp::Ordering;
use std::fmt;

/// A block's digest, with the block's round and author.
///
/// Each vote is for a subject, and a certificate proves that a quorum voted for one. Subjects are
/// ordered by round, author and digest, and print in this order: `3.1.` and the digest.
///
/// ```
/// use narwhal_store::{Digest, Subject};
///
/// let of = |round, author| Subject { digest: Digest([7; 32]), round, author };
/// let mut subjects = [of(2, 0), of(1, 3), of(1, 2)];
/// subjects.sort();
/// assert_eq!(subjects, [of(1, 2), of(1, 3), of(2, 0)]);
/// assert_eq!(of(3, 1).to_string(), format!("3.1.{}", Digest([7; 32])));
/// ```
#[derive(Clone, Copy, Debug, PartialEq, Eq, Hash)]
#[repr(C)]
pub struct Subject {
    /// The digest of the block.
    pub digest: Digest,
    /// The round of the block, below 2^48.
    pub round: u64,
    /// The number of the member that made the block.
    pub author: u16,
}

impl Ord for Subject {
    fn cmp(&self, other: &Subject) -> Ordering {
        let key = |subject: &Subject| (subject.round, subject.author, subject.digest);
        key(self).cmp(&key(other))
    }
}

impl PartialOrd for Subject {
    fn partial_cmp(&self, other: &Subject) -> Option<Ordering> {
        Some(self.cmp(other))
    }
}

impl fmt::Display for Subject {
    fn fmt(&self, f: &mut fmt::Formatter<'_>) -> fmt::Result {
        write!(f, "{}.{}.{}", self.round, self.author, self.digest)
    }
}

/// Returns the 36 bytes that the author of a block signs: `NWBK` and the digest.
#[must_use]
pub fn text_of_block(digest: &Digest) -> [u8; 36] {
    let mut text = [0; 36];
    ffi::nw_text_of_block(digest, &mut text);
    text
}

/// Returns the 44 bytes that a voter for a subject signs: `NWVT`, the digest, the round and the
/// author.
///
/// Sign this text only when the store answered the block's write with `Stored { vote: true }`.
///
/// # Errors
///
/// [`BadRound`] if the round is 2^48 or more.
pub fn text_of_vote(subject: &Subject) -> Result<[u8; 44], BadRound> {
    let mut text = [0; 44];
    ffi::nw_text_of_vote(subject, &mut text).done()?;
    Ok(text)
}

/// Returns the message of a vote: the subject, the number of the member that signed it, and the
/// signature of [`text_of_vote`].
///
/// The message has 107 bytes. This does not verify the signature:
/// [`Gather::add`](crate::Gather::add) does.
///
/// # Errors
///
/// [`BadRound`] if the round is 2^48 or more.
pub fn vote_message(
    subject: &Subject,
    signer: u16,
    signature: &Signature,
) -> Result<Vec<u8>, BadRound> {
    Ok(ffi::vote_message(subject, signer, signature)?)
}

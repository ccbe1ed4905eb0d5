//! Blocks.

use crate::code::{Code, read};
use crate::debug::{debug_by, equal_by};
use crate::error::coded_error;
use crate::ffi::{self, Handle};
use crate::lock::Lock;
use crate::parts::Parts;
use crate::raw::RawParent;
use crate::{Digest, Limits, Signature, Subject, Transactions, text_of_block};
use std::sync::{Arc, OnceLock};

/// The most parents and transactions of a block.
const MOST_PARENTS: usize = 100;
const MOST_TRANSACTIONS: usize = 1_024;

/// A block: its author, its round, its references to blocks of the preceding round, and its
/// transactions.
///
/// A clone is a second owner of the same block, and costs one atomic increment. The first use of the
/// parents or the transactions copies them all, once. Two blocks are equal if they have one digest.
///
/// A block made by [`Block::new`] is within the limits of the format, but it is not checked under a
/// committee. [`Committee::check`](crate::Committee::check) does that for a signed block.
///
/// ```
/// use narwhal_store::{Block, Digest};
///
/// let parent = Digest::of(b"a body");
/// let block = Block::new(0, 1, &[(3, parent)], &["pay 5 to b", "pay 7 to c"])?;
/// assert_eq!((block.author(), block.round()), (0, 1));
/// assert_eq!(block.parents(), [(3, parent)]);
/// assert!(block.transactions().eq(["pay 5 to b".as_bytes(), b"pay 7 to c"]));
/// assert_eq!(block.digest(), Digest::of(&block.body()));
/// # Ok::<(), narwhal_store::BlockError>(())
/// ```
#[derive(Clone)]
pub struct Block(Arc<Inner>);

/// The state that all owners of a block share.
struct Inner {
    handle: Lock<Handle>,
    subject: Subject,
    parts: OnceLock<Box<Parts>>,
}

impl Block {
    /// Makes a block of this author and round.
    ///
    /// Each parent is the author and the digest of a block of the preceding round. The parents must
    /// be in ascending order of their authors.
    ///
    /// # Errors
    ///
    /// - [`BlockError::BadRound`] if the round is 2^48 or more.
    /// - [`BlockError::OverLimit`] if the authors of the parents are not strictly ascending, or if
    ///   the block exceeds a limit: 100 parents, 1,024 transactions, 65,536 bytes in a transaction,
    ///   and 1,048,576 bytes in the body.
    pub fn new(
        author: u16,
        round: u64,
        parents: &[(u16, Digest)],
        transactions: &[impl AsRef<[u8]>],
    ) -> Result<Block, BlockError> {
        if round >> 48 > 0 {
            return Err(BlockError::BadRound);
        }
        // What exceeds a limit is refused before it is copied. The library tests all limits again.
        if parents.len() > MOST_PARENTS || transactions.len() > MOST_TRANSACTIONS {
            return Err(BlockError::OverLimit);
        }
        let raw = |&(author, digest)| RawParent { author, digest };
        let parents: Vec<_> = parents.iter().map(raw).collect();
        let (mut bytes, mut lengths) = (Vec::new(), Vec::new());
        for transaction in transactions.iter().map(AsRef::as_ref) {
            if transaction.len() > Limits::MOST_BODY - bytes.len() {
                return Err(BlockError::OverLimit);
            }
            bytes.extend_from_slice(transaction);
            lengths.push(transaction.len() as u32);
        }
        let handle = ffi::block_new(author, round, &parents, &bytes, &lengths)?;
        Ok(Block::of(handle))
    }

    /// The block that the call opens. If memory runs out, this ends the process, as `Vec` does.
    pub(crate) fn opened(open: impl FnOnce(&mut Handle) -> Code) -> Block {
        Block::of(Handle::opened(open).unwrap_or_else(Code::abort))
    }

    /// The block of a handle of its own.
    fn of(mut handle: Handle) -> Block {
        let subject = read(|out| ffi::nw_block_subject(&mut handle, out));
        let (handle, parts) = (Lock::of(handle), OnceLock::new());
        Block(Arc::new(Inner {
            handle,
            subject,
            parts,
        }))
    }

    fn parts(&self) -> &Parts {
        let parts = || Box::new(Parts::of(&mut self.0.handle.lock()));
        self.0.parts.get_or_init(parts)
    }

    /// Returns the SHA-256 digest of the body.
    #[must_use]
    pub fn digest(&self) -> Digest {
        self.subject().digest
    }

    /// Returns the round, which is below 2^48.
    #[must_use]
    pub fn round(&self) -> u64 {
        self.subject().round
    }

    /// Returns the number of the member that made the block.
    #[must_use]
    pub fn author(&self) -> u16 {
        self.subject().author
    }

    /// Returns the digest with the round and the author.
    #[must_use]
    pub fn subject(&self) -> Subject {
        self.0.subject
    }

    /// Returns the author and the digest of each parent, in ascending order of the authors.
    #[must_use]
    pub fn parents(&self) -> &[(u16, Digest)] {
        &self.parts().parents
    }

    /// Returns the transactions, in order.
    #[must_use]
    pub fn transactions(&self) -> Transactions<'_> {
        self.parts().transactions()
    }

    /// Returns the encoded body, at most 1,048,576 bytes. Its SHA-256 is the digest of the block.
    #[must_use]
    pub fn body(&self) -> Vec<u8> {
        ffi::block_body(&mut self.0.handle.lock()).unwrap_or_else(Code::abort)
    }

    /// Returns the 36 bytes that the author signs.
    #[must_use]
    pub fn text_to_sign(&self) -> [u8; 36] {
        text_of_block(&self.digest())
    }

    /// Returns the block's message: the body and the author's signature of
    /// [`Block::text_to_sign`].
    ///
    /// This does not verify the signature.
    #[must_use]
    pub fn message(&self, signature: &Signature) -> Vec<u8> {
        let message = ffi::block_message(&mut self.0.handle.lock(), signature);
        message.unwrap_or_else(Code::abort)
    }
}

equal_by!(Block: digest);
debug_by!(Block: subject);

/// Why a block cannot be made.
#[derive(Clone, Copy, Debug, PartialEq, Eq, Hash)]
#[non_exhaustive]
pub enum BlockError {
    /// The round is 2^48 or more.
    BadRound,
    /// The block breaks a limit or the order of the format.
    OverLimit,
    /// The library could not allocate memory.
    NoMemory,
}

coded_error!(BlockError {
    BadRound = BAD_ROUND => "the round is not below 2^48",
    OverLimit = OVER_LIMIT => "the block breaks a limit or the order of the format",
});

#[cfg(test)]
mod tests {
    use super::Block;
    use crate::Signature;
    use crate::ffi::{Handle, nw_list_block};
    use crate::lock::tests::panic_under;
    use crate::no_memory::{closed, refuses};

    #[test]
    fn a_panic_under_a_lock_stops_nobody() {
        let [block, other] = [(); 2].map(|()| Block::new(0, 1, &[], &["x"]).unwrap());
        panic_under(|| block.0.handle.lock());
        assert_eq!((block.body(), block), (other.body(), other));
    }

    #[test]
    fn what_cannot_be_read_is_not_empty() {
        let block = || {
            let block = Block::new(0, 1, &[], &["x"]).unwrap();
            drop(block.0.handle.lock().take());
            block
        };
        refuses(|| block().body());
        refuses(|| block().parents().len());
        refuses(|| block().message(&Signature([0; 64])));
        refuses(|| Block::of(closed()));
        refuses(|| Block::opened(|out: &mut Handle| nw_list_block(&mut closed(), 0, out)));
    }
}

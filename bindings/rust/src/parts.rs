//! The parents and transactions of a block.

use crate::Digest;
use crate::code::{Code, read};
use crate::ffi::{self, Handle};
use std::fmt;
use std::iter::FusedIterator;
use std::slice;

/// The parents and the transactions of a block, copied from the library.
pub(crate) struct Parts {
    pub(crate) parents: Box<[(u16, Digest)]>,
    /// All transactions, one after another.
    bytes: Vec<u8>,
    lengths: Box<[u32]>,
}

impl Parts {
    /// Copies the parts of the block.
    pub(crate) fn of(block: &mut Handle) -> Parts {
        let (mut parents, mut transactions) = (0, 0);
        ffi::nw_block_counts(block, &mut parents, &mut transactions).or_abort();
        let parent = |index| {
            let raw = read(|out| ffi::nw_block_parent(block, index, out));
            (raw.author, raw.digest)
        };
        let parents = (0..parents).map(parent).collect();
        let mut lengths = vec![0; transactions].into_boxed_slice();
        let bytes = ffi::block_transactions(block, &mut lengths);
        Parts {
            parents,
            bytes: bytes.unwrap_or_else(Code::abort),
            lengths,
        }
    }

    pub(crate) fn transactions(&self) -> Transactions<'_> {
        Transactions {
            bytes: &self.bytes,
            lengths: self.lengths.iter(),
        }
    }
}

/// The transactions of a block, in order.
///
/// [`Block::transactions`](crate::Block::transactions) returns it.
#[derive(Clone)]
pub struct Transactions<'a> {
    bytes: &'a [u8],
    lengths: slice::Iter<'a, u32>,
}

impl<'a> Iterator for Transactions<'a> {
    type Item = &'a [u8];

    fn next(&mut self) -> Option<&'a [u8]> {
        let (transaction, rest) = self.bytes.split_at(*self.lengths.next()? as usize);
        self.bytes = rest;
        Some(transaction)
    }

    fn size_hint(&self) -> (usize, Option<usize>) {
        self.lengths.size_hint()
    }
}

impl ExactSizeIterator for Transactions<'_> {}

impl FusedIterator for Transactions<'_> {}

impl fmt::Debug for Transactions<'_> {
    fn fmt(&self, f: &mut fmt::Formatter<'_>) -> fmt::Result {
        f.debug_list().entries(self.clone()).finish()
    }
}

#[cfg(test)]
mod tests {
    use crate::{Block, BlockError, Digest, Signature};

    /// A block that is made of these parts has exactly these parts.
    fn has_its_parts(author: u16, round: u64, parents: u16, lengths: &[usize]) {
        let parent = |number: u16| (number, Digest::of(&number.to_be_bytes()));
        let parents: Vec<_> = (0..parents).map(parent).collect();
        let transaction = |(place, &length)| vec![place as u8; length];
        let transactions: Vec<_> = lengths.iter().enumerate().map(transaction).collect();
        let block = Block::new(author, round, &parents, &transactions).unwrap();
        assert_eq!((block.author(), block.round()), (author, round));
        assert_eq!(block.parents(), parents);
        assert_eq!(block.transactions().len(), lengths.len());
        assert!(block.transactions().eq(&transactions));
        let size = 13 + 34 * parents.len() + lengths.iter().map(|length| 4 + length).sum::<usize>();
        assert_eq!(block.body().len(), size);
        assert_eq!(block.digest(), Digest::of(&block.body()));
        let message = block.message(&Signature([7; 64]));
        assert_eq!(message, [&[1], &block.body()[..], &[7; 64]].concat());
        assert_eq!(block.clone().subject(), block.subject());
    }

    #[test]
    fn parts_are_those_of_the_block() {
        has_its_parts(0, 0, 0, &[]);
        has_its_parts(u16::MAX, (1 << 48) - 1, 1, &[0]);
        has_its_parts(3, 9, 100, &[0, 1, 65_536, 0, 5]);
        has_its_parts(1, 1, 2, &[1; 1024]);
        has_its_parts(1, 1, 0, &[65_536; 15]);
        // The message fills the buffer on the stack, or needs one byte more.
        for size in [4096, 4097] {
            has_its_parts(0, 0, 0, &[size - 65 - 13 - 4]);
        }
    }

    #[test]
    fn blocks_over_a_limit_are_refused() {
        let new = |round, parents: &[(u16, Digest)], transactions: &[Vec<u8>]| {
            Block::new(0, round, parents, transactions).unwrap_err()
        };
        let parent = |author| (author, Digest([0; 32]));
        assert_eq!(new(1 << 48, &[], &[]), BlockError::BadRound);
        assert_eq!(new(1, &[parent(1), parent(1)], &[]), BlockError::OverLimit);
        assert_eq!(new(1, &[], &[vec![0; 65_537]]), BlockError::OverLimit);
        assert_eq!(
            new(1, &[], &vec![vec![0; 65_536]; 16]),
            BlockError::OverLimit
        );
        assert_eq!(new(1, &[], &vec![vec![]; 1025]), BlockError::OverLimit);
        let parents: Vec<_> = (0..101).map(parent).collect();
        assert_eq!(new(1, &parents, &[]), BlockError::OverLimit);
        assert_eq!(new(1 << 48, &parents, &[]), BlockError::BadRound);
    }

    /// What exceeds a limit is not copied: there is no memory for 256 GiB.
    #[test]
    fn blocks_far_over_a_limit_are_refused() {
        let megabyte = vec![0; 1 << 20];
        for (count, text) in [(1 << 18, &megabyte[..]), (usize::MAX >> 10, &[])] {
            let refused = match text {
                [] => Block::new(0, 1, &[], &vec![[0; 0]; count]),
                text => Block::new(0, 1, &[], &vec![text; count]),
            };
            assert_eq!(refused, Err(BlockError::OverLimit));
        }
        let many = vec![&megabyte[..65_536]; 1_024];
        assert_eq!(Block::new(0, 1, &[], &many), Err(BlockError::OverLimit));
        // 15 transactions of 65,536 bytes, and one that fills the body up to its limit, or beyond.
        let fills = |spare: usize| {
            let last = (1 << 20) - 15 * 65_540 - 13 - 4 - spare;
            let mut texts = vec![&megabyte[..65_536]; 15];
            texts.push(&megabyte[..last]);
            Block::new(0, 1, &[], &texts).map(|block| block.body().len())
        };
        assert_eq!((fills(0), fills(1)), (Ok(1 << 20), Ok((1 << 20) - 1)));
    }
}

//! What the first bytes of a message say.

use crate::Subject;
use crate::ffi;
use crate::raw::{RawMessage, unexpected_kind};

/// What the first bytes of a message say, before any check. [`Peek::of`] reads it.
#[derive(Clone, Copy, Debug, PartialEq, Eq, Hash)]
pub enum Peek {
    /// A block. Its digest is the SHA-256 digest of its body, so it is not known without a hash.
    Block {
        /// The round of the block, below 2^48.
        round: u64,
        /// The number of the member that the block names as its author.
        author: u16,
    },
    /// A certificate for this subject.
    Certificate(Subject),
    /// A vote for this subject.
    Vote {
        /// The subject that the vote is for.
        subject: Subject,
        /// The number of the member that the vote names as its signer.
        signer: u16,
    },
}

impl Peek {
    /// Reads the kind of a message, and what it is about, from its first bytes.
    ///
    /// Use it to drop a message before you pay for its check: one that you already have, one below
    /// the garbage round, or one beyond a peer's budget. It reads at most 43 bytes, takes no lock,
    /// allocates nothing, and computes no hash.
    ///
    /// **Nothing is verified.** Anyone can write these bytes: the named author or signer may not
    /// have sent the message, and the rest of the bytes may not be a message. If
    /// [`Committee::check`] accepts the same bytes, the checked message has the fields that this
    /// returns. The proofs of the library cover this.
    ///
    /// Returns `None` exactly when the first byte is not that of a message, the version of a block is
    /// not 1, or the bytes end before these fields do. `check` refuses such bytes, under
    /// every committee.
    ///
    /// ```
    /// # mod data { include!(concat!(env!("CARGO_MANIFEST_DIR"), "/examples/data/mod.rs")); }
    /// # let (keys, bytes) = (data::keys(), data::values("message").remove(0));
    /// use narwhal_store::{Checked, Committee, Peek};
    ///
    /// let Some(Peek::Block { round, author }) = Peek::of(&bytes) else {
    ///     panic!("the first message is a block");
    /// };
    /// let Checked::Block(block) = Committee::equal(&keys)?.check(&bytes)? else {
    ///     panic!("the first message is a block");
    /// };
    /// assert_eq!((round, author), (block.subject().round, block.subject().author));
    ///
    /// // The first ten bytes of a block are enough, and fewer are not.
    /// assert_eq!(Peek::of(&bytes[..10]), Peek::of(&bytes));
    /// assert_eq!(Peek::of(&bytes[..9]), None);
    /// # Ok::<(), Box<dyn std::error::Error>>(())
    /// ```
    #[must_use]
    pub fn of(message: &[u8]) -> Option<Peek> {
        let raw = ffi::peek(message)?;
        Peek::read(&raw).or_else(|| unexpected_kind(raw.kind))
    }

    /// Decodes the kind of a message. The numbers are the kinds of messages in `nw.h`. Returns `None`
    /// for the kind of a fault.
    pub(crate) fn read(raw: &RawMessage) -> Option<Peek> {
        let (subject, signer) = (raw.subject, raw.signer);
        let Subject { round, author, .. } = subject;
        match raw.kind {
            101 => Some(Peek::Block { round, author }),
            102 => Some(Peek::Certificate(subject)),
            103 => Some(Peek::Vote { subject, signer }),
            _ => None,
        }
    }

    /// Returns the round of the block, or of the block that the certificate or vote is for.
    #[must_use]
    pub fn round(&self) -> u64 {
        match self {
            Peek::Block { round, .. } => *round,
            Peek::Certificate(subject) | Peek::Vote { subject, .. } => subject.round,
        }
    }

    /// Returns the author of the block, or of the block that the certificate or vote is for.
    #[must_use]
    pub fn author(&self) -> u16 {
        match self {
            Peek::Block { author, .. } => *author,
            Peek::Certificate(subject) | Peek::Vote { subject, .. } => subject.author,
        }
    }
}

#[cfg(test)]
mod tests {
    use crate::no_memory::data;
    use crate::{Block, Checked, Committee, Digest, Peek, Signature, Subject, vote_message};

    #[test]
    fn peeks_are_those_of_the_checked_messages() {
        let committee = Committee::equal(&data::keys()).unwrap();
        for message in data::values("message") {
            let peek = match committee.check(&message).unwrap() {
                Checked::Block(block) => Peek::Block {
                    round: block.subject().round,
                    author: block.subject().author,
                },
                Checked::Certificate(certificate) => Peek::Certificate(certificate.subject()),
                Checked::Vote(vote) => Peek::Vote {
                    subject: vote.subject(),
                    signer: vote.signer(),
                },
            };
            assert_eq!(Peek::of(&message), Some(peek));
        }
    }

    #[test]
    fn peeks_end_after_their_last_field() {
        let signature = Signature([7; 64]);
        let subject = Subject {
            digest: Digest([9; 32]),
            round: (1 << 48) - 2,
            author: 258,
        };
        let vote = vote_message(&subject, 7, &signature).unwrap();
        let block = Block::new(258, subject.round, &[], &[b"x"]).unwrap();
        let (round, author) = (subject.round, subject.author);
        let peeks = [
            (block.message(&signature), 10, Peek::Block { round, author }),
            ([&[2], &vote[1..]].concat(), 41, Peek::Certificate(subject)),
            (vote, 43, Peek::Vote { subject, signer: 7 }),
        ];
        for (message, size, peek) in peeks {
            assert_eq!((peek.round(), peek.author()), (round, author));
            for len in 0..=message.len() {
                let wanted = (len >= size).then_some(peek);
                assert_eq!(Peek::of(&message[..len]), wanted);
            }
        }
        assert_eq!(Peek::of(&[4; 43]), None);
        assert_eq!(Peek::of(&[1, 2, 0, 0, 0, 0, 0, 0, 0, 0]), None);
    }
}

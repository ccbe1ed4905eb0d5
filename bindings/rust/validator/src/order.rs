//! The checkpoints of the delivered order, which members compare.

use narwhal_store::{Digest, Subject};

const CHECKPOINT: u8 = b'C';

/// What a member knows after a leader, and its record. Honest members have the same for a leader.
#[derive(Clone, Copy, Debug, PartialEq, Eq, PartialOrd, Ord)]
pub struct Checkpoint {
    /// The leader.
    pub leader: Subject,
    /// The garbage round after it.
    pub garbage_round: u64,
    /// How many blocks are delivered.
    pub delivered: u64,
    /// The hash of their order: that of the order before the last block, and its digest.
    pub order: Digest,
}

impl Checkpoint {
    /// The bytes of a record.
    pub(crate) const BYTES: usize = 91;

    /// The checkpoint before the first leader.
    pub const START: Checkpoint = Checkpoint {
        leader: Subject { digest: Digest([0; 32]), round: 0, author: 0 },
        garbage_round: 0,
        delivered: 0,
        order: Digest([0; 32]),
    };

    /// The record for the log.
    #[must_use]
    pub fn record(&self) -> Vec<u8> {
        let numbers = [self.garbage_round, self.delivered].map(u64::to_be_bytes);
        let leader = bytes_of(&self.leader);
        [&[CHECKPOINT], &leader[..], &numbers.concat(), &self.order.0].concat()
    }

    /// The checkpoint of a record, if it is one.
    #[must_use]
    pub fn read(record: &[u8]) -> Option<Checkpoint> {
        let (leader, rest) = subject_at(record.strip_prefix(&[CHECKPOINT])?)?;
        let (garbage_round, rest) = rest.split_first_chunk()?;
        let (delivered, rest) = rest.split_first_chunk()?;
        Some(Checkpoint {
            leader,
            garbage_round: u64::from_be_bytes(*garbage_round),
            delivered: u64::from_be_bytes(*delivered),
            order: Digest(rest.try_into().ok()?),
        })
    }
}

/// The 42 bytes of a subject.
pub(crate) fn bytes_of(of: &Subject) -> Vec<u8> {
    let (round, author) = (of.round.to_be_bytes(), of.author.to_be_bytes());
    [&of.digest.0[..], &round, &author].concat()
}

/// The subject at the start of the bytes, and the others.
pub(crate) fn subject_at(bytes: &[u8]) -> Option<(Subject, &[u8])> {
    let (digest, rest) = bytes.split_first_chunk()?;
    let (round, rest) = rest.split_first_chunk()?;
    let (author, rest) = rest.split_first_chunk()?;
    let (round, author) = (u64::from_be_bytes(*round), u16::from_be_bytes(*author));
    Some((Subject { digest: Digest(*digest), round, author }, rest))
}

//! The log of a validator, which survives its crashes.
//!
//! It is in memory and stands for a synced file: `../durable.rs` has a log on disk.

use narwhal_store::{Digest, Peek};

/// The calls that changed the store: a collection to `garbage_round`, and then the messages.
#[derive(Default)]
pub struct Log {
    pub garbage_round: u64,
    pub messages: Vec<Vec<u8>>,
}

impl Log {
    /// Appends a message that answered `Stored` or `Certified`.
    pub fn append(&mut self, message: &[u8]) {
        self.messages.push(message.to_vec());
    }

    /// Appends a collection that answered `Raised`, and removes the messages of lower rounds.
    pub fn collect(&mut self, garbage_round: u64) {
        self.garbage_round = garbage_round;
        let is_kept = |message: &Vec<u8>| round_of(message) >= Some(garbage_round);
        self.messages.retain(is_kept);
    }

    /// The block of the digest and its certificate, if they are logged.
    pub fn find(&self, digest: &Digest) -> impl Iterator<Item = &Vec<u8>> {
        self.messages
            .iter()
            .filter(move |message| match Peek::of(message) {
                Some(Peek::Certificate(subject)) => subject.digest == *digest,
                _ => digest_of(message) == Some(*digest),
            })
    }
}

fn round_of(message: &[u8]) -> Option<u64> {
    Peek::of(message).map(|peek| peek.round())
}

/// The digest of a block's message: that of its body, which is between the tag and the signature.
pub fn digest_of(message: &[u8]) -> Option<Digest> {
    let end = message.len().checked_sub(64)?;
    message.get(1..end).map(Digest::of)
}

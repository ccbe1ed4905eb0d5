// The messages of corpus.txt. `make.py` signed them beforehand, since the crate makes no signatures.

use narwhal_store::{Checked, Committee, Digest, Limits, PublicKey, Session, Store};
use std::error::Error;

/// The public keys of the four members.
pub fn keys() -> Vec<PublicKey> {
    let key = |key: Vec<u8>| PublicKey(key.try_into().expect("a key has 32 bytes"));
    values("key").into_iter().map(key).collect()
}

/// The values of one kind, in order.
pub fn values(kind: &str) -> Vec<Vec<u8>> {
    let lines = include_str!("corpus.txt").lines();
    let words = lines.filter_map(|line| line.split_once(' '));
    words
        .filter(|(word, _)| *word == kind)
        .map(|(_, hex)| bytes(hex))
        .collect()
}

/// A session of a store that has all messages, and the digests that they certify, in order.
#[allow(dead_code)] // Only doc examples call it.
pub fn filled() -> Result<(Session, Vec<Digest>), Box<dyn Error>> {
    let committee = Committee::equal(&keys())?;
    let mut session = Store::new(&committee, Limits::default())?.session()?;
    let mut certified = Vec::new();
    for message in values("message") {
        match committee.check(&message)? {
            Checked::Block(block) => drop(session.write(&block)?),
            Checked::Certificate(certificate) => {
                drop(session.certify(&certificate)?);
                certified.push(certificate.subject().digest);
            }
            Checked::Vote(_) => {}
        }
    }
    Ok((session, certified))
}

fn bytes(hex: &str) -> Vec<u8> {
    let byte = |at| u8::from_str_radix(&hex[at..at + 2], 16).expect("the corpus is hex");
    (0..hex.len()).step_by(2).map(byte).collect()
}

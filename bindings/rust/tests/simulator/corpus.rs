//! The corpus of signed messages.

#[path = "../corpus/records.rs"]
mod file;

use crate::model::{Block, Call, Certificate, Digest, Slot};
pub use file::committee;
use file::records;
use narwhal_store::{Checked, Committee};
use std::collections::BTreeMap;
use std::sync::Arc;

/// A checked message, with the call that hands it to a store.
pub struct Delivery {
    pub checked: Checked,
    pub call: Call,
    pub digest: Digest,
    pub slot: Slot,
    /// Whether only a faulty quorum signs it.
    pub faulty: bool,
}

/// A text that no check accepts, with the code of its fault in nw.h.
pub struct Refused {
    pub text: Vec<u8>,
    pub fault: u8,
    pub signer: u16,
}

/// The messages of one committee.
pub struct Case {
    pub committee: Committee,
    /// The record with the committee's keys.
    pub keys: Vec<u8>,
    pub deliveries: Vec<Delivery>,
    /// The deliveries of each digest.
    pub of_digest: BTreeMap<Digest, Vec<usize>>,
    pub refused: Vec<Refused>,
}

/// Reads the corpus and checks its messages.
pub fn corpus() -> Vec<Case> {
    let records: Vec<_> = records(include_bytes!("../corpus/corpus.bin")).collect();
    let cases = records.chunk_by(|_, (kind, _)| *kind != b'M');
    cases.map(Case::new).collect()
}

impl Case {
    fn new(records: &[(u8, &[u8])]) -> Case {
        let (_, keys) = records[0];
        let committee = committee(keys);
        let (mut texts, mut calls, mut refused) = (Vec::new(), Vec::new(), Vec::new());
        for &(kind, record) in &records[1..] {
            match kind {
                b'B' => {
                    let (digest, message) = record.split_at(32);
                    texts.push(message);
                    calls.push((
                        kind,
                        Call::Write(Arc::new(block_of(array(digest), message))),
                    ));
                }
                b'C' | b'Q' => {
                    texts.push(record);
                    calls.push((kind, Call::Certify(Arc::new(certificate_of(record)))));
                }
                _ => refused.push(refused_of(record)),
            }
        }
        let checked = committee.check_all(&texts, 2).into_iter();
        let checked = checked.map(|checked| checked.expect("a message that the script signed"));
        let deliveries: Vec<_> = checked.zip(calls).map(Delivery::new).collect();
        let mut of_digest: BTreeMap<_, Vec<_>> = BTreeMap::new();
        for (index, delivery) in deliveries.iter().enumerate() {
            of_digest.entry(delivery.digest).or_default().push(index);
        }
        Case {
            committee,
            keys: keys.to_vec(),
            deliveries,
            of_digest,
            refused,
        }
    }
}

impl Delivery {
    /// The crate and this module must decode the message alike.
    fn new((checked, (kind, call)): (Checked, (u8, Call))) -> Delivery {
        let (told, digest, slot) = match (&checked, &call) {
            (Checked::Block(checked), Call::Write(block)) => {
                (checked.subject(), block.digest, block.slot)
            }
            (Checked::Certificate(checked), Call::Certify(certificate)) => {
                (checked.subject(), certificate.digest, certificate.slot)
            }
            _ => panic!("a message of another kind than its record says"),
        };
        assert_eq!(
            (told.digest.0, (told.round, told.author)),
            (digest, slot),
            "the slot of a message"
        );
        Delivery {
            checked,
            call,
            digest,
            slot,
            faulty: kind == b'Q',
        }
    }
}

fn array<const N: usize>(bytes: &[u8]) -> [u8; N] {
    bytes.try_into().expect("so many bytes")
}

fn number(bytes: &[u8]) -> u64 {
    bytes
        .iter()
        .fold(0, |sum, byte| sum << 8 | u64::from(*byte))
}

/// Decodes a block's message, by docs/FORMATS.md.
fn block_of(digest: Digest, message: &[u8]) -> Block {
    let body = &message[1..message.len() - 64];
    let parents = body[11..]
        .chunks_exact(34)
        .take(number(&body[9..11]) as usize);
    Block {
        digest,
        slot: (number(&body[3..9]), number(&body[1..3]) as u16),
        parents: parents
            .map(|parent| (number(&parent[..2]) as u16, array(&parent[2..])))
            .collect(),
        body: body.to_vec(),
    }
}

/// Decodes a record of a refused text.
fn refused_of(record: &[u8]) -> Refused {
    Refused {
        fault: record[0],
        signer: number(&record[1..3]) as u16,
        text: record[3..].to_vec(),
    }
}

/// Decodes a certificate's message, by docs/FORMATS.md.
pub fn certificate_of(message: &[u8]) -> Certificate {
    Certificate {
        digest: array(&message[1..33]),
        slot: (number(&message[33..39]), number(&message[39..41]) as u16),
        message: message.to_vec(),
    }
}

/// The messages of the votes in a certificate.
pub fn votes_of(certificate: &Certificate) -> Vec<Vec<u8>> {
    let (head, seals) = certificate.message.split_at(43);
    seals
        .chunks_exact(66)
        .map(|seal| [&[3], &head[1..41], seal].concat())
        .collect()
}

//! Floods of messages: repeated, refused and large ones. The history of a store stays small under each.

use crate::lab::Com;
use narwhal_store::{Checked, CheckedBlock, CheckedCertificate, Digest, Limits, Store};
use narwhal_store::{Session, Subject, WriteReply};
use std::fs;

/// A store of four members with the defaults, and one session.
struct Flooded {
    com: Com,
    store: Store,
    session: Session,
}

impl Flooded {
    fn new() -> Flooded {
        let com = Com::new(4);
        let store = Store::new(&com.committee, Limits::default()).unwrap();
        let session = store.session().unwrap();
        Flooded {
            com,
            store,
            session,
        }
    }

    fn block(&self, message: &[u8]) -> CheckedBlock {
        match self.com.committee.check(message) {
            Ok(Checked::Block(block)) => block,
            other => panic!("no block, but {other:?}"),
        }
    }

    fn certificate(&self, subject: &Subject, signers: &[u16]) -> CheckedCertificate {
        let message = self.com.certificate(subject, signers);
        match self.com.committee.check(&message) {
            Ok(Checked::Certificate(certificate)) => certificate,
            other => panic!("no certificate, but {other:?}"),
        }
    }

    /// A block of the round with made-up parents.
    fn far(&self, round: u64, transactions: &[Vec<u8>]) -> Vec<u8> {
        let parents = [0, 1, 2].map(|author| (author, Digest([author as u8; 32])));
        self.com.block(0, round, &parents, transactions).0
    }

    fn write(&mut self, block: &CheckedBlock) -> WriteReply {
        let reply = self.session.write(block).unwrap().into_reply();
        assert!(self.store.history_bytes() <= Store::HISTORY_BYTES);
        reply
    }
}

/// The bytes of this process in memory.
fn resident() -> u64 {
    let status = fs::read_to_string("/proc/self/status").expect("Linux");
    let line = status.lines().find_map(|line| line.strip_prefix("VmRSS:"));
    let words = line.and_then(|line| line.split_whitespace().next());
    1024 * words.and_then(|word| word.parse::<u64>().ok()).expect("kB")
}

/// Refused bodies: 300 MB of blocks above the window, each a message of its own.
#[test]
fn refused_blocks_of_100_kb_stay_within_the_bound() {
    let mut flooded = Flooded::new();
    let before = resident();
    for round in 0..3_000 {
        let message = flooded.far(1_000 + round, &[vec![7; 50_000], vec![8; 50_000]]);
        let block = flooded.block(&message);
        assert_eq!(flooded.write(&block), WriteReply::TooFar);
    }
    // The history has their digests, rounds and authors.
    assert_eq!(flooded.store.history_bytes(), 3_000 * 150);
    // The other tests of this file hold at most a history.
    assert!(resident().saturating_sub(before) < 2 * Store::HISTORY_BYTES);
}

/// One valid block of 102 bytes, replayed without end. It is stored, or below the garbage round, or above the window.
#[test]
fn a_block_replayed_100_000_times_fills_nothing() {
    let mut flooded = Flooded::new();
    let (message, _) = flooded.com.block(3, 0, &[], &[vec![7; 20]]);
    let block = flooded.block(&message);
    assert_eq!(message.len(), 102);
    assert_eq!(flooded.write(&block), WriteReply::Stored { vote: true });
    let far = flooded.block(&flooded.far(480, &[]));
    for _ in 0..50_000 {
        assert_eq!(flooded.write(&block), WriteReply::Held);
    }
    for _ in 0..50_000 {
        assert_eq!(flooded.write(&far), WriteReply::TooFar);
    }
    drop(flooded.session.collect(1).unwrap());
    for _ in 0..50_000 {
        let collected = WriteReply::Collected { garbage_round: 1 };
        assert_eq!(flooded.write(&block), collected);
    }
}

/// Twins without end: one author signs block after block for one slot. No twin is stored, and none is kept.
#[test]
fn twins_of_one_slot_stay_within_the_bound() {
    let mut flooded = Flooded::new();
    let first = flooded.block(&flooded.com.block(2, 0, &[], &[]).0);
    let voted = first.subject().digest;
    assert_eq!(flooded.write(&first), WriteReply::Stored { vote: true });
    for twin in 0..1_500_u32 {
        let transactions = [vec![0; 60_000], twin.to_be_bytes().to_vec()];
        let twin = flooded.block(&flooded.com.block(2, 0, &[], &transactions).0);
        assert_eq!(flooded.write(&twin), WriteReply::Equivocates(voted));
    }
    // The first block's event has its message.
    assert!(flooded.store.history_bytes() < 1_500 * 150 + 500);
    assert_eq!(flooded.session.status().unwrap().reply().blocks, 1);
}

/// A certificate repeated without end, also with other votes.
#[test]
fn a_certificate_replayed_100_000_times_fills_nothing() {
    let mut flooded = Flooded::new();
    let (_, subject) = flooded.com.block(1, 0, &[], &[]);
    let copies = [[0, 1, 2], [1, 2, 3]].map(|signers| flooded.certificate(&subject, &signers));
    for copy in 0..100_000 {
        drop(flooded.session.certify(&copies[copy % 2]).unwrap());
    }
    // The first certificate's event has its message. The history restarted after 65,536 events.
    assert_eq!(flooded.store.history_bytes(), (100_000 - 65_536) * 150);
    assert_eq!(flooded.session.status().unwrap().reply().certificates, 1);
}

/// Long lists of missing parents: each takes up to 3.1 MB of the history, and the store restarts in time.
#[test]
fn long_lists_of_missing_parents_stay_within_the_bound() {
    let mut flooded = Flooded::new();
    for round in 1..470 {
        flooded.write(&flooded.block(&flooded.far(round, &[])));
    }
    for _ in 0..1_000 {
        let listed = flooded.session.missing(u16::MAX).unwrap().into_reply();
        assert_eq!(listed.len(), 3 * 469);
        assert!(flooded.store.history_bytes() <= Store::HISTORY_BYTES);
    }
}

//! Damaged logs: what a crash can leave is cut, what one copy lost is taken from the other one, and anything else is told.

use crate::lab::Com;
use narwhal_store::{Digest, Subject};
use narwhal_validator::{Log, Opened, Request};
use std::fs::{self, File};
use std::os::unix::fs::FileExt;
use std::path::{Path, PathBuf};

/// A log in a folder of its own, with its bytes and the offset of each entry.
struct Damaged {
    folder: PathBuf,
    bytes: Vec<u8>,
    offsets: Vec<usize>,
}

const RECORDS: [&[u8]; 4] = [b"the first", &[0; 60], &[255; 8], b"the last record"];

impl Damaged {
    fn new(name: &str) -> Damaged {
        let folder = format!("narwhal-log-{name}-{}", std::process::id());
        let shared = PathBuf::from("/dev/shm"); // In memory, so that a sync takes no time.
        let room = Some(shared).filter(|shared| shared.is_dir());
        let folder = room.unwrap_or_else(std::env::temp_dir).join(folder);
        fs::create_dir(&folder).expect("a folder");
        let mut damaged = Damaged {
            folder,
            bytes: Vec::new(),
            offsets: Vec::new(),
        };
        let mut opened = Log::open(damaged.paths().each_ref().map(PathBuf::as_path));
        let log = &mut opened.as_mut().expect("a new log").log;
        for record in RECORDS {
            damaged.offsets.push(damaged.copies()[0].len());
            log.append(record);
            log.sync().expect("a disk");
        }
        let [one, other] = damaged.copies();
        assert_eq!(one, other);
        damaged.bytes = one;
        damaged
    }

    fn paths(&self) -> [PathBuf; 2] {
        ["log", "copy"].map(|name| self.folder.join(name))
    }

    fn copies(&self) -> [Vec<u8>; 2] {
        self.paths().map(|path| fs::read(path).expect("a copy"))
    }

    /// Opens a log of these copies. A copy without bytes is a lost file.
    fn open(&self, copies: [&[u8]; 2]) -> Result<Opened, String> {
        let paths = self.paths();
        for (path, copy) in paths.iter().zip(copies) {
            match copy {
                [] => fs::remove_file(path).expect("a disk"),
                _ => put(path, copy).expect("a disk"),
            }
        }
        // The syncs would take minutes.
        let opened = Log::open_without_sync(paths.each_ref().map(PathBuf::as_path));
        opened.map_err(|error| error.to_string())
    }

    /// The bytes with one bit changed.
    fn flipped(&self, bit: usize) -> Vec<u8> {
        let mut bytes = self.bytes.clone();
        bytes[bit / 8] ^= 1 << (bit % 8);
        bytes
    }

    fn bits(&self) -> usize {
        self.bytes.len() * 8
    }

    /// A log of these copies loses its last record only, and takes another one.
    fn loses_the_last(&self, copies: [&[u8]; 2]) {
        let mut opened = self.open(copies).expect("a log");
        assert_eq!(opened.records, RECORDS[..3]);
        assert_eq!(opened.cut, copies.map(|copy| copy.len() - self.offsets[3]));
        opened.log.append(b"another");
        opened.log.sync().expect("a disk");
        let [one, other] = self.copies();
        let again = self.open([&one, &other]).expect("a log");
        assert_eq!(again.records[3], b"another");
        assert_eq!((again.records.len(), again.cut), (4, [0; 2]));
    }

    /// A log of these copies has all records, and afterwards both copies have them.
    fn loses_nothing(&self, copies: [&[u8]; 2]) {
        let opened = self.open(copies).expect("a log");
        assert_eq!(opened.records, RECORDS);
        assert_eq!(self.copies(), [self.bytes.clone(), self.bytes.clone()]);
    }

    /// The same with the copies in both orders.
    fn loses_nothing_with(&self, copy: &[u8]) {
        self.loses_nothing([copy, &self.bytes]);
        self.loses_nothing([&self.bytes, copy]);
    }
}

impl Drop for Damaged {
    fn drop(&mut self) {
        fs::remove_dir_all(&self.folder).expect("a folder");
    }
}

/// Writes a file without cutting it to nothing first: then some file systems wait for the disk.
fn put(path: &Path, bytes: &[u8]) -> std::io::Result<()> {
    let mut options = File::options();
    let file = options
        .write(true)
        .create(true)
        .truncate(false)
        .open(path)?;
    file.write_all_at(bytes, 0)?;
    file.set_len(bytes.len() as u64)
}

/// A tail cut in both copies, anywhere in the last entry of each.
#[test]
fn a_cut_tail_is_cut() {
    let damaged = Damaged::new("cut");
    let (last, end) = (damaged.offsets[3], damaged.bytes.len());
    for one in last..end {
        let other = last + (one * 7) % (end - last);
        damaged.loses_the_last([&damaged.bytes[..one], &damaged.bytes[..other]]);
    }
}

#[test]
fn a_tail_of_zeros_is_cut() {
    let damaged = Damaged::new("zeros");
    for from in damaged.offsets[3]..damaged.bytes.len() {
        let mut bytes = damaged.bytes.clone();
        bytes[from..].fill(0);
        damaged.loses_the_last([&bytes, &bytes]);
    }
    let mut longer = damaged.bytes.clone();
    longer.resize(longer.len() + 4_096, 0);
    let opened = damaged.open([&longer, &damaged.bytes]).expect("a log");
    assert_eq!((opened.records.len(), opened.cut), (4, [4_096, 0]));
}

/// By the fault model, one copy of a synced entry is good. So an entry that is bad in both was not synced.
#[test]
fn a_last_entry_that_is_bad_in_both_copies_is_cut() {
    let damaged = Damaged::new("last");
    for bit in damaged.offsets[3] * 8..damaged.bits() {
        let other = damaged.flipped(damaged.bits() + damaged.offsets[3] * 8 - 1 - bit);
        damaged.loses_the_last([&damaged.flipped(bit), &other]);
    }
}

/// Also in the last entry, which was perhaps synced.
#[test]
fn a_flipped_bit_in_one_copy_is_repaired() {
    let damaged = Damaged::new("repaired");
    for bit in 0..damaged.bits() {
        damaged.loses_nothing_with(&damaged.flipped(bit));
    }
}

/// A copy that was lost, is an older one, or has other bytes.
#[test]
fn one_lost_or_old_copy_is_repaired() {
    let damaged = Damaged::new("old");
    for end in 0..damaged.bytes.len() {
        damaged.loses_nothing_with(&damaged.bytes[..end]);
    }
    damaged.loses_nothing_with(&vec![0; damaged.bytes.len()]);
    damaged.loses_nothing_with(&vec![7; damaged.bytes.len() + 9]);
}

/// Both copies, each in other entries.
#[test]
fn entries_that_are_good_in_one_copy_each_are_repaired() {
    let damaged = Damaged::new("each");
    let [first, second, third, last] = damaged.offsets[..] else {
        panic!("four entries");
    };
    let damage = |entries: [usize; 2]| {
        let mut bytes = damaged.bytes.clone();
        entries.iter().for_each(|offset| bytes[offset + 21] ^= 8);
        bytes
    };
    damaged.loses_nothing([&damage([first, third]), &damage([second, last])]);
}

/// An entry that others follow was synced. It is never lost without a word.
#[test]
fn an_entry_that_is_bad_in_both_copies_is_told_with_its_offset() {
    let damaged = Damaged::new("told");
    for bit in 0..damaged.offsets[3] * 8 {
        let entry = damaged.offsets.iter().rev().find(|at| **at * 8 <= bit);
        let bytes = damaged.flipped(bit);
        let told = damaged.open([&bytes, &bytes]).err();
        let offset = entry.copied().unwrap_or(0);
        let expected = format!("the log is damaged at offset {offset}");
        assert_eq!(told, Some(expected), "bit {bit}");
    }
}

/// Copies that cannot come from one log. Without the wrong one, the other is enough.
#[test]
fn copies_of_two_logs_are_told() {
    let (damaged, other) = (Damaged::new("one"), Damaged::new("other"));
    let told = damaged.open([&damaged.bytes, &other.bytes]).err();
    assert_eq!(told.as_deref(), Some("the copies are of two logs"));
    // A copy with a record that the log lost, and another one in its place.
    let cut = &damaged.bytes[..damaged.offsets[3]];
    let mut opened = damaged.open([cut, cut]).expect("a log");
    opened.log.append(b"another record");
    opened.log.sync().expect("a disk");
    let [new, _] = damaged.copies();
    let told = damaged.open([&new, &damaged.bytes]).err();
    let expected = format!(
        "the copies of the log differ at offset {}",
        damaged.offsets[3]
    );
    assert_eq!(told, Some(expected));
    damaged.loses_nothing([&[], &damaged.bytes]);
}

/// A log that was never synced begins anew.
#[test]
fn a_log_without_its_head_is_new() {
    let damaged = Damaged::new("head");
    for end in 0..24 {
        let copies = [&damaged.bytes[..end], &damaged.bytes[..end / 2]];
        let opened = damaged.open(copies).expect("a log");
        assert!(opened.records.is_empty());
        assert_eq!((opened.cut, opened.repaired), ([0; 2], [0; 2]));
    }
    let opened = damaged.open([&[0; 24], &[]]).expect("a log");
    assert!(opened.records.is_empty());
}

/// Several records under one sync: a crash leaves all of them or none.
#[test]
fn records_of_one_entry_are_kept_or_lost_together() {
    let damaged = Damaged::new("batch");
    let paths = damaged.paths();
    let mut log = Log::open(paths.each_ref().map(PathBuf::as_path) as [&Path; 2])
        .expect("a log")
        .log;
    log.append(b"one");
    log.append(b"");
    log.append(b"three");
    assert_eq!(damaged.copies(), [0, 1].map(|_| damaged.bytes.clone()));
    log.sync().expect("a disk");
    let [bytes, _] = damaged.copies();
    for end in damaged.bytes.len()..bytes.len() {
        let opened = damaged.open([&bytes[..end], &bytes[..end]]).expect("a log");
        assert_eq!(opened.records, RECORDS);
    }
    let opened = damaged.open([&bytes, &damaged.bytes]).expect("a log");
    let expected = [&RECORDS[..], &[b"one", b"", b"three"]].concat();
    assert_eq!(opened.records, expected);
}

/// A crash in a cut leaves a copy of each log, one of which a disk can change.
#[test]
fn a_cut_leaves_the_longer_or_the_shorter_log() {
    let damaged = Damaged::new("shorter");
    let long = &damaged.bytes;
    let mut log = damaged.open([long, long]).expect("a log").log;
    log.cut(b"first", |record| record != RECORDS[1])
        .expect("a disk");
    let expected = [b"first".as_slice(), RECORDS[0], RECORDS[2], RECORDS[3]];
    let [short, other] = &damaged.copies();
    assert_eq!(short, other);
    let leaves = |copies: [&[u8]; 2], bytes: &Vec<u8>, records: &[&[u8]]| {
        for copies in [copies, [copies[1], copies[0]]] {
            assert_eq!(damaged.open(copies).expect("a log").records, records);
            assert_eq!(damaged.copies(), [bytes.clone(), bytes.clone()]);
        }
    };
    let flipped = |bytes: &[u8], bit: usize| {
        let mut bytes = bytes.to_vec();
        bytes[bit / 8] ^= 1 << (bit % 8);
        bytes
    };
    leaves([long, short], short, &expected);
    for bit in 0..long.len() * 8 {
        leaves([&flipped(long, bit), short], short, &expected);
    }
    for bit in 0..short.len() * 8 {
        leaves([long, &flipped(short, bit)], long, &RECORDS);
        leaves([short, &flipped(short, bit)], short, &expected);
    }
    let mut log = damaged.open([short, short]).expect("a log").log;
    log.append(b"another");
    log.sync().expect("a disk");
    log.cut(b"last", |_| false).expect("a disk");
    let [shortest, _] = &damaged.copies();
    leaves([shortest, shortest], shortest, &[b"last"]);
    let told = damaged.open([long, shortest]).err();
    assert_eq!(told.as_deref(), Some("the copies are of two logs"));
}

/// A fetch is answered from the log, with the author's signature.
#[test]
fn messages_are_found_by_the_digest_of_their_block() {
    let damaged = Damaged::new("found");
    let com = Com::new(4);
    let (first, of_first) = com.block(1, 0, &[], &[vec![7; 30]]);
    let (second, of_second) = com.block(2, 5, &[0, 1, 2].map(|it| (it, Digest([9; 32]))), &[]);
    let certificate = com.certificate(&of_first, &[0, 1, 2]);
    let vote = com.vote(&of_second, 3);
    let copies = damaged.copies();
    let mut log = damaged.open([&copies[0], &copies[1]]).expect("a log").log;
    for records in [&[&first[..], &vote][..], &[&certificate], &[&[], &second]] {
        records.iter().for_each(|record| log.append(*record));
        log.sync().expect("a disk");
    }
    let finds = |log: &Log, of: &Subject, messages: &[&Vec<u8>]| {
        let found = log.answer(&Request::Of(*of)).expect("a disk");
        assert_eq!(found.iter().collect::<Vec<_>>(), messages);
    };
    let reopened = || {
        let [one, other] = damaged.copies();
        damaged.open([&one, &other]).expect("a log").log
    };
    for log in [&log, &reopened()] {
        finds(log, &of_first, &[&first, &certificate]);
        finds(log, &of_second, &[&second]);
        let digest = Digest([9; 32]);
        finds(log, &Subject { digest, ..of_first }, &[]);
    }
    log.cut(&5u64.to_be_bytes(), |record| record == second)
        .expect("a disk");
    for log in [&log, &reopened()] {
        finds(log, &of_first, &[]);
        finds(log, &of_second, &[&second]);
    }
}

//! The log of a validator: two copies of one file, each synced before the next entry is written.
//!
//! A disk may lose, tear or garble what was not synced, and later change, lose or replace by an older
//! state any part of *one* copy. It may not change the same entry in both, or report a sync that did
//! not happen. So nobody saw what followed from an entry that is bad in both copies.
//!
//! A copy begins with its head: a mark, which is 8 random bytes, the mark of the longer log that it
//! replaces, and a checksum. Each entry has the mark, the length of its body in 8 bytes, a checksum,
//! and its body: records, each after its length in 4 bytes. A checksum is the first 8 bytes of a
//! digest. Peers do not know the mark, so no message can contain what looks like an entry.

use crate::copies::{
    Found, Mark, NONE, common_head, damaged, entry_of, file_at, folder_of, head_of, new_mark,
    records_of, replace,
};
use crate::heard::{RECENT, promise, promised, standing};
use crate::{Checkpoint, Flow, Request};
use narwhal_store::{Digest, Peek};
use std::collections::{BTreeMap, VecDeque};
use std::fs::{self, File};
use std::io::{Error, Result};
use std::os::unix::fs::FileExt;
use std::path::{Path, PathBuf};
use std::{iter, thread};

/// docs/FORMATS.md of the repository: the last bytes of a block's message.
const SIGNATURE: usize = 64;

/// A log, open for further records. If a function of it fails, a disk failed: end the process.
pub struct Log {
    paths: [PathBuf; 2],
    copies: [File; 2],
    mark: Mark,
    end: usize,
    /// The records of the next entry.
    pending: Vec<Vec<u8>>,
    /// How many rounds below the garbage round it keeps.
    kept: u64,
    /// Where the block and the certificate of each round and digest are.
    places: BTreeMap<(u64, Digest), Vec<Place>>,
    /// The newest round of a certificate, and its place.
    newest: Option<(u64, Place)>,
    recent: VecDeque<Checkpoint>,
}

/// An offset and a length.
type Place = (u64, usize);

/// A log with the records that it had.
pub struct Opened {
    /// The log.
    pub log: Log,
    /// Its records, in order.
    pub records: Vec<Vec<u8>>,
    /// How many bytes after the last entry were cut from each copy.
    pub cut: [usize; 2],
    /// How many entries, the head included, each copy got from the other one.
    pub repaired: [usize; 2],
}

impl Opened {
    /// Repeats messages, checkpoints and promises in the flow of a new store: it goes on from the last
    /// checkpoint, and signs from the last promise on. From now on, `sync` cuts the log: it keeps a
    /// window of rounds below the garbage round, to answer members that were away.
    ///
    /// Say if the log was lost, or is an older one: then it first logs a promise to sign nothing.
    ///
    /// # Errors
    ///
    /// A disk failed, there is no memory, or the committee or the limits are not those of the log.
    pub fn replay(mut self, flow: &mut Flow, is_lost: bool) -> Result<Log> {
        if is_lost {
            self.records.push(promise(u64::MAX));
            self.log.append(promise(u64::MAX));
            self.log.sync()?;
        }
        let records = || self.records.iter().map(Vec::as_slice);
        let checkpoint = records().filter_map(Checkpoint::read).max();
        let checkpoint = checkpoint.unwrap_or(Checkpoint::START);
        flow.signs_from = records().rev().find_map(promised).unwrap_or(0);
        flow.jump(&checkpoint).map_err(Error::other)?;
        let is_kept = |of: Peek| of.round() >= checkpoint.garbage_round;
        let kept = records().filter(|record| Peek::of(record).is_some_and(is_kept));
        for checked in flow.committee.clone().check_all(&kept.collect::<Vec<_>>(), 2) {
            let due = flow.call(&checked.map_err(Error::other)?).map_err(Error::other)?;
            due.ok_or_else(|| Error::other("a call of the log got another reply"))?;
        }
        self.log.kept = flow.window;
        Ok(self.log)
    }
}

impl Log {
    /// Opens the two copies of a log, best on two disks, or makes them. On return both files, with
    /// all records, and their folders are synced.
    ///
    /// An entry that is good in one copy only is kept, and the other copy repaired. If the last one is
    /// bad in both, it was not synced, and is cut.
    ///
    /// # Errors
    ///
    /// The log is damaged if an entry is bad in both copies and another one follows, or if the copies
    /// have different entries. The error names the offset. Do not start the validator without it.
    pub fn open(copies: [&Path; 2]) -> Result<Opened> {
        let opened = Log::open_without_sync(copies)?;
        for (copy, path) in opened.log.copies.iter().zip(copies) {
            copy.sync_all()?; // The page cache may have records that the disk lacks.
            File::open(folder_of(path))?.sync_all()?;
        }
        Ok(opened)
    }

    /// Opens the log as `open` does, but syncs only what it repairs. A validator that sends a vote
    /// after this can vote twice.
    pub fn open_without_sync(copies: [&Path; 2]) -> Result<Opened> {
        copies.iter().try_for_each(|path| file_at(path).map(drop))?;
        let mut bytes = [fs::read(copies[0])?, fs::read(copies[1])?];
        let head = common_head(&mut bytes)?;
        let new_head = || head_of(&new_mark(), &NONE);
        let found = Found::all(&bytes, &head.clone().unwrap_or_else(new_head))?;
        let end = found.bytes.len();
        let follows = |copy: &Vec<u8>| {
            let rest = copy.get(end + 1..).unwrap_or_default();
            rest.windows(found.mark.len()).any(|bytes| bytes == found.mark)
        };
        if bytes.iter().any(follows) {
            return Err(damaged(end));
        }
        Ok(Opened {
            log: Log::of(copies.map(Path::to_path_buf), &bytes, &found)?,
            records: Vec::from_iter(found.records.into_iter().map(|(_, record)| record)),
            cut: bytes.each_ref().map(|copy| copy.len().saturating_sub(end)),
            repaired: head.map_or([0; 2], |_| found.lacks),
        })
    }

    /// The log of these bytes, which it puts in the place of each copy that has others. One copy is
    /// done before the other one is touched.
    fn of(paths: [PathBuf; 2], copies: &[Vec<u8>; 2], found: &Found) -> Result<Log> {
        let file = |at: usize| match copies[at] == found.bytes {
            true => file_at(&paths[at]),
            false => replace(&paths[at], &found.bytes),
        };
        let mut log = Log {
            copies: [file(0)?, file(1)?],
            paths,
            mark: found.mark,
            end: found.bytes.len(),
            pending: Vec::new(),
            kept: u64::MAX,
            places: BTreeMap::new(),
            newest: None,
            recent: VecDeque::new(),
        };
        found.records.iter().for_each(|(offset, record)| log.note(*offset, record));
        Ok(log)
    }

    /// Adds a record to the next entry, which `sync` writes.
    pub fn append(&mut self, record: impl Into<Vec<u8>>) {
        self.pending.push(record.into());
    }

    /// The packets that answer a request: logged messages, or one to [hear](crate::Heard::hear).
    pub fn answer(&self, request: &Request) -> Result<Vec<Vec<u8>>> {
        let [least, most] = [0, 255].map(|byte| Digest([byte; 32]));
        let range = match *request {
            Request::Of(of) => (of.round, of.digest)..=(of.round, of.digest),
            Request::Round(round) => (round, least)..=(round, most),
            Request::Standing => {
                let newest = self.newest.map(|(_, place)| self.read(&place)).transpose()?;
                return Ok(vec![standing(&self.recent, &newest.unwrap_or_default())]);
            }
        };
        let places = self.places.range(range).flat_map(|(_, places)| places);
        places.map(|place| self.read(place)).collect()
    }

    fn read(&self, &(offset, length): &Place) -> Result<Vec<u8>> {
        let mut bytes = vec![0; length];
        self.copies[0].read_exact_at(&mut bytes, offset)?;
        Ok(bytes)
    }

    fn note(&mut self, offset: u64, record: &[u8]) {
        let place = (offset, record.len());
        let key = match Peek::of(record) {
            Some(Peek::Certificate(of)) => {
                self.newest = self.newest.max(Some((of.round, place)));
                (of.round, of.digest)
            }
            Some(Peek::Block { round, .. }) if record.len() > SIGNATURE => {
                (round, Digest::of(&record[1..record.len() - SIGNATURE]))
            }
            _ => {
                self.recent.extend(Checkpoint::read(record));
                let old = self.recent.len().saturating_sub(RECENT);
                self.recent.drain(..old);
                return;
            }
        };
        self.places.entry(key).or_default().push(place);
    }

    /// Syncs, and replaces the log by a shorter one, on both disks: this record, and then those that it
    /// keeps, in order. A crash leaves the longer log or the shorter one.
    pub fn cut(&mut self, first: &[u8], is_kept: impl Fn(&[u8]) -> bool) -> Result<()> {
        self.sync()?;
        let bytes = [fs::read(&self.paths[0])?, fs::read(&self.paths[1])?];
        let found = Found::all(&bytes, &head_of(&self.mark, &NONE))?;
        if found.bytes.len() != self.end {
            return Err(damaged(found.bytes.len()));
        }
        let kept = found.records.iter().map(|(_, record)| record.as_slice());
        let kept = iter::once(first).chain(kept.filter(|record| is_kept(record)));
        let mark = new_mark();
        let head = head_of(&mark, &self.mark);
        let bytes = [&head[..], &entry_of(&mark, &kept.collect::<Vec<_>>())].concat();
        let found = Found::all(&[bytes, Vec::new()], &head)?;
        let log = Log::of(self.paths.clone(), &[const { Vec::new() }; 2], &found)?;
        *self = Log { kept: self.kept, ..log };
        Ok(())
    }

    /// Puts the appended records on both disks, as one entry: a crash keeps all of them, or none. If
    /// the log has two windows of rounds below the garbage round, this cuts it. It leaves the last
    /// checkpoint, and then the promises, and the messages and checkpoints from one window below on.
    pub fn sync(&mut self) -> Result<()> {
        if self.pending.is_empty() {
            return Ok(());
        }
        let (entry, end) = (entry_of(&self.mark, &self.pending), self.end);
        let [first, second] = &self.copies;
        first.write_all_at(&entry, end as u64)?;
        second.write_all_at(&entry, end as u64)?;
        thread::scope(|scope| {
            let other = scope.spawn(|| second.sync_data());
            first.sync_data()?;
            let panicked = |_| Err(Error::other("a sync panicked"));
            other.join().unwrap_or_else(panicked)
        })?;
        self.pending.clear();
        self.end += entry.len();
        records_of(&entry, end).iter().for_each(|(offset, record)| self.note(*offset, record));
        let oldest = self.places.first_key_value().map_or(0, |((round, _), _)| *round);
        let last = *self.recent.back().unwrap_or(&Checkpoint::START);
        let round = last.garbage_round.saturating_sub(self.kept);
        if round < oldest.saturating_add(self.kept) {
            return Ok(());
        }
        self.cut(&last.record(), |record| {
            let of_message = Peek::of(record).map(|of| of.round());
            let of_checkpoint = Checkpoint::read(record).map(|of| of.garbage_round);
            promised(record).is_some() || of_message.or(of_checkpoint) >= Some(round)
        })
    }
}

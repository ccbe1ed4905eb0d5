//! The two copies of a log: their heads and entries, and what they have together.

use narwhal_store::Digest;
use std::fs::{self, File};
use std::hash::{BuildHasher, RandomState};
use std::io::{Error, Result};
use std::os::unix::fs::FileExt;
use std::path::Path;

pub(crate) type Mark = [u8; 8];

const HEAD: usize = 24;
/// The bytes of an entry before its body.
const BEFORE: usize = 24;
/// The bytes of a record's length.
const LENGTH: usize = 4;
/// The longer log that a new log replaces: there is none.
pub(crate) const NONE: Mark = [0; 8];

/// What two copies have together.
pub(crate) struct Found {
    pub(crate) mark: Mark,
    /// The records, each with its offset.
    pub(crate) records: Vec<(u64, Vec<u8>)>,
    pub(crate) bytes: Vec<u8>,
    /// How many entries each copy lacks, the head included.
    pub(crate) lacks: [usize; 2],
}

impl Found {
    /// Everything that copies of a log with this head have.
    pub(crate) fn all(copies: &[Vec<u8>; 2], head: &[u8]) -> Result<Found> {
        let mut found = Found {
            mark: std::array::from_fn(|at| head[at]),
            records: Vec::new(),
            bytes: head.to_vec(),
            lacks: copies.each_ref().map(|copy| usize::from(!copy.starts_with(head))),
        };
        while found.take_entry(copies)? {}
        Ok(found)
    }

    /// Takes the next entry, if a copy has it.
    fn take_entry(&mut self, copies: &[Vec<u8>; 2]) -> Result<bool> {
        let end = self.bytes.len();
        let found = copies.each_ref().map(|copy| entry_at(copy.get(end..)?, &self.mark));
        let entry = match found {
            [None, None] => return Ok(false),
            [Some(one), Some(other)] if one != other => {
                let why = format!("the copies of the log differ at offset {end}");
                return Err(Error::other(why));
            }
            [Some(entry), _] | [None, Some(entry)] => entry,
        };
        for (copy, lacks) in found.iter().zip(&mut self.lacks) {
            *lacks += usize::from(copy.is_none());
        }
        self.bytes.extend(entry);
        self.records.extend(records_of(entry, end));
        Ok(true)
    }
}

pub(crate) fn damaged(offset: usize) -> Error {
    Error::other(format!("the log is damaged at offset {offset}"))
}

pub(crate) fn file_at(path: &Path) -> Result<File> {
    let mut options = File::options();
    options.read(true).write(true).create(true).truncate(false);
    options.open(path)
}

pub(crate) fn folder_of(path: &Path) -> &Path {
    match path.parent() {
        Some(folder) if !folder.as_os_str().is_empty() => folder,
        _ => Path::new("."),
    }
}

/// The head of both copies. It is `None` if they have no records.
///
/// A crash in a cut leaves a copy of the shorter log beside one of the longer log. Then this forgets
/// the other one: the longer, or the shorter if it is bad.
pub(crate) fn common_head(copies: &mut [Vec<u8>; 2]) -> Result<Option<Vec<u8>>> {
    match copies.each_ref().map(|copy| marks_of(copy)) {
        [Some(one), Some(other)] if one.0 != other.0 => {
            let shorter = match () {
                () if one.1 == other.0 => 0,
                () if other.1 == one.0 => 1,
                () => return Err(Error::other("the copies are of two logs")),
            };
            let (mark, _) = [one, other][shorter];
            let is_whole = entry_at(&copies[shorter][HEAD..], &mark).is_some();
            let kept = if is_whole { shorter } else { 1 - shorter };
            copies[1 - kept].clear();
            Ok(Some(copies[kept][..HEAD].to_vec()))
        }
        [Some((mark, replaced)), _] | [None, Some((mark, replaced))] => {
            Ok(Some(head_of(&mark, &replaced)))
        }
        [None, None] if copies.iter().all(|copy| copy.len() <= HEAD) => Ok(None),
        [None, None] => Err(damaged(0)),
    }
}

/// Puts a new file with these bytes in the place of a copy.
pub(crate) fn replace(path: &Path, bytes: &[u8]) -> Result<File> {
    let mut name = path.as_os_str().to_owned();
    name.push(".new");
    let mut options = File::options();
    options.read(true).write(true).create(true).truncate(true);
    let file = options.open(&name)?;
    file.write_all_at(bytes, 0)?;
    file.sync_all()?;
    fs::rename(&name, path)?;
    file.sync_all()?;
    File::open(folder_of(path))?.sync_all()?;
    Ok(file)
}

pub(crate) fn new_mark() -> Mark {
    RandomState::new().hash_one(()).to_be_bytes()
}

pub(crate) fn head_of(mark: &Mark, replaced: &Mark) -> Vec<u8> {
    let marks = [*mark, *replaced].concat();
    [&marks[..], &first_half(&Digest::of(&marks))].concat()
}

/// The mark of a copy, and that of the log that it replaces, if its head is good.
fn marks_of(copy: &[u8]) -> Option<(Mark, Mark)> {
    let (mark, rest) = copy.split_first_chunk()?;
    let replaced = rest.first_chunk()?;
    let is_good = copy.starts_with(&head_of(mark, replaced));
    is_good.then_some((*mark, *replaced))
}

fn with_length(bytes: &[u8]) -> Vec<u8> {
    [&(bytes.len() as u32).to_be_bytes(), bytes].concat()
}

fn checksum(mark: &Mark, body: &[u8]) -> [u8; 8] {
    let length = (body.len() as u64).to_be_bytes();
    first_half(&Digest::of(&[mark, &length, body].concat()))
}

pub(crate) fn entry_of(mark: &Mark, records: &[impl AsRef<[u8]>]) -> Vec<u8> {
    let body = records.iter().flat_map(|record| with_length(record.as_ref()));
    let body: Vec<u8> = body.collect();
    let length = (body.len() as u64).to_be_bytes();
    [&mark[..], &length, &checksum(mark, &body), &body].concat()
}

/// The entry at the start of the bytes, if it is good.
fn entry_at<'a>(bytes: &'a [u8], mark: &Mark) -> Option<&'a [u8]> {
    let (length, rest) = bytes.strip_prefix(mark)?.split_first_chunk()?;
    let (found, rest) = rest.split_first_chunk()?;
    let length = usize::try_from(u64::from_be_bytes(*length)).ok()?;
    let body = rest.get(..length)?;
    (*found == checksum(mark, body)).then(|| &bytes[..BEFORE + length])
}

/// The records of an entry at this offset, each with its own offset.
pub(crate) fn records_of(entry: &[u8], offset: usize) -> Vec<(u64, Vec<u8>)> {
    let (mut records, mut at) = (Vec::new(), BEFORE);
    while let Some((length, rest)) = entry[at..].split_first_chunk() {
        let record = &rest[..u32::from_be_bytes(*length) as usize];
        records.push(((offset + at + LENGTH) as u64, record.to_vec()));
        at += LENGTH + record.len();
    }
    records
}

fn first_half(digest: &Digest) -> [u8; 8] {
    std::array::from_fn(|at| digest.0[at])
}

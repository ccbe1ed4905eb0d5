//! Reads the files that make.py writes.

use narwhal_store::{Committee, PublicKey};

/// The records of a file: the kind of each, and its bytes.
pub fn records(mut file: &[u8]) -> impl Iterator<Item = (u8, &[u8])> {
    std::iter::from_fn(move || {
        let (kind, rest) = file.split_first()?;
        let (length, rest) = rest.split_first_chunk().expect("a length");
        let (record, rest) = rest.split_at(u32::from_be_bytes(*length) as usize);
        file = rest;
        Some((*kind, record))
    })
}

/// The committee of a record of keys.
pub fn committee(record: &[u8]) -> Committee {
    let keys = record
        .chunks_exact(32)
        .map(|key| PublicKey::try_from(key).expect("32 bytes"));
    Committee::equal(&keys.collect::<Vec<_>>()).expect("a committee")
}

/// The first committee of a file, and the messages of its blocks and certificates.
#[allow(
    dead_code,
    reason = "not every program that includes this file uses it"
)]
pub fn honest_messages(file: &[u8]) -> (Committee, Vec<&[u8]>) {
    let mut records = records(file);
    let (_, keys) = records.next().expect("a committee");
    let records = records.take_while(|(kind, _)| *kind != b'M');
    let messages = records.filter_map(|(kind, record)| match kind {
        b'B' => record.get(32..), // after the digest
        b'C' => Some(record),
        _ => None,
    });
    (committee(keys), messages.collect())
}

//! Patches in the slow model: a patch is parsed record by record, each tested
//! against the list of those before it; buckets and base lists are maps.

use super::{fnv, wrong_offset};
use reference::answer::Answer;
use std::collections::{BTreeMap, BTreeSet};

/// What a plane says.
#[derive(Clone, Debug, PartialEq, Eq)]
pub struct SlowPlane {
    pub level1: u8,
    pub level2: u8,
    /// By index: the bound and the solution words, 65 bytes.
    pub buckets: BTreeMap<u8, Vec<u8>>,
    pub base: BTreeMap<u64, u8>,
}

/// A record: its kind and its body.
pub type Record = (u8, Vec<u8>);

pub fn number(bytes: &[u8]) -> u64 {
    bytes.iter().rev().fold(0, |n, &byte| n * 256 + byte as u64)
}

pub fn bytes_of(number: u64) -> Vec<u8> {
    (0..8)
        .map(|i| (number / 256u64.pow(i) % 256) as u8)
        .collect()
}

impl SlowPlane {
    /// Of the bytes of a right plane.
    pub fn read(bytes: &[u8]) -> SlowPlane {
        let count = bytes[2] + bytes[3];
        let mut plane = SlowPlane {
            level1: bytes[2],
            level2: bytes[3],
            buckets: BTreeMap::new(),
            base: BTreeMap::new(),
        };
        let mut rest = &bytes[5..];
        for index in 0..count {
            plane.buckets.insert(index, rest[1..66].to_vec());
            rest = &rest[66..];
        }
        for _ in 0..bytes[4] {
            plane.base.insert(number(&rest[1..9]), rest[9]);
            rest = &rest[10..];
        }
        plane
    }

    pub fn bytes(&self) -> Vec<u8> {
        let mut bytes = vec![1, 1, self.level1, self.level2, self.base.len() as u8];
        for bucket in self.buckets.values() {
            bytes.push(2);
            bytes.extend(bucket);
        }
        for (&word, &plan) in &self.base {
            bytes.push(3);
            bytes.extend(bytes_of(word));
            bytes.push(plan);
        }
        bytes.extend(b"\x04END\n");
        bytes
    }

    fn words(&self) -> BTreeSet<u64> {
        self.base.keys().copied().collect()
    }

    /// The plane after these records of a patch, one after the other.
    pub fn after(&self, records: &[Record]) -> SlowPlane {
        let mut plane = self.clone();
        for (kind, body) in records {
            match kind {
                6 => {
                    plane.buckets.insert(body[0], body[1..].to_vec());
                }
                7 => {
                    plane.base.remove(&number(body));
                }
                8 => {
                    plane.base.insert(number(&body[..8]), body[8]);
                }
                _ => {}
            }
        }
        plane
    }
}

fn refused(cause: u64, value: usize) -> Answer {
    Answer {
        cause,
        value: value as u64,
    }
}

/// The patch from the old plane to the new one, or cause 10 or 11.
pub fn make(old: &[u8], new: &[u8]) -> Result<Vec<u8>, Answer> {
    for plane in [old, new] {
        if let Some(offset) = wrong_offset(plane) {
            return Err(refused(10, offset));
        }
    }
    let (p, q) = (SlowPlane::read(old), SlowPlane::read(new));
    if (p.level1, p.level2) != (q.level1, q.level2) {
        return Err(refused(11, 0));
    }
    let mut records = vec![(5, [bytes_of(fnv(old)), bytes_of(fnv(new))].concat())];
    for (&index, bucket) in &q.buckets {
        if p.buckets[&index] != *bucket {
            records.push((6, [vec![index], bucket.clone()].concat()));
        }
    }
    for &word in p.words().difference(&q.words()) {
        records.push((7, bytes_of(word)));
    }
    for (word, plan) in &q.base {
        if p.base.get(word) != Some(plan) {
            records.push((8, [bytes_of(*word), vec![*plan]].concat()));
        }
    }
    records.push((4, b"END\n".to_vec()));
    Ok(joined(&records))
}

/// The new plane, or cause 10, 12 or 13.
pub fn apply(old: &[u8], patch: &[u8]) -> Result<Vec<u8>, Answer> {
    if let Some(offset) = wrong_offset(old) {
        return Err(refused(10, offset));
    }
    let plane = SlowPlane::read(old);
    let records = split(&plane, patch).map_err(|offset| refused(12, offset))?;
    let new = plane.after(&records).bytes();
    let sums = [bytes_of(fnv(old)), bytes_of(fnv(&new))].concat();
    if records[0].1 != sums {
        return Err(refused(13, 0));
    }
    Ok(new)
}

/// The answer of a call with this result and what it leaves in the output.
pub fn put(result: &Result<Vec<u8>, Answer>, output: &[u8]) -> (Answer, Vec<u8>) {
    match result {
        Err(refusal) => (*refusal, output.to_vec()),
        Ok(bytes) if output.len() < bytes.len() => (refused(9, bytes.len()), output.to_vec()),
        Ok(bytes) => {
            let rest = &output[bytes.len()..];
            (refused(0, bytes.len()), [bytes, rest].concat())
        }
    }
}

pub fn joined(records: &[Record]) -> Vec<u8> {
    let mut bytes = Vec::new();
    for (kind, body) in records {
        bytes.push(*kind);
        bytes.extend(body);
    }
    bytes
}

/// The records of a patch for this plane, or the offset of the first that is
/// wrong.
pub fn split(plane: &SlowPlane, patch: &[u8]) -> Result<Vec<Record>, usize> {
    let lengths = BTreeMap::from([(4, 4), (5, 16), (6, 66), (7, 8), (8, 9)]);
    let mut records: Vec<Record> = Vec::new();
    let mut at = 0;
    while records.last().is_none_or(|(kind, _)| *kind != 4) {
        let kind = *patch.get(at).ok_or(at)?;
        let length = *lengths.get(&kind).ok_or(at)?;
        let body = patch.get(at + 1..at + 1 + length).ok_or(at)?;
        if !may_follow(plane, &records, kind, body) {
            return Err(at);
        }
        records.push((kind, body.to_vec()));
        at += 1 + length;
    }
    if at < patch.len() {
        return Err(at);
    }
    Ok(records)
}

/// Whether a whole record may stand after these.
fn may_follow(plane: &SlowPlane, before: &[Record], kind: u8, body: &[u8]) -> bool {
    let last = before.last().map(|(kind, _)| *kind);
    let kinds: &[u8] = match last {
        None => &[5],
        Some(5) | Some(6) => &[6, 7, 8, 4],
        Some(7) => &[7, 8, 4],
        Some(8) => &[8, 4],
        _ => &[],
    };
    if !kinds.contains(&kind) {
        return false;
    }
    let earlier = |kind: u8| before.iter().filter(move |(k, _)| *k == kind);
    match kind {
        5 => true,
        6 => {
            earlier(6).all(|(_, other)| other[0] < body[0])
                && plane.buckets.contains_key(&body[0])
                && body[1] < 9
        }
        7 => {
            let word = number(body);
            earlier(7).all(|(_, other)| number(other) < word) && plane.base.contains_key(&word)
        }
        8 => {
            let word = number(&body[..8]);
            let mut records = before.to_vec();
            records.push((kind, body.to_vec()));
            body[8] < 255
                && earlier(8).all(|(_, other)| number(&other[..8]) < word)
                && earlier(7).all(|(_, other)| number(other) != word)
                && plane.after(&records).base.len() < 65
        }
        _ => body == b"END\n",
    }
}

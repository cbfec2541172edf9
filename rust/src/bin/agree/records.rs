//! Planes and patches put together record by record, right ones and edited ones.

use crate::random::given_plan;
use reference::identifier::fnv1a64;
use reference::patch::{self, Patch};
use reference::plane::{self, Plane};
use reference::rng::Rng;
use std::collections::{BTreeMap, BTreeSet};

pub const BASE_MAX: usize = 64;

/// What a plane says: bound and solution words of each bucket, level 1 first, and the base list.
#[derive(Clone)]
pub struct Content {
    pub b1: u8,
    pub b2: u8,
    pub buckets: Vec<Vec<u8>>,
    pub base: BTreeMap<u64, u8>,
}

fn some_bucket(rng: &mut Rng) -> Vec<u8> {
    let mut bucket = rng.bytes(65);
    bucket[0] = rng.below(9) as u8;
    bucket
}

/// Words, mostly far apart, some next to each other; the smallest and the largest among them.
pub fn some_words(rng: &mut Rng, count: u64) -> Vec<u64> {
    let mut words = vec![0, u64::MAX];
    for _ in 0..count {
        let word = match rng.below(4) {
            0 => rng.pick(&words).wrapping_add(1),
            1 => *rng.pick(&words) ^ 1 << rng.below(64),
            _ => rng.next(),
        };
        words.push(word);
    }
    words
}

impl Content {
    /// Any buckets, and at most `entries` of these words.
    pub fn some(rng: &mut Rng, b1: u64, b2: u64, words: &[u64], entries: usize) -> Content {
        let mut content = Content {
            b1: b1 as u8,
            b2: b2 as u8,
            buckets: (0..b1 + b2).map(|_| some_bucket(rng)).collect(),
            base: BTreeMap::new(),
        };
        for &word in words {
            if content.base.len() < entries && !rng.one_in(3) {
                content.base.insert(word, given_plan(rng));
            }
        }
        content
    }

    /// The same with some buckets changed, and base entries gone, changed and new, of these words: of each none, some or all.
    pub fn varied(&self, rng: &mut Rng, words: &[u64]) -> Content {
        let mut other = self.clone();
        let often = *rng.pick(&[1, 2, 4, 1000]);
        for bucket in &mut other.buckets {
            if rng.one_in(often) {
                *bucket = some_bucket(rng);
            } else if rng.one_in(8) {
                // One bit of the solutions alone.
                bucket[1 + rng.below(64) as usize] ^= 1 << rng.below(8);
            }
        }
        let (gone, changed) = (*rng.pick(&[1, 2, 4, 1000]), *rng.pick(&[1, 2, 4, 1000]));
        other.base.retain(|_, _| !rng.one_in(gone));
        for plan in other.base.values_mut() {
            if rng.one_in(changed) {
                *plan = given_plan(rng);
            }
        }
        for _ in 0..rng.below(BASE_MAX as u64 + 1) {
            if other.base.len() < BASE_MAX && !rng.one_in(4) {
                other.base.insert(*rng.pick(words), given_plan(rng));
            }
        }
        other
    }

    pub fn bytes(&self) -> Vec<u8> {
        let mut bytes = vec![1, 1, self.b1, self.b2, self.base.len() as u8];
        for bucket in &self.buckets {
            bytes.push(2);
            bytes.extend(bucket);
        }
        for (&word, &plan) in &self.base {
            bytes.extend(entry(3, word, plan));
        }
        bytes.extend(end());
        bytes
    }
}

pub fn sums(old: u64, new: u64) -> Vec<u8> {
    let mut record = vec![5];
    record.extend(old.to_le_bytes());
    record.extend(new.to_le_bytes());
    record
}

pub fn change(index: u8, bucket: &[u8]) -> Vec<u8> {
    let mut record = vec![6, index];
    record.extend(bucket);
    record
}

pub fn gone(word: u64) -> Vec<u8> {
    let mut record = vec![7];
    record.extend(word.to_le_bytes());
    record
}

pub fn new(word: u64, plan: u8) -> Vec<u8> {
    entry(8, word, plan)
}

fn entry(kind: u8, word: u64, plan: u8) -> Vec<u8> {
    let mut record = vec![kind];
    record.extend(word.to_le_bytes());
    record.push(plan);
    record
}

pub fn end() -> Vec<u8> {
    b"\x04END\n".to_vec()
}

/// The records of a right patch.
pub fn split(patch: &[u8]) -> Vec<Vec<u8>> {
    let mut records = Vec::new();
    let mut rest = patch;
    while let Some(kind) = rest.first() {
        let length = match kind {
            5 => patch::SUMS_LEN,
            6 => patch::CHANGE_LEN,
            7 => patch::GONE_LEN,
            8 => patch::NEW_LEN,
            _ => plane::END_LEN,
        };
        let (record, others) = rest.split_at(length);
        records.push(record.to_vec());
        rest = others;
    }
    records
}

/// Records of a patch that anyone may have made for this plane: in order, but for now and then a value that is not allowed. Some
/// change nothing; the base list often gets just full, or one too many.
pub fn some_patch(rng: &mut Rng, old: &Content) -> Vec<Vec<u8>> {
    let mut records = vec![sums(0, 0)];
    let often = *rng.pick(&[1, 2, 4, 1000]);
    for (index, bucket) in old.buckets.iter().enumerate() {
        if rng.one_in(often) {
            let bucket = match rng.below(4) {
                0 => bucket.clone(),
                _ => some_bucket(rng),
            };
            records.push(change(index as u8, &bucket));
        }
    }
    let often = *rng.pick(&[1, 2, 4, 1000]);
    let mut leaving = BTreeSet::new();
    let mut news = BTreeMap::new();
    for (&word, &plan) in &old.base {
        if rng.one_in(often) {
            leaving.insert(word);
        } else if rng.one_in(4) {
            let other = given_plan(rng);
            news.insert(word, *rng.pick(&[plan, other]));
        }
    }
    let room = BASE_MAX - (old.base.len() - leaving.len());
    let count = match rng.below(4) {
        0 => room,
        1 => room + 1,
        _ => rng.below(room as u64 + 1) as usize,
    };
    for _ in 0..count {
        news.insert(rng.next(), given_plan(rng));
    }
    if rng.one_in(16) {
        let at = rng.below(news.len() as u64 + 1) as usize;
        if let Some(plan) = news.values_mut().nth(at) {
            *plan = 255;
        }
    }
    if rng.one_in(16) {
        news.extend(leaving.first().map(|&word| (word, 0)));
    }
    if rng.one_in(16) {
        leaving.insert(rng.next());
    }
    records.extend(leaving.into_iter().map(gone));
    records.extend(news.into_iter().map(|(word, plan)| new(word, plan)));
    records.push(end());
    records
}

/// Changes the records of a patch for a plane of this many buckets: one step of many kinds.
pub fn edit(rng: &mut Rng, records: &mut Vec<Vec<u8>>, buckets: usize, words: &[u64]) {
    if records.is_empty() {
        records.push(end());
        return;
    }
    let count = records.len() as u64;
    let (i, j) = (rng.below(count) as usize, rng.below(count) as usize);
    let next = (i + 1).min(records.len() - 1);
    match rng.below(16) {
        0 => records.swap(i, j),
        1 => records.swap(i, next),
        2 => records.insert(j, records[i].clone()),
        3 => records.insert(next, records[i].clone()),
        4 => {
            records.remove(i);
        }
        5 => {
            let kind = rng.byte();
            if let Some(first) = records[i].first_mut() {
                *first = *rng.pick(&[0, 3, 4, 5, 6, 7, 8, 9, kind]);
            }
        }
        6 => {
            let to = rng.below(records[i].len() as u64 + 1) as usize;
            records[i].truncate(to);
        }
        7 => {
            let length = 1 + rng.below(3) as usize;
            let bytes = rng.bytes(length);
            records[i].extend(bytes);
        }
        8 => records.insert(j, new(*rng.pick(words), rng.byte())),
        9 => records.insert(j, gone(*rng.pick(words))),
        10 => {
            let at = rng.below(records[i].len() as u64 + 1) as usize;
            if let Some(byte) = records[i].get_mut(at) {
                *byte = rng.byte();
            }
        }
        // A value of a record: index, bound, word or plan.
        _ => match records[i].first() {
            Some(6) if records[i].len() > 2 && rng.one_in(2) => {
                let any = rng.byte();
                let last = buckets as u8 - 1;
                records[i][1] = *rng.pick(&[0, last, last + 1, last + 2, 79, 80, 255, any]);
            }
            Some(6) if records[i].len() > 2 => {
                let any = rng.byte();
                records[i][2] = *rng.pick(&[0, 7, 8, 9, 10, 128, 255, any]);
            }
            Some(8) if records[i].len() > 9 && rng.one_in(3) => {
                records[i][9] = *rng.pick(&[0, 254, 255]);
            }
            Some(7 | 8) if records[i].len() > 8 => {
                let word = some_word(rng, records, i, words);
                records[i][1..9].copy_from_slice(&word.to_le_bytes());
            }
            _ => {}
        },
    }
}

/// Another word for record i: of the list, one more or less, or that of another record.
fn some_word(rng: &mut Rng, records: &[Vec<u8>], i: usize, words: &[u64]) -> u64 {
    let word_of = |record: &[u8]| {
        let mut word = [0; 8];
        word.copy_from_slice(&record[1..9]);
        u64::from_le_bytes(word)
    };
    let word = word_of(&records[i]);
    match rng.below(4) {
        0 => *rng.pick(words),
        1 => word.wrapping_add(1),
        2 => word.wrapping_sub(1),
        _ => {
            let other = rng.pick(records);
            if other.len() > 8 {
                word_of(other)
            } else {
                word
            }
        }
    }
}

/// Gives a patch the sums that fit, if nothing else is wrong with it.
pub fn fit(old: &[u8], patch: &mut [u8]) {
    let Ok(plane) = Plane::read(old) else {
        return;
    };
    if let Ok(right) = Patch::read(patch, &plane) {
        let fitting = sums(fnv1a64(old), fnv1a64(&right.plane));
        patch[..fitting.len()].copy_from_slice(&fitting);
    }
}

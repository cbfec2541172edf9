//! The patch: made from two planes, applied to the old one (document 02,
//! orders 1 and 3).
//!
//! Decisions:
//! - In both calls cause 9 is tested last. Making tests the old plane before
//!   the new one and does not say which of them met 10.
//! - The index of a bucket counts from 0 over level 1, then level 2.
//! - After kind 5 come the records of kind 6, then of 7, then of 8. What is
//!   none of them stands where kind 4 is due: a record out of its place, a
//!   second kind 5 and an unknown kind are wrong at their own offset, and a
//!   missing kind 4 where it should start.
//! - A kind 6 or 8 that changes nothing is allowed.
//! - Entries are counted after all removals, at each kind 8; one whose word is
//!   in the base list already does not count again.
//! - Cause 13 is for either sum, once nothing in the patch is wrong.

use crate::answer::*;
use crate::bucket::BOUND_MAX;
use crate::identifier::fnv1a64;
use crate::plane::{self, Plane, BASE_LEN, BUCKET_LEN, END_LEN};
use crate::table::{may_be_given, BASE_MAX};

pub const KIND_SUMS: u8 = 5;
pub const KIND_CHANGE: u8 = 6;
pub const KIND_GONE: u8 = 7;
pub const KIND_NEW: u8 = 8;

/// Record lengths, kind byte included.
pub const SUMS_LEN: usize = 1 + 8 + 8;
pub const CHANGE_LEN: usize = 1 + 1 + (BUCKET_LEN - 1);
pub const GONE_LEN: usize = 1 + 8;
pub const NEW_LEN: usize = BASE_LEN;

/// The length of a patch.
pub fn patch_len(changes: usize, gone: usize, news: usize) -> usize {
    SUMS_LEN + CHANGE_LEN * changes + GONE_LEN * gone + NEW_LEN * news + END_LEN
}

/// Writes the patch from the old plane to the new one to the output and
/// returns its length; causes 10, 11 and 9.
pub fn make(old: &[u8], new: &[u8], output: &mut [u8]) -> Answer {
    patch_of(old, new)
        .and_then(|patch| plane::put(&patch, output))
        .into()
}

/// Writes the plane that the patch makes of the old one to the output and
/// returns its length; causes 10, 12, 13 and 9.
pub fn apply(old: &[u8], patch: &[u8], output: &mut [u8]) -> Answer {
    patched(old, patch)
        .and_then(|plane| plane::put(&plane, output))
        .into()
}

/// The patch from the old plane to the new one; causes 10 and 11.
fn patch_of(old: &[u8], new: &[u8]) -> Result<Vec<u8>, Answer> {
    let (from, to) = (read_plane(old)?, read_plane(new)?);
    if from.shape != to.shape {
        return Err(Answer::refused(PLANES_UNLIKE, 0));
    }
    let mut patch = vec![KIND_SUMS];
    patch.extend(fnv1a64(old).to_le_bytes());
    patch.extend(fnv1a64(new).to_le_bytes());

    let pairs = bucket_records(&from).zip(bucket_records(&to));
    for (index, (before, after)) in pairs.enumerate() {
        if before != after {
            patch.extend([KIND_CHANGE, index as u8]);
            patch.extend(&after[1..]);
        }
    }
    let before: Vec<(u64, u8)> = from.entries().collect();
    let after: Vec<(u64, u8)> = to.entries().collect();
    for &(word, _) in &before {
        if find(&after, word).is_err() {
            patch.push(KIND_GONE);
            patch.extend(word.to_le_bytes());
        }
    }
    for &entry in &after {
        if before.binary_search(&entry).is_err() {
            plane::push_entry(&mut patch, KIND_NEW, entry);
        }
    }
    plane::push_end(&mut patch);
    Ok(patch)
}

/// The plane that the patch makes of the old one; causes 10, 12 and 13.
fn patched(old: &[u8], patch: &[u8]) -> Result<Vec<u8>, Answer> {
    let from = read_plane(old)?;
    let patch =
        Patch::read(patch, &from).map_err(|offset| Answer::refused(PATCH_WRONG, offset as u64))?;
    if fnv1a64(old) != patch.old_sum || fnv1a64(&patch.plane) != patch.new_sum {
        return Err(Answer::refused(SUM_WRONG, 0));
    }
    Ok(patch.plane)
}

/// A patch found right for an old plane: its sums, fitting or not, and the
/// plane that it makes of the old one.
#[derive(Clone, Debug, PartialEq, Eq)]
pub struct Patch {
    pub old_sum: u64,
    pub new_sum: u64,
    pub plane: Vec<u8>,
}

impl Patch {
    /// Tests a patch; the error is the offset that cause 12 returns.
    pub fn read(bytes: &[u8], old: &Plane) -> Result<Patch, usize> {
        let sums = plane::record(bytes, 0, KIND_SUMS, SUMS_LEN)?;
        let mut records = Records {
            bytes,
            at: SUMS_LEN,
        };

        let mut buckets = old.buckets().to_vec();
        let mut least = 0;
        while let Some((at, change)) = records.take(KIND_CHANGE, CHANGE_LEN)? {
            let (index, bucket) = (usize::from(change[1]), &change[2..]);
            let in_range = (least..old.shape.buckets()).contains(&index);
            if !in_range || u64::from(bucket[0]) > BOUND_MAX {
                return Err(at);
            }
            buckets[BUCKET_LEN * index + 1..][..bucket.len()].copy_from_slice(bucket);
            least = index + 1;
        }

        let mut base: Vec<(u64, u8)> = old.entries().collect();
        let mut gone: Vec<u64> = Vec::new();
        while let Some((at, record)) = records.take(KIND_GONE, GONE_LEN)? {
            let word = plane::number(&record[1..]);
            let ascends = gone.last().is_none_or(|&before| before < word);
            match find(&base, word) {
                Ok(index) if ascends => base.remove(index),
                _ => return Err(at),
            };
            gone.push(word);
        }

        let mut before = None;
        while let Some((at, record)) = records.take(KIND_NEW, NEW_LEN)? {
            let (word, plan) = plane::entry(record);
            let ascends = before.is_none_or(|before| before < word);
            if !ascends || !may_be_given(plan) || gone.binary_search(&word).is_ok() {
                return Err(at);
            }
            match find(&base, word) {
                Ok(index) => base[index].1 = plan,
                Err(_) if base.len() == BASE_MAX => return Err(at),
                Err(index) => base.insert(index, (word, plan)),
            }
            before = Some(word);
        }
        plane::check_end(bytes, records.at)?;

        let mut plane = Vec::with_capacity(plane::plane_len(old.shape.buckets(), base.len()));
        plane.extend(plane::header(old.shape, base.len()));
        plane.extend(buckets);
        for entry in base {
            plane::push_entry(&mut plane, plane::KIND_BASE, entry);
        }
        plane::push_end(&mut plane);
        Ok(Patch {
            old_sum: plane::number(&sums[1..]),
            new_sum: plane::number(&sums[9..]),
            plane,
        })
    }
}

/// The records of a patch from an offset on.
struct Records<'a> {
    bytes: &'a [u8],
    at: usize,
}

impl<'a> Records<'a> {
    /// The next record with its offset if it is of this kind; the error is the
    /// offset of one that is cut.
    fn take(&mut self, kind: u8, len: usize) -> Result<Option<(usize, &'a [u8])>, usize> {
        let at = self.at;
        if self.bytes.get(at) != Some(&kind) {
            return Ok(None);
        }
        let record = plane::record(self.bytes, at, kind, len)?;
        self.at += len;
        Ok(Some((at, record)))
    }
}

fn read_plane(bytes: &[u8]) -> Result<Plane<'_>, Answer> {
    Plane::read(bytes).map_err(|offset| Answer::refused(PLANE_WRONG, offset as u64))
}

fn bucket_records<'a>(plane: &Plane<'a>) -> impl Iterator<Item = &'a [u8]> {
    plane.buckets().chunks_exact(BUCKET_LEN)
}

/// The index of a word among base entries, or the index it would get.
fn find(base: &[(u64, u8)], word: u64) -> Result<usize, usize> {
    base.binary_search_by_key(&word, |&(entry, _)| entry)
}

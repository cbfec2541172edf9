//! The plane: its writer and its reader (document 01, "The plane"; document 02,
//! orders 3 and 4).
//!
//! Decisions:
//! - The first record that is missing altogether counts as cut: its offset is
//!   the length of the plane.
//! - "A base record must exceed the one before" compares w' alone, strictly;
//!   the first base record may have w' = 0.
//! - Only base records are tested for the desk's plan: a bucket may answer any
//!   number to a word that is not live, the desk's plan too.
//! - The reader does not ask whether a base record belongs in the base list by
//!   the bounds: no cause names that. Such a record is never reached.
//! - A kind 4 whose body is not the four bytes has a value not allowed: the
//!   offset is that of the kind 4 record.
//! - The whole plane is tested before the lookup: a wrong record anywhere is
//!   cause 10, also where this identifier would not need it.

use crate::answer::*;
use crate::bucket::{parity, BOUND_MAX, PLAN_BITS};
use crate::identifier::{self, level1_vector, level2_vector};
use crate::table::{self, may_be_given, Shape, BASE_COUNT, BASE_MAX, DESK_PLAN};

pub const FORMAT: u8 = 1;
pub const KIND_HEADER: u8 = 1;
pub const KIND_BUCKET: u8 = 2;
pub const KIND_BASE: u8 = 3;
pub const KIND_END: u8 = 4;
pub const END: [u8; 4] = [0x45, 0x4e, 0x44, 0x0a];

/// Record lengths, kind byte included.
pub const HEADER_LEN: usize = 1 + 4;
pub const BUCKET_LEN: usize = 1 + 1 + 8 * PLAN_BITS;
pub const BASE_LEN: usize = 1 + 8 + 1;
pub const END_LEN: usize = 1 + END.len();

/// The length of a plane.
pub fn plane_len(buckets: usize, entries: usize) -> usize {
    HEADER_LEN + BUCKET_LEN * buckets + BASE_LEN * entries + END_LEN
}

/// Writes the plane of a table to the output and returns its length; causes
/// 4, 5 and 9.
pub fn write(table: &[u64], output: &mut [u8]) -> Answer {
    let shape = match table::check(table) {
        Ok(shape) => shape,
        Err(refusal) => return refusal,
    };
    put(&plane_of(table, shape), output).into()
}

/// Writes the bytes to the front of the output and returns their length;
/// cause 9.
pub(crate) fn put(bytes: &[u8], output: &mut [u8]) -> Result<u64, Answer> {
    let length = bytes.len() as u64;
    match output.get_mut(..bytes.len()) {
        Some(front) => {
            front.copy_from_slice(bytes);
            Ok(length)
        }
        None => Err(Answer::refused(OUTPUT_SHORT, length)),
    }
}

/// The plane of a sound table.
pub fn plane_of(table: &[u64], shape: Shape) -> Vec<u8> {
    let entries = table[BASE_COUNT] as usize;
    let mut plane = Vec::with_capacity(plane_len(shape.buckets(), entries));
    plane.extend(header(shape, entries));
    for index in 0..shape.buckets() {
        let bucket = shape.read_bucket(table, index);
        plane.extend([KIND_BUCKET, bucket.bound as u8]);
        for sol in bucket.sols {
            plane.extend(sol.to_le_bytes());
        }
    }
    for index in 0..entries {
        let (vector, plan) = shape.base_pair(table, index);
        push_entry(&mut plane, KIND_BASE, (vector, plan as u8));
    }
    push_end(&mut plane);
    plane
}

/// The header record.
pub(crate) fn header(shape: Shape, entries: usize) -> [u8; HEADER_LEN] {
    [
        KIND_HEADER,
        FORMAT,
        shape.buckets1 as u8,
        shape.buckets2 as u8,
        entries as u8,
    ]
}

/// Appends a record of this kind for a base entry, (w', plan).
pub(crate) fn push_entry(bytes: &mut Vec<u8>, kind: u8, (vector, plan): (u64, u8)) {
    bytes.push(kind);
    bytes.extend(vector.to_le_bytes());
    bytes.push(plan);
}

/// Appends the record that closes.
pub(crate) fn push_end(bytes: &mut Vec<u8>) {
    bytes.push(KIND_END);
    bytes.extend(END);
}

/// The plan the plane gives for an identifier; causes 15, 1, 2 and 10.
pub fn lookup(kind: u8, id: &[u8], plane: &[u8]) -> Answer {
    let word = match identifier::word(kind, id) {
        Ok(word) => word,
        Err(refusal) => return refusal,
    };
    lookup_word(word, plane)
}

/// `lookup` from the word on: cause 10.
pub fn lookup_word(word: u64, plane: &[u8]) -> Answer {
    match Plane::read(plane) {
        Ok(plane) => Answer::accepted(u64::from(plane.plan(word))),
        Err(offset) => Answer::refused(PLANE_WRONG, offset as u64),
    }
}

/// A plane found right: its records, kind bytes included.
#[derive(Clone, Copy, Debug)]
pub struct Plane<'a> {
    pub shape: Shape,
    buckets: &'a [u8],
    base: &'a [u8],
}

impl<'a> Plane<'a> {
    /// Tests a plane; the error is the offset that cause 10 returns.
    pub fn read(bytes: &'a [u8]) -> Result<Plane<'a>, usize> {
        let header = record(bytes, 0, KIND_HEADER, HEADER_LEN)?;
        let shape = Shape::new(u64::from(header[2]), u64::from(header[3])).ok_or(0usize)?;
        let entries = usize::from(header[4]);
        if header[1] != FORMAT || entries > BASE_MAX {
            return Err(0);
        }

        let buckets_start = HEADER_LEN;
        let mut at = buckets_start;
        for _ in 0..shape.buckets() {
            let bucket = record(bytes, at, KIND_BUCKET, BUCKET_LEN)?;
            if u64::from(bucket[1]) > BOUND_MAX {
                return Err(at);
            }
            at += BUCKET_LEN;
        }

        let base_start = at;
        let mut before = None;
        for _ in 0..entries {
            let (vector, plan) = entry(record(bytes, at, KIND_BASE, BASE_LEN)?);
            if before.is_some_and(|before| vector <= before) || !may_be_given(plan) {
                return Err(at);
            }
            before = Some(vector);
            at += BASE_LEN;
        }

        check_end(bytes, at)?;
        Ok(Plane {
            shape,
            buckets: &bytes[buckets_start..base_start],
            base: &bytes[base_start..at],
        })
    }

    /// The plan of a word: by the first level that holds it, else by the base
    /// list, else the desk's.
    pub fn plan(&self, word: u64) -> u8 {
        let vector = level1_vector(word);
        let place = identifier::place(vector);
        let bucket = self.bucket(identifier::bucket(place, self.shape.buckets1));
        if identifier::threshold(place) < u64::from(bucket[1]) {
            return solve(bucket, vector);
        }
        let vector = level2_vector(word);
        let place = identifier::place(vector);
        let index = identifier::bucket(place, self.shape.buckets2);
        let bucket = self.bucket(self.shape.buckets1 + index);
        if identifier::threshold(place) < u64::from(bucket[1]) {
            return solve(bucket, vector);
        }
        self.base
            .chunks_exact(BASE_LEN)
            .find(|entry| number(&entry[1..]) == vector)
            .map_or(DESK_PLAN, |entry| entry[BASE_LEN - 1])
    }

    fn bucket(&self, index: u64) -> &'a [u8] {
        &self.buckets[BUCKET_LEN * index as usize..][..BUCKET_LEN]
    }

    /// The bucket records one after the other, level 1 first.
    pub fn buckets(&self) -> &'a [u8] {
        self.buckets
    }

    /// The base entries, (w', plan), ascending by w'.
    pub fn entries(&self) -> impl Iterator<Item = (u64, u8)> + 'a {
        self.base.chunks_exact(BASE_LEN).map(entry)
    }
}

/// The record of this kind and length at this offset; the error is the offset.
pub(crate) fn record(bytes: &[u8], at: usize, kind: u8, len: usize) -> Result<&[u8], usize> {
    match bytes.get(at..at + len) {
        Some(record) if record[0] == kind => Ok(record),
        _ => Err(at),
    }
}

/// The record that closes stands at this offset and nothing follows; the error
/// is the offset of what is wrong.
pub(crate) fn check_end(bytes: &[u8], at: usize) -> Result<(), usize> {
    if record(bytes, at, KIND_END, END_LEN)?[1..] != END {
        return Err(at);
    }
    if bytes.len() > at + END_LEN {
        return Err(at + END_LEN);
    }
    Ok(())
}

/// The base entry in a record, (w', plan).
pub(crate) fn entry(record: &[u8]) -> (u64, u8) {
    (number(&record[1..]), record[BASE_LEN - 1])
}

/// The little-endian number in the first 8 bytes.
pub(crate) fn number(bytes: &[u8]) -> u64 {
    let mut first = [0; 8];
    first.copy_from_slice(&bytes[..8]);
    u64::from_le_bytes(first)
}

/// The plan the solution words of a bucket record give for a vector.
fn solve(bucket: &[u8], vector: u64) -> u8 {
    let mut plan = 0;
    for (c, sol) in bucket[2..].chunks_exact(8).enumerate() {
        plan |= (parity(vector & number(sol)) as u8) << c;
    }
    plan
}

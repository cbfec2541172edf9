//! Identifier, word and place (document 01, "Identifier, word, place"; document
//! 02, order 4).
//!
//! Decisions:
//! - An identifier is its kind and its bytes. Cause 15 comes before cause 1: a
//!   kind out of range is answered with 0, whatever the bytes are.
//! - Cause 1 comes before cause 2: a length of 0 or over 36 is answered with
//!   the length, whatever the bytes are.
//! - The kind is hashed as a byte of that value, 1 to 7, before the bytes. It is
//!   not folded.
//! - Both levels use one rule for a place: the place of a vector is S(vector).
//!   At level 1 the vector is w, at level 2 it is w' = S(S(w)).
//! - "letters" are the 52 ASCII letters, "digits" the ten ASCII digits.

use crate::answer::{Answer, BYTE_NOT_ALLOWED, IDENTIFIER_LENGTH, KIND_WRONG};
use std::ops::RangeInclusive;

/// The kinds: Central, eMAID, ISO14443, ISO15693, KeyCode, Local, MacAddress.
pub const KINDS: RangeInclusive<u8> = 1..=7;

/// The greatest length of an identifier, in bytes.
pub const MAX_LEN: usize = 36;

/// Number of thresholds: a place gives a threshold below this.
pub const THRESHOLDS: u64 = 8;

/// For each byte value: the folded byte, or 0 if the byte is not allowed.
/// (No allowed byte folds to 0.)
pub const FOLDED: [u8; 256] = folded_table();

const fn folded_table() -> [u8; 256] {
    let mut table = [0; 256];
    let mut value = 0;
    while value < 256 {
        let byte = value as u8;
        table[value] = match byte {
            b'a'..=b'z' => byte - b'a' + b'A',
            b'A'..=b'Z' | b'0'..=b'9' => byte,
            b'*' | b'-' | b'_' | b'=' | b':' | b'+' | b'|' | b'@' | b'.' => byte,
            _ => 0,
        };
        value += 1;
    }
    table
}

/// The folded byte, or nothing if the byte is not allowed.
pub fn fold(byte: u8) -> Option<u8> {
    match FOLDED[byte as usize] {
        0 => None,
        folded => Some(folded),
    }
}

/// Checks any kind and bytes: cause 15, cause 1 with the length, cause 2 with
/// the index of the first byte not allowed.
pub fn check(kind: u8, bytes: &[u8]) -> Result<(), Answer> {
    if !KINDS.contains(&kind) {
        return Err(Answer::refused(KIND_WRONG, 0));
    }
    if bytes.is_empty() || bytes.len() > MAX_LEN {
        return Err(Answer::refused(IDENTIFIER_LENGTH, bytes.len() as u64));
    }
    match bytes.iter().position(|&byte| fold(byte).is_none()) {
        Some(index) => Err(Answer::refused(BYTE_NOT_ALLOWED, index as u64)),
        None => Ok(()),
    }
}

const FNV_START: u64 = 0xcbf2_9ce4_8422_2325;
const FNV_PRIME: u64 = 0x0000_0100_0000_01b3;

fn fnv_step(hash: u64, byte: u8) -> u64 {
    (hash ^ u64::from(byte)).wrapping_mul(FNV_PRIME)
}

/// FNV-1a 64 of the bytes as they are.
pub fn fnv1a64(bytes: &[u8]) -> u64 {
    bytes
        .iter()
        .fold(FNV_START, |hash, &byte| fnv_step(hash, byte))
}

const GAMMA: u64 = 0x9e37_79b9_7f4a_7c15;
const MULTIPLIER_1: u64 = 0xbf58_476d_1ce4_e5b9;
const MULTIPLIER_2: u64 = 0x94d0_49bb_1331_11eb;
const INVERSE_1: u64 = odd_inverse(MULTIPLIER_1);
const INVERSE_2: u64 = odd_inverse(MULTIPLIER_2);

/// The inverse of an odd number modulo 2^64. Newton's step doubles the number
/// of right low bits; n itself is right to 3 bits, so five steps give 96.
const fn odd_inverse(n: u64) -> u64 {
    let mut inverse = n;
    let mut step = 0;
    while step < 5 {
        inverse = inverse.wrapping_mul(2u64.wrapping_sub(n.wrapping_mul(inverse)));
        step += 1;
    }
    inverse
}

/// S, the output step of SplitMix64.
pub fn s(n: u64) -> u64 {
    let z = n.wrapping_add(GAMMA);
    let z = (z ^ (z >> 30)).wrapping_mul(MULTIPLIER_1);
    let z = (z ^ (z >> 27)).wrapping_mul(MULTIPLIER_2);
    z ^ (z >> 31)
}

/// The inverse of S.
pub fn s_inverse(n: u64) -> u64 {
    let z = unshift(n, 31).wrapping_mul(INVERSE_2);
    let z = unshift(z, 27).wrapping_mul(INVERSE_1);
    unshift(z, 30).wrapping_sub(GAMMA)
}

/// The z with z XOR (z >> shift) = y, for shifts of at least 22.
fn unshift(y: u64, shift: u32) -> u64 {
    y ^ (y >> shift) ^ (y >> (2 * shift))
}

/// The word of an identifier, or its refusal.
pub fn word(kind: u8, bytes: &[u8]) -> Result<u64, Answer> {
    check(kind, bytes)?;
    let hash = bytes.iter().fold(fnv_step(FNV_START, kind), |hash, &byte| {
        fnv_step(hash, FOLDED[byte as usize])
    });
    Ok(s(hash))
}

/// The vector of a word at level 1: the word itself.
pub fn level1_vector(word: u64) -> u64 {
    word
}

/// The vector of a word at level 2 and its name in the base list: w' = S(S(w)).
pub fn level2_vector(word: u64) -> u64 {
    s(s(word))
}

/// The word whose level 2 vector this is.
pub fn word_of_level2(vector: u64) -> u64 {
    s_inverse(s_inverse(vector))
}

/// The place of a vector, of either level.
pub fn place(vector: u64) -> u64 {
    s(vector)
}

/// The threshold a place gives, 0 to 7.
pub fn threshold(place: u64) -> u64 {
    place % THRESHOLDS
}

/// The bucket a place gives, of `buckets` buckets of that level.
pub fn bucket(place: u64, buckets: u64) -> u64 {
    (place / THRESHOLDS) % buckets
}

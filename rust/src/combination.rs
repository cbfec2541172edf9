//! What a bucket answers to any vector (document 02, order 6): the XOR of the
//! plans of the live vectors in its combination of K's rows. For the tests and
//! the comparison, so without the columns and the solutions: of a table only
//! bounds and marks are read, and the live words and their plans are those of
//! the calls.

use crate::bucket::WIDTH;
use crate::table::{vector_at, Shape};
use std::collections::BTreeMap;

/// Which of the live vectors are in the combination of K's rows that XORs to
/// the vector. K's rows are the live vectors and, for each row that is not in
/// the mark, its unit vector.
pub fn of(live: &[u64], mark: u64, vector: u64) -> Vec<usize> {
    let free = (0..WIDTH).filter(|j| mark >> j & 1 == 0);
    let rows = live.iter().copied().chain(free.map(|j| 1 << j));
    // Plain elimination, of the vector too; beside each word the rows that were
    // XORed into it.
    let mut rows: Vec<(u64, u64)> = rows.enumerate().map(|(i, row)| (row, 1 << i)).collect();
    let mut left = (vector, 0);
    assert_eq!(rows.len(), WIDTH, "as many live vectors as occupied rows");
    for bit in 0..WIDTH {
        let pivot = (bit..WIDTH).find(|&r| rows[r].0 >> bit & 1 == 1);
        rows.swap(bit, pivot.expect("K's rows are independent"));
        let (row, of) = rows[bit];
        for other in rows[bit + 1..].iter_mut().chain([&mut left]) {
            if other.0 >> bit & 1 == 1 {
                other.0 ^= row;
                other.1 ^= of;
            }
        }
    }
    // Nothing is left of the vector: these rows XOR to it.
    (0..live.len()).filter(|i| left.1 >> i & 1 == 1).collect()
}

/// The live words in a word's combination, given the live words' plans; nothing
/// if no bucket holds the word.
pub fn words(
    shape: Shape,
    table: &[u64],
    plans: &BTreeMap<u64, u8>,
    word: u64,
) -> Option<Vec<u64>> {
    let spot = shape.spot(table, word);
    let index = shape.bucket_index(spot)?;
    let mark = shape.read_bucket(table, index).mark;
    let held = |word: &u64| shape.spot(table, *word) == spot;
    let live: Vec<u64> = plans.keys().copied().filter(held).collect();
    let vectors: Vec<u64> = live.iter().map(|&word| vector_at(spot, word)).collect();
    let combined = of(&vectors, mark, vector_at(spot, word));
    Some(combined.into_iter().map(|i| live[i]).collect())
}

/// The XOR of the plans of these words.
pub fn plan(plans: &BTreeMap<u64, u8>, words: &[u64]) -> u8 {
    words.iter().fold(0, |plan, word| plan ^ plans[word])
}

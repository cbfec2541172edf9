//! The steps by a product against the steps by a vector, as document 01 has
//! them, written out here; on buckets of histories and on any other columns.

use super::*;
use crate::rng::Rng;

/// Column `row` XORed into each column a for which (v AND column a) has odd
/// parity.
fn stepped_by_vector(cols: [u64; WIDTH], v: u64, row: usize) -> [u64; WIDTH] {
    cols.map(|col| {
        let odd = (v & col).count_ones() % 2 == 1;
        col ^ if odd { cols[row] } else { 0 }
    })
}

/// `k` in row `row` by a step by its vector, with its plan.
fn added_by_vector(bucket: &Bucket, k: u64, plan: u8, row: usize) -> Bucket {
    let mut added = bucket.clone();
    added.cols = stepped_by_vector(bucket.cols, k ^ 1 << row, row);
    added.mark |= 1 << row;
    let differing = bucket.lookup(k) ^ plan;
    for c in (0..PLAN_BITS).filter(|c| differing >> c & 1 == 1) {
        added.sols[c] ^= added.cols[row];
    }
    added
}

/// `k` of row `row` taken out: the step by a vector, then the exchange, then the
/// plan bits of the freed row, as they were, XORed away along its column.
fn withdrawn_by_vector(bucket: &Bucket, k: u64, row: usize) -> Bucket {
    let mut withdrawn = bucket.clone();
    let lowest = bucket.cols[row].trailing_zeros() as usize;
    withdrawn.cols = stepped_by_vector(bucket.cols, k ^ 1 << lowest, row);
    withdrawn.cols.swap(row, lowest);
    withdrawn.mark &= !(1 << lowest);
    let bits = bucket.lookup(1 << lowest);
    for c in (0..PLAN_BITS).filter(|c| bits >> c & 1 == 1) {
        withdrawn.sols[c] ^= withdrawn.cols[lowest];
    }
    withdrawn
}

/// A vector: any, thin, or of few bits.
fn some_vector(rng: &mut Rng) -> u64 {
    match rng.below(4) {
        0 => 1 << rng.below(64) | 1 << rng.below(64),
        1 => rng.below(256),
        _ => rng.next(),
    }
}

/// A bucket of a history of adds and withdrawals, of any length; some with thin
/// vectors alone.
fn sound_bucket(rng: &mut Rng) -> Bucket {
    let mut bucket = Bucket::empty();
    let mut added = Vec::new();
    let thin = rng.one_in(4);
    for _ in 0..rng.below(120) {
        let k = if thin {
            1 << rng.below(64) | 1 << rng.below(64)
        } else {
            some_vector(rng)
        };
        if bucket.add(k, rng.byte()).is_some() {
            added.push(k);
        }
        if !added.is_empty() && rng.one_in(4) {
            let k = added.swap_remove(rng.below(added.len() as u64) as usize);
            assert!(bucket.withdraw(k).is_some());
        }
    }
    bucket
}

/// Any numbers as a bucket: mostly not sound, often not invertible.
fn any_bucket(rng: &mut Rng) -> Bucket {
    let mut bucket = sound_bucket(rng);
    bucket.mark = rng.next();
    bucket.sols = std::array::from_fn(|_| rng.next());
    match rng.below(3) {
        0 => bucket.cols = std::array::from_fn(|_| rng.next()),
        1 => bucket.cols = std::array::from_fn(|_| some_vector(rng)),
        _ => bucket.cols[rng.below(64) as usize] = some_vector(rng),
    }
    bucket
}

/// Buckets of histories and any others.
fn buckets(seed: u64, count: u32) -> impl Iterator<Item = (Bucket, Rng)> {
    let mut rng = Rng::new(seed);
    (0..count).map(move |i| {
        let bucket = if i % 2 == 0 {
            sound_bucket(&mut rng)
        } else {
            any_bucket(&mut rng)
        };
        (bucket, Rng::new(rng.next()))
    })
}

#[test]
fn the_product_tells_each_parity() {
    for (bucket, mut rng) in buckets(51, 300) {
        let k = some_vector(&mut rng);
        let product = bucket.product(k);
        for i in 0..WIDTH {
            let v = k ^ 1 << i;
            for (a, col) in bucket.cols.iter().enumerate() {
                let told = product >> a & 1 ^ col >> i & 1;
                assert_eq!(told, parity(v & col));
            }
        }
    }
}

#[test]
fn column_steps_equal_those_by_vector() {
    for (bucket, mut rng) in buckets(52, 1000) {
        let k = some_vector(&mut rng);
        let product = bucket.product(k);
        for row in 0..WIDTH {
            let mut stepped = bucket.clone();
            stepped.column_step(row, product);
            let cols = stepped_by_vector(bucket.cols, k ^ 1 << row, row);
            assert_eq!(stepped, Bucket { cols, ..bucket });
        }
    }
}

#[test]
fn adds_equal_those_by_vector() {
    // Added to each row, and dependent.
    let mut seen = [0; WIDTH + 1];
    for (bucket, mut rng) in buckets(53, 3000) {
        for _ in 0..20 {
            let (k, plan) = (some_vector(&mut rng), rng.byte());
            let row = (0..WIDTH).find(|&i| {
                let odd = (k & bucket.cols[i]).count_ones() % 2 == 1;
                odd && bucket.mark >> i & 1 == 0
            });
            let mut added = bucket.clone();
            assert_eq!(added.add(k, plan), row);
            match row {
                Some(row) => assert_eq!(added, added_by_vector(&bucket, k, plan, row)),
                None => assert_eq!(added, bucket),
            }
            seen[row.unwrap_or(WIDTH)] += 1;
        }
    }
    assert!(seen.iter().all(|&times| times > 0), "{seen:?}");
}

#[test]
fn withdrawals_equal_those_by_vector() {
    // From each row, and to each row; the freed row clear already, and not.
    let (mut from, mut to) = ([0; WIDTH], [0; WIDTH]);
    let mut exchanged = 0;
    let mut cleared = [0; 2];
    for (bucket, _) in buckets(54, 2000) {
        let Some(rows) = bucket.rows() else {
            continue;
        };
        for (row, &k) in rows.iter().enumerate() {
            let mut withdrawn = bucket.clone();
            let plan = withdrawn.withdraw(k);
            if bucket.mark >> row & 1 == 0 {
                assert_eq!((plan, withdrawn), (None, bucket.clone()));
                continue;
            }
            assert_eq!(plan, Some(bucket.lookup(k)));
            assert_eq!(withdrawn, withdrawn_by_vector(&bucket, k, row));
            let lowest = bucket.cols[row].trailing_zeros() as usize;
            from[row] += 1;
            to[lowest] += 1;
            exchanged += u32::from(row != lowest);
            cleared[usize::from(bucket.lookup(1 << lowest) != 0)] += 1;
            // Of sound buckets every free row is clear, before and after.
            assert!(withdrawn.is_clear() || !bucket.is_clear());
        }
    }
    let each = |times: &[u32]| times.iter().all(|&times| times > 0);
    assert!(each(&from) && each(&to) && exchanged > 0 && each(&cleared));
}

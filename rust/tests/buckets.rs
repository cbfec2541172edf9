//! Random bucket histories, whole buckets compared with the slow model.

use crate::oracle::{self, SlowBucket};
use reference::bucket::{parity, Bucket};
use reference::rng::Rng;

#[test]
fn parity_counts_ones() {
    let mut rng = Rng::new(3);
    for _ in 0..10_000 {
        let x = rng.next() & rng.next();
        let ones = (0..64).filter(|&i| x >> i & 1 == 1).count() as u64;
        assert_eq!(parity(x), ones % 2);
    }
}

/// A vector of the kind a round is about: few bits, any bits, or thin.
fn random_vector(rng: &mut Rng, kind: u64) -> u64 {
    match kind {
        0 => rng.below(16),
        1 => rng.next() & 0xf0f0,
        2 => rng.next(),
        3 => 1 << rng.below(64),
        _ => 1 << rng.below(64) | 1 << rng.below(64),
    }
}

#[test]
fn histories_equal_the_slow_bucket() {
    let mut rng = Rng::new(4);
    for round in 0..15 {
        let kind = round % 5;
        let mut slow = SlowBucket::empty();
        let mut fast = Bucket::empty();
        for _ in 0..150 {
            let k = if rng.one_in(3) && !slow.live().is_empty() {
                *rng.pick(&slow.live())
            } else {
                random_vector(&mut rng, kind)
            };
            let plan = rng.byte();
            let row = slow.row(k);
            assert_eq!(fast.live(k), row);
            assert_eq!(fast.lookup(k), slow.lookup(k));
            match (row, rng.below(3)) {
                (None, _) => {
                    let before = fast.clone();
                    assert_eq!(fast.change(k, plan), None);
                    assert_eq!(fast.withdraw(k), None);
                    assert_eq!(fast, before);
                    let mut live = slow.live();
                    live.push(k);
                    let free = oracle::independent(&live);
                    assert_eq!(slow.add(k, plan), free);
                    assert_eq!(fast.add(k, plan), slow.row(k));
                    assert!(free || fast == before);
                }
                (Some(_), 0) => {
                    let before = fast.clone();
                    assert_eq!(fast.add(k, plan), None);
                    assert_eq!(fast, before);
                }
                (Some(i), 1) => {
                    assert_eq!(fast.change(k, plan), Some(slow.lookup(k)));
                    slow.set_plan(i, plan);
                }
                (Some(_), _) => {
                    assert_eq!(fast.withdraw(k), Some(slow.lookup(k)));
                    slow.withdraw(k);
                }
            }
            assert_eq!(fast, slow.as_bucket());
            assert_eq!(fast.rows().unwrap().to_vec(), slow.rows);
            assert_eq!(fast.live_vectors(), slow.live());
        }
    }
}

#[test]
fn settle_equals_the_slow_bucket() {
    let mut rng = Rng::new(5);
    let mut fallen = [0; 9];
    for round in 0..60 {
        let kind = round % 5;
        let salt = rng.next();
        // A random threshold for each vector, so that any orders come up.
        let threshold = move |v: u64| oracle::mix(v ^ salt) >> 61;
        let mut slow = SlowBucket::empty();
        let mut fast = Bucket::empty();
        slow.bound = 8 - rng.below(3);
        fast.bound = slow.bound;
        let steps = if kind == 2 { 70 } else { 40 };
        for _ in 0..steps {
            let k = random_vector(&mut rng, kind);
            let plan = rng.byte();
            if slow.row(k).is_some() {
                if rng.one_in(2) {
                    assert_eq!(fast.withdraw(k), Some(slow.lookup(k)));
                    slow.withdraw(k);
                }
                continue;
            }
            let present = slow.bound;
            let expected = slow.settle(k, plan, &threshold);
            let leaving: Vec<(u64, u8)> = fast
                .settle(k, plan, threshold)
                .into_iter()
                .map(|left| (left.vector, left.plan))
                .collect();
            assert_eq!(leaving, expected);
            assert_eq!(fast, slow.as_bucket());
            fallen[(present - slow.bound) as usize] += 1;
        }
    }
    // Falls by none, one and several did come up.
    assert!(fallen[0] > 0 && fallen[1] > 0 && fallen[2..].iter().sum::<u32>() > 0);
}

#[test]
fn columns_not_invertible_have_no_rows() {
    let mut b = Bucket::empty();
    b.cols[5] = 0;
    assert_eq!(b.rows(), None);
    b.cols[5] = b.cols[6];
    assert_eq!(b.rows(), None);
    b.cols[5] = b.cols[6] ^ b.cols[63] ^ b.cols[0];
    assert_eq!(b.rows(), None);
    b.cols[5] ^= 1 << 5;
    assert!(b.rows().is_some());

    let mut rng = Rng::new(6);
    let mut invertible = 0;
    for _ in 0..2000 {
        for col in &mut b.cols {
            *col = rng.next();
        }
        let rows = b.rows();
        assert_eq!(rows.is_some(), oracle::independent(&b.cols));
        if let Some(rows) = rows {
            invertible += 1;
            for (j, &row) in rows.iter().enumerate() {
                assert_eq!(b.product(row), 1 << j);
            }
        }
    }
    // About 29 in 100 random matrices are.
    assert!((450..750).contains(&invertible), "{invertible}");
}

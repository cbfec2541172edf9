//! M1 to M11 of document 01, M6 as document 02 has it since order 6; whole
//! buckets compared.

use reference::bucket::{Bucket, Leaving};

/// The empty bucket with these columns, mark, solutions and bound instead.
fn bucket(cols: &[(usize, u64)], mark: u64, sols: &[(usize, u64)], bound: u64) -> Bucket {
    let mut bucket = Bucket::empty();
    for &(i, col) in cols {
        bucket.cols[i] = col;
    }
    for &(c, sol) in sols {
        bucket.sols[c] = sol;
    }
    bucket.mark = mark;
    bucket.bound = bound;
    bucket
}

#[test]
fn empty() {
    let empty = Bucket::empty();
    for i in 0..64 {
        assert_eq!(empty.cols[i], 1 << i);
    }
    assert_eq!((empty.mark, empty.sols, empty.bound), (0, [0; 8], 8));
}

#[test]
fn m1_to_m6() {
    let mut b = Bucket::empty();

    // M1
    assert_eq!(b.add(3, 5), Some(0));
    let m1 = bucket(&[(0, 1), (1, 3)], 1, &[(0, 1), (2, 1)], 8);
    assert_eq!(b, m1);

    // M2
    assert_eq!(b.add(1, 6), Some(1));
    let m2 = bucket(&[(0, 2), (1, 3)], 3, &[(0, 2), (1, 3), (2, 1)], 8);
    assert_eq!(b, m2);

    // M3
    assert_eq!((b.lookup(3), b.lookup(1)), (5, 6));
    assert_eq!((b.live(3), b.live(1)), (Some(0), Some(1)));
    assert_eq!(b.rows().unwrap()[..3], [3, 1, 4]);

    // M4, M5: nothing changes.
    assert_eq!(b.add(2, 77), None);
    assert_eq!(b, m2);
    assert_eq!(b.add(0, 77), None);
    assert_eq!(b, m2);

    // M6
    assert_eq!(b.withdraw(3), Some(5));
    let m6 = bucket(&[(0, 1), (1, 2)], 1, &[(1, 1), (2, 1)], 8);
    assert_eq!(b, m6);
    assert_eq!(b.sols, [0, 1, 1, 0, 0, 0, 0, 0]);
    assert_eq!(b.lookup(1), 6);
    // 3 = 1 XOR 2, and 2 is the unit vector of the freed row.
    assert_eq!((b.lookup(3), b.lookup(2)), (6, 0));
    assert_eq!(b.live(1), Some(0));
    assert_eq!(b.live(3), None);
}

#[test]
fn m7() {
    let b = Bucket::empty();
    assert_eq!(b.product(4), 4);
    assert_eq!(b.live(4), None);
}

/// The bucket of M8 to M11 and the thresholds given there.
fn settled(k: u64, threshold: u64) -> (Bucket, Vec<(u64, u8)>) {
    let thresholds = move |v| match v {
        3 => 5,
        1 => 2,
        v if v == k => threshold,
        _ => panic!("unknown vector {v}"),
    };
    let mut b = Bucket::empty();
    assert_eq!(b.settle(3, 5, thresholds), []);
    assert_eq!(b.settle(1, 6, thresholds), []);
    let leaving = b.settle(k, 9, thresholds);
    let leaving = leaving
        .into_iter()
        .map(|Leaving { vector, plan }| (vector, plan))
        .collect();
    (b, leaving)
}

#[test]
fn m8() {
    // 3 leaves, as in M6; then 2 finds row 1: K is (1, 2), the identity. The
    // lookup of 2 was 0, so column 1 goes into solutions 0 and 3: 9 is 1001.
    let (b, leaving) = settled(2, 4);
    assert_eq!(leaving, [(3, 5)]);
    let m8 = bucket(&[(0, 1), (1, 2)], 3, &[(0, 2), (1, 1), (2, 1), (3, 2)], 5);
    assert_eq!(b, m8);
    assert_eq!((b.lookup(1), b.lookup(2)), (6, 9));
}

#[test]
fn m9() {
    let (b, leaving) = settled(2, 7);
    assert_eq!(leaving, [(2, 9)]);
    let m9 = bucket(&[(0, 2), (1, 3)], 3, &[(0, 2), (1, 3), (2, 1)], 7);
    assert_eq!(b, m9);
}

#[test]
fn m10() {
    let (b, leaving) = settled(0, 4);
    assert_eq!(leaving, [(3, 5), (0, 9)]);
    let m10 = bucket(&[(0, 1), (1, 2)], 1, &[(1, 1), (2, 1)], 4);
    assert_eq!(b, m10);
}

#[test]
fn m11() {
    let (b, leaving) = settled(0, 0);
    assert_eq!(leaving, [(3, 5), (1, 6), (0, 9)]);
    let m11 = bucket(&[], 0, &[], 0);
    assert_eq!(b, m11);
}

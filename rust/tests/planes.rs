//! The plane reader on damaged planes.

use crate::oracle::{self, ExactTable};
use reference::answer::Answer;
use reference::plane;
use reference::rng::Rng;

fn refused(cause: u64, value: u64) -> Answer {
    Answer { cause, value }
}

/// A plane of one and two buckets with some base entries.
fn some_plane(rng: &mut Rng) -> Vec<u8> {
    let mut exact = ExactTable::open(1, 2);
    exact.level1[0].bound = 5;
    exact.level2[0].bound = 5;
    exact.level2[1].bound = 3;
    for _ in 0..50 {
        exact.add(rng.next(), oracle::random_plan(rng));
    }
    assert!(exact.base.len() > 2);
    let mut plane = vec![0; 10 + 66 * 3 + 10 * exact.base.len()];
    let answer = plane::write(&exact.numbers(), &mut plane);
    assert_eq!(answer, refused(0, plane.len() as u64));
    plane
}

/// The library's offset against the slow reader's, and cause 10 with it.
fn compare(bytes: &[u8]) -> Option<usize> {
    let expected = oracle::wrong_offset(bytes);
    let answer = plane::lookup(2, b"Bus-17", bytes);
    match expected {
        Some(offset) => assert_eq!(answer, refused(10, offset as u64)),
        None => assert!(answer.is_accepted() && answer.value < 256),
    }
    expected
}

#[test]
fn cut_anywhere_and_longer() {
    let plane = some_plane(&mut Rng::new(15));
    for len in 0..plane.len() {
        let offset = compare(&plane[..len]).unwrap();
        let starts = (0..3)
            .map(|i| 5 + 66 * i)
            .chain([0])
            .chain(203..plane.len());
        assert!(offset <= len && starts.into_iter().any(|s| s == offset));
    }
    assert_eq!(compare(&plane), None);
    let mut longer = plane.clone();
    longer.push(0);
    assert_eq!(compare(&longer), Some(plane.len()));
    longer.extend(&plane);
    assert_eq!(compare(&longer), Some(plane.len()));
    // Cut exactly between records: the missing one begins at the end.
    assert_eq!(compare(&plane[..0]), Some(0));
    assert_eq!(compare(&plane[..5]), Some(5));
    assert_eq!(compare(&plane[..71]), Some(71));
    assert_eq!(compare(&plane[..70]), Some(5));
    assert_eq!(compare(&plane[..plane.len() - 1]), Some(plane.len() - 5));
    assert_eq!(compare(&plane[..plane.len() - 5]), Some(plane.len() - 5));
}

#[test]
fn each_byte_changed() {
    let mut rng = Rng::new(16);
    let plane = some_plane(&mut rng);
    for at in 0..plane.len() {
        for value in [0, 1, 2, 8, 9, 48, 49, 65, 255, plane[at] ^ 1, rng.byte()] {
            let mut other = plane.clone();
            other[at] = value;
            compare(&other);
        }
    }
    // Kind bytes and single values by hand.
    let wrong = |at: usize, value: u8, offset: usize| {
        let mut other = plane.clone();
        other[at] = value;
        assert_eq!(compare(&other), Some(offset), "byte {at} = {value}");
    };
    wrong(0, 2, 0);
    wrong(1, 2, 0);
    wrong(1, 0, 0);
    wrong(2, 0, 0);
    wrong(2, 49, 0);
    wrong(3, 0, 0);
    wrong(3, 33, 0);
    wrong(4, 65, 0);
    wrong(5, 3, 5);
    wrong(6, 9, 5);
    wrong(71, 1, 71);
    wrong(72, 255, 71);
    wrong(203, 4, 203);
    let end = plane.len() - 5;
    wrong(end, 3, end);
    for i in 1..5 {
        wrong(end + i, b'x', end);
    }
    // One entry more or less said than there are.
    wrong(4, plane[4] + 1, end);
    wrong(4, plane[4] - 1, end - 10);
}

#[test]
fn base_records_must_ascend() {
    let plane = some_plane(&mut Rng::new(17));
    let (first, second) = (203, 213);
    let mut equal = plane.clone();
    equal.copy_within(first..first + 9, second);
    equal[second + 9] = 254;
    equal[first + 9] = 0;
    assert_eq!(compare(&equal), Some(second));
    let mut exchanged = plane.clone();
    exchanged.copy_within(second..second + 10, first);
    exchanged[second..second + 10].copy_from_slice(&plane[first..first + 10]);
    assert_eq!(compare(&exchanged), Some(second));
    // w' = 0 in the first one is allowed; in the second it is not.
    let mut zero = plane.clone();
    zero[first + 1..first + 9].fill(0);
    assert_eq!(compare(&zero), None);
    zero[second + 1..second + 9].fill(0);
    assert_eq!(compare(&zero), Some(second));
}

#[test]
fn identifier_comes_first() {
    assert_eq!(plane::lookup(0, b"", b""), refused(15, 0));
    assert_eq!(plane::lookup(8, b"ab", b""), refused(15, 0));
    assert_eq!(plane::lookup(2, b"", b""), refused(1, 0));
    assert_eq!(plane::lookup(2, &[b'x'; 37], b""), refused(1, 37));
    assert_eq!(plane::lookup(2, b"ab/", b""), refused(2, 2));
    assert_eq!(plane::lookup(2, b"ab", b""), refused(10, 0));
}

#[test]
fn random_bytes() {
    let mut rng = Rng::new(18);
    let plane = some_plane(&mut rng);
    let mut right = 0;
    for _ in 0..3000 {
        let mut other = plane.clone();
        for _ in 0..rng.below(3) {
            let at = rng.below(other.len() as u64) as usize;
            other[at] = rng.byte();
        }
        if rng.one_in(5) {
            other.truncate(rng.below(other.len() as u64 + 1) as usize);
        }
        if rng.one_in(5) {
            let len = rng.below(3) as usize;
            other.extend(rng.bytes(len));
        }
        right += u32::from(compare(&other).is_none());
    }
    assert!(right > 500 && right < 2500, "{right}");
    for len in 0..300 {
        compare(&rng.bytes(len));
    }
}

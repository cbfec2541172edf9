//! The edges of document 01.

use crate::oracle::{self, ExactTable};
use reference::answer::Answer;
use reference::plane;
use reference::rng::Rng;
use reference::table;

fn accepted(value: u64) -> Answer {
    Answer { cause: 0, value }
}

fn refused(cause: u64, value: u64) -> Answer {
    Answer { cause, value }
}

#[test]
fn identifiers_of_36_and_37_bytes() {
    let mut table = ExactTable::open(1, 1).numbers();
    let opened = table.clone();
    assert_eq!(table::add(&mut table, 2, &[b'a'; 37], 3), refused(1, 37));
    assert_eq!(table::add(&mut table, 2, b"", 3), refused(1, 0));
    assert_eq!(table, opened);
    assert_eq!(table::add(&mut table, 2, &[b'a'; 36], 3), accepted(1));
    assert_eq!(table::query(&table, 2, &[b'A'; 36]), accepted(3));
    assert_eq!(table::query(&table, 2, &[b'A'; 37]), refused(1, 37));
}

#[test]
fn openings() {
    let mut table = vec![77; 4 + 256 + 74 * 80 + 128];
    assert_eq!(table.len(), 6308);
    for (b1, b2) in [
        (0, 1),
        (1, 0),
        (0, 0),
        (49, 32),
        (48, 33),
        (u64::MAX, 1),
        (1, u64::MAX),
    ] {
        assert_eq!(table::open(&mut table, b1, b2), refused(3, 0));
        // Also before the length is looked at.
        assert_eq!(table::open(&mut [], b1, b2), refused(3, 0));
    }
    for (b1, b2) in [(47, 32), (48, 31), (1, 1)] {
        assert_eq!(table::open(&mut table, b1, b2), refused(4, 6308));
    }
    assert_eq!(table::open(&mut [], 1, 1), refused(4, 0));
    assert!(table.iter().all(|&n| n == 77));
    assert_eq!(table::open(&mut table, 48, 32), accepted(0));
    assert_eq!(table, ExactTable::open(48, 32).numbers());

    let mut small = vec![u64::MAX; 536];
    assert_eq!(table::open(&mut small[..535], 1, 1), refused(4, 535));
    assert_eq!(table::open(&mut small, 1, 1), accepted(0));
    assert_eq!(small, ExactTable::open(1, 1).numbers());
    // The same length by other numbers of buckets.
    let mut other = vec![5; 4 + 256 + 74 * 3 + 128];
    assert_eq!(table::open(&mut other, 1, 2), accepted(0));
    assert_eq!(other, ExactTable::open(1, 2).numbers());
    assert_eq!(table::open(&mut other, 2, 1), accepted(0));
    assert_eq!(other, ExactTable::open(2, 1).numbers());
}

#[test]
fn output_of_142_and_141_bytes() {
    let table = ExactTable::open(1, 1).numbers();
    let mut output = [0x55; 142];
    assert_eq!(plane::write(&table, &mut output[..141]), refused(9, 142));
    assert_eq!(plane::write(&table, &mut []), refused(9, 142));
    assert_eq!(output, [0x55; 142]);
    assert_eq!(plane::write(&table, &mut output), accepted(142));
    let mut expected = vec![1, 1, 1, 1, 0];
    for _ in 0..2 {
        expected.extend([2, 8]);
        expected.extend([0; 64]);
    }
    expected.extend([4, 0x45, 0x4e, 0x44, 0x0a]);
    assert_eq!(output[..], expected[..]);
}

#[test]
fn base_entries_64_and_65_under_bounds_0() {
    let mut exact = ExactTable::open(1, 1);
    exact.level1[0].bound = 0;
    exact.level2[0].bound = 0;
    let mut table = exact.numbers();
    for i in 1..=64 {
        let id = format!("card-{i}");
        let answer = table::add(&mut table, 6, id.as_bytes(), i as u8);
        assert_eq!(answer, accepted(i));
    }
    let full = table.clone();
    assert_eq!(table::add(&mut table, 6, b"card-65", 1), refused(8, 0));
    assert_eq!(table::add(&mut table, 6, b"card-64", 1), refused(6, 64));
    assert_eq!(table, full);

    let mut output = vec![0; 10 + 132 + 640 + 1];
    assert_eq!(plane::write(&table, &mut output[..781]), refused(9, 782));
    assert_eq!(plane::write(&table, &mut output), accepted(782));
    for i in 1..=65 {
        let id = format!("CARD-{i}");
        let plan = if i == 65 { 255 } else { i };
        let answer = plane::lookup(6, id.as_bytes(), &output[..782]);
        assert_eq!(answer, accepted(plan));
    }

    assert_eq!(table::withdraw(&mut table, 6, b"card-7"), accepted(7));
    assert_eq!(table::add(&mut table, 6, b"card-65", 1), accepted(64));
    assert_eq!(table::query(&table, 6, b"Card-65"), accepted(1));
    assert_eq!(table::query(&table, 6, b"Card-7"), refused(7, 0));
}

/// From an opened table on, by adds alone, with every number compared: the
/// refused adds change nothing at all, and smaller ones still get in.
#[test]
fn base_entries_64_and_65_after_adds() {
    let mut rng = Rng::new(14);
    let mut exact = ExactTable::open(1, 1);
    let mut table = exact.numbers();
    let mut live = 0;
    let mut full = 0;
    let mut reached_64 = false;
    while full < 20 {
        let (word, plan) = (rng.next(), oracle::random_plan(&mut rng));
        let before = table.clone();
        exact.add(word, plan);
        let answer = table::add_word(&mut table, word, plan);
        assert_eq!(table, exact.numbers());
        if answer.is_accepted() {
            live += 1;
            assert_eq!(answer.value, live);
        } else {
            assert_eq!(answer, refused(8, 0));
            assert_eq!(table, before);
            full += 1;
        }
        reached_64 |= table[2] == 64;
    }
    assert!(reached_64);
}

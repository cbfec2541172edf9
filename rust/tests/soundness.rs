//! Soundness of any numbers: each rule broken alone, that of the solutions bit
//! by bit, that of the totals in totals.rs, and random damage compared with the
//! slow test.

use crate::oracle::{self, mixed, ExactTable};
use reference::answer::Answer;
use reference::rng::Rng;
use reference::table;

const ACCEPTED: Answer = Answer { cause: 0, value: 0 };
const NOT_SOUND: Answer = Answer { cause: 5, value: 0 };

fn soundness(table: &[u64]) -> Answer {
    match table::check(table) {
        Ok(_) => ACCEPTED,
        Err(refusal) => refusal,
    }
}

/// Every call that tests the table gives 5 and keeps the table and the output.
fn not_sound(table: &[u64]) {
    assert_eq!(soundness(table), NOT_SOUND);
    assert_eq!(oracle::soundness(table), NOT_SOUND);
    let mut other = table.to_vec();
    let mut output = [9; 1000];
    assert_eq!(table::add(&mut other, 2, b"x", 1), NOT_SOUND);
    assert_eq!(table::change(&mut other, 2, b"x", 1), NOT_SOUND);
    assert_eq!(table::withdraw(&mut other, 2, b"x"), NOT_SOUND);
    assert_eq!(table::query(&other, 2, b"x"), NOT_SOUND);
    assert_eq!(reference::plane::write(&other, &mut output), NOT_SOUND);
    // A total is answered all the same.
    for plan in [0, 12, 255] {
        let value = other[4 + plan as usize];
        assert_eq!(table::plan_total(&other, plan), Answer { cause: 0, value });
    }
    assert_eq!(other, table);
    assert_eq!(output, [9; 1000]);
}

fn sound(table: &[u64]) {
    assert_eq!(soundness(table), ACCEPTED);
    assert_eq!(oracle::soundness(table), ACCEPTED);
}

#[test]
fn unmix_of_the_oracle() {
    let mut rng = Rng::new(11);
    for _ in 0..200 {
        let n = rng.next();
        assert_eq!(oracle::unmix(oracle::mix(n)), n);
    }
}

#[test]
fn each_rule_alone() {
    let mut rng = Rng::new(12);
    let table = mixed(&mut rng, 2, 2);
    assert_eq!(soundness(&table), ACCEPTED);
    // 4 leading numbers and 256 totals.
    let first = 260;
    let base = first + 4 * 74;
    let count = table[2] as usize;

    // The totals are made right again: they break no rule here.
    let broken = |change: &dyn Fn(&mut Vec<u64>)| {
        let mut other = table.clone();
        change(&mut other);
        oracle::recount(&mut other);
        not_sound(&other);
        assert_eq!(
            table::add(&mut other, 2, b"", 1),
            Answer { cause: 1, value: 0 }
        );
        assert_eq!(table::query(&other, 2, b" "), Answer { cause: 2, value: 0 });
        // Opening does not mind.
        assert_eq!(table::open(&mut other, 2, 2), ACCEPTED);
        assert_eq!(other, ExactTable::open(2, 2).numbers());
    };

    // Base count over 64, also far over.
    broken(&|t| t[2] = 65);
    broken(&|t| t[2] = u64::MAX);
    // Live count.
    broken(&|t| t[3] += 1);
    broken(&|t| t[3] = u64::MAX);
    // A bound over 8, also in an empty bucket's place.
    broken(&|t| t[first + 73] = 9);
    broken(&|t| t[first + 3 * 74 + 73] = u64::MAX);
    // Columns.
    broken(&|t| t[first + 5] = 0);
    broken(&|t| t[first + 3 * 74 + 5] = t[first + 3 * 74 + 6]);
    // A free row no unit: an occupied row unmarked (live count kept right).
    broken(&|t| {
        t[first + 64] &= t[first + 64] - 1;
        t[3] -= 1;
    });
    // A free row marked: it makes e_j live, which is sound exactly if e_j is
    // held in that bucket.
    let (mut held, mut strange) = (0, 0);
    for j in (0..64).filter(|&j| table[first + 64] >> j & 1 == 0) {
        let marked = |t: &mut Vec<u64>| {
            t[first + 64] |= 1 << j;
            t[3] += 1;
        };
        let place = oracle::mix(1 << j);
        if place % 8 < 4 && (place / 8).is_multiple_of(2) {
            let mut other = table.clone();
            marked(&mut other);
            assert_eq!(soundness(&other), NOT_SOUND);
            oracle::recount(&mut other);
            assert_eq!(soundness(&other), ACCEPTED);
            assert_eq!(oracle::soundness(&other), ACCEPTED);
            held += 1;
        } else {
            broken(&marked);
            strange += 1;
        }
    }
    assert!(held > 0 && strange > 0);
    // Words not held where the tests send them.
    broken(&|t| t[first + 73] = 0);
    broken(&|t| t[first + 73] = 8);
    broken(&|t| t[first + 2 * 74 + 73] = 0);
    broken(&|t| t[first + 2 * 74 + 73] = 8);
    // Buckets of one level exchanged.
    broken(&|t| {
        for i in 0..74 {
            t.swap(first + i, first + 74 + i);
        }
    });
    // Base order and doubles.
    broken(&|t| {
        t.swap(base, base + 2);
        t.swap(base + 1, base + 3);
    });
    broken(&|t| t[base] = t[base + 2]);
    // Base plans.
    broken(&|t| t[base + 1] = 255);
    broken(&|t| t[base + 1] = 256);
    broken(&|t| t[base + 2 * count - 1] |= 1 << 63);
    // Plans of rows, of each level.
    for bucket in [0, 3] {
        let mark = table[first + 74 * bucket + 64];
        let row = mark.trailing_zeros() as usize;
        broken(&|t| *t = oracle::with_row_plan(t, bucket, row, 255));
    }
    // Unused pairs.
    broken(&|t| t[base + 2 * count] = 1);
    broken(&|t| t[base + 2 * count + 1] = 1);
    broken(&|t| t[base + 127] = 1);
    // The last entry not counted: an unused pair not 0.
    broken(&|t| {
        t[2] -= 1;
        t[3] -= 1;
    });
    // One more counted: w' = 0 does not exceed the one before.
    broken(&|t| {
        t[2] += 1;
        t[3] += 1;
    });

    // In the bits of occupied rows solutions are free, if no plan is 255 and the
    // totals agree with them.
    let mut other = table.clone();
    for c in 0..7 {
        other[first + 65 + c] = rng.next() & table[first + 64];
    }
    other[first + 65 + 7] = 0;
    not_sound(&other);
    oracle::recount(&mut other);
    sound(&other);
}

/// A bit of a solution word changed, the totals made right again. Of a free row
/// it is 5; of an occupied row it is judged by the plans alone.
#[test]
fn each_bit_of_the_solutions() {
    let mut rng = Rng::new(19);
    let (mut free, mut desk, mut others) = (0, 0, 0);
    for table in [mixed(&mut rng, 1, 1), ExactTable::open(1, 1).numbers()] {
        sound(&table);
        for first in [260, 260 + 74] {
            let mark = table[first + 64];
            for (c, row) in (0..8).flat_map(|c| (0..64).map(move |row| (c, row))) {
                let mut other = table.clone();
                other[first + 65 + c] ^= 1 << row;
                oracle::recount(&mut other);
                if mark >> row & 1 == 0 {
                    not_sound(&other);
                    free += 1;
                } else if other[4 + 255] > 0 {
                    not_sound(&other);
                    desk += 1;
                } else {
                    sound(&other);
                    others += 1;
                }
            }
        }
    }
    assert_eq!(free + desk + others, 4 * 8 * 64);
    assert!(free > 1024 && desk > 0 && others > 100);
}

/// A free row of Z made another than 0 along its column, which leaves every
/// other row's plan as it was, the totals too.
#[test]
fn each_free_row_with_a_plan() {
    let table = mixed(&mut Rng::new(20), 1, 1);
    let mut rows = [0; 2];
    for (bucket, count) in rows.iter_mut().enumerate() {
        let mark = table[260 + 74 * bucket + 64];
        for row in (0..64).filter(|row| mark >> row & 1 == 0) {
            for plan in (0..8).map(|c| 1 << c).chain([254, 255]) {
                let other = oracle::with_row_plan(&table, bucket, row, plan);
                let mut counted = other.clone();
                oracle::recount(&mut counted);
                assert_eq!(counted, other);
                not_sound(&other);
            }
            let other = oracle::with_row_plan(&table, bucket, row, 0);
            assert_eq!(other, table);
            *count += 1;
        }
    }
    assert!(rows.iter().all(|&count| count > 20), "{rows:?}");
}

/// After every call of a history the solution words have no bit of a free row.
#[test]
fn histories_leave_free_rows_clear() {
    let mut rng = Rng::new(21);
    let (mut withdrawn, mut fallen) = (0, 0);
    for round in 0..40 {
        let (b1, b2) = [(1, 1), (1, 2), (2, 1), (3, 2)][round % 4];
        let mut table = ExactTable::open(b1, b2).numbers();
        let mut words = Vec::new();
        for _ in 0..200 {
            let word = match rng.below(4) {
                0 => rng.below(64),
                1 => oracle::unsecond(rng.below(64)),
                2 if !words.is_empty() => *rng.pick(&words),
                _ => rng.next(),
            };
            words.push(word);
            let bounds = |table: &[u64]| -> u64 {
                let buckets = table[260..].chunks(74).take(b1 + b2);
                buckets.map(|bucket| bucket[73]).sum()
            };
            let before = bounds(&table);
            if rng.one_in(3) {
                withdrawn += u32::from(table::withdraw_word(&mut table, word).is_accepted());
            } else {
                table::add_word(&mut table, word, oracle::random_plan(&mut rng));
            }
            fallen += u32::from(bounds(&table) < before);
            for bucket in table[260..].chunks(74).take(b1 + b2) {
                assert!(bucket[65..73].iter().all(|word| word & !bucket[64] == 0));
            }
        }
    }
    assert!(withdrawn > 200 && fallen > 100, "{withdrawn} {fallen}");
}

#[test]
fn lengths_and_bucket_numbers() {
    let four = |table: &[u64]| {
        let expected = Answer {
            cause: 4,
            value: table.len() as u64,
        };
        assert_eq!(soundness(table), expected);
        assert_eq!(oracle::soundness(table), expected);
        let mut other = table.to_vec();
        let mut output = [9; 200];
        assert_eq!(table::add(&mut other, 2, b"x", 1), expected);
        assert_eq!(table::change(&mut other, 2, b"x", 1), expected);
        assert_eq!(table::withdraw(&mut other, 2, b"x"), expected);
        assert_eq!(table::query(&other, 2, b"x"), expected);
        assert_eq!(reference::plane::write(&other, &mut output), expected);
        for plan in 0..=255 {
            assert_eq!(table::plan_total(&other, plan), expected);
            assert_eq!(oracle::plan_total(&other, plan), expected);
        }
        assert_eq!(other, table);
        assert_eq!(output, [9; 200]);
    };
    for len in 0..4 {
        four(&vec![1; len]);
    }
    let mut table = ExactTable::open(1, 1).numbers();
    assert_eq!(soundness(&table), ACCEPTED);
    four(&table[..535]);
    four(&table[..260]);
    four(&table[..4]);
    // The length without the totals.
    four(&table[..280]);
    table.push(0);
    four(&table);
    table.pop();
    for (b1, b2) in [
        (0, 1),
        (1, 0),
        (49, 1),
        (1, 33),
        (2, 1),
        (0, 2),
        (2, 0),
        (u64::MAX, 3),
    ] {
        table[0] = b1;
        table[1] = b2;
        four(&table);
    }
    // Numbers out of range with the length they would give.
    for (b1, b2) in [(49, 1), (1, 33)] {
        let mut table = vec![0; 4 + 256 + 74 * (b1 + b2) + 128];
        table[0] = b1 as u64;
        table[1] = b2 as u64;
        four(&table);
    }
}

#[test]
fn a_bound_of_zero_and_w2_of_zero() {
    let mut exact = ExactTable::open(1, 1);
    exact.level1[0].bound = 0;
    exact.level2[0].bound = 0;
    let mut table = exact.numbers();
    assert_eq!(soundness(&table), ACCEPTED);
    let zero = oracle::unsecond(0);
    assert_eq!(
        table::query_word(&table, zero),
        Answer { cause: 7, value: 0 }
    );
    assert_eq!(
        table::add_word(&mut table, zero, 7),
        Answer { cause: 0, value: 1 }
    );
    assert_eq!(soundness(&table), ACCEPTED);
    assert_eq!(
        table::query_word(&table, zero),
        Answer { cause: 0, value: 7 }
    );
    assert_eq!(
        table::add_word(&mut table, zero, 8),
        Answer { cause: 6, value: 7 }
    );
    assert_eq!(
        table::withdraw_word(&mut table, zero),
        Answer { cause: 0, value: 7 }
    );
    assert_eq!(table, exact.numbers());
}

#[test]
fn random_damage() {
    let mut rng = Rng::new(13);
    // As damaged, and with the totals made right again.
    let mut sound = [0; 2];
    for (b1, b2) in [(1, 1), (1, 2), (2, 1)] {
        let table = mixed(&mut rng, b1, b2);
        assert_eq!(oracle::soundness(&table), ACCEPTED);
        for _ in 0..400 {
            let mut other = table.clone();
            for _ in 0..1 + rng.below(2) {
                let at = rng.below(other.len() as u64) as usize;
                match rng.below(4) {
                    0 => other[at] ^= 1 << rng.below(64),
                    1 => other[at] = rng.below(10),
                    2 => other[at] = rng.next(),
                    _ => {
                        // Bounds and header more often than chance would.
                        let bucket = rng.below((b1 + b2) as u64) as usize;
                        other[260 + 74 * bucket + 73] = rng.below(10);
                    }
                }
            }
            for count in &mut sound {
                let expected = oracle::soundness(&other);
                assert_eq!(soundness(&other), expected);
                *count += u32::from(expected == ACCEPTED);
                oracle::recount(&mut other);
            }
        }
    }
    assert!(
        20 < sound[0] && sound[0] + 20 < sound[1] && sound[1] < 1000,
        "{sound:?}"
    );
}

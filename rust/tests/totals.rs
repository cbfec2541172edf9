//! Document 02, order 2: the totals after calls, the question for one of them,
//! and tables whose totals alone are wrong.

use crate::oracle::{self, mixed, SlowTable};
use reference::answer::Answer;
use reference::rng::Rng;
use reference::{plane, table};

const NOT_SOUND: Answer = Answer { cause: 5, value: 0 };

fn accepted(value: u64) -> Answer {
    Answer { cause: 0, value }
}

fn refused(cause: u64, value: u64) -> Answer {
    Answer { cause, value }
}

fn opened(buckets1: u64, buckets2: u64) -> Vec<u64> {
    let length = 4 + 256 + 74 * (buckets1 + buckets2) + 128;
    let mut table = vec![u64::MAX; length as usize];
    assert_eq!(table::open(&mut table, buckets1, buckets2), accepted(0));
    table
}

/// Asked for every plan, the table answers these totals, and all others 0.
fn compare(table: &[u64], totals: &[(u8, u64)]) {
    for plan in 0..=255 {
        let total = totals.iter().find(|(other, _)| *other == plan);
        let total = total.map_or(0, |(_, total)| *total);
        assert_eq!(table::plan_total(table, plan), accepted(total), "{plan}");
        assert_eq!(table[4 + plan as usize], total);
    }
}

#[test]
fn by_hand() {
    let mut table = opened(1, 1);
    assert_eq!(table.len(), 536);
    compare(&table, &[]);
    assert_eq!(table::add(&mut table, 2, b"Bus-17", 12), accepted(1));
    assert_eq!(table::add(&mut table, 2, b"Tram_2", 12), accepted(2));
    assert_eq!(table::add(&mut table, 2, b"Bus-18", 0), accepted(3));
    assert_eq!(table::add(&mut table, 2, b"Bus-19", 254), accepted(4));
    compare(&table, &[(0, 1), (12, 2), (254, 1)]);
    // To another plan, and to the same.
    assert_eq!(table::change(&mut table, 2, b"bus-17", 13), accepted(12));
    compare(&table, &[(0, 1), (12, 1), (13, 1), (254, 1)]);
    assert_eq!(table::change(&mut table, 2, b"bus-17", 13), accepted(13));
    assert_eq!(table::change(&mut table, 2, b"bus-18", 254), accepted(0));
    compare(&table, &[(12, 1), (13, 1), (254, 2)]);
    // Calls that are refused, and a query.
    assert_eq!(table::add(&mut table, 2, b"BUS-17", 1), refused(6, 13));
    assert_eq!(table::add(&mut table, 2, b"a/b", 1), refused(2, 1));
    assert_eq!(table::change(&mut table, 2, b"Bus-20", 1), refused(7, 0));
    assert_eq!(table::change(&mut table, 2, b"", 1), refused(1, 0));
    assert_eq!(table::withdraw(&mut table, 2, b"Bus-20"), refused(7, 0));
    assert_eq!(table::add(&mut table, 2, b"Bus-20", 255), refused(14, 0));
    assert_eq!(table::change(&mut table, 2, b"Bus-19", 255), refused(14, 0));
    assert_eq!(table::query(&table, 2, b"Bus-19"), accepted(254));
    compare(&table, &[(12, 1), (13, 1), (254, 2)]);
    assert_eq!(table::withdraw(&mut table, 2, b"Bus-19"), accepted(254));
    assert_eq!(table::withdraw(&mut table, 2, b"Tram_2"), accepted(12));
    compare(&table, &[(13, 1), (254, 1)]);
    assert_eq!(table::open(&mut table, 1, 1), accepted(0));
    compare(&table, &[]);
}

/// One call on a word, with this plan if it takes one.
fn call(rng: &mut Rng, table: &mut [u64], slow: &mut SlowTable, word: u64, plan: u8) -> u64 {
    let (answer, expected) = match rng.below(8) {
        0 => (table::withdraw_word(table, word), slow.withdraw(word)),
        1 | 2 => (
            table::change_word(table, word, plan),
            slow.change(word, plan),
        ),
        3 => (table::query_word(table, word), slow.query(word)),
        _ => (table::add_word(table, word, plan), slow.add(word, plan)),
    };
    assert_eq!(answer, expected);
    answer.cause
}

#[test]
fn histories() {
    let mut rng = Rng::new(28);
    let mut causes = [0; 15];
    for (buckets1, buckets2) in [(1, 1), (2, 1), (1, 2)] {
        let mut table = opened(buckets1, buckets2);
        let mut slow = SlowTable::open(buckets1 as usize, buckets2 as usize);
        let words: Vec<u64> = (0..400).map(|_| rng.next()).collect();
        for step in 1..=700 {
            // Few plans, so that totals grow and fall.
            let any = oracle::any_plan(&mut rng);
            let plan = *rng.pick(&[0, 12, 254, any]);
            let before = table.clone();
            let word = *rng.pick(&words);
            let cause = call(&mut rng, &mut table, &mut slow, word, plan);
            causes[cause as usize] += 1;
            if cause != 0 {
                assert_eq!(table, before);
            }
            assert_eq!(table::plan_total(&table, plan), accepted(slow.total(plan)));
            if step % 100 == 0 {
                compare(&table, &totals_of(&slow));
            }
        }
        assert!(slow.total(0) > 20 && slow.total(254) > 20);
        for &word in slow.plans.clone().keys() {
            assert_eq!(table::withdraw_word(&mut table, word), slow.withdraw(word));
        }
        compare(&table, &[]);
    }
    for cause in [0, 6, 7, 8, 14] {
        assert!(causes[cause] > 10, "{causes:?}");
    }
}

fn totals_of(slow: &SlowTable) -> Vec<(u8, u64)> {
    (0..=255).map(|plan| (plan, slow.total(plan))).collect()
}

/// All live words on one plan until the first refusal, then on another, then
/// withdrawn.
#[test]
fn one_plan_until_full() {
    let mut rng = Rng::new(29);
    for (plan, other) in [(0, 254), (254, 0), (12, 12)] {
        let mut table = opened(3, 2);
        let mut words = Vec::new();
        loop {
            let word = rng.next();
            let answer = table::add_word(&mut table, word, plan);
            if answer == refused(8, 0) {
                break;
            }
            words.push(word);
            assert_eq!(answer, accepted(words.len() as u64));
        }
        let count = words.len() as u64;
        assert!(count > 300);
        compare(&table, &[(plan, count)]);
        for (i, &word) in words.iter().enumerate() {
            let answer = table::change_word(&mut table, word, other);
            assert_eq!(answer, accepted(plan as u64));
            if plan != other && i < 10 {
                let moved = i as u64 + 1;
                compare(&table, &[(plan, count - moved), (other, moved)]);
            }
        }
        compare(&table, &[(other, count)]);
        for &word in &words {
            let answer = table::withdraw_word(&mut table, word);
            assert_eq!(answer, accepted(other as u64));
        }
        compare(&table, &[]);
    }
}

/// Every call that tests the table refuses it with 5 and keeps everything; the
/// totals are answered as they are.
fn not_sound(table: &[u64]) {
    assert_eq!(oracle::soundness(table), NOT_SOUND);
    let mut other = table.to_vec();
    let mut output = [9; 1000];
    assert_eq!(table::add(&mut other, 2, b"x", 1), NOT_SOUND);
    assert_eq!(table::change(&mut other, 2, b"x", 1), NOT_SOUND);
    assert_eq!(table::withdraw(&mut other, 2, b"x"), NOT_SOUND);
    assert_eq!(table::query(&other, 2, b"x"), NOT_SOUND);
    assert_eq!(plane::write(&other, &mut output), NOT_SOUND);
    assert_eq!(other, table);
    assert_eq!(output, [9; 1000]);
    for plan in 0..=255 {
        let total = accepted(table[4 + plan as usize]);
        assert_eq!(table::plan_total(table, plan), total);
    }
    assert_eq!(table::open(&mut other, table[0], table[1]), accepted(0));
    compare(&other, &[]);
}

fn sound(table: &[u64]) {
    assert_eq!(oracle::soundness(table), accepted(0));
    assert!(table::check(table).is_ok());
}

#[test]
fn damaged_totals() {
    let mut rng = Rng::new(30);
    let table = mixed(&mut rng, 2, 2);
    sound(&table);
    let damaged = |change: &dyn Fn(&mut [u64])| {
        let mut other = table.clone();
        change(&mut other[4..260]);
        assert_ne!(other, table);
        not_sound(&other);
    };
    let totals = &table[4..260];
    let some = totals.iter().position(|&total| total > 0).unwrap();
    let more = totals.iter().rposition(|&total| total > 0).unwrap();
    let none = totals.iter().position(|&total| total == 0).unwrap();
    for plan in 0..256 {
        damaged(&|totals| totals[plan] = totals[plan].wrapping_add(1));
        damaged(&|totals| totals[plan] = totals[plan].wrapping_sub(1));
        damaged(&|totals| totals[plan] = u64::MAX);
        damaged(&|totals| totals[plan] ^= 1 << 63);
    }
    // The sum stays what it was.
    damaged(&|totals| totals.swap(some, none));
    damaged(&|totals| {
        totals[none] = 1;
        totals[some] -= 1;
    });
    damaged(&|totals| {
        totals[more] += totals[some];
        totals[some] = 0;
    });
    for plan in [0, 12, 255, some, none] {
        damaged(&|totals| {
            let sum = totals.iter().sum();
            totals.fill(0);
            totals[plan] = sum;
        });
    }
    damaged(&|totals| totals.rotate_left(1));
    damaged(&|totals| totals.rotate_right(1));
    damaged(&|totals| totals.reverse());
    // It stays so modulo 2^64.
    for amount in [1, 1 << 32, 1 << 63, u64::MAX] {
        for (up, down) in [(some, more), (some, none), (none, some), (0, 255)] {
            damaged(&|totals| {
                totals[up] = totals[up].wrapping_add(amount);
                totals[down] = totals[down].wrapping_sub(amount);
            });
        }
    }
    damaged(&|totals| totals.fill(0));
    damaged(&|totals| totals.fill(1));
}

#[test]
fn totals_of_an_empty_table() {
    let table = opened(1, 2);
    for plan in [0, 12, 255] {
        for total in [1, 64, u64::MAX] {
            let mut other = table.clone();
            other[4 + plan] = total;
            not_sound(&other);
        }
    }
}

/// A plan that a word may have, other than this one.
fn another_plan(rng: &mut Rng, plan: u8) -> u8 {
    loop {
        let other = oracle::random_plan(rng);
        if other != plan {
            return other;
        }
    }
}

#[test]
fn plans_without_their_totals() {
    let mut rng = Rng::new(31);
    let table = mixed(&mut rng, 2, 2);
    let marks: Vec<u64> = (0..4).map(|bucket| table[260 + 74 * bucket + 64]).collect();
    assert!(marks.iter().all(|&mark| mark != 0));
    for (bucket, mark) in marks.iter().enumerate() {
        for row in 0..64 {
            let plan = oracle::row_plan(&table, bucket, row);
            let new = another_plan(&mut rng, plan);
            let mut other = oracle::with_row_plan(&table, bucket, row, new);
            not_sound(&other);
            let totals = other[4..260].to_vec();
            oracle::recount(&mut other);
            if mark >> row & 1 == 1 {
                sound(&other);
            } else {
                // The plan of a free row is nobody's: it must be 0.
                assert_eq!(other[4..260], totals);
                not_sound(&other);
            }
        }
    }
    let base = 260 + 4 * 74;
    for i in 0..table[2] as usize {
        let plan = table[base + 2 * i + 1] as u8;
        let new = another_plan(&mut rng, plan);
        let mut other = table.clone();
        other[base + 2 * i + 1] = new as u64;
        not_sound(&other);
        other[4 + plan as usize] -= 1;
        other[4 + new as usize] += 1;
        sound(&other);
    }
    // Two base entries' plans exchanged: every total is right.
    let mut other = table.clone();
    other.swap(base + 1, base + 3);
    sound(&other);
}

/// Cause 4 alone: any numbers are answered whose first two fit the length.
#[test]
fn the_question_on_any_numbers() {
    let mut rng = Rng::new(32);
    let ask = |table: &[u64], plan: u8| {
        let answer = table::plan_total(table, plan);
        assert_eq!(answer, oracle::plan_total(table, plan));
        answer.cause
    };
    for (buckets1, buckets2) in [(1, 1), (2, 3), (48, 32)] {
        let length = 4 + 256 + 74 * (buckets1 + buckets2) as usize + 128;
        let mut numbers: Vec<u64> = (0..length + 1).map(|_| rng.next()).collect();
        numbers[..2].copy_from_slice(&[buckets1, buckets2]);
        for end in 0..=length + 1 {
            let cause = if end == length { 0 } else { 4 };
            assert_eq!(ask(&numbers[..end], rng.byte()), cause);
        }
        let numbers = &mut numbers[..length];
        for plan in 0..=255 {
            assert_eq!(ask(numbers, plan), 0);
        }
        let all = buckets1 + buckets2;
        for wrong in [
            [0, all],
            [all, 0],
            [49, buckets2],
            [buckets1, 33],
            [buckets1 + 1, buckets2],
            [u64::MAX, all + 1],
        ] {
            numbers[..2].copy_from_slice(&wrong);
            assert_eq!(ask(numbers, rng.byte()), 4);
        }
    }
}

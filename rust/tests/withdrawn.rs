//! Document 02, order 6: a withdrawn card leaves no plan behind. What a bucket
//! answers to any vector is the XOR of the plans of the live vectors in its
//! combination of K's rows; it is computed here from the plans that the calls
//! gave.

use crate::oracle::{self, ExactTable};
use reference::answer::Answer;
use reference::bucket::Bucket;
use reference::rng::Rng;
use reference::table::{self, Shape, Spot};
use reference::{combination, plane};
use std::collections::BTreeMap;

fn accepted(value: u64) -> Answer {
    Answer { cause: 0, value }
}

fn card(i: u64) -> Vec<u8> {
    format!("card-{i}").into_bytes()
}

fn word(i: u64) -> u64 {
    oracle::word(2, &card(i)).unwrap()
}

/// What the plane of a table gives a word.
fn given(table: &[u64], word: u64) -> u8 {
    let mut plane = vec![0; 6000];
    let written = plane::write(table, &mut plane);
    let answer = plane::lookup_word(word, &plane[..written.value as usize]);
    assert_eq!((written.cause, answer.cause), (0, 0));
    answer.value as u8
}

/// An empty table whose level 1 has this bound.
fn opened(buckets1: usize, buckets2: usize, bound: u64) -> Vec<u64> {
    let mut exact = ExactTable::open(buckets1, buckets2);
    for bucket in &mut exact.level1 {
        bucket.bound = bound;
    }
    exact.numbers()
}

/// Marked rows of a table's level 1, and of its level 2.
fn marked(table: &[u64]) -> (u32, u32) {
    let rows = |buckets: &[u64]| -> u32 {
        let marks = buckets.chunks(74).map(|bucket| bucket[64]);
        marks.map(u64::count_ones).sum()
    };
    let (level1, others) = table[260..].split_at(74 * table[0] as usize);
    (rows(level1), rows(&others[..74 * table[1] as usize]))
}

/// The live words in a word's combination. It is one: their vectors and the
/// word's XOR to 0 in the bits of all occupied rows.
fn live_in(table: &[u64], plans: &BTreeMap<u64, u8>, word: u64) -> Option<Vec<u64>> {
    let shape = Shape::of(table).unwrap();
    let words = combination::words(shape, table, plans, word)?;
    let spot = shape.spot(table, word);
    let index = shape.bucket_index(spot).unwrap();
    let level1 = matches!(spot, Spot::Level1(_));
    let vector = |word: u64| if level1 { word } else { oracle::second(word) };
    let sum = words.iter().fold(vector(word), |sum, &w| sum ^ vector(w));
    assert_eq!(sum & shape.read_bucket(table, index).mark, 0);
    Some(words)
}

/// The plane gives a word what the calls settle: the XOR of its combination,
/// which is itself if it is live; without a bucket its plan, or 255. The plan,
/// and how many live words are in the combination.
fn compare(table: &[u64], plans: &BTreeMap<u64, u8>, word: u64) -> (u8, Option<usize>) {
    let live = live_in(table, plans, word);
    let held = plans.get(&word).copied();
    let plan = match &live {
        Some(live) => combination::plan(plans, live),
        None => held.unwrap_or(255),
    };
    assert_eq!(given(table, word), plan);
    if held.is_some() {
        assert_eq!(held, Some(plan));
        assert!(live.iter().all(|live| live == &[word]));
    }
    (plan, live.map(|live| live.len()))
}

/// Added and withdrawn: the plane gives 0, and every number is as it was.
#[test]
fn alone_in_its_bucket() {
    for (b1, b2) in [(1, 1), (3, 2), (48, 32)] {
        for (bound, levels) in [(8, (1, 0)), (0, (0, 1))] {
            let empty = opened(b1, b2, bound);
            let mut table = empty.clone();
            for i in 1..=254 {
                let plan = i as u8;
                assert_eq!(table::add(&mut table, 2, &card(i), plan), accepted(1));
                assert_eq!(marked(&table), levels);
                assert_eq!(given(&table, word(i)), plan);
                assert_eq!(table::withdraw(&mut table, 2, &card(i)), accepted(i));
                assert_eq!(given(&table, word(i)), 0);
                assert_eq!(table, empty);
            }
        }
    }
}

/// M1 to M6 in a table: 3 is 1 XOR 2, and 2 is a free row's unit vector.
#[test]
fn the_combination_by_hand() {
    let mut table = opened(1, 1, 8);
    assert_eq!(table::add_word(&mut table, 3, 5), accepted(1));
    assert_eq!(table::add_word(&mut table, 1, 6), accepted(2));
    assert_eq!((given(&table, 3), given(&table, 1)), (5, 6));
    // 2 is 3 XOR 1.
    assert_eq!(given(&table, 2), 5 ^ 6);
    assert_eq!(table::withdraw_word(&mut table, 3), accepted(5));
    assert_eq!((given(&table, 3), given(&table, 1)), (6, 6));
    assert_eq!(given(&table, 2), 0);
    assert_eq!(combination::of(&[1], 1, 3), [0]);
    assert_eq!(combination::of(&[1], 1, 2), []);
    assert_eq!(combination::of(&[3, 1], 3, 2), [0, 1]);
    assert_eq!(table::withdraw_word(&mut table, 1), accepted(6));
    assert_eq!(table, opened(1, 1, 8));
}

/// Cards withdrawn one after the other from a bucket that others are live in.
#[test]
fn with_others_in_its_bucket() {
    for bound in [8, 0] {
        let mut table = opened(1, 1, bound);
        let mut plans = BTreeMap::new();
        for i in 1..=40 {
            assert_eq!(table::add(&mut table, 2, &card(i), i as u8), accepted(i));
            plans.insert(word(i), i as u8);
        }
        let (mut former, mut of_none) = (0, 0);
        for i in 1..=40 {
            assert_eq!(table::withdraw(&mut table, 2, &card(i)), accepted(i));
            plans.remove(&word(i));
            let (plan, live) = compare(&table, &plans, word(i));
            former += u32::from(u64::from(plan) == i);
            of_none += u32::from(live == Some(0));
        }
        // It may be the former plan, but by chance; the last card was alone.
        assert!(former < 10 && of_none > 0);
    }
}

#[test]
fn histories_of_tables() {
    let mut rng = Rng::new(71);
    // Withdrawn words: 255 without a bucket, 0 of none, the former plan by
    // chance, another number.
    let (mut desk, mut of_none, mut former, mut others) = (0, 0, 0, 0);
    for round in 0..60 {
        let (b1, b2) = [(1, 1), (2, 1), (1, 3), (5, 4)][round % 4];
        let mut table = opened(b1, b2, 8);
        let mut plans = BTreeMap::new();
        let mut words = vec![0];
        for _ in 0..150 {
            let word = match rng.below(6) {
                0 => rng.below(64),
                1 => oracle::unsecond(rng.below(64)),
                2 => rng.next(),
                _ => *rng.pick(&words),
            };
            words.push(word);
            let any = oracle::random_plan(&mut rng);
            let plan = *rng.pick(&[0, 1, 3, any]);
            match plans.get(&word).copied() {
                None => {
                    if table::add_word(&mut table, word, plan).is_accepted() {
                        plans.insert(word, plan);
                    }
                }
                Some(held) if rng.one_in(3) => {
                    let answer = table::change_word(&mut table, word, plan);
                    assert_eq!(answer, accepted(held.into()));
                    plans.insert(word, plan);
                }
                Some(held) => {
                    let answer = table::withdraw_word(&mut table, word);
                    assert_eq!(answer, accepted(held.into()));
                    plans.remove(&word);
                    match compare(&table, &plans, word) {
                        (_, None) => desk += 1,
                        (plan, Some(0)) => {
                            assert_eq!(plan, 0);
                            of_none += 1;
                        }
                        (plan, _) if plan == held => former += 1,
                        _ => others += 1,
                    }
                }
            }
            for word in [word, *rng.pick(&words), rng.next()] {
                compare(&table, &plans, word);
            }
        }
    }
    let met = [desk, of_none, former, others];
    assert!(met.iter().all(|&times| times > 50), "{met:?}");
}

/// Single buckets, bounds falling too: the lookup of any vector.
#[test]
fn histories_of_buckets() {
    let mut rng = Rng::new(72);
    let mut left = 0;
    for round in 0..60 {
        let mut bucket = Bucket::empty();
        let mut plans: BTreeMap<u64, u8> = BTreeMap::new();
        let draw = |rng: &mut Rng| match round % 4 {
            0 => rng.below(32),
            1 => 1 << rng.below(64) | 1 << rng.below(64),
            2 => rng.next() & 0xff00_ff00_ff00_ff00,
            _ => rng.next(),
        };
        for _ in 0..120 {
            let (k, plan) = (draw(&mut rng), rng.byte());
            match plans.get(&k).copied() {
                None => {
                    plans.insert(k, plan);
                    for gone in bucket.settle(k, plan, oracle::threshold) {
                        assert_eq!(plans.remove(&gone.vector), Some(gone.plan));
                        left += u32::from(gone.vector != k);
                    }
                }
                Some(held) if rng.one_in(2) => {
                    assert_eq!(bucket.change(k, plan), Some(held));
                    plans.insert(k, plan);
                }
                Some(held) => {
                    assert_eq!(bucket.withdraw(k), Some(held));
                    plans.remove(&k);
                }
            }
            let live: Vec<u64> = plans.keys().copied().collect();
            for vector in [k, draw(&mut rng), rng.next()] {
                let combined = combination::of(&live, bucket.mark, vector);
                let combined: Vec<u64> = combined.into_iter().map(|i| live[i]).collect();
                assert_eq!(bucket.lookup(vector), combination::plan(&plans, &combined));
            }
            for (&vector, &plan) in &plans {
                assert_eq!(bucket.lookup(vector), plan);
            }
        }
    }
    assert!(left > 100, "{left}");
}

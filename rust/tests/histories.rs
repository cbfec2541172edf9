//! Random histories of calls, compared with the slow models.

use crate::oracle::{self, ExactTable, SlowTable};
use reference::answer::Answer;
use reference::identifier;
use reference::plane;
use reference::rng::Rng;
use reference::table::{self, Shape};

fn opened(buckets1: u64, buckets2: u64) -> Vec<u64> {
    let shape = Shape::new(buckets1, buckets2).unwrap();
    let mut table = vec![u64::MAX; shape.table_len()];
    let answer = table::open(&mut table, buckets1, buckets2);
    assert_eq!(answer, Answer { cause: 0, value: 0 });
    table
}

/// Counts, totals, bounds, base list and live words against the plain map.
fn compare(table: &[u64], slow: &SlowTable) {
    let shape = table::check(table).expect("a table of a history is sound");
    assert_eq!(table[3], slow.plans.len() as u64);
    for plan in 0..=255 {
        let value = slow.total(plan);
        assert_eq!(table::plan_total(table, plan), Answer { cause: 0, value });
    }
    for (index, &bound) in slow.bounds1.iter().chain(&slow.bounds2).enumerate() {
        assert_eq!(shape.bound(table, index), bound);
    }
    let base = slow.base();
    assert_eq!(table[2], base.len() as u64);
    for (index, &(v, plan)) in base.iter().enumerate() {
        assert_eq!(shape.base_pair(table, index), (v, plan as u64));
    }
    let mut live = shape.live_words(table);
    live.sort();
    let expected: Vec<(u64, u8)> = slow.plans.iter().map(|(&w, &plan)| (w, plan)).collect();
    assert_eq!(live, expected);
}

/// The plane against the table: live words, and strangers by the bucket that
/// holds them, else 255.
fn compare_plane(table: &[u64], slow: &SlowTable, strangers: &[u64]) {
    let shape = Shape::of(table).unwrap();
    let len = 10 + 66 * shape.buckets() + 10 * table[2] as usize;
    let mut output = vec![0xa5; len + 3];
    let answer = plane::write(table, &mut output);
    assert_eq!(
        answer,
        Answer {
            cause: 0,
            value: len as u64
        }
    );
    assert_eq!(output[len..], [0xa5; 3]);
    let plane = &output[..len];
    assert_eq!(oracle::wrong_offset(plane), None);
    for (&word, &plan) in &slow.plans {
        let answer = plane::lookup_word(word, plane);
        assert_eq!(
            answer,
            Answer {
                cause: 0,
                value: plan as u64
            }
        );
    }
    for &word in strangers.iter().filter(|w| !slow.plans.contains_key(w)) {
        let v = oracle::second(word);
        let first = (oracle::mix(word) / 8 % shape.buckets1) as usize;
        let further = (oracle::mix(v) / 8 % shape.buckets2 + shape.buckets1) as usize;
        let plan = if slow.held1(word) {
            shape.read_bucket(table, first).lookup(word)
        } else if slow.held2(word) {
            shape.read_bucket(table, further).lookup(v)
        } else {
            255
        };
        let answer = plane::lookup_word(word, plane);
        assert_eq!(
            answer,
            Answer {
                cause: 0,
                value: plan as u64
            }
        );
    }
}

struct Seen {
    by_cause: [u32; 16],
    falls1: u32,
    falls2: u32,
}

/// One history by words. `exact` compares every number after every call,
/// `shrinking` makes phases of growth and of shrinking.
fn history(
    rng: &mut Rng,
    buckets: (u64, u64),
    calls: u32,
    exact: bool,
    shrinking: bool,
    seen: &mut Seen,
    draw: &mut dyn FnMut(&mut Rng) -> u64,
) {
    let mut table = opened(buckets.0, buckets.1);
    let mut slow = SlowTable::open(buckets.0 as usize, buckets.1 as usize);
    let mut model = ExactTable::open(buckets.0 as usize, buckets.1 as usize);
    assert_eq!(table, model.numbers());
    let mut adds = 8;
    for call in 0..calls {
        if shrinking && call % 97 == 96 {
            adds = 2 + rng.below(8);
        }
        let plan = oracle::any_plan(rng);
        let live: Vec<u64> = slow.plans.keys().copied().collect();
        let word = if rng.below(10) < adds || live.is_empty() || rng.one_in(20) {
            draw(rng)
        } else {
            *rng.pick(&live)
        };
        let before = table.clone();
        let bounds = (slow.bounds1.clone(), slow.bounds2.clone());
        let was_live = slow.plans.contains_key(&word);
        let pick = rng.below(10);
        let (answer, expected) = if !was_live && pick < 9 || was_live && pick == 9 {
            let answer = table::add_word(&mut table, word, plan);
            if !was_live {
                model.add(word, plan);
            }
            (answer, slow.add(word, plan))
        } else if pick < 4 || pick == 9 {
            let answer = table::withdraw_word(&mut table, word);
            if was_live {
                model.withdraw(word);
            }
            (answer, slow.withdraw(word))
        } else if pick < 7 {
            let answer = table::change_word(&mut table, word, plan);
            if was_live {
                model.change(word, plan);
            }
            (answer, slow.change(word, plan))
        } else {
            (table::query_word(&table, word), slow.query(word))
        };
        assert_eq!(answer, expected);
        if !answer.is_accepted() {
            assert_eq!(table, before);
        }
        seen.by_cause[answer.cause as usize] += 1;
        seen.falls1 += u32::from(slow.bounds1 != bounds.0);
        seen.falls2 += u32::from(slow.bounds2 != bounds.1);
        if exact {
            assert_eq!(table, model.numbers());
        }
        if call % 16 == 0 {
            compare(&table, &slow);
        }
        if call % 64 == 0 {
            let mut strangers: Vec<u64> = (0..20).map(|_| rng.next()).collect();
            strangers.extend([0, identifier::word_of_level2(0)]);
            strangers.extend((0..20).map(|_| draw(rng)));
            compare_plane(&table, &slow, &strangers);
        }
    }
    assert_eq!(table, model.numbers());
    compare(&table, &slow);
}

fn seen() -> Seen {
    Seen {
        by_cause: [0; 16],
        falls1: 0,
        falls2: 0,
    }
}

#[test]
fn words_that_depend() {
    // Small w make dependences at level 1, small w' at level 2; 0 is in both.
    let mut rng = Rng::new(7);
    let mut seen = seen();
    for round in 0..12 {
        let buckets = [(1, 1), (1, 2), (2, 1), (3, 2)][round % 4];
        history(
            &mut rng,
            buckets,
            250,
            true,
            true,
            &mut seen,
            &mut |rng| match rng.below(4) {
                0 => rng.below(64),
                1 => identifier::word_of_level2(rng.below(64)),
                2 => rng.next() & 0xff00_0000_0000_00ff,
                _ => rng.next(),
            },
        );
    }
    assert!(seen.falls1 > 20 && seen.falls2 > 20);
    for cause in [0, 6, 7, 14] {
        assert!(seen.by_cause[cause] > 50, "cause {cause}");
    }
}

#[test]
fn words_until_full() {
    let mut rng = Rng::new(8);
    let mut seen = seen();
    for buckets in [(1, 1), (1, 2), (2, 1)] {
        let pool: Vec<u64> = (0..600).map(|_| rng.next()).collect();
        history(
            &mut rng,
            buckets,
            700,
            false,
            false,
            &mut seen,
            &mut |rng| *rng.pick(&pool),
        );
    }
    assert!(seen.by_cause[8] > 20, "{:?}", seen.by_cause);
}

#[test]
fn identifiers() {
    let mut rng = Rng::new(9);
    let mut causes = [0; 16];
    for (buckets1, buckets2) in [(1, 1), (2, 3), (5, 1)] {
        let mut table = opened(buckets1, buckets2);
        let mut slow = SlowTable::open(buckets1 as usize, buckets2 as usize);
        // The same bytes under several kinds.
        let mut pool: Vec<(u8, Vec<u8>)> = Vec::new();
        for _ in 0..100 {
            let len = 1 + rng.below(36) as usize;
            let id = oracle::random_identifier(&mut rng, len);
            let first = oracle::random_kind(&mut rng);
            pool.extend((0..3).map(|i| (1 + (first + i) % 7, id.clone())));
        }
        for call in 0..1200 {
            let (kind, id) = match rng.below(30) {
                0 => {
                    let len = rng.below(45) as usize;
                    (oracle::any_kind(&mut rng), rng.bytes(len))
                }
                1 => {
                    let id = oracle::random_identifier(&mut rng, 37);
                    (oracle::random_kind(&mut rng), id)
                }
                2 => (oracle::random_kind(&mut rng), Vec::new()),
                3 => (*rng.pick(&[0, 8, 255]), rng.pick(&pool).1.clone()),
                _ => {
                    // In any writing.
                    let (kind, mut id) = rng.pick(&pool).clone();
                    for byte in &mut id {
                        if rng.one_in(2) {
                            *byte = byte.to_ascii_lowercase();
                        }
                    }
                    (kind, id)
                }
            };
            let plan = oracle::any_plan(&mut rng);
            let before = table.clone();
            let word = oracle::word(kind, &id);
            let by_word = |outcome: &mut dyn FnMut(u64) -> Answer| match word {
                Ok(word) => outcome(word),
                Err(refusal) => refusal,
            };
            let (answer, expected) = match rng.below(8) {
                0 => (
                    table::withdraw(&mut table, kind, &id),
                    by_word(&mut |w| slow.withdraw(w)),
                ),
                1 => (
                    table::change(&mut table, kind, &id, plan),
                    by_word(&mut |w| slow.change(w, plan)),
                ),
                2 => (
                    table::query(&table, kind, &id),
                    by_word(&mut |w| slow.query(w)),
                ),
                _ => (
                    table::add(&mut table, kind, &id, plan),
                    by_word(&mut |w| slow.add(w, plan)),
                ),
            };
            assert_eq!(answer, expected);
            causes[answer.cause as usize] += 1;
            if !answer.is_accepted() {
                assert_eq!(table, before);
            }
            if call % 100 == 99 {
                compare(&table, &slow);
                let mut plane = vec![0; 10_000];
                let len = plane::write(&table, &mut plane).value as usize;
                for (kind, id) in &pool {
                    let looked = plane::lookup(*kind, id, &plane[..len]);
                    let queried = table::query(&table, *kind, id);
                    if queried.is_accepted() {
                        assert_eq!(looked, queried);
                    } else {
                        assert!(looked.is_accepted());
                    }
                }
            }
        }
    }
    for cause in [0, 1, 2, 6, 7, 8, 14, 15] {
        assert!(causes[cause] > 10, "{causes:?}");
    }
}

#[test]
fn greatest_table_until_full() {
    let mut rng = Rng::new(10);
    let mut table = opened(48, 32);
    assert_eq!(table.len(), 6308);
    let mut slow = SlowTable::open(48, 32);
    let shape = Shape::of(&table).unwrap();
    let mut refusals = 0;
    while refusals < 5 {
        let word = rng.next();
        let plan = oracle::any_plan(&mut rng);
        let expected = slow.add(word, plan);
        assert_eq!(Answer::from(shape.add(&mut table, word, plan)), expected);
        refusals += u32::from(expected.cause == 8);
    }
    compare(&table, &slow);
    let strangers: Vec<u64> = (0..1000).map(|_| rng.next()).collect();
    compare_plane(&table, &slow, &strangers);
    assert_eq!(oracle::soundness(&table), Answer { cause: 0, value: 0 });
    // Withdraw all but what is left: the bounds stay.
    let words: Vec<u64> = slow.plans.keys().copied().collect();
    for (i, &word) in words.iter().enumerate() {
        assert_eq!(
            Answer::from(shape.withdraw(&mut table, word)),
            slow.withdraw(word)
        );
        if i % 1000 == 0 {
            compare(&table, &slow);
        }
    }
    compare(&table, &slow);
    assert_eq!(table[3], 0);
}

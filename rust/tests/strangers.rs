//! Document 02, order 3: plan 255 means "call the desk". No word is given it,
//! no live word has it, and a post answers it for a word that is nowhere.

use crate::oracle::patches::{bytes_of, SlowPlane};
use crate::oracle::{self, mixed, ExactTable};
use reference::answer::Answer;
use reference::rng::Rng;
use reference::table;
use reference::{patch, plane};
use std::collections::BTreeMap;

const GIVEN: Answer = Answer {
    cause: 14,
    value: 0,
};
const NOT_SOUND: Answer = Answer { cause: 5, value: 0 };

fn accepted(value: u64) -> Answer {
    Answer { cause: 0, value }
}

fn refused(cause: u64, value: u64) -> Answer {
    Answer { cause, value }
}

fn card(i: u64) -> Vec<u8> {
    format!("card-{i}").into_bytes()
}

/// A table of one bucket and one with these bounds, and the cards 1 to `count`,
/// each with its number as plan.
fn with_cards(bounds: (u64, u64), count: u64) -> Vec<u64> {
    let mut exact = ExactTable::open(1, 1);
    exact.level1[0].bound = bounds.0;
    exact.level2[0].bound = bounds.1;
    for i in 1..=count {
        exact.add(oracle::word(2, &card(i)).unwrap(), i as u8);
    }
    let table = exact.numbers();
    assert_eq!(table[3], count);
    table
}

/// An add and a change to plan 255 are answered so; the table is kept.
fn gives(table: &[u64], id: &[u8], answer: Answer) {
    let mut other = table.to_vec();
    assert_eq!(table::add(&mut other, 2, id, 255), answer);
    assert_eq!(table::change(&mut other, 2, id, 255), answer);
    if let Ok(word) = oracle::word(2, id) {
        assert_eq!(table::add_word(&mut other, word, 255), answer);
        assert_eq!(table::change_word(&mut other, word, 255), answer);
    }
    assert_eq!(other, table);
}

/// Plan 254 gets as far as these answers of an add and of a change.
fn but_for_255(table: &[u64], id: &[u8], add: Answer, change: Answer) {
    assert_eq!(table::add(&mut table.to_vec(), 2, id, 254), add);
    assert_eq!(table::change(&mut table.to_vec(), 2, id, 254), change);
    gives(table, id, GIVEN);
}

#[test]
fn an_add_or_change_to_255() {
    let table = with_cards((4, 4), 30);
    let (mut levels, mut base) = ([0; 2], 0);
    for i in 1..=30 {
        // Live, in a bucket of either level and in the base list.
        let word = oracle::word(2, &card(i)).unwrap();
        match (
            oracle::threshold(word),
            oracle::threshold(oracle::second(word)),
        ) {
            (..4, _) => levels[0] += 1,
            (_, ..4) => levels[1] += 1,
            _ => base += 1,
        }
        but_for_255(&table, &card(i), refused(6, i), accepted(i));
    }
    assert!(levels[0] > 5 && levels[1] > 5 && base > 2);
    for i in 31..60 {
        but_for_255(&table, &card(i), accepted(31), refused(7, 0));
    }
    // Empty and full.
    let empty = with_cards((8, 8), 0);
    but_for_255(&empty, b"x", accepted(1), refused(7, 0));
    let full = with_cards((0, 0), 64);
    but_for_255(&full, &card(65), refused(8, 0), refused(7, 0));
    but_for_255(&full, &card(64), refused(6, 64), accepted(64));
    // A change to the plan that it has, but for 255.
    let mut table = with_cards((8, 8), 0);
    assert_eq!(table::add(&mut table, 2, b"x", 254), accepted(1));
    but_for_255(&table, b"X", refused(6, 254), accepted(254));
    assert_eq!(table::query(&table, 2, b"x"), accepted(254));
}

/// Tables with each way of being wrong.
fn wrong_tables() -> Vec<(Vec<u64>, Answer)> {
    let sound = with_cards((4, 4), 30);
    let base = 260 + 2 * 74;
    let mut tables = Vec::new();
    let mut wrong = |answer: Answer, change: &dyn Fn(&mut Vec<u64>)| {
        let mut table = sound.clone();
        change(&mut table);
        tables.push((table, answer));
    };
    for length in [0, 1, 2, 3, 4, 260, 280, 535] {
        wrong(refused(4, length), &|t| t.truncate(length as usize));
    }
    wrong(refused(4, 537), &|t| t.push(0));
    for (b1, b2) in [(0, 2), (2, 0), (49, 1), (1, 33), (2, 1), (u64::MAX, 3)] {
        wrong(refused(4, 536), &|t| {
            t[0] = b1;
            t[1] = b2;
        });
    }
    // Counts, a bound, a column, a total, an unused pair.
    wrong(NOT_SOUND, &|t| t[2] = 65);
    wrong(NOT_SOUND, &|t| t[3] += 1);
    wrong(NOT_SOUND, &|t| t[260 + 73] = 9);
    wrong(NOT_SOUND, &|t| t[260 + 5] = 0);
    wrong(NOT_SOUND, &|t| t[4 + 7] += 1);
    wrong(NOT_SOUND, &|t| t[4 + 255] += 1);
    wrong(NOT_SOUND, &|t| t[base + 127] = 1);
    // A live word with plan 255, with and without its total.
    wrong(NOT_SOUND, &|t| t[base + 1] = 255);
    wrong(NOT_SOUND, &|t| {
        t[base + 1] = 255;
        oracle::recount(t);
    });
    wrong(NOT_SOUND, &|t| t[4..].fill(u64::MAX));
    tables
}

#[test]
fn whatever_the_table() {
    for (table, answer) in wrong_tables() {
        assert_eq!(oracle::soundness(&table), answer);
        for i in [1, 2, 3, 30, 31, 60] {
            but_for_255(&table, &card(i), answer, answer);
            let mut kept = table.clone();
            assert_eq!(table::withdraw(&mut kept, 2, &card(i)), answer);
            assert_eq!(table::query(&kept, 2, &card(i)), answer);
            assert_eq!(kept, table);
        }
    }
}

#[test]
fn after_causes_1_and_2() {
    let mut tables = wrong_tables();
    tables.push((with_cards((8, 8), 0), accepted(0)));
    tables.push((with_cards((0, 0), 64), accepted(0)));
    for (table, _) in tables {
        gives(&table, b"", refused(1, 0));
        gives(&table, &[b'x'; 37], refused(1, 37));
        gives(&table, &[b'/'; 37], refused(1, 37));
        gives(&table, b"card/1", refused(2, 4));
        gives(&table, b"\xff", refused(2, 0));
        gives(&table, &[b'x'; 36], GIVEN);
    }
}

/// The table is not sound for every call that tests it.
fn not_sound(table: &[u64]) {
    assert_eq!(oracle::soundness(table), NOT_SOUND);
    let mut other = table.to_vec();
    let mut output = [9; 1000];
    assert_eq!(table::add(&mut other, 2, b"x", 254), NOT_SOUND);
    assert_eq!(table::change(&mut other, 2, b"x", 254), NOT_SOUND);
    assert_eq!(table::withdraw(&mut other, 2, b"x"), NOT_SOUND);
    assert_eq!(table::query(&other, 2, b"x"), NOT_SOUND);
    assert_eq!(plane::write(&other, &mut output), NOT_SOUND);
    gives(table, b"x", GIVEN);
    assert_eq!(other, table);
    assert_eq!(output, [9; 1000]);
}

fn sound(table: &[u64]) {
    assert_eq!(oracle::soundness(table), accepted(0));
    assert!(table::check(table).is_ok());
}

/// A table of one bucket and one, filled to the first refusal.
fn full(rng: &mut Rng) -> Vec<u64> {
    let mut table = with_cards((8, 8), 0);
    while table::add_word(&mut table, rng.next(), oracle::random_plan(rng)).is_accepted() {}
    table
}

/// A live word's plan made 255: not sound, neither with the total that it had
/// nor with the right one. With 254 and its total it is.
#[test]
fn a_live_word_with_255() {
    let mut rng = Rng::new(51);
    let (mixed, full) = (mixed(&mut rng, 2, 2), full(&mut rng));
    let rows = [live_words_with_255(&mixed), live_words_with_255(&full)].concat();
    // Every row was occupied in some bucket, and free in another.
    for row in 0..64 {
        assert!(rows.contains(&(row, true)) && rows.contains(&(row, false)));
    }
}

/// Every live word of a table with it, one after the other; the rows of each
/// bucket, and whether they are occupied.
fn live_words_with_255(table: &[u64]) -> Vec<(usize, bool)> {
    let buckets = (table[0] + table[1]) as usize;
    assert_eq!(table::plan_total(table, 255), accepted(0));
    let each = |with: &dyn Fn(u8) -> Vec<u64>| {
        let mut other = with(255);
        not_sound(&other);
        assert_eq!(table::plan_total(&other, 255), accepted(0));
        oracle::recount(&mut other);
        not_sound(&other);
        assert_eq!(table::plan_total(&other, 255), accepted(1));
        let mut other = with(254);
        oracle::recount(&mut other);
        sound(&other);
    };
    let mut rows = Vec::new();
    for bucket in 0..buckets {
        let mark = table[260 + 74 * bucket + 64];
        for row in 0..64 {
            let occupied = mark >> row & 1 == 1;
            rows.push((row, occupied));
            if occupied {
                each(&|plan| oracle::with_row_plan(table, bucket, row, plan));
            } else {
                // Nobody's plan, and not 0.
                not_sound(&oracle::with_row_plan(table, bucket, row, 255));
            }
        }
    }
    let base = 260 + 74 * buckets;
    for i in 0..table[2] as usize {
        each(&|plan| {
            let mut other = table.to_vec();
            other[base + 2 * i + 1] = plan as u64;
            other
        });
    }
    let occupied = rows.iter().filter(|(_, occupied)| *occupied).count();
    assert_eq!(occupied as u64 + table[2], table[3]);
    assert!(table[2] > 2);
    rows
}

/// All live words with it, and a total of it without a word.
#[test]
fn the_total_of_255() {
    let mut table = mixed(&mut Rng::new(52), 1, 1);
    for total in [1, 2, 1 << 32, u64::MAX] {
        table[4 + 255] = total;
        not_sound(&table);
        assert_eq!(table::plan_total(&table, 255), accepted(total));
    }
    let base = 260 + 2 * 74;
    for i in 0..table[2] as usize {
        table[base + 2 * i + 1] = 255;
    }
    for bucket in 0..2 {
        let mark = table[260 + 74 * bucket + 64];
        for row in (0..64).filter(|row| mark >> row & 1 == 1) {
            table = oracle::with_row_plan(&table, bucket, row, 255);
        }
    }
    oracle::recount(&mut table);
    not_sound(&table);
    assert_eq!(table::plan_total(&table, 255), accepted(table[3]));
    assert_eq!(table::plan_total(&table[1..], 255), refused(4, 535));
}

fn written(table: &[u64]) -> Vec<u8> {
    let mut bytes = vec![0; 6000];
    let answer = plane::write(table, &mut bytes);
    assert_eq!(answer.cause, 0);
    bytes.truncate(answer.value as usize);
    bytes
}

#[test]
fn a_stranger_at_a_post() {
    for bounds in [(0, 0), (4, 0), (0, 4), (3, 5), (8, 8)] {
        let count = if bounds == (8, 8) { 0 } else { 20 };
        let plane = written(&with_cards(bounds, count));
        let mut desk = 0;
        for i in 1..=300 {
            let word = oracle::word(2, &card(i)).unwrap();
            let held = oracle::threshold(word) < bounds.0
                || oracle::threshold(oracle::second(word)) < bounds.1;
            let answer = plane::lookup(2, &card(i), &plane);
            if i <= count {
                assert_eq!(answer, accepted(i));
            } else if !held {
                assert_eq!(answer, accepted(255));
                desk += 1;
            } else {
                assert!(answer.is_accepted());
            }
        }
        // Held by the buckets of an opened table: their solution words are 0.
        assert_eq!(desk == 0, bounds == (8, 8));
        if count == 0 {
            assert_eq!(plane::lookup(2, b"x", &plane), accepted(0));
        }
    }
    // Words beside those of the base list.
    let plane = written(&with_cards((0, 0), 64));
    for i in 1..=64 {
        let v = oracle::second(oracle::word(2, &card(i)).unwrap());
        let beside = |v| plane::lookup_word(oracle::unsecond(v), &plane);
        assert_eq!(beside(v), accepted(i));
        assert_eq!(beside(v.wrapping_add(1)), accepted(255));
        assert_eq!(beside(v.wrapping_sub(1)), accepted(255));
    }
}

/// A bucket's answer is not tested: with the plans 15 and 240 it is 255 to some
/// who are not live, and the table is sound all the same.
#[test]
fn a_bucket_may_answer_255() {
    let mut table = with_cards((8, 8), 0);
    assert_eq!(table::add(&mut table, 2, &card(1), 15), accepted(1));
    assert_eq!(table::add(&mut table, 2, &card(2), 240), accepted(2));
    sound(&table);
    let plane = written(&table);
    let mut desk = 0;
    for i in 3..=100 {
        let answer = plane::lookup(2, &card(i), &plane);
        assert!([0, 15, 240, 255].map(accepted).contains(&answer));
        desk += u32::from(answer == accepted(255));
        // Added, it has the plan that it is given.
        let mut table = table.clone();
        assert_eq!(table::add(&mut table, 2, &card(i), 7), accepted(3));
        sound(&table);
        assert_eq!(plane::lookup(2, &card(i), &written(&table)), accepted(7));
    }
    assert!(desk > 10 && desk < 50, "{desk}");
}

/// A plane of one bucket and one with these base entries.
fn with_entries(entries: &[(u64, u8)]) -> Vec<u8> {
    let bucket = [vec![8], vec![0; 64]].concat();
    SlowPlane {
        level1: 1,
        level2: 1,
        buckets: BTreeMap::from([(0, bucket.clone()), (1, bucket)]),
        base: entries.iter().copied().collect(),
    }
    .bytes()
}

/// Every call that reads the plane answers 10 with this offset.
fn wrong_plane(bytes: &[u8], offset: usize) {
    assert_eq!(oracle::wrong_offset(bytes), Some(offset));
    let ten = refused(10, offset as u64);
    let right = with_entries(&[]);
    let mut output = [9; 2000];
    assert_eq!(plane::lookup(2, b"x", bytes), ten);
    assert_eq!(patch::make(bytes, &right, &mut output), ten);
    assert_eq!(patch::make(&right, bytes, &mut output), ten);
    assert_eq!(patch::apply(bytes, b"", &mut output), ten);
    assert_eq!(output, [9; 2000]);
    assert_eq!(plane::lookup(2, b"/", bytes), refused(2, 0));
}

#[test]
fn a_base_entry_of_a_plane_with_255() {
    for count in [1, 2, 3, 63, 64] {
        let entries: Vec<(u64, u8)> = (0..count).map(|i| (100 * i, i as u8)).collect();
        let right = with_entries(&entries);
        let start = |i: usize| 137 + 10 * i;
        for i in 0..count as usize {
            let mut bytes = right.clone();
            bytes[start(i) + 9] = 254;
            assert!(plane::lookup(2, b"x", &bytes).is_accepted());
            bytes[start(i) + 9] = 255;
            wrong_plane(&bytes, start(i));
            // The first that is wrong: of two, before a cut, before another kind.
            let mut both = bytes.clone();
            both[start(0) + 9] = 255;
            wrong_plane(&both, start(0));
            wrong_plane(&bytes[..start(i) + 10], start(i));
            wrong_plane(&bytes[..start(i) + 9], start(i));
            let mut other = bytes.clone();
            other[start(i) + 10] ^= 9;
            wrong_plane(&other, start(i));
            // In itself too: another kind, a word not above the one before.
            let mut other = bytes.clone();
            other[start(i)] = 8;
            wrong_plane(&other, start(i));
            if i > 0 {
                let mut other = bytes.clone();
                other[start(i) + 1..start(i) + 9].fill(0);
                wrong_plane(&other, start(i));
            }
            // After a bound that is not allowed.
            let mut other = bytes.clone();
            other[72] = 9;
            wrong_plane(&other, 71);
        }
    }
}

/// A patch that puts these entries into a plane, with sums that would fit.
fn with_news(old: &[u8], news: &[(u64, u8)]) -> Vec<u8> {
    let mut base = SlowPlane::read(old).base;
    base.extend(news.iter().copied());
    let new = with_entries(&base.into_iter().collect::<Vec<_>>());
    let mut patch = vec![5];
    patch.extend(bytes_of(oracle::fnv(old)));
    patch.extend(bytes_of(oracle::fnv(&new)));
    for &(word, plan) in news {
        patch.push(8);
        patch.extend(bytes_of(word));
        patch.push(plan);
    }
    patch.extend(b"\x04END\n");
    patch
}

#[test]
fn a_kind_8_with_255() {
    let old = with_entries(&[(10, 1), (20, 2), (30, 3)]);
    let mut output = [9; 300];
    let mut apply = |news: &[(u64, u8)], answer: Answer| {
        let patch = with_news(&old, news);
        assert_eq!(patch::apply(&old, &patch, &mut output), answer);
        // Found before a sum that does not fit and an output that is too short.
        let mut other = patch.clone();
        other[1] ^= 1;
        if answer.cause == 12 {
            assert_eq!(output, [9; 300]);
            assert_eq!(patch::apply(&old, &other, &mut []), answer);
        } else {
            assert_eq!(patch::apply(&old, &other, &mut []), refused(13, 0));
        }
        output.fill(9);
    };
    // Changed and new: before, between and after the others.
    for word in [10, 20, 30] {
        apply(&[(word, 254)], accepted(172));
        apply(&[(word, 255)], refused(12, 17));
    }
    for word in [0, 11, 25, u64::MAX] {
        apply(&[(word, 254)], accepted(182));
        apply(&[(word, 255)], refused(12, 17));
    }
    let plans = |at: usize| {
        let mut news = [(5, 0), (10, 1), (11, 0), (30, 7), (31, 254)];
        news[at].1 = 255;
        news
    };
    for at in 0..5 {
        apply(&plans(at), refused(12, 17 + 10 * at as u64));
        // Before one that is misplaced; that one before another with it.
        let news = [&plans(at)[..], &[(2, 7)]].concat();
        apply(&news, refused(12, 17 + 10 * at as u64));
        apply(&[&[(50, 7)], &plans(at)[..]].concat(), refused(12, 27));
    }
}

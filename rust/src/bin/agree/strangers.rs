//! Plan 255, "call the desk": given to a word, held by one, in a base entry of a plane, and answered to strangers. Patches with it are
//! in patches.rs.

use crate::compare::{differ, same, same_all, Seen};
use crate::random::{
    any_card, card, cards, damage, different_cards, given_plan, known_card, places, recount,
    set_plan, some_shape, some_table, Card, Place,
};
use crate::records::{some_words, Content};
use crate::totals::{ask, refuse, some_numbers};
use reference::rng::Rng;
use reference::table::{self, Shape, Spot, LIVE_COUNT};
use reference::{identifier, ours, plane, Answer};

/// What adds and changes to plan 255 were answered, and what with plan 254 in its place.
struct Given {
    desk: Seen,
    instead: Seen,
}

impl Given {
    fn none() -> Given {
        Given {
            desk: Seen::none(),
            instead: Seen::none(),
        }
    }

    /// An add and a change to plan 255: 14 unless the identifier is turned down, whatever the table is, which stays.
    fn give(&mut self, card: &Card, t: &[u64]) {
        let (kind, id) = (card.kind, &card.id);
        let expected = match card.word() {
            Ok(_) => Answer::refused(14, 0),
            Err(refusal) => refusal,
        };
        let (mut ours_t, mut their_t) = (t.to_vec(), t.to_vec());
        let (a, b) = (&mut ours_t, &mut their_t);
        let answers = [
            (
                "add",
                ours::add(a, kind, id, 255),
                table::add(b, kind, id, 255),
            ),
            (
                "change",
                ours::change(a, kind, id, 255),
                table::change(b, kind, id, 255),
            ),
        ];
        for (call, ours, answer) in answers {
            self.desk.same(call, (card, t.len()), ours, answer);
            same(call, (card, t.len()), ours, expected);
        }
        same_all("table", card, &ours_t, t);
        same_all("table of the reference", card, &their_t, t);

        let (a, b) = (&mut ours_t, &mut their_t);
        let ours = ours::change(a, kind, id, 254);
        let answer = table::change(b, kind, id, 254);
        self.instead.same("change", card, ours, answer);
        let ours = ours::add(a, kind, id, 254);
        let answer = table::add(b, kind, id, 254);
        self.instead.same("add", card, ours, answer);
        same_all("table", card, a, b);
    }

    /// These must have occurred with plan 254. With 255, only causes 15, 1 and 2 of them and 14.
    fn print(&self, what: &str, expected: &[u64]) {
        let what = format!("{} adds and changes to plan 255 {what}", self.desk.total());
        let cards = expected.iter().copied().filter(|n| [15, 1, 2].contains(n));
        let desk: Vec<u64> = cards.chain([14]).collect();
        self.desk.print(&what, &desk);
        self.instead.print("the same to plan 254", expected);
    }
}

/// A table filled to the first refusal and the cards tried: some words of each level and of the base list, which is full or
/// nearly.
fn full_table(shape: Shape) -> (Vec<u64>, Vec<Card>) {
    let mut t = vec![0; shape.table_len()];
    table::open(&mut t, shape.buckets1, shape.buckets2);
    let mut tried = different_cards(80 * (shape.buckets() + 1));
    let taken = tried.iter().enumerate().take_while(|(i, card)| {
        let word = card.word().expect("a card");
        shape.add(&mut t, word, (i % 255) as u8).is_ok()
    });
    let count = taken.count();
    tried.truncate(count + 10);
    (t, tried)
}

/// 255 given: to words live and not, on tables sound, full, damaged, of any length and of any numbers.
pub fn given(rng: &mut Rng, cases: u64) {
    let mut given = Given::none();
    for _ in 0..cases {
        let cards = cards(rng, 400);
        let sound = some_table(rng, &cards);
        for _ in 0..4 {
            given.give(&card(rng, &cards), &sound);
            let mut damaged = sound.clone();
            damage(rng, &mut damaged);
            given.give(&card(rng, &cards), &damaged);
        }
        let numbers = some_numbers(rng);
        given.give(&known_card(rng, &cards), &numbers);
        given.give(&any_card(rng), &numbers);
    }
    for (b1, b2) in [(1, 1), (2, 1), (4, 2)] {
        let shape = Shape::new(b1, b2).expect("in range");
        let (full, tried) = full_table(shape);
        for card in &tried {
            given.give(card, &full);
        }
        let card = &tried[0];
        // Every length to the totals' end, and those about the right one.
        let right = full.len();
        for length in (0..=260).chain(right - 2..=right) {
            given.give(card, &full[..length]);
        }
        given.give(card, &[&full[..], &[0]].concat());
        for wrong in [
            [0, b2],
            [b1, 0],
            [49, b2],
            [b1, 33],
            [b1 + b2, 0],
            [0, b1 + b2],
        ] {
            let mut other = full.clone();
            other[..2].copy_from_slice(&wrong);
            given.give(card, &other);
        }
    }
    given.print("on tables of every sort", &[0, 1, 2, 4, 5, 6, 7, 8, 15]);
}

/// Each live word of full tables with plan 255, and all of them, with the totals as they were and made right: cause 5 from every call
/// that tests the table, but 14 where 255 is given. Of large tables only some words.
pub fn tables(rng: &mut Rng, long: bool) {
    let (mut refused, mut asked, mut right) = (Seen::none(), Seen::none(), Seen::none());
    let mut given = Given::none();
    let mut counts = [0; 3];
    let mut wrong = |rng: &mut Rng, card: &Card, t: &mut [u64], words: u64| {
        for total in [0, words] {
            refuse(rng, &mut refused, card, t);
            given.give(card, t);
            ask(&mut asked, t, 255);
            let ours = ours::plan_total(t, 255);
            same("total of 255", card, ours, Answer::accepted(total));
            recount(t);
        }
    };
    let large: &[(u64, u64)] = &[(8, 4), (24, 16), (48, 32)];
    let shapes = [(1, 1), (2, 1), (1, 2), (4, 2)];
    for &(b1, b2) in shapes.iter().chain(if long { large } else { &[] }) {
        let shape = Shape::new(b1, b2).expect("in range");
        let (sound, tried) = full_table(shape);
        for place in places(&sound) {
            if shape.buckets() > 6 && !rng.one_in(shape.buckets() as u64 / 2) {
                continue;
            }
            counts[match place {
                Place::Row(bucket, _) => usize::from(bucket >= b1 as usize),
                Place::Entry(_) => 2,
            }] += 1;
            let card = rng.pick(&tried);
            let (kind, id) = (card.kind, &card.id);
            let mut t = sound.clone();
            set_plan(&mut t, place, 255);
            wrong(rng, card, &mut t, 1);
            set_plan(&mut t, place, 254);
            recount(&mut t);
            let ours = ours::query(&t, kind, id);
            right.same("query", card, ours, table::query(&t, kind, id));
        }
        let mut all = sound.clone();
        for place in places(&sound) {
            set_plan(&mut all, place, 255);
        }
        wrong(rng, &tried[0], &mut all, sound[LIVE_COUNT]);
    }
    let [level1, level2, base] = counts;
    let what = format!(
        "plan 255 of {level1} words of level 1, {level2} of level 2, {base} of base lists, {} calls",
        refused.total()
    );
    if counts.contains(&0) {
        differ(&what, counts, "one never occurred");
    }
    refused.print(&what, &[5]);
    given.print("on them", &[5]);
    asked.print("questions for the total of 255 on them", &[0]);
    right.print("queries with plan 254 instead", &[0, 7]);
}

/// Tables whose live words have the plans 15 and 240 alone: sound, though their buckets answer 255, the XOR of the two, to some who are not
/// live. They take words, and their planes are written and read.
pub fn by_buckets(rng: &mut Rng, cases: u64) {
    let (mut called, mut read) = (Seen::none(), Seen::none());
    let mut desk = 0;
    for _ in 0..cases {
        let cards = cards(rng, 100);
        let mut t = some_table(rng, &cards);
        for place in places(&t) {
            set_plan(&mut t, place, *rng.pick(&[15, 240]));
        }
        recount(&mut t);
        let mut ours_t = t.clone();
        for _ in 0..10 {
            let Card { kind, id } = &known_card(rng, &cards);
            let plan = *rng.pick(&[15, 240]);
            let ours = ours::add(&mut ours_t, *kind, id, plan);
            called.same("add", id, ours, table::add(&mut t, *kind, id, plan));
            same_all("table", id, &ours_t, &t);
            let Card { kind, id } = &known_card(rng, &cards);
            let ours = ours::withdraw(&mut ours_t, *kind, id);
            called.same("withdraw", id, ours, table::withdraw(&mut t, *kind, id));
            same_all("table", id, &ours_t, &t);
        }
        let (mut ours_out, mut out) = ([0xa5; 6000], [0xa5; 6000]);
        let answer = plane::write(&t, &mut out);
        called.same(
            "write",
            t.len(),
            ours::write_plane(&t, &mut ours_out),
            answer,
        );
        same_all("plane", t.len(), &ours_out, &out);
        let bytes = &out[..answer.value as usize];
        for card in &cards {
            let answer = plane::lookup(card.kind, &card.id, bytes);
            let ours = ours::lookup(card.kind, &card.id, bytes);
            read.same("lookup", card, ours, answer);
            let word = card.word().expect("a card");
            let shape = Shape::of(&t).expect("a table");
            let by_bucket = shape.spot(&t, word) != Spot::Base;
            desk += u64::from(by_bucket && answer.value == 255);
        }
    }
    called.print(
        &format!("calls on {cases} tables whose words have the plans 15 and 240"),
        &[0, 6, 7],
    );
    let what = format!("lookups in their planes, 255 by a bucket {desk} times");
    if desk == 0 {
        differ(&what, cases, "never occurred");
    }
    read.print(&what, &[0]);
}

/// The plan that a plane of this content gives a word, and whether a bucket gives it.
fn plan_by(content: &Content, word: u64) -> (u8, bool) {
    let level1 = &content.buckets[..usize::from(content.b1)];
    let level2 = &content.buckets[usize::from(content.b1)..];
    let second = identifier::level2_vector(word);
    for (level, vector) in [(level1, word), (level2, second)] {
        let place = identifier::place(vector);
        let bucket = &level[identifier::bucket(place, level.len() as u64) as usize];
        if identifier::threshold(place) < u64::from(bucket[0]) {
            let solutions = bucket[1..].chunks_exact(8);
            let plan = solutions.enumerate().fold(0, |plan, (c, solution)| {
                let ones = solution.iter().zip(vector.to_le_bytes());
                let ones: u32 = ones.map(|(a, b)| (a & b).count_ones()).sum();
                plan | (ones as u8 & 1) << c
            });
            return (plan, true);
        }
    }
    let entry = content.base.get(&second);
    (entry.copied().unwrap_or(255), false)
}

/// Lookups in planes put together by hand: a word that no bucket holds and the base list lacks gets 255; a bucket may answer it too.
pub fn lookups(rng: &mut Rng, cases: u64) {
    let mut seen = Seen::none();
    // 255 by a bucket, 255 for a word that is nowhere, another plan.
    let mut counts = [0; 3];
    for _ in 0..cases {
        let cards = cards(rng, 100);
        let (b1, b2) = some_shape(rng);
        let words = some_words(rng, 40);
        let entries = *rng.pick(&[0, 1, 30, 64]);
        let mut content = Content::some(rng, b1, b2, &words, entries);
        for bucket in &mut content.buckets {
            if rng.one_in(4) {
                // Eight equal solution words: 0 or 255.
                let solution = rng.bytes(8);
                bucket[1..].copy_from_slice(&solution.repeat(8));
            }
            if rng.one_in(4) {
                bucket[0] = 0;
            }
        }
        for card in cards.iter().take(64 - content.base.len()) {
            let word = card.word().expect("a card");
            let second = identifier::level2_vector(word);
            content.base.insert(second, given_plan(rng));
        }
        let bytes = content.bytes();
        for card in &cards {
            let ours = ours::lookup(card.kind, &card.id, &bytes);
            let answer = plane::lookup(card.kind, &card.id, &bytes);
            seen.same("lookup", card, ours, answer);
            let word = card.word().expect("a card");
            let (plan, by_bucket) = plan_by(&content, word);
            same("plan", card, ours, Answer::accepted(plan.into()));
            counts[match (plan, by_bucket) {
                (255, true) => 0,
                (255, false) => 1,
                _ => 2,
            }] += 1;
        }
    }
    let [bucket, nowhere, _] = counts;
    let what = format!("lookups in {cases} planes, 255 by a bucket {bucket} times, for a word that is nowhere {nowhere} times");
    if counts.contains(&0) {
        differ(&what, counts, "one never occurred");
    }
    seen.print(&what, &[0]);
}

/// 255 in each base entry of planes, alone, with all later ones, and with something else that is wrong before it, in it or after it:
/// the offset of the first record that is wrong.
pub fn planes(rng: &mut Rng, cases: u64) {
    let mut seen = Seen::none();
    let cards = different_cards(100);
    for _ in 0..cases {
        let (b1, b2) = some_shape(rng);
        let words = some_words(rng, 100);
        let entries = *rng.pick(&[1, 2, 3, 40, 63, 64]);
        let content = Content::some(rng, b1, b2, &words, entries);
        let right = content.bytes();
        let first = 5 + 66 * content.buckets.len();
        let end = first + 10 * content.base.len();
        let card = card(rng, &cards);
        let mut expect = |bytes: &[u8], offset: Option<usize>| {
            let ours = ours::lookup(card.kind, &card.id, bytes);
            let answer = plane::lookup(card.kind, &card.id, bytes);
            seen.same("lookup", &card, ours, answer);
            if let (Some(offset), Ok(_)) = (offset, card.word()) {
                let expected = Answer::refused(10, offset as u64);
                same("255 in a base entry", offset, ours, expected);
            }
        };
        expect(&right, None);
        for at in (first..end).step_by(10) {
            let mut bytes = right.clone();
            bytes[at + 9] = 254;
            expect(&bytes, None);
            bytes[at + 9] = 255;
            expect(&bytes, Some(at));
            expect(&bytes[..at + 10], Some(at));
            let mut others = bytes.clone();
            others[at..end]
                .chunks_exact_mut(10)
                .for_each(|e| e[9] = 255);
            expect(&others, Some(at));
            let wrong = rng.below(bytes.len() as u64) as usize;
            let mut other = bytes.clone();
            other[wrong] ^= 1 << rng.below(8);
            // What is wrong before it or in it comes first, or changes nothing.
            let after = wrong >= at + 10;
            expect(&other, after.then_some(at));
            expect(&other[..wrong], after.then_some(at));
        }
    }
    seen.print(
        &format!("{cases} planes with 255 in each base entry"),
        &[0, 1, 2, 10, 15],
    );
}

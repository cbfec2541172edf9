//! Patches, made and applied: of planes put together by hand and of planes along histories; whole, edited and damaged.

use crate::compare::{differ, same, same_all, Seen};
use crate::random::{given_plan, some_shape};
use crate::records::{
    change, edit, end, fit, gone, new, some_patch, some_words, split, sums, Content, BASE_MAX,
};
use reference::rng::Rng;
use reference::table::{self, Shape};
use reference::{ours, patch, plane, Answer};
use std::collections::BTreeMap;
use std::fmt::{Debug, Formatter};

/// Longer than any patch or plane.
const LONG: usize = 7000;

/// What a call gets: two byte buffers, printed as hexadecimal digits, and the output's length.
#[derive(Clone, Copy)]
struct Input<'a>(&'a [u8], &'a [u8], usize);

impl Debug for Input<'_> {
    fn fmt(&self, f: &mut Formatter) -> std::fmt::Result {
        for bytes in [self.0, self.1] {
            for byte in bytes {
                write!(f, "{byte:02x}")?;
            }
            write!(f, ", ")?;
        }
        write!(f, "output of {}", self.2)
    }
}

/// The two programs' outputs, what they held before, and how often each answer occurred.
struct Both {
    before: Vec<u8>,
    ours_out: Vec<u8>,
    out: Vec<u8>,
    /// The length of the last result.
    written: usize,
    made: Seen,
    applied: Seen,
}

impl Both {
    fn new(rng: &mut Rng) -> Both {
        let before = rng.bytes(LONG);
        Both {
            ours_out: before.clone(),
            out: before.clone(),
            before,
            written: 0,
            made: Seen::none(),
            applied: Seen::none(),
        }
    }

    /// The outputs are the same, every byte, and what is not the result is as it was.
    fn same_outputs(&mut self, what: &str, input: Input, answer: Answer) {
        self.written = match answer.cause {
            0 => answer.value as usize,
            _ => 0,
        };
        let kept = self.written..;
        same_all(what, input, &self.ours_out, &self.out);
        same_all(what, input, &self.out[kept.clone()], &self.before[kept]);
    }

    /// The outputs as they were before the last call.
    fn restore(&mut self) {
        let result = ..self.written;
        self.ours_out[result].copy_from_slice(&self.before[result]);
        self.out[result].copy_from_slice(&self.before[result]);
        self.written = 0;
    }

    /// Making put to both on outputs of this length.
    fn make(&mut self, old: &[u8], new: &[u8], length: usize) -> Answer {
        self.restore();
        let input = Input(old, new, length);
        let answer = patch::make(old, new, &mut self.out[..length]);
        let ours = ours::make_patch(old, new, &mut self.ours_out[..length]);
        self.made.same("make a patch", input, ours, answer);
        self.same_outputs("patch", input, answer);
        answer
    }

    /// Applying put to both on outputs of this length.
    fn apply(&mut self, old: &[u8], patch: &[u8], length: usize) -> Answer {
        self.restore();
        let input = Input(old, patch, length);
        let answer = patch::apply(old, patch, &mut self.out[..length]);
        let ours = ours::apply_patch(old, patch, &mut self.ours_out[..length]);
        self.applied.same("apply a patch", input, ours, answer);
        self.same_outputs("plane", input, answer);
        answer
    }

    /// The patch between planes of equal bucket numbers, which applied to the old one gives the new one.
    fn patch(&mut self, old: &[u8], new: &[u8]) -> Vec<u8> {
        let answer = self.make(old, new, LONG);
        same("patch made", Input(old, new, LONG), answer.cause, 0);
        let patch = self.ours_out[..self.written].to_vec();
        let answer = self.apply(old, &patch, LONG);
        same("patch applied", Input(old, &patch, LONG), answer.cause, 0);
        let given = &self.ours_out[..self.written];
        same_all("new plane", Input(old, &patch, LONG), given, new);
        patch
    }

    /// The answer is this one, of both.
    fn expect(&mut self, what: &str, old: &[u8], patch: &[u8], expected: Answer) {
        let answer = self.apply(old, patch, LONG);
        same(what, Input(old, patch, LONG), answer, expected);
    }

    /// Making on outputs one byte short, just long enough, longer, empty, and of any length.
    fn make_lengths(&mut self, rng: &mut Rng, old: &[u8], new: &[u8]) {
        let needed = self.make(old, new, LONG).value;
        for length in lengths(rng, needed) {
            self.make(old, new, length);
        }
    }

    fn apply_lengths(&mut self, rng: &mut Rng, old: &[u8], patch: &[u8]) {
        let needed = self.apply(old, patch, LONG).value;
        for length in lengths(rng, needed) {
            self.apply(old, patch, length);
        }
    }

    fn print(&self, what: &str) {
        let (made, applied) = (self.made.total(), self.applied.total());
        self.made
            .print(&format!("{made} patches to make, {what}"), &[0, 9, 10, 11]);
        self.applied.print(
            &format!("{applied} patches to apply, {what}"),
            &[0, 9, 10, 12, 13],
        );
    }
}

fn lengths(rng: &mut Rng, needed: u64) -> [usize; 5] {
    let any = rng.below(LONG as u64);
    let longer = needed + 1 + rng.below(100);
    [needed.saturating_sub(1), needed, longer, 0, any].map(|length| LONG.min(length as usize))
}

/// The bytes, of which there are some, cut, longer, or with one byte changed, often one of the first five.
fn damaged(rng: &mut Rng, bytes: &[u8]) -> Vec<u8> {
    let mut bytes = bytes.to_vec();
    let at = rng.below(bytes.len() as u64) as usize;
    match rng.below(8) {
        0 => bytes.truncate(at),
        1 => {
            let length = 1 + rng.below(3) as usize;
            bytes.extend(rng.bytes(length));
        }
        2 => bytes[at] ^= 1 << rng.below(8),
        3 => bytes[at.min(rng.below(5) as usize)] = rng.byte(),
        _ => bytes[at] = rng.byte(),
    }
    bytes
}

/// One of the sums, or both, another.
fn other_sums(rng: &mut Rng, patch: &mut [u8]) {
    let choice = rng.below(3);
    if patch.len() < patch::SUMS_LEN {
        return;
    }
    if choice != 0 {
        patch[1 + rng.below(8) as usize] ^= 1 << rng.below(8);
    }
    if choice != 1 {
        patch[9 + rng.below(8) as usize] ^= 1 << rng.below(8);
    }
}

/// Planes with few and many buckets and base entries, patches between them and patches that anyone may have made, edited, put to
/// other planes.
pub fn pairs(rng: &mut Rng, cases: u64) {
    let mut both = Both::new(rng);
    for _ in 0..cases {
        let (b1, b2) = match rng.below(40) {
            0 => (48, 32),
            _ => some_shape(rng),
        };
        let count = *rng.pick(&[2, 20, 150]);
        let words = some_words(rng, count);
        let entries = *rng.pick(&[0, 1, 5, 30, 63, 64]);
        let from = Content::some(rng, b1, b2, &words, entries);
        let to = from.varied(rng, &words);
        let (old, new) = (from.bytes(), to.bytes());
        let patch = both.patch(&old, &new);
        both.make_lengths(rng, &old, &new);
        both.apply_lengths(rng, &old, &patch);
        wrong_planes(rng, &mut both, &from, &to, &words);
        // Fewer of the longer ones.
        for _ in 0..1 + 600 / from.buckets.len() {
            some_edit(rng, &mut both, &from, &old, &patch, &words);
        }
    }
    both.print("of planes put together by hand, whole, edited and damaged");
}

/// Making with wrong planes and unlike ones, all at once too; a patch put to other planes.
fn wrong_planes(rng: &mut Rng, both: &mut Both, from: &Content, to: &Content, words: &[u64]) {
    let (old, new) = (from.bytes(), to.bytes());
    // The levels exchanged, or one bucket more or less in one of them.
    let (b1, b2) = (u64::from(from.b1), u64::from(from.b2));
    let unlike = match rng.below(3) {
        0 if b1 != b2 && b1 <= 32 => (b2, b1),
        1 => (b1, if b2 < 32 { b2 + 1 } else { b2 - 1 }),
        _ => (if b1 < 48 { b1 + 1 } else { b1 - 1 }, b2),
    };
    let unlike = Content::some(rng, unlike.0, unlike.1, words, 5).bytes();
    let (wrong_old, wrong_new) = (damaged(rng, &old), damaged(rng, &new));
    let wrong_unlike = damaged(rng, &unlike);
    let length = *rng.pick(&[0, 21, 22, LONG]);
    for a in [&old, &wrong_old, &unlike, &wrong_unlike] {
        for b in [&new, &wrong_new, &unlike, &wrong_unlike] {
            both.make(a, b, LONG);
            both.make(a, b, length);
        }
    }
    let patch = both.patch(&old, &new);
    let other = from.varied(rng, words).bytes();
    for plane in [&new, &other, &unlike, &wrong_old, &wrong_unlike] {
        both.apply(plane, &patch, LONG);
        let mut patch = patch.clone();
        fit(plane, &mut patch);
        both.apply(plane, &patch, LONG);
        both.apply(plane, &patch, length);
        other_sums(rng, &mut patch);
        both.apply(plane, &patch, LONG);
    }
}

/// A patch after some edits, its sums mostly fitting where nothing else is wrong, put to its plane.
fn some_edit(
    rng: &mut Rng,
    both: &mut Both,
    from: &Content,
    old: &[u8],
    patch: &[u8],
    words: &[u64],
) {
    let mut records = if rng.one_in(2) {
        split(patch)
    } else {
        some_patch(rng, from)
    };
    for _ in 0..*rng.pick(&[0, 0, 1, 1, 1, 2]) {
        edit(rng, &mut records, from.buckets.len(), words);
    }
    let mut patch = records.concat();
    if !rng.one_in(8) {
        fit(old, &mut patch);
    }
    if rng.one_in(8) {
        other_sums(rng, &mut patch);
    }
    if rng.one_in(8) && !patch.is_empty() {
        patch = damaged(rng, &patch);
    }
    if rng.one_in(4) {
        both.apply_lengths(rng, old, &patch);
    } else {
        both.apply(old, &patch, LONG);
    }
    if rng.one_in(16) {
        let old = damaged(rng, old);
        both.apply(&old, &patch, LONG);
    }
}

/// A list of calls on a table, the plane written after each, and patches between these planes: a change of one plan costs 22 bytes if
/// the plan was that already, else 32 in the base list and 89 in a bucket. How often it was each of these.
fn history(rng: &mut Rng, both: &mut Both, b1: u64, b2: u64, steps: u64) -> [u64; 3] {
    let shape = Shape::new(b1, b2).expect("in range");
    let mut t = vec![0; shape.table_len()];
    table::open(&mut t, b1, b2);
    let mut planes = vec![plane::plane_of(&t, shape)];
    let mut words: Vec<u64> = Vec::new();
    let mut costs = [0; 3];
    for step in 0..steps {
        // The second half on a table as full as it gets.
        if step == steps / 2 {
            loop {
                let word = rng.next();
                if shape.add(&mut t, word, given_plan(rng)).is_err() {
                    break;
                }
                words.push(word);
            }
            planes.push(plane::plane_of(&t, shape));
        }
        let fresh = rng.next();
        let word = match rng.below(8) {
            0 => fresh,
            _ if words.is_empty() => fresh,
            _ => *rng.pick(&words),
        };
        let held = shape.plan(&t, word);
        let plan = match held {
            Some(held) if rng.one_in(4) => held,
            _ => given_plan(rng),
        };
        let changing = held.is_some() && !rng.one_in(4);
        let answer = match held {
            Some(_) if changing => shape.change(&mut t, word, plan),
            Some(_) => shape.withdraw(&mut t, word),
            None => shape.add(&mut t, word, plan),
        };
        if held.is_none() && answer.is_ok() {
            words.push(word);
        }
        let new = plane::plane_of(&t, shape);
        let old = planes.last().expect("one at least");
        let patch = both.patch(old, &new);
        if changing {
            let cost = match (patch.len(), held == Some(plan)) {
                (22, true) => 0,
                (32, false) => 1,
                (89, false) => 2,
                _ => differ("change of a plan", Input(old, &new, LONG), "its cost"),
            };
            costs[cost] += 1;
        }
        // Between any two, and to another plane than its own.
        let (from, to) = (rng.pick::<Vec<u8>>(&planes), rng.pick::<Vec<u8>>(&planes));
        let far = both.patch(from, to);
        both.apply(&new, &far, LONG);
        both.apply(to, &patch, LONG);
        planes.push(new);
    }
    costs
}

/// Histories at several bucket numbers.
pub fn histories(rng: &mut Rng, times: u64) {
    let mut both = Both::new(rng);
    let mut costs = [0; 3];
    let steps = [(1, 1, 600), (2, 1, 600), (4, 2, 400), (48, 32, 40)];
    for (b1, b2, steps) in steps {
        let counts = history(rng, &mut both, b1, b2, steps * times);
        for (cost, count) in costs.iter_mut().zip(counts) {
            *cost += count;
        }
    }
    if costs.contains(&0) {
        differ("costs of changes", costs, "one never occurred");
    }
    let [none, entry, bucket] = costs;
    both.made.print(
        &format!(
            "{} patches to make along histories, of a plan's change {none} of 22 bytes, {entry} of 32, {bucket} of 89",
            both.made.total()
        ),
        &[0],
    );
    both.applied.print(
        &format!("{} patches to apply along histories", both.applied.total()),
        &[0, 12, 13],
    );
}

/// Every cut of a patch, and every byte changed to each of these values and back, with its sums and with sums that fit.
fn each_damage(both: &mut Both, old: &[u8], patch: &[u8], values: impl Fn(u8) -> Vec<u8>) {
    for at in 0..=patch.len() {
        both.apply(old, &patch[..at], LONG);
    }
    let mut damaged = patch.to_vec();
    for at in 0..patch.len() {
        for value in values(patch[at]) {
            damaged[at] = value;
            both.apply(old, &damaged, LONG);
        }
        if at >= patch::SUMS_LEN {
            damaged[at] = patch[at] ^ 1;
            fit(old, &mut damaged);
            both.apply(old, &damaged, LONG);
            damaged[..patch::SUMS_LEN].copy_from_slice(&patch[..patch::SUMS_LEN]);
        }
        damaged[at] = patch[at];
    }
}

/// Every cut of a plane and every byte of it changed, as either plane of making and as applying's.
fn each_plane_damage(both: &mut Both, old: &[u8], new: &[u8], patch: &[u8]) {
    for at in 0..=old.len() {
        both.make(&old[..at], new, LONG);
        both.make(new, &old[..at], LONG);
        both.apply(&old[..at], patch, LONG);
    }
    let mut damaged = old.to_vec();
    for at in 0..old.len() {
        for value in some_values(old[at]) {
            damaged[at] = value;
            both.make(&damaged, new, LONG);
            both.make(new, &damaged, LONG);
            both.apply(&damaged, patch, LONG);
        }
        damaged[at] = old[at];
    }
}

/// Values for a byte: the limits, those next to them, and some that differ in one bit.
fn some_values(byte: u8) -> Vec<u8> {
    let limits = [
        0, 1, 2, 3, 4, 5, 6, 7, 8, 9, 32, 33, 48, 49, 64, 65, 80, 255,
    ];
    let bits = [byte ^ 1, byte ^ 0x10, byte ^ 0x80];
    [&limits[..], &bits[..]].concat()
}

/// Every cut and every byte of small patches and of the longest; every limit from both sides.
pub fn edges(rng: &mut Rng, long: bool) {
    let mut both = Both::new(rng);
    let every = |_| (0..=255).collect();
    // A patch that changes nothing, then records of each kind.
    for case in 0..if long { 64 } else { 24 } {
        let words = some_words(rng, 8);
        let from = Content::some(rng, 1 + case % 2, 1, &words, 4);
        let to = match case {
            0 => from.clone(),
            _ => from.varied(rng, &words),
        };
        let (old, new) = (from.bytes(), to.bytes());
        let patch = both.patch(&old, &new);
        each_damage(&mut both, &old, &patch, every);
        if case < 4 || long {
            each_plane_damage(&mut both, &old, &new, &patch);
        }
    }
    // 64 base words exchanged for 64 others.
    let (from, to) = exchanged(rng, 1, 1);
    let patch = both.patch(&from.bytes(), &to.bytes());
    if long {
        each_damage(&mut both, &from.bytes(), &patch, every);
    } else {
        each_damage(&mut both, &from.bytes(), &patch, |byte| vec![byte ^ 1, 8]);
    }
    longest(rng, &mut both, long);
    full(rng, &mut both);
    limits(rng, &mut both);
    desk(rng, &mut both);
    order(rng, &mut both);
    both.print("every cut and every byte of small ones, the longest, every limit");
}

/// Two planes with 64 base entries each, of which no word is the same.
fn exchanged(rng: &mut Rng, b1: u64, b2: u64) -> (Content, Content) {
    let words: Vec<u64> = (0..1000).map(|_| rng.next()).collect();
    let with = |rng: &mut Rng, parity| {
        let words: Vec<u64> = words.iter().map(|&word| word & !1 | parity).collect();
        Content::some(rng, b1, b2, &words, BASE_MAX)
    };
    (with(rng, 0), with(rng, 1))
}

/// The longest planes, and the longest patch: every bucket changed and 64 base words exchanged.
fn longest(rng: &mut Rng, both: &mut Both, long: bool) {
    let (from, to) = exchanged(rng, 48, 32);
    let (old, new) = (from.bytes(), to.bytes());
    let lengths = (old.len(), new.len());
    same("longest planes", (), lengths, (5930, 5930));
    let patch = both.patch(&old, &new);
    same("longest patch", (), patch.len(), 6598);
    both.make_lengths(rng, &old, &new);
    both.apply_lengths(rng, &old, &patch);
    if long {
        each_damage(both, &old, &patch, some_values);
    } else {
        each_damage(both, &old, &patch, |byte| vec![byte ^ 8]);
    }
}

/// The patch of these records for a plane, with sums that fit if nothing is wrong.
fn fitted(old: &[u8], records: &[Vec<u8>]) -> Vec<u8> {
    let mut patch = [&[sums(0, 0)], records, &[end()]].concat().concat();
    fit(old, &mut patch);
    patch
}

/// 64 and 65 base entries, with and without removals and changed entries.
fn full(rng: &mut Rng, both: &mut Both) {
    for entries in [0, 1, 40, 63, 64] {
        let mut from = Content::some(rng, 1, 1, &[], 0);
        from.base = (1..=entries).map(|i| (1000 * i, i as u8)).collect();
        let old = from.bytes();
        for removed in [0, 1, 2, entries / 2, entries] {
            let removed = removed.min(entries);
            let leaving = (1..=removed).map(|i| gone(1000 * i));
            let room = BASE_MAX as u64 - (entries - removed);
            for changed in [0, 1, entries - removed] {
                let changed = changed.min(entries - removed);
                for extra in 0..3 {
                    // Before the entries, between them and after them.
                    for start in [1, 40_001, 1_000_000] {
                        let mut news = BTreeMap::new();
                        for i in 0..changed {
                            news.insert(1000 * (removed + 1 + i), 7);
                        }
                        let added: Vec<u64> = (0..room + extra).map(|i| start + i).collect();
                        news.extend(added.iter().map(|&word| (word, 9)));
                        let over = added.get(room as usize);
                        let before = news.keys().take_while(|&word| Some(word) != over);
                        let expected = match over {
                            None => Answer::accepted(142 + 640),
                            Some(_) => {
                                let offset = 17 + 9 * removed + 10 * before.count() as u64;
                                Answer::refused(12, offset)
                            }
                        };
                        let news = news.iter().map(|(&word, &plan)| new(word, plan));
                        let records: Vec<Vec<u8>> = leaving.clone().chain(news).collect();
                        let patch = fitted(&old, &records);
                        both.expect("base list full", &old, &patch, expected);
                    }
                }
            }
        }
    }
}

/// Indexes, bounds and words at their limits; records that change nothing; records out of their place.
fn limits(rng: &mut Rng, both: &mut Both) {
    let wrong = |offset: u64| Answer::refused(12, offset);
    for (b1, b2) in [(1, 1), (1, 32), (48, 1), (48, 32)] {
        let mut from = Content::some(rng, b1, b2, &[], 0);
        from.base = BTreeMap::from([(10, 1), (20, 2), (30, 3)]);
        let old = from.bytes();
        let right = Answer::accepted(old.len() as u64);
        let mut expect = |what: &str, records: &[Vec<u8>], answer: Answer| {
            both.expect(what, &old, &fitted(&old, records), answer);
        };
        let buckets = (b1 + b2) as u8;
        let mut bucket = vec![8; 65];
        for index in 0..=255 {
            let answer = if index < buckets { right } else { wrong(17) };
            expect("index", &[change(index, &bucket)], answer);
            let twice = [change(index, &bucket), change(index, &bucket)];
            let answer = if index < buckets {
                wrong(84)
            } else {
                wrong(17)
            };
            expect("index again", &twice, answer);
        }
        for bound in 0..=255 {
            bucket[0] = bound;
            let answer = if bound <= 8 { right } else { wrong(17) };
            expect("bound", &[change(0, &bucket)], answer);
        }
        let same: Vec<Vec<u8>> = (0..)
            .zip(&from.buckets)
            .map(|(index, bucket)| change(index, bucket))
            .collect();
        expect("changes of nothing", &same, right);
        let same = [new(10, 1), new(20, 2), new(30, 3)];
        expect("entries that are there", &same, right);
        let one_less = Answer::accepted(old.len() as u64 - 10);
        expect("word gone", &[gone(10)], one_less);
        expect("word gone", &[gone(30)], one_less);
        expect("words absent", &[gone(9)], wrong(17));
        expect("words absent", &[gone(10), gone(31)], wrong(26));
        expect("word gone twice", &[gone(20), gone(20)], wrong(26));
        expect("words descending", &[gone(20), gone(10)], wrong(26));
        expect("words descending", &[new(5, 0), new(4, 0)], wrong(27));
        expect("gone and new", &[gone(20), new(20, 2)], wrong(26));
        expect("another new", &[gone(20), new(21, 2)], right);
        expect("6 after 7", &[gone(20), change(0, &[8; 65])], wrong(26));
        expect("6 after 8", &[new(20, 1), change(0, &[8; 65])], wrong(27));
        expect("7 after 8", &[new(20, 1), gone(10)], wrong(27));
        expect("second 5", &[sums(0, 0)], wrong(17));
        expect("early end", &[end()], wrong(22));
        expect("end again", &[end(), end()], wrong(22));
    }
}

/// Plan 255 in each base entry of either plane, and in each kind 8, of a new entry and of one that is there.
fn desk(rng: &mut Rng, both: &mut Both) {
    for (b1, b2, entries) in [(1, 1, 1), (2, 1, 3), (1, 2, 32), (48, 32, 64)] {
        let mut from = Content::some(rng, b1, b2, &[], 0);
        from.base = (1..=entries).map(|i| (1000 * i, i as u8)).collect();
        let old = from.bytes();
        let nothing = both.patch(&old, &old);
        let first = 5 + 66 * (b1 + b2) as usize;
        for at in (first..).step_by(10).take(entries as usize) {
            let mut wrong = old.clone();
            wrong[at + 9] = 255;
            let answer = Answer::refused(10, at as u64);
            for (a, b) in [(&wrong, &old), (&old, &wrong), (&wrong, &wrong)] {
                let made = both.make(a, b, LONG);
                same("255 in a plane", Input(a, b, LONG), made, answer);
            }
            both.expect("255 in a plane", &wrong, &nothing, answer);
            // The old plane is tested first.
            let mut later = old.clone();
            later[first + 9] = 255;
            let made = both.make(&wrong, &later, LONG);
            same("255 in both", Input(&wrong, &later, LONG), made, answer);
        }
        // As many new ones as there is room for, one between each two.
        let mut news: Vec<(u64, u8)> = from.base.clone().into_iter().collect();
        news.extend((1..=entries.min(64 - entries)).map(|i| (1000 * i + 500, 254)));
        news.sort();
        let records = |news: &[(u64, u8)]| -> Vec<Vec<u8>> {
            news.iter().map(|&(word, plan)| new(word, plan)).collect()
        };
        let length = first + 10 * news.len() + 5;
        let patch = fitted(&old, &records(&news));
        let right = Answer::accepted(length as u64);
        both.expect("kind 8", &old, &patch, right);
        for at in 0..news.len() {
            let mut wrong = news.clone();
            wrong[at].1 = 255;
            let answer = Answer::refused(12, 17 + 10 * at as u64);
            let patch = fitted(&old, &records(&wrong));
            both.expect("255 in kind 8", &old, &patch, answer);
            // Alone, and where its word goes or it would be one too many.
            let alone = Answer::refused(12, 17);
            let patch = fitted(&old, &records(&wrong[at..=at]));
            both.expect("255 in kind 8 alone", &old, &patch, alone);
            wrong[at + 1..].iter_mut().for_each(|entry| entry.1 = 255);
            let patch = fitted(&old, &records(&wrong));
            both.expect("255 in all the others", &old, &patch, answer);
        }
        let gone_first = [gone(1000), new(1000, 255)];
        let answer = Answer::refused(12, 26);
        both.expect("gone and 255", &old, &fitted(&old, &gone_first), answer);
    }
    let mut full = Content::some(rng, 1, 1, &[], 0);
    full.base = (1..=64).map(|i| (1000 * i, i as u8)).collect();
    let old = full.bytes();
    let records = [new(1, 255)];
    let answer = Answer::refused(12, 17);
    both.expect("65th and 255", &old, &fitted(&old, &records), answer);
}

/// The first cause that a call meets, where it would meet the later ones too.
fn order(rng: &mut Rng, both: &mut Both) {
    let from = Content::some(rng, 2, 1, &[10, 20, 30, 40, 50, 60], 2);
    let to = Content::some(rng, 2, 1, &[10, 20, 30, 40, 50, 60], 3);
    let (old, new) = (from.bytes(), to.bytes());
    let unlike =
        [(1, 2), (1, 1), (2, 2)].map(|(b1, b2)| Content::some(rng, b1, b2, &[], 0).bytes());
    let (wrong_old, wrong_new) = (&old[..70], &new[..140]);
    let patch = both.patch(&old, &new);
    let needed = patch.len() as u64;
    let make = [
        (wrong_old, wrong_new, Answer::refused(10, 5)),
        (wrong_new, wrong_old, Answer::refused(10, 137)),
        (wrong_old, &unlike[0], Answer::refused(10, 5)),
        (&unlike[0], wrong_new, Answer::refused(10, 137)),
        (&unlike[0], &new, Answer::refused(11, 0)),
        (&old, &unlike[0], Answer::refused(11, 0)),
        (&old, &unlike[1], Answer::refused(11, 0)),
        (&old, &unlike[2], Answer::refused(11, 0)),
        (&old, &new, Answer::refused(9, needed)),
        (&[], &[], Answer::refused(10, 0)),
    ];
    for (a, b, expected) in make {
        let answer = both.make(a, b, patch.len() - 1);
        same("first cause of making", Input(a, b, 0), answer, expected);
    }
    let mut other = patch.clone();
    other_sums(rng, &mut other);
    let longer = [&other[..], &[4]].concat();
    let apply = [
        (wrong_old, &longer, Answer::refused(10, 5)),
        (wrong_old, &Vec::new(), Answer::refused(10, 5)),
        (wrong_old, &patch, Answer::refused(10, 5)),
        (&[], &longer, Answer::refused(10, 0)),
        (&old, &longer, Answer::refused(12, needed)),
        (&old, &Vec::new(), Answer::refused(12, 0)),
        (&old, &other, Answer::refused(13, 0)),
        (&old, &patch, Answer::refused(9, new.len() as u64)),
    ];
    for (plane, patch, expected) in apply {
        let answer = both.apply(plane, patch, new.len() - 1);
        let input = Input(plane, patch, 0);
        same("first cause of applying", input, answer, expected);
    }
}

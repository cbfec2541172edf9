//! Patches: made and applied, whole and damaged.

use crate::oracle;
use crate::oracle::patches::{self as slow, Record, SlowPlane};
use reference::answer::Answer;
use reference::identifier;
use reference::rng::Rng;
use reference::table::{self, Shape};
use reference::{patch, plane};
use std::collections::BTreeMap;

fn refused(cause: u64, value: usize) -> Answer {
    Answer {
        cause,
        value: value as u64,
    }
}

fn accepted(length: usize) -> Answer {
    refused(0, length)
}

/// The call on an output of this length, against the slow model: the answer and
/// every byte of the output.
fn make(old: &[u8], new: &[u8], length: usize) -> Answer {
    let mut output = vec![0xa5; length];
    let (answer, left) = slow::put(&slow::make(old, new), &output);
    assert_eq!(patch::make(old, new, &mut output), answer);
    assert_eq!(output, left);
    answer
}

fn apply(old: &[u8], patch: &[u8], length: usize) -> Answer {
    let mut output = vec![0xa5; length];
    let (answer, left) = slow::put(&slow::apply(old, patch), &output);
    assert_eq!(patch::apply(old, patch, &mut output), answer);
    assert_eq!(output, left);
    answer
}

/// Longer than any patch or plane.
const LONG: usize = 7000;

fn made(old: &[u8], new: &[u8]) -> Vec<u8> {
    let mut output = vec![0; LONG];
    let answer = make(old, new, LONG);
    assert_eq!(answer.cause, 0);
    assert_eq!(patch::make(old, new, &mut output), answer);
    output.truncate(answer.value as usize);
    output
}

fn applied(old: &[u8], patch: &[u8]) -> Vec<u8> {
    let mut output = vec![0; LONG];
    let answer = apply(old, patch, LONG);
    assert_eq!(answer.cause, 0);
    assert_eq!(patch::apply(old, patch, &mut output), answer);
    output.truncate(answer.value as usize);
    output
}

fn random_bucket(rng: &mut Rng) -> Vec<u8> {
    let mut bucket = rng.bytes(65);
    bucket[0] = rng.below(9) as u8;
    bucket
}

/// A plane with any buckets and `entries` of the words.
fn random_plane(rng: &mut Rng, level1: u8, level2: u8, words: &[u64], entries: usize) -> SlowPlane {
    let mut base = BTreeMap::new();
    while base.len() < entries {
        base.insert(*rng.pick(words), oracle::random_plan(rng));
    }
    SlowPlane {
        level1,
        level2,
        buckets: (0..level1 + level2)
            .map(|index| (index, random_bucket(rng)))
            .collect(),
        base,
    }
}

/// The same plane with some records changed, gone and new.
fn varied(rng: &mut Rng, plane: &SlowPlane, words: &[u64]) -> SlowPlane {
    let mut other = plane.clone();
    let often = 1 + rng.below(4);
    for bucket in other.buckets.values_mut() {
        if rng.one_in(often) {
            *bucket = random_bucket(rng);
        }
    }
    other.base.retain(|_, _| !rng.one_in(often + 1));
    for plan in other.base.values_mut() {
        if rng.one_in(often + 1) {
            *plan = oracle::random_plan(rng);
        }
    }
    for _ in 0..rng.below(words.len() as u64) {
        if other.base.len() < 64 {
            other
                .base
                .insert(*rng.pick(words), oracle::random_plan(rng));
        }
    }
    other
}

/// Words, the smallest and the largest among them.
fn some_words(rng: &mut Rng, count: usize) -> Vec<u64> {
    let mut words: Vec<u64> = (2..count).map(|_| rng.next()).collect();
    words.extend([0, u64::MAX]);
    words
}

/// The patch of these records with the sums of this plane and of what they make
/// of it.
fn fitted(plane: &SlowPlane, records: &[Record]) -> Vec<u8> {
    let sums = [plane.bytes(), plane.after(records).bytes()].map(|p| oracle::fnv(&p));
    let mut records = records.to_vec();
    records[0].1 = sums.map(slow::bytes_of).concat();
    slow::joined(&records)
}

#[test]
fn by_hand() {
    let empty = [0; 64];
    let mut old = vec![1, 1, 2, 1, 3];
    for _ in 0..3 {
        old.extend([2, 8]);
        old.extend(empty);
    }
    old.extend([3, 0x11, 0, 0, 0, 0, 0, 0, 0, 3]);
    old.extend([3, 8, 7, 6, 5, 4, 3, 2, 1, 9]);
    old.extend([3, 255, 255, 255, 255, 255, 255, 255, 255, 1]);
    old.extend([4, 0x45, 0x4e, 0x44, 0x0a]);

    // The second bucket of level 1 gets the solutions of M1, the bucket of
    // level 2 another bound; 0x11 goes, 0x12 comes, the next gets plan 10.
    let mut solutions = empty;
    solutions[0] = 1;
    solutions[16] = 1;
    let mut new = vec![1, 1, 2, 1, 3, 2, 8];
    new.extend(empty);
    new.extend([2, 8]);
    new.extend(solutions);
    new.extend([2, 5]);
    new.extend(empty);
    new.extend([3, 0x12, 0, 0, 0, 0, 0, 0, 0, 7]);
    new.extend([3, 8, 7, 6, 5, 4, 3, 2, 1, 10]);
    new.extend([3, 255, 255, 255, 255, 255, 255, 255, 255, 1]);
    new.extend([4, 0x45, 0x4e, 0x44, 0x0a]);

    // The sums, by another program: e326b954993bd42d and feed4d5f90966010.
    let mut expected = vec![5];
    expected.extend([0x2d, 0xd4, 0x3b, 0x99, 0x54, 0xb9, 0x26, 0xe3]);
    expected.extend([0x10, 0x60, 0x96, 0x90, 0x5f, 0x4d, 0xed, 0xfe]);
    expected.extend([6, 1, 8]);
    expected.extend(solutions);
    expected.extend([6, 2, 5]);
    expected.extend(empty);
    expected.extend([7, 0x11, 0, 0, 0, 0, 0, 0, 0]);
    expected.extend([8, 0x12, 0, 0, 0, 0, 0, 0, 0, 7]);
    expected.extend([8, 8, 7, 6, 5, 4, 3, 2, 1, 10]);
    expected.extend([4, 0x45, 0x4e, 0x44, 0x0a]);

    assert_eq!(expected.len(), 22 + 67 * 2 + 9 + 10 * 2);
    assert_eq!(made(&old, &new), expected);
    assert_eq!(applied(&old, &expected), new);

    // From a plane to itself: the sums and kind 4.
    let mut nothing = vec![5];
    nothing.extend([0x2d, 0xd4, 0x3b, 0x99, 0x54, 0xb9, 0x26, 0xe3].repeat(2));
    nothing.extend([4, 0x45, 0x4e, 0x44, 0x0a]);
    assert_eq!(nothing.len(), 22);
    assert_eq!(made(&old, &old), nothing);
    assert_eq!(applied(&old, &nothing), old);
}

#[test]
fn sizes() {
    assert_eq!(patch::patch_len(0, 0, 0), 22);
    assert_eq!(patch::patch_len(80, 64, 64), 6598);
    // Every bucket and every base word of the longest plane another.
    let mut rng = Rng::new(31);
    let words = some_words(&mut rng, 128);
    let old = random_plane(&mut rng, 48, 32, &words[..64], 64);
    let mut new = random_plane(&mut rng, 48, 32, &words[64..], 64);
    let longest = made(&old.bytes(), &new.bytes());
    assert_eq!(longest.len(), 6598);
    assert_eq!(applied(&old.bytes(), &longest), new.bytes());

    // Of a kind alone.
    let length = |new: &SlowPlane| made(&old.bytes(), &new.bytes()).len();
    new.base = old.base.clone();
    assert_eq!(length(&new), 22 + 67 * 80);
    let mut new = old.clone();
    new.base.clear();
    assert_eq!(length(&new), 22 + 9 * 64);
    new.base = old.base.iter().map(|(&w, &plan)| (w, 254 - plan)).collect();
    assert_eq!(length(&new), 22 + 10 * 64);
    new.base = old.base.iter().take(60).map(|(&w, &p)| (w, p)).collect();
    assert_eq!(length(&new), 22 + 9 * 4);
    let back = made(&new.bytes(), &old.bytes());
    assert_eq!(back.len(), 22 + 10 * 4);
}

#[test]
fn along_histories() {
    let mut rng = Rng::new(32);
    let mut costs = BTreeMap::new();
    for (b1, b2) in [(1, 1), (2, 1), (3, 2), (48, 32)] {
        let shape = Shape::new(b1, b2).unwrap();
        let mut t = vec![0; shape.table_len()];
        table::open(&mut t, b1, b2);
        // As full as it gets, so that the base list has entries.
        if b1 < 48 {
            while shape
                .add(&mut t, rng.next(), oracle::random_plan(&mut rng))
                .is_ok()
            {}
        }
        let cards = 60 * (b1 + b2);
        let mut planes = vec![plane::plane_of(&t, shape)];
        for _ in 0..600 {
            let word = match rng.below(3) {
                0 => {
                    let id = format!("card-{}", rng.below(cards));
                    identifier::word(oracle::random_kind(&mut rng), id.as_bytes()).unwrap()
                }
                _ => {
                    let live = shape.live_words(&t);
                    live.get(rng.below(live.len() as u64 + 1) as usize)
                        .map_or(0, |&(word, _)| word)
                }
            };
            let held = shape.plan(&t, word);
            let plan = match held {
                Some(held) if rng.one_in(4) => held,
                _ => oracle::any_plan(&mut rng),
            };
            let call = rng.below(6);
            let answer = match call {
                0 => shape.add(&mut t, word, plan),
                1 => shape.withdraw(&mut t, word),
                _ => shape.change(&mut t, word, plan),
            };
            let new = plane::plane_of(&t, shape);
            let old = planes.last().unwrap();
            let patch = made(old, &new);
            assert_eq!(applied(old, &patch), new);
            if call > 1 && answer.is_ok() {
                assert!(patch.len() <= 89);
                assert_eq!(patch.len() == 22, held == Some(plan));
                *costs.entry(patch.len()).or_insert(0) += 1;
            }
            if rng.one_in(8) {
                // Between any two planes of the history.
                let (old, new) = (rng.pick(&planes), rng.pick(&planes));
                assert_eq!(&applied(old, &made(old, new)), new);
            }
            planes.push(new);
        }
    }
    // Nothing changed, one base entry, one bucket.
    assert_eq!(costs.keys().copied().collect::<Vec<_>>(), [22, 32, 89]);
    assert!(costs.values().all(|&count| count > 20), "{costs:?}");
}

#[test]
fn random_pairs() {
    let mut rng = Rng::new(33);
    for _ in 0..400 {
        let count = 4 + rng.below(90) as usize;
        let words = some_words(&mut rng, count);
        let (level1, level2) = match rng.below(8) {
            0 => (1 + rng.below(48) as u8, 1 + rng.below(32) as u8),
            _ => (1 + rng.below(3) as u8, 1 + rng.below(3) as u8),
        };
        let entries = rng.below(words.len().min(65) as u64) as usize;
        let p = random_plane(&mut rng, level1, level2, &words, entries);
        let q = varied(&mut rng, &p, &words);
        let (old, new) = (p.bytes(), q.bytes());
        let changes = p.buckets.iter().filter(|(i, b)| q.buckets[i] != **b);
        let gone = p.base.keys().filter(|word| !q.base.contains_key(word));
        let news = q
            .base
            .iter()
            .filter(|(w, plan)| p.base.get(w) != Some(plan));
        let length = 22 + 67 * changes.count() + 9 * gone.count() + 10 * news.count();
        let patch = made(&old, &new);
        assert_eq!(patch.len(), length);
        assert_eq!(applied(&old, &patch), new);
        // Put to another plane.
        let other = varied(&mut rng, &p, &words).bytes();
        apply(&other, &patch, LONG);
        apply(&new, &patch, LONG);
    }
}

/// A plane of two and one buckets with five base entries, a second one, and the
/// patch from the first to the second: two changes, two words gone, two new and
/// one changed.
fn some_pair() -> (SlowPlane, SlowPlane, Vec<Record>) {
    let mut rng = Rng::new(34);
    let mut old = random_plane(&mut rng, 2, 1, &[0], 0);
    old.base = BTreeMap::from([(10, 1), (20, 2), (30, 3), (40, 4), (50, 5)]);
    let mut new = old.clone();
    new.buckets.insert(0, random_bucket(&mut rng));
    new.buckets.insert(2, random_bucket(&mut rng));
    new.base = BTreeMap::from([(15, 1), (20, 2), (30, 33), (50, 5), (60, 6)]);
    let patch = made(&old.bytes(), &new.bytes());
    let records = slow::split(&old, &patch).unwrap();
    assert_eq!(
        records.iter().map(|(kind, _)| *kind).collect::<Vec<_>>(),
        [5, 6, 6, 7, 7, 8, 8, 8, 4]
    );
    (old, new, records)
}

/// Where the records of that patch start, and where it ends.
const STARTS: [usize; 10] = [0, 17, 84, 151, 160, 169, 179, 189, 199, 204];

#[test]
fn cut_anywhere_and_longer() {
    let (old, new, records) = some_pair();
    let (old, patch) = (old.bytes(), slow::joined(&records));
    assert_eq!(patch.len(), STARTS[9]);
    for length in 0..patch.len() {
        // The last start at or before the cut.
        let offset = *STARTS.iter().rfind(|&&start| start <= length).unwrap();
        assert_eq!(apply(&old, &patch[..length], LONG), refused(12, offset));
    }
    assert_eq!(applied(&old, &patch), new.bytes());
    let mut longer = patch.clone();
    for byte in [0, 4, 5, 6, 7, 8] {
        longer.push(byte);
        assert_eq!(apply(&old, &longer, LONG), refused(12, patch.len()));
    }
    longer = [&patch[..], &patch[..]].concat();
    assert_eq!(apply(&old, &longer, LONG), refused(12, patch.len()));
}

#[test]
fn each_byte_changed() {
    let (old, _, records) = some_pair();
    let (old, mut patch) = (old.bytes(), slow::joined(&records));
    let mut seen = BTreeMap::new();
    for at in 0..patch.len() {
        let kept = patch[at];
        for value in 0..=255 {
            patch[at] = value;
            let answer = apply(&old, &patch, 300);
            // What stands before the byte is right.
            let start = *STARTS.iter().rfind(|&&start| start <= at).unwrap();
            assert!(answer.cause != 12 || answer.value as usize >= start);
            *seen.entry(answer.cause).or_insert(0) += 1;
        }
        patch[at] = kept;
    }
    assert_eq!(seen[&0], patch.len());
    assert_eq!(seen.keys().copied().collect::<Vec<_>>(), [0, 12, 13]);
}

/// The records of `some_pair` after an edit, with sums that fit if nothing is
/// wrong: the offset that 12 returns, or none.
fn wrong_after(edit: impl FnOnce(&mut Vec<Record>)) -> Option<usize> {
    let (old, _, mut records) = some_pair();
    edit(&mut records);
    let patch = match records.first() {
        Some((5, body)) if body.len() == 16 => fitted(&old, &records),
        _ => slow::joined(&records),
    };
    let answer = apply(&old.bytes(), &patch, LONG);
    match answer.cause {
        0 => {
            assert_eq!(applied(&old.bytes(), &patch), old.after(&records).bytes());
            None
        }
        12 => Some(answer.value as usize),
        _ => panic!("{answer:?}"),
    }
}

fn gone(word: u64) -> Record {
    (7, slow::bytes_of(word))
}

fn new(word: u64, plan: u8) -> Record {
    (8, [slow::bytes_of(word), vec![plan]].concat())
}

#[test]
fn misplaced() {
    let start = |index: usize| Some(STARTS[index]);
    assert_eq!(wrong_after(|_| {}), None);
    // Kind 5 not at the front, there twice, there later.
    assert_eq!(wrong_after(|r| drop(r.remove(0))), Some(0));
    assert_eq!(wrong_after(|r| r.swap(0, 1)), Some(0));
    assert_eq!(wrong_after(|r| r.insert(1, r[0].clone())), start(1));
    assert_eq!(wrong_after(|r| r.insert(8, r[0].clone())), start(8));
    assert_eq!(
        wrong_after(|r| r.insert(0, (4, b"END\n".to_vec()))),
        Some(0)
    );
    // A 6 after a 7, after an 8; a 7 after an 8.
    assert_eq!(wrong_after(|r| r[2..4].rotate_left(1)), Some(84 + 9));
    assert_eq!(
        wrong_after(|r| r[2..6].rotate_left(1)),
        Some(84 + 9 + 9 + 10)
    );
    assert_eq!(wrong_after(|r| r[2..8].rotate_left(1)), Some(199 - 67));
    assert_eq!(wrong_after(|r| r[4..6].rotate_left(1)), Some(160 + 10));
    assert_eq!(wrong_after(|r| r[3..8].rotate_left(1)), Some(151 + 9 + 30));
    // Not strictly ascending: exchanged, doubled.
    assert_eq!(wrong_after(|r| r.swap(1, 2)), start(2));
    assert_eq!(wrong_after(|r| r.swap(3, 4)), start(4));
    assert_eq!(wrong_after(|r| r.swap(6, 7)), start(7));
    assert_eq!(wrong_after(|r| r.insert(2, r[1].clone())), start(2));
    assert_eq!(wrong_after(|r| r.insert(4, r[3].clone())), start(4));
    assert_eq!(wrong_after(|r| r.insert(7, r[6].clone())), start(7));
    // An unknown kind, one of a plane, an early end, no end.
    for kind in [0, 1, 2, 3, 9, 10, 255] {
        for index in 1..9 {
            assert_eq!(wrong_after(|r| r[index].0 = kind), start(index));
        }
    }
    for index in 1..8 {
        let end = (4, b"END\n".to_vec());
        let after = start(index).map(|at| at + 5);
        assert_eq!(wrong_after(|r| r.insert(index, end)), after);
        assert_eq!(wrong_after(|r| r.truncate(index)), start(index));
    }
    assert_eq!(wrong_after(|r| drop(r.pop())), start(8));
    for at in 0..4 {
        assert_eq!(wrong_after(|r| r[8].1[at] ^= 32), start(8));
    }
    // Any of the others may be missing.
    for index in 1..8 {
        assert_eq!(wrong_after(|r| drop(r.remove(index))), None);
    }
    assert_eq!(wrong_after(|r| drop(r.drain(1..8))), None);
}

#[test]
fn values_not_allowed() {
    let start = |index: usize| Some(STARTS[index]);
    // Indexes run over level 1 and then level 2: 0 to 2 here.
    assert_eq!(wrong_after(|r| r[2].1[0] = 1), None);
    assert_eq!(wrong_after(|r| r[2].1[0] = 0), start(2));
    assert_eq!(wrong_after(|r| r[2].1[0] = 3), start(2));
    assert_eq!(wrong_after(|r| r[2].1[0] = 255), start(2));
    assert_eq!(wrong_after(|r| r[1].1[0] = 2), start(2));
    for index in 1..3 {
        assert_eq!(wrong_after(|r| r[index].1[1] = 8), None);
        assert_eq!(wrong_after(|r| r[index].1[1] = 0), None);
        assert_eq!(wrong_after(|r| r[index].1[1] = 9), start(index));
        assert_eq!(wrong_after(|r| r[index].1[1] = 255), start(index));
    }
    // 10 and 40 go: another word of the old plane, an absent one.
    assert_eq!(wrong_after(|r| r[4] = gone(50)), None);
    assert_eq!(wrong_after(|r| r[4] = gone(20)), None);
    assert_eq!(wrong_after(|r| r[4] = gone(11)), start(4));
    assert_eq!(wrong_after(|r| r[4] = gone(60)), start(4));
    assert_eq!(wrong_after(|r| r[3] = gone(0)), start(3));
    // 15 and 60 are new, 30 is changed: a word that goes too.
    assert_eq!(wrong_after(|r| r[5] = new(10, 1)), start(5));
    assert_eq!(wrong_after(|r| r[7] = new(40, 4)), start(7));
    assert_eq!(wrong_after(|r| r[4] = gone(30)), start(6));
    assert_eq!(wrong_after(|r| r[5] = new(0, 0)), None);
    assert_eq!(wrong_after(|r| r[7] = new(u64::MAX, 254)), None);
    // Plan 255: in a new entry, in a changed one, in one that changes nothing else.
    for index in 5..8 {
        assert_eq!(wrong_after(|r| r[index].1[8] = 254), None);
        assert_eq!(wrong_after(|r| r[index].1[8] = 255), start(index));
    }
    assert_eq!(wrong_after(|r| r[7] = new(u64::MAX, 255)), start(7));
    assert_eq!(wrong_after(|r| r.insert(6, new(20, 255))), start(6));
    // Nothing changed by a record of kind 6, of kind 8.
    let (old, _, _) = some_pair();
    let same = |index: u8| (6, [vec![index], old.buckets[&index].clone()].concat());
    assert_eq!(wrong_after(|r| r[1] = same(0)), None);
    assert_eq!(wrong_after(|r| r.insert(2, same(1))), None);
    assert_eq!(wrong_after(|r| r.insert(6, new(20, 2))), None);
    assert_eq!(wrong_after(|r| r[6] = new(30, 3)), None);
}

#[test]
fn sixty_five_entries() {
    let mut rng = Rng::new(35);
    let mut old = random_plane(&mut rng, 1, 1, &[0], 0);
    old.base = (1..=62).map(|i| (100 * i, i as u8)).collect();
    let end = || (4, b"END\n".to_vec());
    let answer = |old: &SlowPlane, records: &[Record]| {
        let records = [&[(5, vec![0; 16])], records, &[end()]].concat();
        apply(&old.bytes(), &fitted(old, &records), LONG)
    };
    // 64 and 65: the third new one is where it is wrong, wherever it stands.
    let three = [new(1, 1), new(150, 2), new(9999, 3)];
    assert_eq!(answer(&old, &three[..2]), accepted(142 + 640));
    assert_eq!(answer(&old, &three), refused(12, 17 + 20));
    // Changed entries do not count, before or between or after.
    let changed = [
        new(1, 1),
        new(100, 7),
        new(150, 2),
        new(200, 0),
        new(300, 9),
    ];
    assert_eq!(answer(&old, &changed), accepted(142 + 640));
    let more = [&changed[..], &three[2..]].concat();
    assert_eq!(answer(&old, &more), refused(12, 17 + 50));
    // One gone makes room for one.
    let with_gone = [&[gone(6200)], &more[..]].concat();
    assert_eq!(answer(&old, &with_gone), accepted(142 + 640));
    let over = [&with_gone[..], &[new(10000, 1)]].concat();
    assert_eq!(answer(&old, &over), refused(12, 17 + 9 + 60));
    // A full base list: only changes; all 64 exchanged; one more than that.
    old.base.extend([(1, 1), (2, 2)]);
    assert_eq!(answer(&old, &[new(1, 9)]), accepted(142 + 640));
    assert_eq!(answer(&old, &[new(3, 9)]), refused(12, 17));
    let mut exchange: Vec<Record> = old.base.keys().map(|&word| gone(word)).collect();
    exchange.extend((1..=64).map(|i| new(100 * i + 1, 3)));
    assert_eq!(answer(&old, &exchange), accepted(142 + 640));
    exchange.push(new(u64::MAX, 0));
    assert_eq!(answer(&old, &exchange), refused(12, 17 + 64 * 19));
}

#[test]
fn sums() {
    let (old, new, records) = some_pair();
    let (old, new, patch) = (old.bytes(), new.bytes(), slow::joined(&records));
    for at in 1..17 {
        let mut other = patch.clone();
        other[at] ^= 1 << (at % 8);
        assert_eq!(apply(&old, &other, LONG), refused(13, 0));
        // 12 comes before, 9 after.
        other.pop();
        assert_eq!(apply(&old, &other, 0), refused(12, 199));
        other.push(b'\n');
        assert_eq!(apply(&old, &other, 0), refused(13, 0));
    }
    // The sums exchanged; those of another plane; a bucket's byte that no rule limits.
    let mut other = patch.clone();
    other[1..17].rotate_left(8);
    assert_eq!(apply(&old, &other, LONG), refused(13, 0));
    assert_eq!(apply(&new, &patch, LONG).cause, 12);
    let nothing = made(&old, &old);
    assert_eq!(apply(&new, &nothing, LONG), refused(13, 0));
    let mut other = patch.clone();
    other[100] ^= 1;
    assert_eq!(apply(&old, &other, LONG), refused(13, 0));
}

#[test]
fn outputs() {
    let (old, new, records) = some_pair();
    let (old, new, patch) = (old.bytes(), new.bytes(), slow::joined(&records));
    for length in [0, 1, 22, 89, patch.len() - 1] {
        assert_eq!(make(&old, &new, length), refused(9, patch.len()));
    }
    for length in [patch.len(), patch.len() + 1, LONG] {
        assert_eq!(make(&old, &new, length), accepted(patch.len()));
    }
    for length in [0, 1, 142, new.len() - 1] {
        assert_eq!(apply(&old, &patch, length), refused(9, new.len()));
    }
    for length in [new.len(), new.len() + 1, LONG] {
        assert_eq!(apply(&old, &patch, length), accepted(new.len()));
    }
}

#[test]
fn order_of_causes() {
    let (old, new, records) = some_pair();
    let other = random_plane(&mut Rng::new(36), 1, 2, &[0], 0).bytes();
    let (old, new, patch) = (old.bytes(), new.bytes(), slow::joined(&records));
    let cut = &new[..new.len() - 1];
    let last = new.len() - 5;
    // The old plane decides, then the new one, then their bucket numbers.
    assert_eq!(make(&old[..7], cut, 0), refused(10, 5));
    assert_eq!(make(cut, &old[..7], 0), refused(10, last));
    assert_eq!(make(&other, cut, 0), refused(10, last));
    assert_eq!(make(&other, &new, 0), refused(11, 0));
    assert_eq!(make(&new, &other, LONG), refused(11, 0));
    assert_eq!(make(b"", b"", 0), refused(10, 0));
    // The plane, then the patch.
    assert_eq!(apply(cut, b"", 0), refused(10, last));
    assert_eq!(apply(b"", &patch, LONG), refused(10, 0));
    assert_eq!(apply(&old, b"", LONG), refused(12, 0));
    assert_eq!(apply(&old, &patch[..16], LONG), refused(12, 0));
    assert_eq!(apply(&old, &patch[..17], LONG), refused(12, 17));
    // Two buckets and one, or one and two: the patch names no levels, the sum does.
    assert_eq!(apply(&other, &made(&old, &old), LONG), refused(13, 0));
}

#[test]
fn random_edits() {
    let mut rng = Rng::new(37);
    let mut seen = [0; 14];
    for _ in 0..4000 {
        let count = 3 + rng.below(70) as usize;
        let words = some_words(&mut rng, count);
        let entries = rng.below(count.min(65) as u64) as usize;
        let p = random_plane(&mut rng, 2, 1, &words, entries);
        let q = varied(&mut rng, &p, &words);
        let old = p.bytes();
        let mut records = slow::split(&p, &slow::make(&old, &q.bytes()).unwrap()).unwrap();
        for _ in 0..rng.below(3) {
            let at = rng.below(records.len() as u64) as usize;
            let to = rng.below(records.len() as u64) as usize;
            let word = *rng.pick(&words);
            match rng.below(7) {
                0 => records.swap(at, to),
                1 => records.insert(to, records[at].clone()),
                2 if records.len() > 1 => drop(records.remove(at)),
                3 => records[at].0 = rng.below(10) as u8,
                4 => records.insert(to, gone(word)),
                5 => records.insert(to, new(word, rng.byte())),
                _ => {
                    let index = rng.below(4) as u8;
                    let bucket = rng.below(10) as u8;
                    let body = [vec![index, bucket], rng.bytes(64)].concat();
                    records.insert(to, (6, body));
                }
            }
        }
        let mut patch = slow::joined(&records);
        if slow::split(&p, &patch).is_ok() && !rng.one_in(4) {
            patch = fitted(&p, &records);
        }
        if rng.one_in(4) {
            let at = rng.below(patch.len() as u64) as usize;
            patch[at] = rng.byte();
        }
        if rng.one_in(8) {
            patch.truncate(rng.below(patch.len() as u64 + 1) as usize);
        }
        let length = if rng.one_in(4) { rng.below(1000) } else { 1000 };
        seen[apply(&old, &patch, length as usize).cause as usize] += 1;
    }
    assert!(
        [0, 9, 12, 13].iter().all(|&cause| seen[cause] > 50),
        "{seen:?}"
    );
}

#[test]
fn random_bytes() {
    let mut rng = Rng::new(38);
    let (old, new, records) = some_pair();
    let (old, new, patch) = (old.bytes(), new.bytes(), slow::joined(&records));
    for length in 0..300 {
        let bytes = rng.bytes(length);
        apply(&old, &bytes, 300);
        apply(&bytes, &patch, 300);
        make(&bytes, &new, 300);
        make(&old, &bytes, 300);
        // After the sums.
        apply(&old, &[&patch[..17], &bytes].concat(), 300);
    }
}

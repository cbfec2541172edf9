//! Document 02, order 4: an identifier is a kind and 1 to 36 bytes. The kind
//! byte is hashed first; a kind that there is not is cause 15, before all
//! others; the same bytes under two kinds are two identifiers.

use crate::oracle::{self, mixed, ExactTable};
use reference::answer::Answer;
use reference::identifier::{check, fnv1a64, word};
use reference::rng::Rng;
use reference::{patch, plane, table};

const WRONG_KIND: Answer = Answer {
    cause: 15,
    value: 0,
};

fn accepted(value: u64) -> Answer {
    Answer { cause: 0, value }
}

fn refused(cause: u64, value: u64) -> Answer {
    Answer { cause, value }
}

/// FNV-1a 64 of one byte, FNV-1a 64 of `BUS-17` after it, and the word: made
/// with big integers, apart from this program.
const WORDS: [(u8, u64, u64, u64); 7] = [
    (
        1,
        0xaf63bc4c8601b62c,
        0xdef5d22b4c25dee1,
        0x4e23755652f21830,
    ),
    (
        2,
        0xaf63bf4c8601bb45,
        0xbe9892b1798d2d40,
        0xd5be74f8ab31ce78,
    ),
    (
        3,
        0xaf63be4c8601b992,
        0x2a8771cd7b4912db,
        0x8656bc35529c08fe,
    ),
    (
        4,
        0xaf63b94c8601b113,
        0x947bd199e4a0c0c2,
        0x361a68062c79f97d,
    ),
    (
        5,
        0xaf63b84c8601af60,
        0xd660bd0bdf59bd3d,
        0x74418b59e02b46ab,
    ),
    (
        6,
        0xaf63bb4c8601b479,
        0xcc2429b0da9b716c,
        0x4f6af16aeb34fa5c,
    ),
    (
        7,
        0xaf63ba4c8601b2c6,
        0xb44b0628d28f4f17,
        0x3b14311202c0fc43,
    ),
];

#[test]
fn words_by_hand() {
    for (kind, first, hash, expected) in WORDS {
        assert_eq!(fnv1a64(&[kind]), first);
        assert_eq!(fnv1a64(&[&[kind], &b"BUS-17"[..]].concat()), hash);
        assert_eq!(oracle::mix(hash), expected);
        for id in [b"Bus-17", b"BUS-17", b"bus-17", b"bUS-17"] {
            assert_eq!(word(kind, id), Ok(expected));
            assert_eq!(oracle::word(kind, id), Ok(expected));
        }
        // Not the digit, not after the bytes, not left out.
        let digit = [&[b'0' + kind], &b"BUS-17"[..]].concat();
        let last = [&b"BUS-17"[..], &[kind]].concat();
        for other in [&digit[..], &last, b"BUS-17"] {
            assert_ne!(oracle::mix(oracle::fnv(other)), expected);
        }
    }
}

#[test]
fn the_same_bytes_have_seven_words() {
    let mut rng = Rng::new(61);
    for len in 1..=36 {
        for _ in 0..50 {
            let id = oracle::random_identifier(&mut rng, len);
            let mut words: Vec<u64> = (1..=7).map(|kind| word(kind, &id).unwrap()).collect();
            words.sort();
            words.dedup();
            assert_eq!(words.len(), 7);
        }
    }
}

#[test]
fn every_kind_and_length() {
    let mut rng = Rng::new(62);
    for kind in 0..=255 {
        for len in 0..=40 {
            let id = oracle::random_identifier(&mut rng, len);
            let expected = match (kind, len) {
                (0 | 8.., _) => Err(WRONG_KIND),
                (_, 0 | 37..) => Err(refused(1, len as u64)),
                _ => Ok(()),
            };
            assert_eq!(check(kind, &id), expected);
            assert_eq!(word(kind, &id).map(|_| ()), expected);
            assert_eq!(word(kind, &id), oracle::word(kind, &id));
        }
    }
}

#[test]
fn every_byte_at_every_index() {
    for kind in [0, 1, 7, 8] {
        for len in [1, 2, 20, 21, 35, 36, 37] {
            for index in 0..len {
                for byte in 0..=255 {
                    let mut id = vec![b'q'; len];
                    id[index] = byte;
                    assert_eq!(word(kind, &id), oracle::word(kind, &id));
                }
            }
        }
    }
}

/// Every call on an identifier is answered so by this table and plane, which
/// are kept.
fn answers(table: &[u64], plane: &[u8], kind: u8, id: &[u8], plan: u8, answer: Answer) {
    let mut other = table.to_vec();
    assert_eq!(table::add(&mut other, kind, id, plan), answer);
    assert_eq!(table::change(&mut other, kind, id, plan), answer);
    assert_eq!(table::withdraw(&mut other, kind, id), answer);
    assert_eq!(table::query(&other, kind, id), answer);
    assert_eq!(plane::lookup(kind, id, plane), answer);
    assert_eq!(other, table);
}

/// An opened table of one bucket and one, with these bounds.
fn opened(bounds: (u64, u64)) -> Vec<u64> {
    let mut exact = ExactTable::open(1, 1);
    exact.level1[0].bound = bounds.0;
    exact.level2[0].bound = bounds.1;
    exact.numbers()
}

fn written(table: &[u64]) -> Vec<u8> {
    let mut bytes = vec![0; 6000];
    let answer = plane::write(table, &mut bytes);
    assert_eq!(answer.cause, 0);
    bytes.truncate(answer.value as usize);
    bytes
}

/// Tables and planes with nothing wrong, of a wrong length, not sound, full.
fn tables_and_planes() -> Vec<(Vec<u64>, Vec<u8>)> {
    let empty = opened((8, 8));
    let right = written(&empty);
    let mut full = opened((0, 0));
    for i in 0..64 {
        let id = format!("card-{i}");
        table::add(&mut full, 1 + i % 7, id.as_bytes(), i);
    }
    assert_eq!((full[2], full[3]), (64, 64));
    let full_plane = written(&full);
    let mixed = mixed(&mut Rng::new(63), 2, 2);
    let mixed_plane = written(&mixed);
    let mut cases = vec![
        (empty.clone(), right.clone()),
        (full.clone(), full_plane.clone()),
        (mixed, mixed_plane),
        (vec![], vec![]),
        (vec![1, 1, 0], vec![1]),
        (empty[..535].to_vec(), right[..141].to_vec()),
        ([&empty[..], &[0]].concat(), [&right[..], &[0]].concat()),
    ];
    for at in [0, 1, 2, 3, 4, 259, 260, 324, 325, 333, 408] {
        let mut table = full.clone();
        table[at] += 1;
        let mut plane = full_plane.clone();
        plane[at] ^= 0x80;
        cases.push((table, plane));
    }
    cases
}

#[test]
fn before_every_other_cause() {
    for (table, plane) in tables_and_planes() {
        for kind in [0, 8, 9, 10, 50, 127, 128, 254, 255] {
            for plan in [0, 254, 255] {
                // Nothing wrong, live in some, or cause 1 or 2.
                for id in [&b"x"[..], b"card-1", b"", b"/", b"card/1", b"\xff"] {
                    answers(&table, &plane, kind, id, plan, WRONG_KIND);
                }
                for len in [36, 37, 1000] {
                    answers(&table, &plane, kind, &vec![b'x'; len], plan, WRONG_KIND);
                    answers(&table, &plane, kind, &vec![b'/'; len], plan, WRONG_KIND);
                }
            }
        }
        // With a kind that there is, 1 and 2 come next.
        for kind in 1..=7 {
            for plan in [0, 255] {
                answers(&table, &plane, kind, b"", plan, refused(1, 0));
                answers(&table, &plane, kind, &[b'/'; 37], plan, refused(1, 37));
                answers(&table, &plane, kind, &[b'/'; 36], plan, refused(2, 0));
                answers(&table, &plane, kind, b"card/1", plan, refused(2, 4));
            }
        }
    }
}

#[test]
fn the_causes_after_it() {
    let mut table = opened((8, 8));
    for kind in 1..=7 {
        let id = &[b'z'; 36];
        let short = &mut [0; 3];
        let kept = table.clone();
        assert_eq!(table::add(&mut table, kind, id, 255), refused(14, 0));
        assert_eq!(table::change(&mut table, kind, id, 255), refused(14, 0));
        assert_eq!(table::add(short, kind, id, 255), refused(14, 0));
        assert_eq!(table::add(short, kind, id, 0), refused(4, 3));
        assert_eq!(table::query(&table[1..], kind, id), refused(4, 535));
        table[3] += 1;
        assert_eq!(table::withdraw(&mut table, kind, id), refused(5, 0));
        table[3] -= 1;
        assert_eq!(table::change(&mut table, kind, id, 0), refused(7, 0));
        assert_eq!(table::withdraw(&mut table, kind, id), refused(7, 0));
        assert_eq!(table::query(&table, kind, id), refused(7, 0));
        assert_eq!(plane::lookup(kind, id, &[]), refused(10, 0));
        assert_eq!(table, kept);
        assert_eq!(
            table::add(&mut table, kind, id, kind),
            accepted(u64::from(kind))
        );
        assert_eq!(
            table::add(&mut table, kind, id, 9),
            refused(6, u64::from(kind))
        );
    }
    let mut full = opened((0, 0));
    for i in 0..64 {
        let id = format!("card-{i}");
        assert!(table::add(&mut full, 1 + i % 7, id.as_bytes(), i).is_accepted());
    }
    for kind in 1..=7 {
        assert_eq!(table::add(&mut full, kind, b"card-64", 1), refused(8, 0));
    }
}

/// The same bytes under all kinds: each has its own plan, or is not live. What
/// a plane gives to a live one is its plan.
fn each_has_its_plan(table: &[u64], plane: &[u8], id: &[u8], plans: &[Option<u8>; 7]) {
    for (kind, plan) in (1..=7).zip(plans) {
        match plan {
            Some(plan) => {
                let plan = accepted(u64::from(*plan));
                assert_eq!(table::query(table, kind, id), plan);
                assert_eq!(plane::lookup(kind, id, plane), plan);
            }
            None => assert_eq!(table::query(table, kind, id), refused(7, 0)),
        }
    }
    let live = plans.iter().flatten().count();
    assert_eq!(table[3], live as u64);
    for plan in plans.iter().flatten() {
        assert_eq!(table::plan_total(table, *plan), accepted(1));
    }
}

/// Seven plans for the same bytes; then a change of each, by a patch too, and a
/// withdrawal of each.
fn seven_plans(id: &[u8], bounds: (u64, u64)) {
    let mut table = opened(bounds);
    let mut plans = [None; 7];
    for kind in 1..=7u8 {
        let plan = 30 * kind;
        let answer = table::add(&mut table, kind, id, plan);
        assert_eq!(answer, accepted(u64::from(kind)));
        plans[usize::from(kind) - 1] = Some(plan);
        each_has_its_plan(&table, &written(&table), id, &plans);
    }
    let base = if bounds == (0, 0) { 7 } else { 0 };
    assert_eq!(table[2], base);

    let mut output = vec![0; 1000];
    let mut post = written(&table);
    for kind in [4, 1, 7, 2, 6, 3, 5] {
        let at = usize::from(kind) - 1;
        let earlier = u64::from(plans[at].unwrap());
        assert_eq!(table::change(&mut table, kind, id, kind), accepted(earlier));
        plans[at] = Some(kind);
        let new = written(&table);
        let made = patch::make(&post, &new, &mut output);
        // One bucket or one base entry.
        assert!(made == accepted(89) || made == accepted(32));
        let patch = output[..made.value as usize].to_vec();
        let applied = patch::apply(&post, &patch, &mut output);
        assert_eq!(applied, accepted(new.len() as u64));
        post = output[..new.len()].to_vec();
        assert_eq!(post, new);
        each_has_its_plan(&table, &post, id, &plans);
    }
    for kind in [3, 7, 1, 5, 2, 6, 4] {
        let answer = table::withdraw(&mut table, kind, id);
        assert_eq!(answer, accepted(u64::from(kind)));
        plans[usize::from(kind) - 1] = None;
        each_has_its_plan(&table, &written(&table), id, &plans);
    }
}

#[test]
fn seven_plans_for_the_same_bytes() {
    let mut rng = Rng::new(64);
    for len in [1, 2, 6, 20, 21, 35, 36] {
        for _ in 0..5 {
            let id = oracle::random_identifier(&mut rng, len);
            // All at level 1, at level 2, in the base list.
            for bounds in [(8, 8), (0, 8), (0, 0)] {
                seven_plans(&id, bounds);
            }
        }
    }
}

#[test]
fn identifiers_of_36_and_37_bytes_under_each_kind() {
    let mut table = opened((8, 8));
    for kind in 1..=7 {
        let count = accepted(u64::from(kind));
        let longest = &[b'a'; 36];
        assert_eq!(table::add(&mut table, kind, &[b'a'; 37], 5), refused(1, 37));
        assert_eq!(table::add(&mut table, kind, longest, kind), count);
        assert_eq!(table::query(&table, kind, &[b'A'; 36]), count);
        assert_eq!(table::query(&table, kind, &[b'A'; 35]), refused(7, 0));
        let plane = written(&table);
        assert_eq!(plane::lookup(kind, longest, &plane), count);
        assert_eq!(plane::lookup(kind, &[b'a'; 37], &plane), refused(1, 37));
    }
}

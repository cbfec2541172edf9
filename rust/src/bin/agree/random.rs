//! Random kinds, identifiers and plans, and tables, sound and damaged.

use crate::totals::Wrong;
use crate::withdrawn::Unclear;
use reference::rng::Rng;
use reference::table::{self, Shape, BASE_COUNT, BASE_MAX, HEADER, LEADING, TOTALS};
use reference::{identifier, Answer};

const ALLOWED: &[u8] = b"abcxyzABCXYZ0189*-_=:+|@.";

/// What is handed in as an identifier: a kind and bytes.
#[derive(Clone, Debug)]
pub struct Card {
    pub kind: u8,
    pub id: Vec<u8>,
}

impl Card {
    pub fn word(&self) -> Result<u64, Answer> {
        identifier::word(self.kind, &self.id)
    }
}

/// One of the seven kinds.
pub fn some_kind(rng: &mut Rng) -> u8 {
    1 + rng.below(7) as u8
}

/// A kind that there is not, often one next to the seven.
pub fn wrong_kind(rng: &mut Rng) -> u8 {
    let any = 8 + rng.below(248) as u8;
    *rng.pick(&[0, 8, 9, b'2', 128, 255, any, any])
}

/// Mostly one of the seven kinds.
pub fn any_kind(rng: &mut Rng) -> u8 {
    if rng.one_in(16) {
        wrong_kind(rng)
    } else {
        some_kind(rng)
    }
}

/// So many bytes that are allowed.
pub fn some_id(rng: &mut Rng, length: u64) -> Vec<u8> {
    (0..length).map(|_| *rng.pick(ALLOWED)).collect()
}

/// Any kind and bytes: mostly allowed ones, of any length up to 40, often too short or too long.
pub fn any_card(rng: &mut Rng) -> Card {
    let length = match rng.below(16) {
        0 => 0,
        1 | 2 => 37 + rng.below(4),
        3 => 36,
        _ => 1 + rng.below(36),
    };
    let odd = rng.one_in(3);
    let id = (0..length).map(|_| {
        if odd && rng.one_in(8) {
            rng.byte()
        } else {
            *rng.pick(ALLOWED)
        }
    });
    Card {
        id: id.collect(),
        kind: any_kind(rng),
    }
}

/// Cards of which many are put again; often the same bytes under several kinds.
pub fn cards(rng: &mut Rng, count: usize) -> Vec<Card> {
    let mut cards: Vec<Card> = Vec::new();
    while cards.len() < count {
        let card = match cards.last() {
            Some(last) if rng.one_in(2) => Card {
                kind: last.kind % 7 + 1,
                id: last.id.clone(),
            },
            _ => {
                let length = 1 + rng.below(36);
                Card {
                    kind: some_kind(rng),
                    id: some_id(rng, length),
                }
            }
        };
        cards.push(card);
    }
    cards
}

/// Cards that are all different: each seven have the same bytes.
pub fn different_cards(count: usize) -> Vec<Card> {
    let card = |i: usize| Card {
        kind: 1 + (i % 7) as u8,
        id: format!("BUS-{}", i / 7).into_bytes(),
    };
    (0..count).map(card).collect()
}

/// One of the cards, or sometimes any kind and bytes.
pub fn card(rng: &mut Rng, cards: &[Card]) -> Card {
    if rng.one_in(10) {
        return any_card(rng);
    }
    known_card(rng, cards)
}

/// One of the cards.
pub fn known_card(rng: &mut Rng, cards: &[Card]) -> Card {
    let mut card = rng.pick(cards).clone();
    if rng.one_in(4) {
        card.id.make_ascii_uppercase();
    }
    card
}

/// A plan that a word may be given.
pub fn given_plan(rng: &mut Rng) -> u8 {
    rng.below(255) as u8
}

/// Any plan, now and then the one that no word is given.
pub fn any_plan(rng: &mut Rng) -> u8 {
    if rng.one_in(16) {
        255
    } else {
        given_plan(rng)
    }
}

/// Bucket numbers: mostly few, so that bounds fall and the base list fills; sometimes many.
pub fn some_shape(rng: &mut Rng) -> (u64, u64) {
    match rng.below(8) {
        0 => (1 + rng.below(48), 1 + rng.below(32)),
        1..=3 => (1, 1),
        _ => (1 + rng.below(4), 1 + rng.below(3)),
    }
}

/// A table of the reference's making with about this many words.
pub fn some_table(rng: &mut Rng, cards: &[Card]) -> Vec<u64> {
    let (b1, b2) = some_shape(rng);
    let shape = Shape::new(b1, b2).expect("in range");
    let mut t = vec![0; shape.table_len()];
    table::open(&mut t, b1, b2);
    for _ in 0..rng.below(cards.len() as u64 + 1) {
        let word = rng.pick(cards).word().expect("a card");
        let _ = shape.add(&mut t, word, given_plan(rng));
        if rng.one_in(5) {
            let word = rng.pick(cards).word().expect("a card");
            let _ = shape.withdraw(&mut t, word);
        }
    }
    t
}

/// Makes the totals those of the plans that the occupied rows and the base entries have, where the numbers are a table whose columns
/// have inverses.
pub fn recount(t: &mut [u64]) {
    let Ok(shape) = Shape::of(t) else {
        return;
    };
    let mut totals = [0; TOTALS];
    for index in 0..shape.buckets() {
        let bucket = shape.read_bucket(t, index);
        let Some(rows) = bucket.rows() else {
            return;
        };
        for j in (0..64).filter(|j| bucket.mark >> j & 1 == 1) {
            totals[usize::from(bucket.lookup(rows[j]))] += 1;
        }
    }
    for index in 0..BASE_MAX.min(t[BASE_COUNT] as usize) {
        let (_, plan) = shape.base_pair(t, index);
        if let Some(total) = totals.get_mut(plan as usize) {
            *total += 1;
        }
    }
    t[LEADING..HEADER].copy_from_slice(&totals);
}

/// Where a word of a table stands, or may: its bucket, level 1 first, and its row, or its base entry.
#[derive(Clone, Copy, Debug, PartialEq)]
pub enum Place {
    Row(usize, usize),
    Entry(usize),
}

/// The places of all live words of a sound table.
pub fn places(t: &[u64]) -> Vec<Place> {
    let mut places = rows(t, true);
    places.extend((0..t[BASE_COUNT] as usize).map(Place::Entry));
    places
}

/// The occupied rows of a table, or the free ones.
pub fn rows(t: &[u64], occupied: bool) -> Vec<Place> {
    let shape = Shape::of(t).expect("a table");
    let buckets = 0..shape.buckets();
    let rows = buckets.flat_map(|index| {
        let mark = shape.read_bucket(t, index).mark;
        let wanted = (0..64).filter(move |j| (mark >> j & 1 == 1) == occupied);
        wanted.map(move |j| Place::Row(index, j))
    });
    rows.collect()
}

/// Gives a place of a sound table another plan, and no other place; the totals stay. The earlier plan is returned.
pub fn set_plan(t: &mut [u64], place: Place, plan: u8) -> u8 {
    let shape = Shape::of(t).expect("a table");
    match place {
        Place::Row(index, j) => {
            let mut bucket = shape.read_bucket(t, index);
            let earlier = bucket.lookup(bucket.rows().expect("invertible")[j]);
            // XORing the row's column into a solution word changes its lookup alone.
            for c in (0..8).filter(|c| (earlier ^ plan) >> c & 1 == 1) {
                bucket.sols[c] ^= bucket.cols[j];
            }
            shape.write_bucket(t, index, &bucket);
            earlier
        }
        Place::Entry(index) => {
            let at = t.len() - 128 + 2 * index + 1;
            std::mem::replace(&mut t[at], plan.into()) as u8
        }
    }
}

/// Where one of the buckets of a table starts.
fn some_bucket(rng: &mut Rng, t: &[u64]) -> usize {
    260 + 74 * rng.below((t.len() as u64 - 388) / 74) as usize
}

/// A change that a table from elsewhere may have, small or large.
pub fn damage(rng: &mut Rng, t: &mut Vec<u64>) {
    match rng.below(17) {
        0 => {
            t.pop();
        }
        1 => t.push(rng.next()),
        2 => t.truncate(rng.below(5) as usize),
        3 => t[rng.below(4) as usize] = rng.below(70),
        4 => t[rng.below(4) as usize] = rng.next(),
        5 => t[3] = t[3].wrapping_add(1),
        6 => {
            // A base entry out of order, or one more.
            let base = t.len() - 128 + 2 * rng.below(64) as usize;
            t[base] = rng.next();
        }
        7 => {
            // A bound one higher or lower.
            let bound = some_bucket(rng, t) + 73;
            t[bound] = if rng.one_in(2) {
                t[bound].wrapping_add(1)
            } else {
                t[bound].wrapping_sub(1)
            };
        }
        8 => {
            // Two columns of a bucket exchanged, or one made another's copy.
            let bucket = some_bucket(rng, t);
            let (i, j) = (
                bucket + rng.below(64) as usize,
                bucket + rng.below(64) as usize,
            );
            if rng.one_in(2) {
                t.swap(i, j);
            } else {
                t[i] = t[j];
            }
        }
        9 => {
            // Two buckets exchanged: words held where the tests do not send them.
            let (i, j) = (some_bucket(rng, t), some_bucket(rng, t));
            for k in 0..74 {
                t.swap(i + k, j + k);
            }
        }
        // Bucket numbers that fit the length modulo a power of two, or by their sum alone.
        10 => t[rng.below(2) as usize] += 1 << (8 + rng.below(56)),
        11 => {
            let buckets = 1 + rng.below(60);
            t[0] = t[0].wrapping_sub(buckets);
            t[1] += buckets;
        }
        12 => {
            let wrong: &Wrong = rng.pick(&Wrong::ALL);
            wrong.make(rng, t);
        }
        13 => {
            // A bit of a bucket or of a base pair, with the totals that belong to it.
            let at = HEADER + rng.below((t.len() - HEADER) as u64) as usize;
            t[at] ^= 1 << rng.below(64);
            recount(t);
        }
        14 => {
            // A live word with the plan that none has.
            let places = places(t);
            if !places.is_empty() {
                set_plan(t, *rng.pick(&places), 255);
            }
            if rng.one_in(2) {
                recount(t);
            }
        }
        15 => {
            let unclear: &Unclear = rng.pick(&Unclear::ALL);
            let index = rng.below(t[0] + t[1]) as usize;
            unclear.make(rng, t, index);
        }
        _ => {
            let at = rng.below(t.len() as u64) as usize;
            t[at] ^= 1 << rng.below(64);
        }
    }
}

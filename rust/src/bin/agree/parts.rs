//! Identifiers, hashes and single buckets.

use crate::compare::{same, same_all, Seen};
use crate::random::{any_card, some_id, Card};
use reference::bucket::Bucket;
use reference::rng::Rng;
use reference::{identifier, ours, Answer};

/// The word of a kind and bytes, by both.
fn word(seen: &mut Seen, kind: u8, id: &[u8]) {
    let reference = Answer::from(identifier::word(kind, id));
    seen.same("word", (kind, id), ours::word(kind, id), reference);
}

pub fn identifiers(rng: &mut Rng, cases: u64) {
    let mut seen = Seen::none();
    for _ in 0..cases {
        let Card { kind, id } = any_card(rng);
        word(&mut seen, kind, &id);
        same("fnv", &id, ours::fnv(&id), identifier::fnv1a64(&id));
        let n = rng.next();
        same("mix", n, ours::mix(n), identifier::s(n));
        same("unmix", n, ours::unmix(n), identifier::s_inverse(n));
    }
    seen.print(
        &format!("{cases} identifiers, hashes and mixes"),
        &[0, 1, 2, 15],
    );
}

/// Every kind with every length to 40, of bytes that are allowed, and with two that are not; then every byte at every index.
pub fn every_identifier(rng: &mut Rng) {
    let mut seen = Seen::none();
    for kind in 0..=255 {
        for length in 0..=40 {
            let mut id = some_id(rng, length);
            word(&mut seen, kind, &id);
            for _ in 0..id.len().min(2) {
                let at = rng.below(id.len() as u64) as usize;
                id[at] = *rng.pick(b"/\0\x80");
                word(&mut seen, kind, &id);
            }
        }
    }
    for kind in [0, 1, 2, 7, 8, 255] {
        for length in [1, 2, 20, 21, 35, 36, 37] {
            let id = some_id(rng, length);
            for at in 0..id.len() {
                let mut id = id.clone();
                for byte in 0..=255 {
                    id[at] = byte;
                    word(&mut seen, kind, &id);
                }
            }
        }
    }
    seen.print(
        "every kind with every length to 40, every byte at every index",
        &[0, 1, 2, 15],
    );
}

/// The numbers of a bucket, as they lie in a table.
pub fn numbers(b: &Bucket) -> Vec<u64> {
    let mut part = b.cols.to_vec();
    part.push(b.mark);
    part.extend(b.sols);
    part.push(b.bound);
    part
}

/// K's rows if the columns have an inverse whose free rows are units.
pub fn sound_rows(b: &Bucket) -> Option<[u64; 64]> {
    let rows = b.rows()?;
    (0..64)
        .all(|j| b.mark >> j & 1 == 1 || rows[j] == 1 << j)
        .then_some(rows)
}

/// Random steps on a bucket, whole buckets compared after each, vectors often dependent; now and then damaged columns.
pub fn buckets(rng: &mut Rng, cases: u64) {
    for _ in 0..cases {
        let mut bucket = Bucket::empty();
        let mut part = numbers(&bucket);
        let mut seen = vec![0, 1, 2, 3];
        for _ in 0..rng.below(200) {
            let k = match rng.below(4) {
                0 => *rng.pick(&seen),
                1 => *rng.pick(&seen) ^ *rng.pick(&seen),
                2 => 1 << rng.below(64),
                _ => rng.next(),
            };
            seen.push(k);
            let plan = rng.byte();
            let row = bucket.live(k).map_or(64, |i| i as u64);
            same("row", k, ours::bucket_row(&part, k), row);
            if rng.one_in(3) {
                let done = bucket.withdraw(k).is_some();
                same(
                    "withdraw",
                    k,
                    ours::bucket_withdraw(&mut part, k),
                    u64::from(done),
                );
            } else {
                let done = bucket.add(k, plan).is_some();
                same(
                    "add",
                    k,
                    ours::bucket_add(&mut part, k, plan),
                    u64::from(done),
                );
            }
            same_all("bucket", k, &part, &numbers(&bucket));
        }
        if rng.one_in(2) {
            let at = rng.below(65) as usize;
            part[at] ^= 1 << rng.below(64);
            let place = if at < 64 {
                &mut bucket.cols[at]
            } else {
                &mut bucket.mark
            };
            *place = part[at];
        }
        let rows = sound_rows(&bucket).unwrap_or([0; 64]);
        for (i, row) in rows.into_iter().enumerate() {
            same("matrix", i, ours::bucket_matrix(&part, i), row);
        }
    }
    println!("agree: {cases} buckets, each with up to 200 steps, and their matrices");
}

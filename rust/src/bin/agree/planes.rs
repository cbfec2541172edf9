//! Planes and lookups in them.

use crate::compare::{same, same_all, Seen};
use crate::random::{card, cards, damage, different_cards, some_table, Card};
use reference::rng::Rng;
use reference::table::{self, Shape};
use reference::{ours, plane, Answer};

/// Planes written by both, read by both: whole ones, cut ones, damaged ones; outputs too short, and longer than needed.
pub fn planes(rng: &mut Rng, cases: u64) {
    let (mut written, mut read) = (Seen::none(), Seen::none());
    for _ in 0..cases {
        let cards = cards(rng, 300);
        let mut t = some_table(rng, &cards);
        if rng.one_in(8) {
            damage(rng, &mut t);
        }
        let length = if rng.one_in(3) { rng.below(6000) } else { 6000 };
        let mut ours_out: Vec<u8> = (0..length).map(|_| rng.byte()).collect();
        let mut out = ours_out.clone();
        let answer = plane::write(&t, &mut out);
        written.same(
            "write",
            t.len(),
            ours::write_plane(&t, &mut ours_out),
            answer,
        );
        same_all("output", t.len(), &ours_out, &out);
        if !answer.is_accepted() {
            continue;
        }
        out.truncate(answer.value as usize);
        for _ in 0..200 {
            let card = card(rng, &cards);
            let (kind, id) = (card.kind, &card.id);
            read.same(
                "lookup",
                &card,
                ours::lookup(kind, id, &out),
                plane::lookup(kind, id, &out),
            );
            let mut damaged = out.clone();
            match rng.below(4) {
                0 => damaged.truncate(rng.below(out.len() as u64 + 1) as usize),
                1 => damaged.extend(rng.bytes(3)),
                _ => {
                    let at = rng.below(damaged.len() as u64) as usize;
                    damaged[at] = rng.byte();
                }
            }
            read.same(
                "lookup",
                &card,
                ours::lookup(kind, id, &damaged),
                plane::lookup(kind, id, &damaged),
            );
        }
    }
    written.print(&format!("{cases} planes to write"), &[0, 4, 5, 9]);
    read.print("lookups in them, whole and damaged", &[0, 1, 2, 10, 15]);
}

/// Every cut of a plane, and every change of one byte from an offset on.
fn each_damage(seen: &mut Seen, card: &Card, whole: &[u8], from: usize) {
    let (kind, id) = (card.kind, &card.id);
    for at in 0..=whole.len() {
        seen.same(
            "cut",
            at,
            ours::lookup(kind, id, &whole[..at]),
            plane::lookup(kind, id, &whole[..at]),
        );
    }
    let mut damaged = whole.to_vec();
    for at in from..whole.len() {
        for byte in 0..=255 {
            damaged[at] = byte;
            seen.same(
                "byte",
                (at, byte),
                ours::lookup(kind, id, &damaged),
                plane::lookup(kind, id, &damaged),
            );
        }
        damaged[at] = whole[at];
    }
}

/// Every cut and every change of one byte of a small plane, and of the base list of the longest; outputs of 142 and 141 bytes.
pub fn edges(rng: &mut Rng) {
    let cards = cards(rng, 60);
    let mut t = vec![0; 536];
    table::open(&mut t, 1, 1);
    let mut expected = vec![0; 142];
    plane::write(&t, &mut expected);
    let mut out = vec![7; 142];
    same(
        "output of 142",
        (),
        ours::write_plane(&t, &mut out),
        Answer::accepted(142),
    );
    same_all("plane of 142 bytes", (), &out, &expected);
    let mut short = [7; 141];
    same(
        "output of 141",
        (),
        ours::write_plane(&t, &mut short),
        Answer::refused(9, 142),
    );
    same_all("output of 141 kept", (), &short, &[7; 141]);
    let mut seen = Seen::none();
    each_damage(&mut seen, &cards[0], &out, 0);
    // 48 and 32 buckets of bound 0: every word goes to the base list, which takes 64.
    let shape = Shape::new(48, 32).expect("in range");
    let mut t = vec![0; shape.table_len()];
    table::open(&mut t, 48, 32);
    for bucket in 0..80 {
        t[260 + 74 * bucket + 73] = 0;
    }
    let mut ours_t = t.clone();
    let mut count = 0;
    for card in different_cards(65) {
        let (kind, id) = (card.kind, &card.id);
        let answer = table::add(&mut t, kind, id, 9);
        let ours = ours::add(&mut ours_t, kind, id, 9);
        same("base add", &card, ours, answer);
        same_all("table", &card, &ours_t, &t);
        count += u64::from(answer.is_accepted());
    }
    same("64th and 65th base entry", (), count, 64);
    let mut expected = vec![0; 5930];
    plane::write(&t, &mut expected);
    let mut long = vec![7; 5930];
    same(
        "longest plane",
        (),
        ours::write_plane(&t, &mut long),
        Answer::accepted(5930),
    );
    same_all("plane of 5,930 bytes", (), &long, &expected);
    each_damage(&mut seen, &cards[0], &long, 5930 - 5 - 64 * 10);
    for _ in 0..20_000 {
        let card = card(rng, &cards);
        let (kind, id) = (card.kind, &card.id);
        let mut damaged = long.clone();
        let at = rng.below(5930) as usize;
        damaged[at] = rng.byte();
        seen.same(
            "lookup",
            &card,
            ours::lookup(kind, id, &damaged),
            plane::lookup(kind, id, &damaged),
        );
    }
    seen.print(
        "planes of 142 and 5,930 bytes, every cut, every byte of the small one and of the other's base list, lookups",
        &[0, 1, 2, 10, 15],
    );
}

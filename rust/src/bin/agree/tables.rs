//! Calls and questions for a total on tables, sound ones and damaged ones, and short histories.

use crate::compare::{same_all, Seen};
use crate::random::{any_plan, card, cards, damage, some_shape, some_table, Card};
use crate::totals;
use reference::ours;
use reference::rng::Rng;
use reference::table::{self, Shape};

/// A call put to both, on tables that are equal: the same answer, and equal tables after it.
fn call(rng: &mut Rng, seen: &mut Seen, cards: &[Card], ours_t: &mut [u64], t: &mut [u64]) {
    if !rng.one_in(24) {
        return call_but_open(rng, seen, cards, ours_t, t);
    }
    let (b1, b2) = if rng.one_in(2) {
        (rng.below(60), rng.below(40))
    } else {
        some_shape(rng)
    };
    seen.same(
        "open",
        (b1, b2),
        ours::open(ours_t, b1, b2),
        table::open(t, b1, b2),
    );
    same_all("table", (b1, b2), ours_t, t);
}

fn call_but_open(
    rng: &mut Rng,
    seen: &mut Seen,
    cards: &[Card],
    ours_t: &mut [u64],
    t: &mut [u64],
) {
    let card = card(rng, cards);
    let (kind, id) = (card.kind, &card.id);
    let plan = any_plan(rng);
    match rng.below(24) {
        0..=6 => seen.same(
            "query",
            &card,
            ours::query(ours_t, kind, id),
            table::query(t, kind, id),
        ),
        7..=12 => seen.same(
            "change",
            &card,
            ours::change(ours_t, kind, id, plan),
            table::change(t, kind, id, plan),
        ),
        13..=15 => seen.same(
            "withdraw",
            &card,
            ours::withdraw(ours_t, kind, id),
            table::withdraw(t, kind, id),
        ),
        _ => seen.same(
            "add",
            &card,
            ours::add(ours_t, kind, id, plan),
            table::add(t, kind, id, plan),
        ),
    }
    same_all("table", &card, ours_t, t);
}

/// Calls on tables, sound ones and damaged ones, whole tables compared after each, and questions for a total.
pub fn tables(rng: &mut Rng, cases: u64) {
    let (mut seen, mut asked) = (Seen::none(), Seen::none());
    for _ in 0..cases {
        let cards = cards(rng, 400);
        let mut t = some_table(rng, &cards);
        let mut ours_t = t.clone();
        for _ in 0..rng.below(60) {
            call(rng, &mut seen, &cards, &mut ours_t, &mut t);
            totals::ask_some(rng, &mut asked, &t);
            if rng.one_in(2) {
                let mut damaged = t.clone();
                damage(rng, &mut damaged);
                totals::ask_some(rng, &mut asked, &damaged);
                call(rng, &mut seen, &cards, &mut damaged.clone(), &mut damaged);
            }
        }
    }
    seen.print(
        &format!(
            "{} calls on {cases} tables, sound and damaged",
            seen.total()
        ),
        &[0, 1, 2, 3, 4, 5, 6, 7, 8, 14, 15],
    );
    asked.print(
        &format!("{} questions for a total on them", asked.total()),
        &[0, 4],
    );
}

/// Long histories from opening: filled until they refuse, then changes, withdrawals, queries and adds mixed; whole tables compared
/// after each call, and at the end every total asked for.
pub fn histories(rng: &mut Rng, cases: u64) {
    let (mut seen, mut asked) = (Seen::none(), Seen::none());
    let mut refused = 0;
    for case in 0..cases {
        let (b1, b2) = if case % 20 == 0 {
            (48, 32)
        } else {
            some_shape(rng)
        };
        let shape = Shape::new(b1, b2).expect("in range");
        let cards = cards(rng, 80 * (shape.buckets() + 1));
        let mut t = vec![0; shape.table_len()];
        let mut ours_t = t.clone();
        seen.same(
            "open",
            (b1, b2),
            ours::open(&mut ours_t, b1, b2),
            table::open(&mut t, b1, b2),
        );
        let mut filling = true;
        for _ in 0..2000 {
            if filling {
                let card = rng.pick(&cards);
                let (kind, id) = (card.kind, &card.id);
                let plan = any_plan(rng);
                let answer = table::add(&mut t, kind, id, plan);
                let ours = ours::add(&mut ours_t, kind, id, plan);
                seen.same("add", card, ours, answer);
                same_all("table", card, &ours_t, &t);
                if answer.cause == 8 {
                    refused += 1;
                    filling = false;
                }
            } else {
                call_but_open(rng, &mut seen, &cards, &mut ours_t, &mut t);
            }
            totals::ask_some(rng, &mut asked, &t);
        }
        totals::ask_all(&mut asked, &t);
    }
    seen.print(
        &format!(
            "{cases} histories of 2,000 calls, {refused} of them filled until the first refusal"
        ),
        &[0, 1, 2, 6, 7, 8, 14, 15],
    );
    asked.print(
        &format!("{} questions for a total along them", asked.total()),
        &[0],
    );
}

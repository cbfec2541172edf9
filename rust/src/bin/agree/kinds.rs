//! Kinds: one that there is not, before every other cause; and the same bytes under all seven, live at once with plans of their own.

use crate::compare::{same, same_all, Seen};
use crate::random::{
    any_card, card, cards, damage, different_cards, given_plan, some_id, some_shape, some_table,
    wrong_kind, Card,
};
use crate::totals::some_numbers;
use reference::rng::Rng;
use reference::table::{self, Shape};
use reference::{ours, patch, plane, Answer};

/// The answers to calls with a kind that there is not, and to the same calls as they stand: of tables and of planes.
struct Answers {
    wrong: Seen,
    called: Seen,
    read: Seen,
}

impl Answers {
    /// Every call on a card and a table put to both, first with a kind that there is not: 15, whatever else is wrong; the table stays.
    fn calls(&mut self, rng: &mut Rng, card: &Card, plan: u8, t: &[u64]) {
        let other = Card {
            kind: wrong_kind(rng),
            id: card.id.clone(),
        };
        for card in [&other, card] {
            let (kind, id) = (card.kind, &card.id);
            let (mut ours_t, mut their_t) = (t.to_vec(), t.to_vec());
            let (a, b) = (&mut ours_t, &mut their_t);
            let both = [
                (ours::query(a, kind, id), table::query(b, kind, id)),
                (
                    ours::change(a, kind, id, plan),
                    table::change(b, kind, id, plan),
                ),
                (ours::add(a, kind, id, plan), table::add(b, kind, id, plan)),
                (ours::withdraw(a, kind, id), table::withdraw(b, kind, id)),
            ];
            same_all("table", (card, plan), &ours_t, &their_t);
            for (ours, answer) in both {
                self.answer(card, t.len(), ours, answer);
            }
            if !(1..=7).contains(&kind) {
                same_all("table kept", (card, plan), &ours_t, t);
            }
        }
    }

    /// The same for a lookup in a plane.
    fn lookups(&mut self, rng: &mut Rng, card: &Card, bytes: &[u8]) {
        for kind in [wrong_kind(rng), card.kind] {
            let ours = ours::lookup(kind, &card.id, bytes);
            let answer = plane::lookup(kind, &card.id, bytes);
            if (1..=7).contains(&kind) {
                self.read.same("lookup", card, ours, answer);
            } else {
                self.wrong.same("lookup", (kind, card), ours, answer);
                same("wrong kind", (kind, card), ours, Answer::refused(15, 0));
            }
        }
    }

    fn answer(&mut self, card: &Card, length: usize, ours: Answer, answer: Answer) {
        if (1..=7).contains(&card.kind) {
            self.called.same("call", (card, length), ours, answer);
        } else {
            self.wrong.same("call", (card, length), ours, answer);
            same("wrong kind", (card, length), ours, Answer::refused(15, 0));
        }
    }
}

/// A kind that there is not, beside every other cause: on tables sound, full, damaged and of any numbers, on planes whole and damaged.
pub fn wrong(rng: &mut Rng, cases: u64) {
    let mut answers = Answers {
        wrong: Seen::none(),
        called: Seen::none(),
        read: Seen::none(),
    };
    for _ in 0..cases {
        let cards = cards(rng, 300);
        let sound = some_table(rng, &cards);
        let mut damaged = sound.clone();
        damage(rng, &mut damaged);
        let numbers = some_numbers(rng);
        let mut out = [0; 6000];
        let length = plane::write(&sound, &mut out).value as usize;
        for t in [&sound, &damaged, &numbers] {
            let plan = *rng.pick(&[0, 7, 254, 255]);
            for card in [card(rng, &cards), any_card(rng)] {
                answers.calls(rng, &card, plan, t);
            }
        }
        let cut = rng.below(length as u64) as usize;
        for bytes in [&out[..length], &out[..cut]] {
            for card in [card(rng, &cards), any_card(rng)] {
                answers.lookups(rng, &card, bytes);
            }
        }
    }
    // Tables that are full.
    for (b1, b2) in [(1, 1), (2, 1)] {
        let shape = Shape::new(b1, b2).expect("in range");
        let mut t = vec![0; shape.table_len()];
        table::open(&mut t, b1, b2);
        let cards = different_cards(80 * (shape.buckets() + 1));
        for card in &cards {
            let word = card.word().expect("a card");
            let _ = shape.add(&mut t, word, given_plan(rng));
        }
        for card in &cards {
            answers.calls(rng, card, 9, &t);
        }
    }
    let what = format!(
        "{} calls with a kind that there is not",
        answers.wrong.total()
    );
    answers.wrong.print(&what, &[15]);
    let causes = [0, 1, 2, 4, 5, 6, 7, 8, 14];
    answers
        .called
        .print("the same with one of the seven, on tables", &causes);
    answers.read.print("and on planes", &[0, 1, 2, 10]);
}

/// The same bytes under all seven kinds in both tables, with the plan of each that is live.
struct Seven {
    id: Vec<u8>,
    ours_t: Vec<u64>,
    t: Vec<u64>,
    plans: [Option<u8>; 7],
    /// The plane that a post has.
    post: Vec<u8>,
    /// What that plane gives the kinds that are not live.
    given: [Option<u64>; 7],
    strays: Strays,
    seen: Seen,
    read: Seen,
}

/// Lookups for a kind that is not live, before and after a call for another kind: how many, and how many gave another number after it.
#[derive(Default)]
struct Strays {
    asked: u64,
    changed: u64,
}

impl Seven {
    fn call(&mut self, rng: &mut Rng, at: usize) {
        let (kind, id) = (at as u8 + 1, &self.id);
        let (a, b) = (&mut self.ours_t, &mut self.t);
        let plan = given_plan(rng);
        let held = self.plans[at];
        let (ours, answer, after) = match held {
            None => (
                ours::add(a, kind, id, plan),
                table::add(b, kind, id, plan),
                Some(plan),
            ),
            Some(_) if rng.one_in(2) => (
                ours::change(a, kind, id, plan),
                table::change(b, kind, id, plan),
                Some(plan),
            ),
            Some(_) => (
                ours::withdraw(a, kind, id),
                table::withdraw(b, kind, id),
                None,
            ),
        };
        self.seen.same("call", (kind, id), ours, answer);
        if let (Some(held), 0) = (held, ours.cause) {
            same("earlier plan", (kind, id), ours.value, held.into());
        }
        if ours.is_accepted() {
            self.plans[at] = after;
        }
        same_all("table", (kind, id), &self.ours_t, &self.t);
    }

    /// Every kind has its own plan: in the table, in its plane, and in the plane that a patch makes of the post's.
    fn compare(&mut self) {
        let (mut ours_out, mut out) = ([0xa5; 6000], [0xa5; 6000]);
        let answer = plane::write(&self.t, &mut out);
        let ours = ours::write_plane(&self.ours_t, &mut ours_out);
        same("write", &self.id, ours, answer);
        same_all("plane", &self.id, &ours_out, &out);
        let new = &ours_out[..ours.value as usize];
        let patched = patched(&self.post, new);
        same_all("patched plane", &self.id, &patched, new);
        for (at, plan) in self.plans.into_iter().enumerate() {
            let (kind, id) = (at as u8 + 1, &self.id);
            let queried = ours::query(&self.ours_t, kind, id);
            let reference = table::query(&self.t, kind, id);
            self.seen.same("query", (kind, id), queried, reference);
            let read = ours::lookup(kind, id, &patched);
            let reference = plane::lookup(kind, id, &patched);
            self.read.same("lookup", (kind, id), read, reference);
            let expected = match plan {
                Some(plan) => Answer::accepted(plan.into()),
                None => Answer::refused(7, 0),
            };
            same("plan by the table", (kind, id), queried, expected);
            let given = match plan {
                Some(_) => {
                    same("plan by the plane", (kind, id), read, expected);
                    None
                }
                None => Some(read.value),
            };
            if let (Some(before), Some(after)) = (self.given[at], given) {
                self.strays.asked += 1;
                self.strays.changed += u64::from(before != after);
            }
            self.given[at] = given;
        }
        self.post = patched;
    }
}

/// The new plane by the patch from the old one, made and applied by both.
fn patched(old: &[u8], new: &[u8]) -> Vec<u8> {
    let (mut ours_out, mut out) = ([0xa5; 7000], [0xa5; 7000]);
    let made = patch::make(old, new, &mut out);
    let ours = ours::make_patch(old, new, &mut ours_out);
    same("make a patch", (old.len(), new.len()), ours, made);
    same_all("patch", old.len(), &ours_out, &out);
    let patch = &out[..made.value as usize];
    let (mut ours_new, mut their_new) = ([0xa5; 7000], [0xa5; 7000]);
    let applied = patch::apply(old, patch, &mut their_new);
    let ours = ours::apply_patch(old, patch, &mut ours_new);
    same("apply it", (old.len(), new.len()), ours, applied);
    same_all("new plane", old.len(), &ours_new, &their_new);
    ours_new[..applied.value as usize].to_vec()
}

/// The same bytes, of every length, under all seven kinds: added to tables beside other words, then changed, withdrawn and added again.
pub fn seven(rng: &mut Rng, cases: u64) {
    let (mut seen, mut read, mut strays) = (Seen::none(), Seen::none(), Strays::default());
    let mut together = 0;
    for case in 0..cases {
        let cards = cards(rng, 60);
        let t = if rng.one_in(2) {
            some_table(rng, &cards)
        } else {
            low_bounds(rng)
        };
        let mut out = [0; 6000];
        let length = plane::write(&t, &mut out).value as usize;
        let mut id = some_id(rng, 1 + case % 36);
        while (1..=7).any(|kind| table::query(&t, kind, &id).is_accepted()) {
            id = some_id(rng, 36);
        }
        let mut seven = Seven {
            id,
            ours_t: t.clone(),
            t,
            plans: [None; 7],
            post: out[..length].to_vec(),
            given: [None; 7],
            strays,
            seen,
            read,
        };
        for at in 0..7 {
            seven.call(rng, at);
        }
        seven.compare();
        together += u64::from(seven.plans.iter().all(Option::is_some));
        for _ in 0..12 {
            let at = rng.below(7) as usize;
            seven.call(rng, at);
            seven.compare();
        }
        (seen, read, strays) = (seven.seen, seven.read, seven.strays);
    }
    let what = format!(
        "{cases} times the same bytes under seven kinds, {together} times all of them live at once"
    );
    seen.print(&what, &[0, 7]);
    read.print("lookups in their planes, patched", &[0]);
    same("all seven live", cases, together, cases);
    println!(
        "agree: {} lookups for a kind that is not live, before and after a call for another kind: {} gave another number after it",
        strays.asked, strays.changed
    );
    same("another number", strays.asked, strays.changed > 0, true);
}

/// An empty table whose buckets have low bounds: words at level 2 and in the base list too.
fn low_bounds(rng: &mut Rng) -> Vec<u64> {
    let (b1, b2) = some_shape(rng);
    let shape = Shape::new(b1, b2).expect("in range");
    let mut t = vec![0; shape.table_len()];
    table::open(&mut t, b1, b2);
    for bucket in 0..shape.buckets() {
        t[260 + 74 * bucket + 73] = *rng.pick(&[0, 0, 3, 8]);
    }
    t
}

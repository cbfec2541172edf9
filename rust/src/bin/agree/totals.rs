//! Totals: the question for one on any numbers, tables whose totals alone are wrong, and tables with one plan for all.

use crate::compare::{differ, same, same_all, Seen};
use crate::random::{
    cards, different_cards, given_plan, known_card, places, recount, set_plan, some_shape,
    some_table, Card, Place,
};
use reference::rng::Rng;
use reference::table::{self, Shape, HEADER, LEADING, LIVE_COUNT, TOTALS};
use reference::{ours, plane};

/// A plan, often the first or the last.
fn some_plan(rng: &mut Rng) -> u8 {
    let any = rng.byte();
    *rng.pick(&[0, 255, any, any])
}

/// The question for a plan's total put to both.
pub fn ask(asked: &mut Seen, t: &[u64], plan: u8) {
    asked.same(
        "total",
        (t.len(), plan),
        ours::plan_total(t, plan),
        table::plan_total(t, plan),
    );
}

pub fn ask_all(asked: &mut Seen, t: &[u64]) {
    (0..=255).for_each(|plan| ask(asked, t, plan));
}

/// One plan's total, or now and then every plan's.
pub fn ask_some(rng: &mut Rng, asked: &mut Seen, t: &[u64]) {
    if rng.one_in(64) {
        ask_all(asked, t);
    } else {
        ask(asked, t, some_plan(rng));
    }
}

/// Any numbers, mostly with bucket numbers in range and of the length that these give, or nearly.
pub fn some_numbers(rng: &mut Rng) -> Vec<u64> {
    let (b1, b2) = if rng.one_in(4) {
        *rng.pick(&[(0, 1), (1, 0), (0, 2), (49, 1), (1, 33), (48, 32), (49, 33)])
    } else {
        some_shape(rng)
    };
    let length = 4 + 256 + 74 * (b1 + b2) as usize + 128;
    let length = match rng.below(12) {
        0 => length - 1,
        1 => length + 1,
        // Without the totals, or the leading numbers and the totals alone.
        2 => length - 256,
        3 => 260,
        4 => rng.below(8) as usize,
        5 => rng.below(2 * length as u64) as usize,
        _ => length,
    };
    let mut numbers: Vec<u64> = (0..length).map(|_| rng.next()).collect();
    let leading = match rng.below(8) {
        // They fit the length by their sum alone, or modulo a power of two.
        0 => [b1.wrapping_sub(b2 + 1), 2 * b2 + 1],
        1 => [b1 + (1 << 63), b2],
        2 => [b1, b2 + (1 << (8 + rng.below(56)))],
        _ => [b1, b2],
    };
    for (number, value) in numbers.iter_mut().zip(leading) {
        *number = value;
    }
    numbers
}

/// The question on any numbers: it tests cause 4 alone.
pub fn questions(rng: &mut Rng, cases: u64) {
    let mut asked = Seen::none();
    for _ in 0..cases {
        let numbers = some_numbers(rng);
        ask_some(rng, &mut asked, &numbers);
    }
    let what = format!("{} questions for a total on any numbers", asked.total());
    asked.print(&what, &[0, 4]);
}

/// The ways in which the totals alone of a table are wrong.
#[derive(Clone, Copy, Debug)]
pub enum Wrong {
    Raised,
    Lowered,
    /// 2^64 - 1.
    Huge,
    /// Two that differ.
    Exchanged,
    /// One plan's whole total given to another plan.
    Moved,
    /// A total of 0 raised, another lowered.
    New,
    /// All given to one plan.
    Gathered,
    /// One raised and another lowered modulo 2^64.
    Wrapped,
    Cleared,
    /// The solution words give a row another plan.
    Row,
    /// A base entry has another plan.
    Entry,
}

impl Wrong {
    pub const ALL: [Wrong; 11] = [
        Wrong::Raised,
        Wrong::Lowered,
        Wrong::Huge,
        Wrong::Exchanged,
        Wrong::Moved,
        Wrong::New,
        Wrong::Gathered,
        Wrong::Wrapped,
        Wrong::Cleared,
        Wrong::Row,
        Wrong::Entry,
    ];

    /// Makes a sound table wrong in this way, if it has what that takes.
    pub fn make(self, rng: &mut Rng, t: &mut [u64]) -> Option<()> {
        let totals = &mut t[LEADING..HEADER];
        let any = usize::from(some_plan(rng));
        match self {
            Wrong::Raised => totals[any] += 1,
            Wrong::Lowered => totals[plan_where(rng, |p| totals[p] > 0)?] -= 1,
            Wrong::Huge => totals[any] = u64::MAX,
            Wrong::Exchanged => {
                let unlike = plan_where(rng, |p| totals[p] != totals[any])?;
                totals.swap(any, unlike);
            }
            Wrong::Moved => {
                let from = plan_where(rng, |p| totals[p] > 0 && p != any)?;
                totals[any] += totals[from];
                totals[from] = 0;
            }
            Wrong::New => {
                let from = plan_where(rng, |p| totals[p] > 0)?;
                let to = plan_where(rng, |p| totals[p] == 0)?;
                totals[from] -= 1;
                totals[to] = 1;
            }
            Wrong::Gathered => {
                let sum = totals.iter().sum();
                if totals[any] == sum {
                    return None;
                }
                totals.fill(0);
                totals[any] = sum;
            }
            Wrong::Wrapped => {
                let other = (any + 1 + rng.below(255) as usize) % TOTALS;
                let amounts = [1, u64::MAX, 1 << rng.below(64), 1 | rng.next()];
                let amount = *rng.pick(&amounts);
                totals[any] = totals[any].wrapping_add(amount);
                totals[other] = totals[other].wrapping_sub(amount);
            }
            Wrong::Cleared => {
                plan_where(rng, |p| totals[p] > 0)?;
                totals.fill(0);
            }
            Wrong::Row => return other_plan(rng, t, |place| matches!(place, Place::Row(..))),
            Wrong::Entry => return other_plan(rng, t, |place| matches!(place, Place::Entry(_))),
        }
        Some(())
    }
}

/// One of the plans for which this holds.
fn plan_where(rng: &mut Rng, wanted: impl Fn(usize) -> bool) -> Option<usize> {
    let plans: Vec<usize> = (0..TOTALS).filter(|&plan| wanted(plan)).collect();
    (!plans.is_empty()).then(|| *rng.pick(&plans))
}

/// Gives a word at one of the wanted places another plan that it may have.
fn other_plan(rng: &mut Rng, t: &mut [u64], wanted: impl Fn(Place) -> bool) -> Option<()> {
    let mut places = places(t);
    places.retain(|&place| wanted(place));
    if places.is_empty() {
        return None;
    }
    let place = *rng.pick(&places);
    let plan = given_plan(rng);
    if set_plan(t, place, plan) == plan {
        set_plan(t, place, (plan + 1) % 255);
    }
    Some(())
}

/// Each call that tests the table put to both: the same answers; the table and the output stay.
pub fn refuse(rng: &mut Rng, seen: &mut Seen, card: &Card, t: &[u64]) {
    let (kind, id) = (card.kind, &card.id);
    let plan = given_plan(rng);
    let (mut ours_t, mut their_t) = (t.to_vec(), t.to_vec());
    let (a, b) = (&mut ours_t, &mut their_t);
    seen.same(
        "add",
        card,
        ours::add(a, kind, id, plan),
        table::add(b, kind, id, plan),
    );
    seen.same(
        "change",
        card,
        ours::change(a, kind, id, plan),
        table::change(b, kind, id, plan),
    );
    seen.same(
        "withdraw",
        card,
        ours::withdraw(a, kind, id),
        table::withdraw(b, kind, id),
    );
    seen.same(
        "query",
        card,
        ours::query(a, kind, id),
        table::query(b, kind, id),
    );
    let (mut ours_out, mut out) = ([0xa5; 6000], [0xa5; 6000]);
    seen.same(
        "write",
        card,
        ours::write_plane(a, &mut ours_out),
        plane::write(b, &mut out),
    );
    same_all("table", card, &ours_t, t);
    same_all("table of the reference", card, &their_t, t);
    same_all("output", card, &ours_out, &[0xa5; 6000]);
    same_all("output of the reference", card, &out, &[0xa5; 6000]);
}

/// Sound tables made wrong in each of the ways: cause 5 from every call that tests the table, and from none once the totals are right
/// again.
pub fn wrong(rng: &mut Rng, cases: u64) {
    let (mut refused, mut asked, mut right) = (Seen::none(), Seen::none(), Seen::none());
    let mut counts = [0; Wrong::ALL.len()];
    for _ in 0..cases {
        let cards = cards(rng, 400);
        let sound = some_table(rng, &cards);
        for (wrong, count) in Wrong::ALL.iter().zip(&mut counts) {
            let mut t = sound.clone();
            if wrong.make(rng, &mut t).is_none() {
                continue;
            }
            *count += 1;
            let card = known_card(rng, &cards);
            refuse(rng, &mut refused, &card, &t);
            ask_some(rng, &mut asked, &t);
            recount(&mut t);
            right.same(
                "query",
                &card,
                ours::query(&t, card.kind, &card.id),
                table::query(&t, card.kind, &card.id),
            );
        }
    }
    for (wrong, count) in Wrong::ALL.iter().zip(counts) {
        if count == 0 {
            differ("totals", wrong, "never occurred");
        }
    }
    let tables: u64 = counts.iter().sum();
    let what = format!(
        "{tables} tables with wrong totals, {} calls",
        refused.total()
    );
    refused.print(&what, &[5]);
    asked.print("questions for a total on them", &[0]);
    right.print("queries with the totals right again", &[0, 7]);
}

/// All live words on the first, the last or another plan that they may have until the first refusal, and then some on another plan or
/// withdrawn.
pub fn one_plan(rng: &mut Rng) {
    let (mut seen, mut asked) = (Seen::none(), Seen::none());
    for (b1, b2) in [(1, 1), (2, 1), (4, 2), (48, 32)] {
        let shape = Shape::new(b1, b2).expect("in range");
        for plan in [0, 254, 1 + rng.below(253) as u8] {
            let mut filled = Filled::new(shape, plan);
            filled.fill(&mut seen, &mut asked);
            filled.empty(rng, &mut seen, &mut asked);
        }
    }
    seen.print("tables with one plan for all, filled", &[0, 8, 14]);
    asked.print("questions for a total on them", &[0]);
}

/// Tables of both whose words all have one plan, and the words' cards.
struct Filled {
    ours_t: Vec<u64>,
    t: Vec<u64>,
    plan: u8,
    inside: Vec<Card>,
    /// Those that are added by calls; the last one is refused.
    last: Vec<Card>,
}

impl Filled {
    /// The tables before the last words: of a large one only these are added by calls.
    fn new(shape: Shape, plan: u8) -> Filled {
        let mut t = vec![0; shape.table_len()];
        table::open(&mut t, shape.buckets1, shape.buckets2);
        let mut all = t.clone();
        let add = |t: &mut [u64], card: &Card| {
            let word = card.word().expect("a card");
            shape.add(t, word, plan).is_ok()
        };
        let mut inside = different_cards(80 * (shape.buckets() + 1));
        let taken = inside.iter().take_while(|card| add(&mut all, card));
        let count = taken.count();
        inside.truncate(count + 1);
        let last = inside.split_off((count + 1).saturating_sub(2_000 / shape.buckets()));
        for card in &inside {
            add(&mut t, card);
        }
        Filled {
            ours_t: t.clone(),
            t,
            plan,
            inside,
            last,
        }
    }

    /// The last words added through the calls, to the first refusal.
    fn fill(&mut self, seen: &mut Seen, asked: &mut Seen) {
        for card in std::mem::take(&mut self.last) {
            let (kind, id) = (card.kind, &card.id);
            let ours = ours::add(&mut self.ours_t, kind, id, self.plan);
            let answer = table::add(&mut self.t, kind, id, self.plan);
            seen.same("add", &card, ours, answer);
            self.compare(asked, &card);
            if answer.is_accepted() {
                self.inside.push(card);
            }
        }
        let live = self.inside.len() as u64;
        let total = ours::plan_total(&self.ours_t, self.plan);
        same("total of all", self.plan, total.value, live);
        same("live count", self.plan, self.t[LIVE_COUNT], live);
        ask_all(asked, &self.t);
    }

    /// Some words changed, to this plan and to others, 255 among them, and withdrawn.
    fn empty(&mut self, rng: &mut Rng, seen: &mut Seen, asked: &mut Seen) {
        for _ in 0..5 {
            let card = self
                .inside
                .swap_remove(rng.below(self.inside.len() as u64) as usize);
            let (kind, id) = (card.kind, &card.id);
            for plan in [self.plan, some_plan(rng), 255, self.plan, 254 - self.plan] {
                let ours = ours::change(&mut self.ours_t, kind, id, plan);
                let answer = table::change(&mut self.t, kind, id, plan);
                seen.same("change", &card, ours, answer);
                self.compare(asked, &card);
            }
            let ours = ours::withdraw(&mut self.ours_t, kind, id);
            let answer = table::withdraw(&mut self.t, kind, id);
            seen.same("withdraw", &card, ours, answer);
            self.compare(asked, &card);
        }
        ask_all(asked, &self.t);
    }

    fn compare(&self, asked: &mut Seen, card: &Card) {
        same_all("table", card, &self.ours_t, &self.t);
        ask(asked, &self.ours_t, self.plan);
    }
}

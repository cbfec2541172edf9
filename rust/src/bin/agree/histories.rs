//! Long lists of calls from one opening, with totals asked for and the plane written and read in between. Beside the two programs a
//! plain map of the live words' plans, which settles every answer but whether the base list is full.

use crate::compare::{differ, same, same_all, Seen};
use crate::random::{any_card, any_plan, cards, known_card, Card};
use reference::rng::Rng;
use reference::table::{self, Shape, Spot, BASE_COUNT, LIVE_COUNT};
use reference::{ours, plane, Answer};
use std::collections::BTreeMap;

const CALLS: u64 = 100_000;
/// Calls between two planes, and between two times that every total is asked for.
const INTERVAL: u64 = 1_000;

#[derive(Clone, Copy, PartialEq)]
enum Call {
    Add,
    Change,
    Withdraw,
    Query,
}

impl Call {
    /// Of 16 calls, `adds` are adds and `withdrawals` withdrawals.
    fn any(rng: &mut Rng, adds: u64, withdrawals: u64) -> Call {
        match rng.below(16) {
            kind if kind < adds => Call::Add,
            kind if kind < adds + withdrawals => Call::Withdraw,
            _ if rng.one_in(2) => Call::Change,
            _ => Call::Query,
        }
    }
}

/// Both tables of a history, equal after each call, and the live words' plans.
struct History {
    shape: Shape,
    ours_t: Vec<u64>,
    t: Vec<u64>,
    live: BTreeMap<u64, u8>,
    cards: Vec<Card>,
    seen: Seen,
    /// The answers to questions for a total.
    asked: Seen,
}

impl History {
    fn open(rng: &mut Rng, shape: Shape) -> History {
        let (b1, b2) = (shape.buckets1, shape.buckets2);
        let earlier: Vec<u64> = (0..shape.table_len()).map(|_| rng.next()).collect();
        let mut history = History {
            shape,
            ours_t: earlier.clone(),
            t: earlier,
            live: BTreeMap::new(),
            // More than the table can hold.
            cards: cards(rng, 80 * (shape.buckets() + 1)),
            seen: Seen::none(),
            asked: Seen::none(),
        };
        history.seen.same(
            "open",
            (b1, b2),
            ours::open(&mut history.ours_t, b1, b2),
            table::open(&mut history.t, b1, b2),
        );
        history
    }

    fn plan(&self, card: &Card) -> Option<u8> {
        let word = card.word().ok()?;
        self.live.get(&word).copied()
    }

    /// A card for a call: mostly one with which it can be accepted, of the first `pool` cards; at times one not allowed.
    fn card(&self, rng: &mut Rng, pool: usize, live: bool) -> Card {
        let any = any_card(rng);
        if any.word().is_err() && rng.one_in(8) {
            return any;
        }
        let wanted = live != rng.one_in(8);
        let mut card = known_card(rng, &self.cards[..pool]);
        for _ in 0..8 {
            if self.plan(&card).is_some() != wanted {
                card = known_card(rng, &self.cards[..pool]);
            }
        }
        card
    }

    /// One call put to both and to the map. The reference does not test its table, which is sound.
    fn call(&mut self, rng: &mut Rng, call: Call, pool: usize) {
        let card = self.card(rng, pool, call != Call::Add);
        let (kind, id) = (card.kind, &card.id);
        let plan = any_plan(rng);
        let word = card.word();
        let (shape, t, ours_t) = (self.shape, &mut self.t, &mut self.ours_t);
        let (ours, reference) = match call {
            Call::Add => (
                ours::add(ours_t, kind, id, plan),
                word.and_then(|word| shape.add(t, word, plan)),
            ),
            Call::Change => (
                ours::change(ours_t, kind, id, plan),
                word.and_then(|word| shape.change(t, word, plan)),
            ),
            Call::Withdraw => (
                ours::withdraw(ours_t, kind, id),
                word.and_then(|word| shape.withdraw(t, word)),
            ),
            Call::Query => (
                ours::query(ours_t, kind, id),
                word.and_then(|word| shape.query(t, word)),
            ),
        };
        self.seen.same("call", &card, ours, reference.into());
        same_all("table", &card, &self.ours_t, &self.t);

        let Ok(word) = word else {
            return;
        };
        let expected = match (call, self.plan(&card)) {
            (Call::Add | Call::Change, _) if plan == 255 => Answer::refused(14, 0),
            (Call::Add, Some(held)) => Answer::refused(6, held.into()),
            (Call::Add, None) if ours.cause == 8 => Answer::refused(8, 0),
            (Call::Add, None) => Answer::accepted(self.live.len() as u64 + 1),
            (_, Some(held)) => Answer::accepted(held.into()),
            (_, None) => Answer::refused(7, 0),
        };
        same("answer by the map", &card, ours, expected);
        if ours.is_accepted() {
            match call {
                Call::Add | Call::Change => {
                    self.live.insert(word, plan);
                }
                Call::Withdraw => {
                    self.live.remove(&word);
                }
                Call::Query => {}
            }
        }
        let count = self.live.len() as u64;
        same("live count", &card, self.ours_t[LIVE_COUNT], count);
        if rng.one_in(4) {
            self.ask(plan);
        }
    }

    /// The question for a plan's total put to both and to the map.
    fn ask(&mut self, plan: u8) {
        let answer = table::plan_total(&self.t, plan);
        let ours = ours::plan_total(&self.ours_t, plan);
        self.asked.same("total", plan, ours, answer);
        let count = self.live.values().filter(|&&held| held == plan).count();
        same(
            "total by the map",
            plan,
            ours,
            Answer::accepted(count as u64),
        );
    }

    /// An opening that is refused: by its numbers, or because the table has another length.
    fn refused_open(&mut self, rng: &mut Rng) {
        let (b1, b2) = (self.shape.buckets1, self.shape.buckets2);
        let (b1, b2) = match rng.below(4) {
            0 => (0, b2),
            1 => (b1, 33 + rng.below(1000)),
            2 => (49 + rng.next() % (u64::MAX - 49), b2),
            _ if b1 < 48 => (b1 + 1, b2),
            _ => (b1 - 1, b2),
        };
        self.seen.same(
            "open",
            (b1, b2),
            ours::open(&mut self.ours_t, b1, b2),
            table::open(&mut self.t, b1, b2),
        );
        same_all("table", (b1, b2), &self.ours_t, &self.t);
    }

    /// The plane of both, looked up for every card: a live one gives its plan, and one that is nowhere 255.
    fn plane(&mut self) {
        if table::check(&self.t) != Ok(self.shape) {
            differ("table", self.t.len(), "not sound by the reference");
        }
        let (mut ours_out, mut out) = ([0xa5; 6000], [0xa5; 6000]);
        let answer = plane::write(&self.t, &mut out);
        let ours = ours::write_plane(&self.ours_t, &mut ours_out);
        self.seen.same("write", self.t.len(), ours, answer);
        same_all("plane", self.t.len(), &ours_out, &out);
        let plane = &out[..answer.value as usize];
        for card in &self.cards {
            let (kind, id) = (card.kind, &card.id);
            let word = card.word().expect("a card");
            let read = ours::lookup(kind, id, plane);
            same("lookup", card, read, plane::lookup(kind, id, plane));
            if let Some(&plan) = self.live.get(&word) {
                same("plan", card, read, Answer::accepted(plan.into()));
            } else if self.shape.spot(&self.t, word) == Spot::Base {
                same("stranger", card, read, Answer::accepted(255));
            }
        }
    }
}

fn history(rng: &mut Rng, b1: u64, b2: u64) {
    let mut history = History::open(rng, Shape::new(b1, b2).expect("in range"));
    let cards = history.cards.len();
    // Times of growth, of as many adds as withdrawals, of shrinking, with more and more cards; the last ones grow, so that each table gets full.
    const TIMES: u64 = 20;
    let mut most = 0;
    for time in 1..=TIMES {
        let pool = cards * time as usize / TIMES as usize;
        let (adds, withdrawals) = match time {
            17.. => (10, 1),
            _ => *rng.pick(&[(10, 1), (8, 2), (5, 4), (2, 9)]),
        };
        for call in 1..=CALLS / TIMES {
            if rng.one_in(200) {
                history.refused_open(rng);
            } else {
                let call = Call::any(rng, adds, withdrawals);
                history.call(rng, call, pool);
            }
            if call % INTERVAL == 0 {
                history.plane();
                (0..=255).for_each(|plan| history.ask(plan));
            }
            most = most.max(history.live.len());
        }
    }
    let (live, base) = (history.t[LIVE_COUNT], history.t[BASE_COUNT]);
    // No call finds the table unsound; 4 comes from openings of another length.
    history.seen.print(
        &format!("{CALLS} calls from one opening of {b1} and {b2} buckets, {most} live at most, {live} at the end, {base} of them in the base list"),
        &[0, 1, 2, 3, 4, 6, 7, 8, 14, 15],
    );
    let asked = history.asked.total();
    let what = format!("{asked} questions for a total along it");
    history.asked.print(&what, &[0]);
}

/// A history at each of several bucket numbers; of the larger ones only if `all`.
pub fn long(rng: &mut Rng, all: bool) {
    for (b1, b2) in [(1, 1), (2, 1), (4, 2)] {
        history(rng, b1, b2);
    }
    if all {
        for (b1, b2) in [(1, 3), (8, 4), (16, 8), (24, 16), (48, 32)] {
            history(rng, b1, b2);
        }
    }
}

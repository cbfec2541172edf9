//! Withdrawn cards: what the plane gives them, by both and by the plans of the cards still live; and tables in which a free row of Z is
//! not 0.

use crate::compare::{differ, same, same_all, Seen};
use crate::random::{
    cards, different_cards, given_plan, known_card, recount, rows, set_plan, some_shape,
    some_table, Card, Place,
};
use crate::totals::{ask_some, refuse};
use reference::bucket::Bucket;
use reference::rng::Rng;
use reference::table::{self, Shape, LEADING};
use reference::{combination, ours, plane, Answer};
use std::collections::BTreeMap;

/// Both tables from their opening on, equal after each call, and the live words' plans as the calls gave them.
struct History {
    shape: Shape,
    ours_t: Vec<u64>,
    t: Vec<u64>,
    plans: BTreeMap<u64, u8>,
    called: Seen,
    read: Seen,
}

impl History {
    fn open(b1: u64, b2: u64) -> History {
        let shape = Shape::new(b1, b2).expect("in range");
        let mut history = History {
            shape,
            ours_t: vec![0; shape.table_len()],
            t: vec![0; shape.table_len()],
            plans: BTreeMap::new(),
            called: Seen::none(),
            read: Seen::none(),
        };
        let ours = ours::open(&mut history.ours_t, b1, b2);
        let answer = table::open(&mut history.t, b1, b2);
        history.called.same("open", (b1, b2), ours, answer);
        history
    }

    fn held(&self, card: &Card) -> Option<u8> {
        self.plans.get(&card.word().expect("a card")).copied()
    }

    /// An add, or a change if the card is live; the reference does not test its table, which is sound.
    fn give(&mut self, card: &Card, plan: u8) {
        let word = card.word().expect("a card");
        let (kind, id) = (card.kind, &card.id);
        let (ours, answer) = match self.held(card) {
            None => (
                ours::add(&mut self.ours_t, kind, id, plan),
                self.shape.add(&mut self.t, word, plan),
            ),
            Some(_) => (
                ours::change(&mut self.ours_t, kind, id, plan),
                self.shape.change(&mut self.t, word, plan),
            ),
        };
        self.called.same("call", card, ours, answer.into());
        same_all("table", card, &self.ours_t, &self.t);
        if ours.is_accepted() {
            self.plans.insert(word, plan);
        }
    }

    /// The withdrawal of a live card, which had this plan. Had it another one, the table afterwards is the same.
    fn withdraw(&mut self, card: &Card, plan: u8) {
        let word = card.word().expect("a card");
        let (mut other_t, other) = (self.ours_t.clone(), (plan + 1) % 255);
        let ours = ours::change(&mut other_t, card.kind, &card.id, other);
        same("changed", card, ours, Answer::accepted(plan.into()));
        let ours = ours::withdraw(&mut other_t, card.kind, &card.id);
        same("other plan", card, ours, Answer::accepted(other.into()));
        let ours = ours::withdraw(&mut self.ours_t, card.kind, &card.id);
        let answer = self.shape.withdraw(&mut self.t, word);
        self.called.same("withdraw", card, ours, answer.into());
        same("former plan", card, ours, Answer::accepted(plan.into()));
        same_all("table", card, &self.ours_t, &self.t);
        same_all("table of the other plan", card, &other_t, &self.ours_t);
        self.plans.remove(&word);
    }

    /// The plane of the library's table, the same as the reference's.
    fn plane(&mut self) -> Vec<u8> {
        let mut bytes = vec![0xa5; 6000];
        let ours = ours::write_plane(&self.ours_t, &mut bytes);
        let expected = plane::plane_of(&self.t, self.shape);
        let answer = Answer::accepted(expected.len() as u64);
        self.called.same("write", self.t.len(), ours, answer);
        bytes.truncate(expected.len());
        same_all("plane", self.t.len(), &bytes, &expected);
        bytes
    }

    /// What a plane of the table gives a card: by both the same, and the XOR of the live plans in its combination; without a bucket the
    /// plan that it has, or 255. The live words in the combination are given too.
    fn given(&mut self, card: &Card, plane: &[u8]) -> (u8, Option<Vec<u64>>) {
        let ours = ours::lookup(card.kind, &card.id, plane);
        let answer = plane::lookup(card.kind, &card.id, plane);
        self.read.same("lookup", card, ours, answer);
        let word = card.word().expect("a card");
        let live = combination::words(self.shape, &self.ours_t, &self.plans, word);
        let plan = match (&live, self.held(card)) {
            (Some(live), _) => combination::plan(&self.plans, live),
            (None, held) => held.unwrap_or(255),
        };
        let expected = Answer::accepted(plan.into());
        same("plan by the live plans", (card, &live), ours, expected);
        if let Some(held) = self.held(card) {
            same("plan", card, ours, Answer::accepted(held.into()));
        }
        (plan, live)
    }
}

/// A lost card: alone in its bucket, of level 1 and of level 2, and with others there.
pub fn lost() {
    const PLAN: u8 = 201;
    let cards = different_cards(21);
    let (card, others) = cards.split_first().expect("cards");
    for (level, bound) in [(1, 8), (2, 0)] {
        let mut history = History::open(1, 1);
        // Under the bound 0 level 1 holds no word.
        for t in [&mut history.ours_t, &mut history.t] {
            t[260 + 73] = bound;
        }
        history.give(card, PLAN);
        let plane = history.plane();
        same("live", card, history.given(card, &plane).0, PLAN);
        history.withdraw(card, PLAN);
        let plane = history.plane();
        let (plan, live) = history.given(card, &plane);
        same("alone", (card, level), (plan, live), (0, Some(vec![])));
        println!(
            "agree: a card with plan {PLAN}, alone in its bucket of level {level}, withdrawn: the plane gives it {plan}"
        );
    }
    let mut history = History::open(1, 1);
    for (i, card) in others.iter().enumerate() {
        history.give(card, 10 * i as u8);
    }
    history.give(card, PLAN);
    history.withdraw(card, PLAN);
    let plane = history.plane();
    let (plan, live) = history.given(card, &plane);
    let count = live.expect("a bucket").len();
    if plan == PLAN || count < 2 {
        differ("withdrawn", card, "its former plan, or no XOR");
    }
    println!(
        "agree: a card with plan {PLAN}, withdrawn from a bucket in which {} others are live: the plane gives it {plan}, the XOR of the plans \
         of {count} of them",
        others.len()
    );
}

/// Histories of adds, changes and withdrawals: after each withdrawal what the plane gives the card, and at the end what it gives every card.
pub fn histories(rng: &mut Rng, cases: u64) {
    let (mut called, mut read) = (Seen::none(), Seen::none());
    // 255 without a bucket; 0 of no live word; 0, the former plan, or another number of some.
    let mut counts = [0; 5];
    for _ in 0..cases {
        let (b1, b2) = *rng.pick(&[(1, 1), (1, 1), (2, 1), (1, 2), (3, 2)]);
        let mut history = History {
            called,
            read,
            ..History::open(b1, b2)
        };
        // From a few cards to more than there is room for.
        let most = *rng.pick(&[10, 60, 80 * (b1 + b2 + 1)]);
        let count = 1 + rng.below(most) as usize;
        let cards = cards(rng, count);
        let few = rng.one_in(2);
        let plan = |rng: &mut Rng| match rng.below(4) {
            0 => 0,
            plan if few => plan as u8,
            _ => given_plan(rng),
        };
        for card in &cards {
            if history.held(card).is_none() {
                history.give(card, plan(rng));
            }
        }
        for _ in 0..100 {
            let card = known_card(rng, &cards);
            let former = match history.held(&card) {
                Some(held) if !rng.one_in(4) => held,
                _ => {
                    history.give(&card, plan(rng));
                    continue;
                }
            };
            history.withdraw(&card, former);
            let plane = history.plane();
            counts[match history.given(&card, &plane) {
                (_, None) => 0,
                (_, Some(live)) if live.is_empty() => 1,
                (0, _) => 2,
                (plan, _) if plan == former => 3,
                _ => 4,
            }] += 1;
        }
        let plane = history.plane();
        for card in &cards {
            history.given(card, &plane);
        }
        (called, read) = (history.called, history.read);
    }
    called.print(&format!("calls of {cases} histories"), &[0, 8]);
    let withdrawn: u64 = counts.iter().sum();
    let [desk, of_none, zero, former, other] = counts;
    let what = format!(
        "{withdrawn} cards withdrawn in them: the plane gives 0 to {of_none} in whose combination no word is live and to {zero} others, \
         the former plan by chance to {former}, another number to {other}, 255 without a bucket to {desk}; lookups"
    );
    if counts.contains(&0) {
        differ(&what, counts, "one never occurred");
    }
    read.print(&what, &[0]);
}

/// The ways in which free rows of Z are not 0.
#[derive(Clone, Copy, Debug)]
pub enum Unclear {
    Bit,
    Bits,
    /// A row, along its column: no word's plan changes.
    Row,
    /// All rows that are free, to plan 255.
    Rows,
}

impl Unclear {
    pub const ALL: [Unclear; 4] = [Unclear::Bit, Unclear::Bits, Unclear::Row, Unclear::Rows];

    /// Makes free rows of a bucket of a sound table so, with the totals that belong to it. Nothing if it has none, or if a live word gets
    /// plan 255 by it.
    pub fn make(self, rng: &mut Rng, t: &mut [u64], index: usize) -> Option<()> {
        let shape = Shape::of(t).expect("a table");
        let mut bucket = shape.read_bucket(t, index);
        let free: Vec<usize> = (0..64).filter(|j| bucket.mark >> j & 1 == 0).collect();
        if free.is_empty() {
            return None;
        }
        let bits = match self {
            Unclear::Bit => 1,
            Unclear::Bits => 2 + rng.below(30),
            Unclear::Row => {
                let plan = 1 + rng.below(255) as u8;
                set_plan(t, Place::Row(index, *rng.pick(&free)), plan);
                return Some(());
            }
            Unclear::Rows => {
                for j in free {
                    set_plan(t, Place::Row(index, j), 255);
                }
                return Some(());
            }
        };
        for _ in 0..bits {
            bucket.sols[rng.below(8) as usize] |= 1 << rng.pick(&free);
        }
        shape.write_bucket(t, index, &bucket);
        recount(t);
        (t[LEADING + 255] == 0).then_some(())
    }
}

/// The free rows of Z that are not 0.
fn unclear_rows(t: &[u64]) -> Vec<Place> {
    let mut free = rows(t, false);
    free.retain(|place| match place {
        Place::Row(index, j) => (65..73).any(|at| t[260 + 74 * index + at] >> j & 1 == 1),
        Place::Entry(_) => false,
    });
    free
}

/// Makes every free row of Z 0, along its column: no word's plan changes.
fn clear(t: &mut [u64]) {
    for place in unclear_rows(t) {
        set_plan(t, place, 0);
    }
}

/// Sound tables in which free rows of Z alone are made other than 0, in buckets with words and without: cause 5 from every call that tests
/// the table, and from none once they are 0 again.
pub fn free_rows(rng: &mut Rng, cases: u64) {
    let (mut refused, mut asked, mut right) = (Seen::none(), Seen::none(), Seen::none());
    let mut ways = [0; Unclear::ALL.len()];
    // Of level 1 without words and with, of level 2 without and with.
    let mut buckets = [0; 4];
    for _ in 0..cases {
        let count = *rng.pick(&[5, 50, 400]);
        let cards = cards(rng, count);
        let sound = some_table(rng, &cards);
        let shape = Shape::of(&sound).expect("a table");
        let sort = |index: usize| {
            let level2 = index >= shape.buckets1 as usize;
            let used = shape.read_bucket(&sound, index).mark != 0;
            2 * usize::from(level2) + usize::from(used)
        };
        for (unclear, count) in Unclear::ALL.iter().zip(&mut ways) {
            let wanted = rng.below(4) as usize;
            let indices = (0..shape.buckets()).filter(|&index| sort(index) == wanted);
            let indices: Vec<usize> = indices.collect();
            if indices.is_empty() {
                continue;
            }
            let mut t = sound.clone();
            let index = *rng.pick(&indices);
            if unclear.make(rng, &mut t, index).is_none() {
                continue;
            }
            *count += 1;
            buckets[wanted] += 1;
            let card = known_card(rng, &cards);
            refuse(rng, &mut refused, &card, &t);
            ask_some(rng, &mut asked, &t);
            clear(&mut t);
            let ours = ours::query(&t, card.kind, &card.id);
            let answer = table::query(&t, card.kind, &card.id);
            right.same("query", &card, ours, answer);
        }
    }
    let [unused1, used1, unused2, used2] = buckets;
    let what = format!(
        "free rows that are not clear in {used1} buckets of level 1 with words and {unused1} without, {used2} of level 2 with and {unused2} \
         without, {} calls",
        refused.total()
    );
    if ways.contains(&0) || buckets.contains(&0) {
        differ(&what, (ways, buckets), "one never occurred");
    }
    refused.print(&what, &[5]);
    asked.print("questions for a total on them", &[0]);
    right.print("queries with the rows clear again", &[0, 7]);
}

/// A withdrawal as it was before order 6: the solutions stay.
fn withdraw_as_before(shape: Shape, t: &mut [u64], word: u64) {
    let index = shape.bucket_index(shape.spot(t, word)).expect("a bucket");
    let sols = shape.read_bucket(t, index).sols;
    shape.withdraw(t, word).expect("live");
    let bucket = shape.read_bucket(t, index);
    shape.write_bucket(t, index, &Bucket { sols, ..bucket });
}

/// Tables as they were before order 6, from histories too short for a bound to fall: cause 5 from every call that tests the table, unless
/// the freed rows happen to be clear. Cleared, they are sound, and the live words have their plans.
pub fn earlier(rng: &mut Rng, cases: u64) {
    let (mut refused, mut asked, mut right) = (Seen::none(), Seen::none(), Seen::none());
    let mut unclear = 0;
    for _ in 0..cases {
        let (b1, b2) = some_shape(rng);
        let shape = Shape::new(b1, b2).expect("in range");
        let mut t = vec![0; shape.table_len()];
        table::open(&mut t, b1, b2);
        let most = *rng.pick(&[4, 20 * b1]);
        let cards = different_cards(1 + rng.below(most) as usize);
        let mut plans = BTreeMap::new();
        for _ in 0..2 * cards.len() {
            let word = rng.pick(&cards).word().expect("a card");
            if plans.remove(&word).is_some() {
                withdraw_as_before(shape, &mut t, word);
            } else {
                let any = given_plan(rng);
                let plan = *rng.pick(&[0, any]);
                shape.add(&mut t, word, plan).expect("room");
                plans.insert(word, plan);
            }
        }
        if (0..shape.buckets()).any(|index| shape.bound(&t, index) < 8) {
            differ("earlier tables", (b1, b2, cards.len()), "a bound fell");
        }
        if !unclear_rows(&t).is_empty() {
            unclear += 1;
            let card = known_card(rng, &cards);
            refuse(rng, &mut refused, &card, &t);
            ask_some(rng, &mut asked, &t);
            clear(&mut t);
        }
        for card in cards.iter().take(20) {
            let ours = ours::query(&t, card.kind, &card.id);
            let answer = table::query(&t, card.kind, &card.id);
            right.same("query", card, ours, answer);
            let expected = match plans.get(&card.word().expect("a card")) {
                Some(&plan) => Answer::accepted(plan.into()),
                None => Answer::refused(7, 0),
            };
            same("plan", card, ours, expected);
        }
    }
    let clear = cases - unclear;
    let what = format!(
        "{cases} tables as they were before order 6, {clear} of them with the free rows clear by chance; calls on the others"
    );
    if clear == 0 {
        differ(&what, cases, "never occurred");
    }
    refused.print(&what, &[5]);
    asked.print("questions for a total on them", &[0]);
    right.print("queries with the rows clear", &[0, 7]);
}

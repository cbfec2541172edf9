//! How many products an add forms: every product is noted, and for every add of
//! random histories the list is compared with what a slow model needs.
//!
//! The model has each bucket's live vectors as a plain list, the bounds and the
//! base list: no columns, dependence by rank. It does what document 01 says, a
//! sentence at a time, and writes down every question that it puts to a bucket:
//! is this vector live, does it depend, in which row is this one that leaves. A
//! question of the same vector to the same bucket with the same live vectors is
//! answered by one product; so the products needed are the questions without
//! repetition.
//!
//! Parities are counted too: those of the products and of the plans looked up
//! are all, so neither a step on columns nor the clearing of a row multiplies on
//! its own.

use crate::answer::{BASE_FULL, WORD_LIVE};
use crate::bucket::Bucket;
use crate::identifier::{self, level2_vector, word_of_level2};
use crate::rng::Rng;
use crate::table::{self, Shape, BASE_MAX, LIVE_COUNT};
use crate::Answer;
use std::cell::{Cell, RefCell};
use std::collections::BTreeMap;

thread_local! {
    /// What this thread has formed, if someone wants to know.
    static FORMED: RefCell<Option<Formed>> = const { RefCell::new(None) };
    static PARITIES: Cell<u64> = const { Cell::new(0) };
}

/// The products formed, in order: of which vector, and in which bucket.
type Formed = Vec<(Bucket, u64)>;

/// Notes that the product of a vector is formed.
pub fn note_product(bucket: &Bucket, vector: u64) {
    FORMED.with_borrow_mut(|formed| {
        if let Some(formed) = formed {
            formed.push((bucket.clone(), vector));
        }
    });
}

/// Notes that a parity is formed.
pub fn note_parity() {
    PARITIES.set(PARITIES.get() + 1);
}

/// A product: the live vectors of the bucket, ascending, and the vector.
type Product = (Vec<u64>, u64);

/// Runs it, and gives the products and the number of parities formed meanwhile.
fn formed_by<T>(run: impl FnOnce() -> T) -> (T, Vec<Product>, u64) {
    FORMED.set(Some(Vec::new()));
    PARITIES.set(0);
    let result = run();
    let parities = PARITIES.get();
    let formed = FORMED.take().expect("noted since the start");
    let products = formed.into_iter().map(|(bucket, vector)| {
        let mut live = bucket.live_vectors();
        live.sort_unstable();
        (live, vector)
    });
    (result, products.collect(), parities)
}

#[test]
fn every_product_is_noted() {
    let mut bucket = Bucket::empty();
    let ((), products, parities) = formed_by(|| {
        bucket.product(5);
        bucket.live(5);
        bucket.add(5, 1);
        bucket.live_with(1);
        bucket.add_with(6, 6, 1);
        bucket.change(6, 9);
        bucket.lookup(6);
        bucket.rows();
        bucket.withdraw(5);
    });
    let expected = [
        (vec![], 5),
        (vec![], 5),
        (vec![], 5),
        (vec![5, 6], 6),
        (vec![5, 6], 5),
    ];
    assert_eq!(products, expected);
    // Looked up: by the two adds, the change, the lookup and the withdrawal.
    assert_eq!(parities, 5 * 64 + 5 * 8);
}

/// Why a question is put.
#[derive(Clone, Copy, PartialEq, Eq, PartialOrd, Ord)]
enum Why {
    /// A word comes to a bucket that holds it.
    Comes,
    /// It is tried once more under a lower bound.
    Again,
    /// A word leaves.
    Leaves,
}

/// A question to a bucket about a vector.
#[derive(Clone)]
struct Question {
    bucket: usize,
    live: Vec<u64>,
    vector: u64,
    why: Why,
}

/// What becomes of an add.
#[derive(Clone, Copy, Debug, PartialEq, Eq, PartialOrd, Ord)]
enum Sort {
    LiveLevel1,
    LiveLevel2,
    LiveBase,
    StraightLevel1,
    StraightLevel2,
    StraightBase,
    StraightFull,
    BoundsFall,
    BoundsFallFull,
}

impl Sort {
    fn is_full(self) -> bool {
        matches!(self, Sort::StraightFull | Sort::BoundsFallFull)
    }
}

const SORTS: [(Sort, &str); 9] = [
    (Sort::LiveLevel1, "live in a bucket of level 1"),
    (Sort::LiveLevel2, "live in a bucket of level 2"),
    (Sort::LiveBase, "live in the base list"),
    (Sort::StraightLevel1, "straight into level 1"),
    (Sort::StraightLevel2, "straight into level 2"),
    (Sort::StraightBase, "straight to the base list"),
    (Sort::StraightFull, "straight to it, and it is full"),
    (Sort::BoundsFall, "bounds fall"),
    (Sort::BoundsFallFull, "bounds fall, base list full"),
];

/// Bounds that fell by one, by what came of the word that was to be added.
#[derive(Clone, Copy, Default)]
struct Falls {
    /// Words left, and it is tried again.
    left: u32,
    /// None left, and it still depends.
    none_left: u32,
    /// It is no longer held itself.
    last: u32,
    /// How often a bound fell by more than one for one word.
    several: u32,
}

impl Falls {
    fn count(&mut self, more: Falls) {
        self.left += more.left;
        self.none_left += more.none_left;
        self.last += more.last;
        self.several += more.several;
    }
}

#[derive(Clone)]
struct Model {
    buckets1: u64,
    buckets2: u64,
    /// The live vectors of each bucket, level 1 first, ascending.
    live: Vec<Vec<u64>>,
    bounds: Vec<u64>,
    base: Vec<u64>,
}

/// The questions and falls of one add.
#[derive(Default)]
struct Asked {
    questions: Vec<Question>,
    /// How often a plan is looked up in a bucket: of a word that is live, that
    /// goes in or that leaves.
    lookups: u64,
    falls: Falls,
}

impl Asked {
    /// Writes a question down, unless the same product answers it.
    fn ask(&mut self, bucket: usize, live: &[u64], vector: u64, why: Why) {
        let same = |q: &Question| (q.bucket, &q.live[..], q.vector) == (bucket, live, vector);
        if !self.questions.iter().any(same) {
            self.questions.push(Question {
                bucket,
                live: live.to_vec(),
                vector,
                why,
            });
        }
    }
}

fn threshold(vector: u64) -> u64 {
    identifier::threshold(identifier::place(vector))
}

/// Whether the vector is the XOR of some of these, which are independent.
fn depends(live: &[u64], vector: u64) -> bool {
    let mut rest = live.to_vec();
    let mut vector = vector;
    while let Some(pivot) = rest.pop() {
        let top = 63 - pivot.leading_zeros();
        for other in rest.iter_mut().chain([&mut vector]) {
            if *other >> top & 1 == 1 {
                *other ^= pivot;
            }
        }
    }
    vector == 0
}

/// Puts a new one into an ascending list.
fn put(list: &mut Vec<u64>, new: u64) {
    let at = list.binary_search(&new).expect_err("new");
    list.insert(at, new);
}

impl Model {
    fn open(shape: Shape) -> Model {
        Model {
            buckets1: shape.buckets1,
            buckets2: shape.buckets2,
            live: vec![Vec::new(); shape.buckets()],
            bounds: vec![8; shape.buckets()],
            base: Vec::new(),
        }
    }

    fn bucket1(&self, vector: u64) -> usize {
        identifier::bucket(identifier::place(vector), self.buckets1) as usize
    }

    fn bucket2(&self, vector: u64) -> usize {
        let bucket = identifier::bucket(identifier::place(vector), self.buckets2);
        (self.buckets1 + bucket) as usize
    }

    fn holds(&self, bucket: usize, vector: u64) -> bool {
        threshold(vector) < self.bounds[bucket]
    }

    /// The bucket and the vector of a word, by the bounds; no bucket: base.
    fn place(&self, word: u64) -> (Option<usize>, u64) {
        let further = level2_vector(word);
        let (bucket1, bucket2) = (self.bucket1(word), self.bucket2(further));
        if self.holds(bucket1, word) {
            (Some(bucket1), word)
        } else if self.holds(bucket2, further) {
            (Some(bucket2), further)
        } else {
            (None, further)
        }
    }

    fn is_level1(&self, bucket: usize) -> bool {
        bucket < self.buckets1 as usize
    }

    /// Adds a word. The sort tells whether it was accepted.
    fn add(&mut self, word: u64, asked: &mut Asked) -> Sort {
        let (bucket, vector) = self.place(word);
        let live = match bucket {
            Some(bucket) => {
                asked.ask(bucket, &self.live[bucket], vector, Why::Comes);
                let live = self.live[bucket].contains(&vector);
                asked.lookups += u64::from(live);
                live
            }
            None => self.base.contains(&vector),
        };
        if live {
            return match bucket {
                Some(bucket) if self.is_level1(bucket) => Sort::LiveLevel1,
                Some(_) => Sort::LiveLevel2,
                None => Sort::LiveBase,
            };
        }
        let before = self.clone();
        let accepted = self.arrive(word, asked);
        let fell = self.bounds != before.bounds;
        if !accepted {
            *self = before;
        }
        match (fell, accepted) {
            (true, true) => Sort::BoundsFall,
            (true, false) => Sort::BoundsFallFull,
            (false, false) => Sort::StraightFull,
            (false, true) => match bucket {
                Some(bucket) if self.is_level1(bucket) => Sort::StraightLevel1,
                Some(_) => Sort::StraightLevel2,
                None => Sort::StraightBase,
            },
        }
    }

    /// A new word at level 1, and what leaves at the next. False if a word
    /// found the base list full.
    fn arrive(&mut self, word: u64, asked: &mut Asked) -> bool {
        for left in self.settle(self.bucket1(word), word, asked) {
            let left = level2_vector(left);
            for left in self.settle(self.bucket2(left), left, asked) {
                if self.base.len() == BASE_MAX {
                    return false;
                }
                put(&mut self.base, left);
            }
        }
        true
    }

    /// The vectors that leave, the new one last if it does.
    fn settle(&mut self, bucket: usize, vector: u64, asked: &mut Asked) -> Vec<u64> {
        let mut leaving = Vec::new();
        let mut why = Why::Comes;
        let bound = self.bounds[bucket];
        while self.holds(bucket, vector) {
            asked.ask(bucket, &self.live[bucket], vector, why);
            if !depends(&self.live[bucket], vector) {
                put(&mut self.live[bucket], vector);
                asked.lookups += 1;
                return leaving;
            }
            self.bounds[bucket] -= 1;
            let gone: Vec<u64> = self.live[bucket]
                .iter()
                .copied()
                .filter(|&v| !self.holds(bucket, v))
                .collect();
            for &v in &gone {
                asked.ask(bucket, &self.live[bucket], v, Why::Leaves);
                asked.lookups += 1;
                self.live[bucket].retain(|&kept| kept != v);
            }
            match (self.holds(bucket, vector), gone.is_empty()) {
                (true, false) => asked.falls.left += 1,
                (true, true) => asked.falls.none_left += 1,
                (false, _) => asked.falls.last += 1,
            }
            asked.falls.several += u32::from(bound - self.bounds[bucket] == 2);
            leaving.extend(gone);
            why = Why::Again;
        }
        leaving.push(vector);
        leaving
    }

    /// The word must be live.
    fn withdraw(&mut self, word: u64) {
        let (bucket, vector) = self.place(word);
        let list = match bucket {
            Some(bucket) => &mut self.live[bucket],
            None => &mut self.base,
        };
        let at = list.binary_search(&vector).expect("live");
        list.remove(at);
    }

    /// Bounds, live vectors and base list are those of the table.
    fn compare(&self, shape: Shape, t: &[u64]) {
        for (index, live) in self.live.iter().enumerate() {
            assert_eq!(shape.bound(t, index), self.bounds[index]);
            let mut vectors = shape.read_bucket(t, index).live_vectors();
            vectors.sort_unstable();
            assert_eq!(&vectors, live);
        }
        let base: Vec<u64> = (0..t[table::BASE_COUNT] as usize)
            .map(|index| shape.base_pair(t, index).0)
            .collect();
        assert_eq!(base, self.base);
    }
}

/// The adds of a sort, and the products formed in them, by why.
#[derive(Clone, Copy, Default)]
struct Tally {
    adds: u32,
    products: [u32; 3],
    falls: Falls,
}

type Tallies = BTreeMap<Sort, Tally>;

/// What words a history draws.
#[derive(Clone, Copy, Debug, PartialEq, Eq)]
enum Words {
    Any,
    /// Many that depend, at either level.
    Dependent,
    /// Of few bits: they depend while buckets are nearly empty.
    Few,
}

fn draw(rng: &mut Rng, words: Words) -> u64 {
    match (words, rng.below(8)) {
        (Words::Any, _) => rng.next(),
        (Words::Few, 0..=3) => rng.below(32),
        (Words::Few, _) => word_of_level2(rng.below(32)),
        (_, 0..=1) => rng.below(128),
        (_, 2..=3) => word_of_level2(rng.below(128)),
        (_, 4) => rng.next() & 0xff00_0000_0000_00ff,
        (_, 5) => 1 << rng.below(64),
        _ => rng.next(),
    }
}

/// One add by the library and by the model: the same answer, and just the
/// products that are needed, in their order.
fn add(
    shape: Shape,
    t: &mut [u64],
    model: &mut Model,
    word: u64,
    plan: u8,
    tallies: &mut Tallies,
) -> Sort {
    let mut asked = Asked::default();
    let sort = model.add(word, &mut asked);
    let needed: Vec<Product> = asked
        .questions
        .iter()
        .map(|question| (question.live.clone(), question.vector))
        .collect();
    let parities_needed = 64 * needed.len() as u64 + 8 * asked.lookups;

    // The call that tests the table first forms no other product.
    if shape.buckets() < 10 {
        let mut copy = t.to_vec();
        let (_, products, _) = formed_by(|| table::add_word(&mut copy, word, plan));
        assert_eq!(products.len(), needed.len(), "checked add, {sort:?}");
    }
    let live = t[LIVE_COUNT];
    let (answer, products, parities) = formed_by(|| Answer::from(shape.add(t, word, plan)));
    assert_eq!(products.len(), needed.len(), "products, {sort:?}");
    assert_eq!(products, needed, "{sort:?}");
    assert_eq!(parities, parities_needed, "parities, {sort:?}");

    let cause = match sort {
        Sort::LiveLevel1 | Sort::LiveLevel2 | Sort::LiveBase => WORD_LIVE,
        _ if sort.is_full() => BASE_FULL,
        _ => 0,
    };
    assert_eq!(answer.cause, cause, "{sort:?}");
    assert_eq!(t[LIVE_COUNT], live + u64::from(cause == 0));

    let tally = tallies.entry(sort).or_default();
    tally.adds += 1;
    for question in asked.questions {
        tally.products[question.why as usize] += 1;
    }
    tally.falls.count(asked.falls);
    sort
}

/// So many calls after opening: mostly adds until the first refusal as full,
/// then calls of all sorts. Gives the number of refusals.
fn history(rng: &mut Rng, shape: Shape, words: Words, calls: u32, tallies: &mut Tallies) -> u32 {
    let mut t = vec![0; shape.table_len()];
    table::open(&mut t, shape.buckets1, shape.buckets2);
    let mut model = Model::open(shape);
    let mut drawn = Vec::new();
    let mut refusals = 0;
    for call in 1..=calls {
        let filling = refusals == 0;
        // A new word, or one that was drawn before, live or not.
        let new = drawn.is_empty() || !rng.one_in(if filling { 8 } else { 2 });
        let word = if new {
            draw(rng, words)
        } else {
            *rng.pick(&drawn)
        };
        let plan = rng.below(255) as u8;
        match rng.below(if filling { 20 } else { 4 }) {
            0 => {
                if shape.withdraw(&mut t, word).is_ok() {
                    model.withdraw(word);
                }
            }
            1 => {
                let _ = shape.change(&mut t, word, plan);
            }
            _ => {
                drawn.push(word);
                let sort = add(shape, &mut t, &mut model, word, plan, tallies);
                refusals += u32::from(sort.is_full());
            }
        }
        if call % 32 == 0 || call == calls {
            model.compare(shape, &t);
        }
    }
    assert!(table::check(&t).is_ok());
    refusals
}

#[test]
fn products_of_every_add() {
    let mut rng = Rng::new(55);
    let mut tallies = Tallies::new();
    for (b1, b2, words, histories, calls) in [
        (1, 1, Words::Any, 8, 600),
        (2, 1, Words::Any, 4, 800),
        (1, 3, Words::Any, 4, 1000),
        (5, 2, Words::Any, 2, 1500),
        (12, 8, Words::Any, 2, 3000),
        (48, 32, Words::Any, 1, 8000),
        (1, 1, Words::Dependent, 20, 300),
        (2, 1, Words::Dependent, 20, 300),
        (1, 2, Words::Dependent, 20, 300),
        (5, 4, Words::Dependent, 10, 900),
        (1, 1, Words::Few, 300, 40),
        (2, 2, Words::Few, 300, 60),
    ] {
        let shape = Shape::new(b1, b2).expect("in range");
        for _ in 0..histories {
            let refusals = history(&mut rng, shape, words, calls, &mut tallies);
            // Few words leave room in the base list.
            assert!(refusals > 0 || words == Words::Few, "{shape:?}, {words:?}");
        }
    }
    print(&tallies);

    let mut falls = Falls::default();
    for (sort, name) in SORTS {
        let tally = tallies[&sort];
        assert!(tally.adds > 100, "{name}");
        let [_, again, _] = tally.products;
        match sort {
            Sort::LiveBase | Sort::StraightBase | Sort::StraightFull => {
                assert_eq!(tally.products, [0, 0, 0])
            }
            Sort::BoundsFall | Sort::BoundsFallFull => assert_eq!(again, tally.falls.left),
            _ => assert_eq!(tally.products, [tally.adds, 0, 0]),
        }
        falls.count(tally.falls);
    }
    assert!(falls.left > 1000 && falls.none_left > 500 && falls.last > 1000);
    assert!(falls.several > 500);
}

/// The adds of each sort and their products; the falls of bounds.
fn print(tallies: &Tallies) {
    println!(
        "{:<32} {:>8} {:>10} {:>10} {:>10} {:>10}",
        "an add", "adds", "products", "it comes", "again", "others go"
    );
    let mut falls = Falls::default();
    for (sort, name) in SORTS {
        let tally = tallies.get(&sort).copied().unwrap_or_default();
        let [comes, again, leaves] = tally.products;
        let (adds, products) = (tally.adds, comes + again + leaves);
        println!("{name:<32} {adds:>8} {products:>10} {comes:>10} {again:>10} {leaves:>10}");
        falls.count(tally.falls);
    }
    println!(
        "falls by one: {} at which words left, {} at which none left, {} after which the word is not held; {} times several for one word",
        falls.left, falls.none_left, falls.last, falls.several
    );
}

//! Tables filled with words that depend while buckets are nearly empty: bounds fall by several at once, with words that leave and with
//! none.

use crate::compare::{differ, same, same_all};
use reference::answer::{BASE_FULL, WORD_LIVE};
use reference::identifier::{place, threshold, word_of_level2};
use reference::ours;
use reference::rng::Rng;
use reference::table::{self, Shape};

/// A word of few bits at level 1 or at level 2, the XOR of two earlier ones, or any.
fn some_word(rng: &mut Rng, earlier: &[u64]) -> u64 {
    match rng.below(8) {
        0..=2 => rng.below(64),
        3..=5 => word_of_level2(rng.below(64)),
        6 if !earlier.is_empty() => rng.pick(earlier) ^ rng.pick(earlier),
        _ => rng.next(),
    }
}

/// Words that are all different, but for the last at times.
fn some_words(rng: &mut Rng) -> Vec<u64> {
    let count = 1 + rng.below(200);
    let mut words = Vec::new();
    for _ in 0..count {
        let word = some_word(rng, &words);
        if !words.contains(&word) {
            words.push(word);
        }
    }
    if rng.one_in(4) {
        words.push(*rng.pick(&words));
    }
    words
}

/// What became of the adds, and how the bounds fell in them.
#[derive(Default)]
struct Met {
    accepted: u64,
    live: u64,
    full: u64,
    /// Bounds of level 1 that fell by one, with words of that threshold in the bucket, and with none.
    with_words: u64,
    with_none: u64,
    /// Bounds that fell by several in one add.
    several1: u64,
    several2: u64,
}

impl Met {
    /// The bounds that fell in an add.
    fn count_falls(&mut self, shape: Shape, before: &[u64], t: &[u64]) {
        for index in 0..shape.buckets() {
            let (old, new) = (shape.bound(before, index), shape.bound(t, index));
            let several = u64::from(old - new > 1);
            if index >= shape.buckets1 as usize {
                self.several2 += several;
            } else if new < old {
                self.several1 += several;
                let vectors = shape.read_bucket(before, index).live_vectors();
                for bound in new..old {
                    if vectors.iter().any(|&v| threshold(place(v)) == bound) {
                        self.with_words += 1;
                    } else {
                        self.with_none += 1;
                    }
                }
            }
        }
    }
}

/// Words added to an empty table until one is refused, by both.
pub fn fills(rng: &mut Rng, cases: u64) {
    let mut met = Met::default();
    for _ in 0..cases {
        let (b1, b2) = *rng.pick(&[(1, 1), (1, 1), (1, 2), (2, 1), (3, 2)]);
        let shape = Shape::new(b1, b2).expect("in range");
        let words = some_words(rng);
        let mut t = vec![0; shape.table_len()];
        table::open(&mut t, b1, b2);
        let mut before = t.clone();
        let mut taken = 0;
        for &word in &words {
            match shape.add(&mut t, word, (word % 128) as u8) {
                Ok(_) => taken += 1,
                Err(answer) => {
                    met.live += u64::from(answer.cause == WORD_LIVE);
                    met.full += u64::from(answer.cause == BASE_FULL);
                    break;
                }
            }
            met.count_falls(shape, &before, &t);
            before.copy_from_slice(&t);
        }
        met.accepted += taken;
        let mut ours_t = vec![0; shape.table_len()];
        let ours_taken = ours::fill(&mut ours_t, b1, b2, &words);
        same("words taken", &words, ours_taken, taken);
        same_all("table", &words, &ours_t, &t);
    }
    let Met {
        accepted,
        live,
        full,
        with_words,
        with_none,
        several1,
        several2,
    } = met;
    println!(
        "agree: {cases} tables filled with words that depend: {accepted} ok, {live} no 6, {full} no 8; bounds of level 1 fell by one \
         {with_words} times with words that left, {with_none} times with none; by several at once {several1} times, of level 2 {several2} times"
    );
    if [live, full, with_words, with_none, several1, several2].contains(&0) {
        differ("filled with words that depend", cases, "one never occurred");
    }
}

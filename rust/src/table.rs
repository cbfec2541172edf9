//! The whole table as one slice of 64-bit numbers (document 01, "The whole
//! table"; document 02, orders 2 to 6).
//!
//! Decisions:
//! - Every call but opening and the question for a plan's total tests the whole
//!   table for causes 4 and 5 before it looks for its word, as the order of the
//!   causes demands.
//! - The question for a plan's total tests cause 4 alone and answers what the
//!   table holds, sound or not, for every plan, the desk's too.
//! - Cause 14 comes before 4, 5, 6, 7 and 8: an add or change to the desk's plan
//!   is refused by it whatever the table is, and whether the word is live or not.
//! - Opening meets 3 before 4: with bucket numbers out of range the length is
//!   not looked at. Cause 4 returns the number of 64-bit numbers in the slice.
//! - In a sound table the solution words have no bit of a free row. In the
//!   occupied rows' bits they may be anything, as long as the plans they give
//!   may be given and agree with the totals.
//! - A bound of 0 with no occupied row is sound, as is any bound whose words
//!   pass the three tests: bounds need not be the greatest possible.
//! - w' = 0 is an ordinary base word; only the base count tells an entry from
//!   an unused pair.
//! - Cause 6 (live) comes before 8 (full). "Full" is judged by the whole add:
//!   base entries only grow in number during it, so the first insertion that
//!   finds 64 entries settles it.
//! - An add forms the product of its word in the bucket where the bounds send
//!   it, once: it tells whether the word is live, and settling goes on from it.
//!   A word that they send to the base list needs none. A word that leaves level
//!   1 gets one at level 2, if its bucket there holds it.
//! - The table is copied only if words leave a bucket.

use crate::answer::*;
use crate::bucket::{Bucket, BOUND_MAX, PLAN_BITS, WIDTH};
use crate::identifier::{self, level1_vector, level2_vector, word_of_level2};

pub const LEVEL1_MAX: u64 = 48;
pub const LEVEL2_MAX: u64 = 32;
pub const BASE_MAX: usize = 64;
pub const PLAN_MAX: u64 = 255;

/// The plan that means "call the desk".
pub const DESK_PLAN: u8 = 255;

/// Whether a plan may be given to a word.
pub fn may_be_given(plan: impl Into<u64>) -> bool {
    plan.into() < u64::from(DESK_PLAN)
}

/// What the leading numbers are.
pub const BUCKETS1: usize = 0;
pub const BUCKETS2: usize = 1;
pub const BASE_COUNT: usize = 2;
pub const LIVE_COUNT: usize = 3;
pub const LEADING: usize = 4;

/// After the leading numbers, for each plan: how many live words have it.
pub const TOTALS: usize = PLAN_MAX as usize + 1;
pub const HEADER: usize = LEADING + TOTALS;

/// Numbers per bucket: columns, mark, solutions, bound.
pub const BUCKET_LEN: usize = WIDTH + 1 + PLAN_BITS + 1;
const MARK: usize = WIDTH;
const SOLUTIONS: usize = MARK + 1;
const BOUND: usize = SOLUTIONS + PLAN_BITS;

/// The numbers of buckets of the two levels, known to be in range and to fit
/// the length of the table.
#[derive(Clone, Copy, Debug, PartialEq, Eq)]
pub struct Shape {
    pub buckets1: u64,
    pub buckets2: u64,
}

/// Where a word is held if it is live; buckets count from 0 in their level.
#[derive(Clone, Copy, Debug, PartialEq, Eq)]
pub enum Spot {
    Level1(u64),
    Level2(u64),
    Base,
}

/// Opens a table: all totals 0, all buckets and the base list empty.
pub fn open(table: &mut [u64], buckets1: u64, buckets2: u64) -> Answer {
    let Some(shape) = Shape::new(buckets1, buckets2) else {
        return Answer::refused(BUCKET_NUMBERS, 0);
    };
    if table.len() != shape.table_len() {
        return Answer::refused(TABLE_LENGTH, table.len() as u64);
    }
    table.fill(0);
    table[BUCKETS1] = buckets1;
    table[BUCKETS2] = buckets2;
    for index in 0..shape.buckets() {
        shape.write_bucket(table, index, &Bucket::empty());
    }
    Answer::accepted(0)
}

/// Adds an identifier with its plan; the live count is returned.
pub fn add(table: &mut [u64], kind: u8, id: &[u8], plan: u8) -> Answer {
    match identifier::word(kind, id) {
        Ok(word) => add_word(table, word, plan),
        Err(refusal) => refusal,
    }
}

/// Changes the plan of a live identifier; the earlier plan is returned.
pub fn change(table: &mut [u64], kind: u8, id: &[u8], plan: u8) -> Answer {
    match identifier::word(kind, id) {
        Ok(word) => change_word(table, word, plan),
        Err(refusal) => refusal,
    }
}

/// Withdraws a live identifier; its plan is returned.
pub fn withdraw(table: &mut [u64], kind: u8, id: &[u8]) -> Answer {
    match identifier::word(kind, id) {
        Ok(word) => withdraw_word(table, word),
        Err(refusal) => refusal,
    }
}

/// The plan of a live identifier.
pub fn query(table: &[u64], kind: u8, id: &[u8]) -> Answer {
    match identifier::word(kind, id) {
        Ok(word) => query_word(table, word),
        Err(refusal) => refusal,
    }
}

/// The number of live words with a plan, as the table has it: cause 4 alone.
pub fn plan_total(table: &[u64], plan: u8) -> Answer {
    Shape::of(table).map(|_| table[total_at(plan)]).into()
}

/// `add` from the word on: causes 14, 4, 5, 6, 8.
pub fn add_word(table: &mut [u64], word: u64, plan: u8) -> Answer {
    check_plan(plan)
        .and_then(|()| check(table))
        .and_then(|shape| shape.add(table, word, plan))
        .into()
}

/// `change` from the word on: causes 14, 4, 5, 7.
pub fn change_word(table: &mut [u64], word: u64, plan: u8) -> Answer {
    check_plan(plan)
        .and_then(|()| check(table))
        .and_then(|shape| shape.change(table, word, plan))
        .into()
}

/// `withdraw` from the word on: causes 4, 5, 7.
pub fn withdraw_word(table: &mut [u64], word: u64) -> Answer {
    check(table)
        .and_then(|shape| shape.withdraw(table, word))
        .into()
}

/// `query` from the word on: causes 4, 5, 7.
pub fn query_word(table: &[u64], word: u64) -> Answer {
    check(table)
        .and_then(|shape| shape.query(table, word))
        .into()
}

/// Tests the plan of an add or change: cause 14.
fn check_plan(plan: u8) -> Result<(), Answer> {
    if may_be_given(plan) {
        Ok(())
    } else {
        Err(Answer::refused(DESK_PLAN_GIVEN, 0))
    }
}

/// Tests any slice: its shape if it is a sound table, else cause 4 or 5.
pub fn check(table: &[u64]) -> Result<Shape, Answer> {
    let shape = Shape::of(table)?;
    if shape.is_sound(table) {
        Ok(shape)
    } else {
        Err(Answer::refused(TABLE_NOT_SOUND, 0))
    }
}

impl Shape {
    /// The shape of these bucket numbers, if they are in range.
    pub fn new(buckets1: u64, buckets2: u64) -> Option<Shape> {
        let in_range = (1..=LEVEL1_MAX).contains(&buckets1) && (1..=LEVEL2_MAX).contains(&buckets2);
        in_range.then_some(Shape { buckets1, buckets2 })
    }

    /// The shape of any slice by its leading numbers, or cause 4: too short for
    /// these, numbers out of range, or another length than they give.
    pub fn of(table: &[u64]) -> Result<Shape, Answer> {
        let wrong = Answer::refused(TABLE_LENGTH, table.len() as u64);
        let leading = table.get(..LEADING).ok_or(wrong)?;
        let shape = Shape::new(leading[BUCKETS1], leading[BUCKETS2]).ok_or(wrong)?;
        if table.len() == shape.table_len() {
            Ok(shape)
        } else {
            Err(wrong)
        }
    }

    /// The number of buckets of both levels.
    pub fn buckets(&self) -> usize {
        (self.buckets1 + self.buckets2) as usize
    }

    /// The length of the table, in 64-bit numbers.
    pub fn table_len(&self) -> usize {
        self.base_start() + 2 * BASE_MAX
    }

    fn base_start(&self) -> usize {
        HEADER + BUCKET_LEN * self.buckets()
    }

    fn bucket_start(&self, index: usize) -> usize {
        HEADER + BUCKET_LEN * index
    }

    /// The bucket's number in the table, level 1 first; none for the base.
    pub fn bucket_index(&self, spot: Spot) -> Option<usize> {
        match spot {
            Spot::Level1(bucket) => Some(bucket as usize),
            Spot::Level2(bucket) => Some((self.buckets1 + bucket) as usize),
            Spot::Base => None,
        }
    }

    /// Bucket `index` of the table, level 1 first.
    pub fn read_bucket(&self, table: &[u64], index: usize) -> Bucket {
        let part = &table[self.bucket_start(index)..][..BUCKET_LEN];
        let mut bucket = Bucket::empty();
        bucket.cols.copy_from_slice(&part[..WIDTH]);
        bucket.mark = part[MARK];
        bucket.sols.copy_from_slice(&part[SOLUTIONS..BOUND]);
        bucket.bound = part[BOUND];
        bucket
    }

    pub fn write_bucket(&self, table: &mut [u64], index: usize, bucket: &Bucket) {
        let part = &mut table[self.bucket_start(index)..][..BUCKET_LEN];
        part[..WIDTH].copy_from_slice(&bucket.cols);
        part[MARK] = bucket.mark;
        part[SOLUTIONS..BOUND].copy_from_slice(&bucket.sols);
        part[BOUND] = bucket.bound;
    }

    pub fn bound(&self, table: &[u64], index: usize) -> u64 {
        table[self.bucket_start(index) + BOUND]
    }

    /// The (w', plan) pair `index` of the base list.
    pub fn base_pair(&self, table: &[u64], index: usize) -> (u64, u64) {
        let start = self.base_start() + 2 * index;
        (table[start], table[start + 1])
    }

    fn set_base_pair(&self, table: &mut [u64], index: usize, pair: (u64, u64)) {
        let start = self.base_start() + 2 * index;
        table[start] = pair.0;
        table[start + 1] = pair.1;
    }

    /// The index of w' among the base entries, or the index it would get.
    fn find_base(&self, table: &[u64], vector: u64) -> Result<usize, usize> {
        let count = table[BASE_COUNT] as usize;
        for index in 0..count {
            let (entry, _) = self.base_pair(table, index);
            if entry == vector {
                return Ok(index);
            }
            if entry > vector {
                return Err(index);
            }
        }
        Err(count)
    }

    /// Where the bounds send a word.
    pub fn spot(&self, table: &[u64], word: u64) -> Spot {
        let place = identifier::place(level1_vector(word));
        let level1 = Spot::Level1(identifier::bucket(place, self.buckets1));
        if self.holds(table, level1, place) {
            return level1;
        }
        let place = identifier::place(level2_vector(word));
        let level2 = Spot::Level2(identifier::bucket(place, self.buckets2));
        if self.holds(table, level2, place) {
            return level2;
        }
        Spot::Base
    }

    fn holds(&self, table: &[u64], spot: Spot, place: u64) -> bool {
        match self.bucket_index(spot) {
            Some(index) => identifier::threshold(place) < self.bound(table, index),
            None => true,
        }
    }

    /// Whether a table of this shape is sound.
    fn is_sound(&self, table: &[u64]) -> bool {
        let base_count = table[BASE_COUNT];
        if base_count > BASE_MAX as u64 {
            return false;
        }
        let mut live = base_count;
        let mut totals = [0; TOTALS];
        for index in 0..self.buckets() {
            let bucket = self.read_bucket(table, index);
            if bucket.bound > BOUND_MAX || !self.is_bucket_sound(table, index, &bucket, &mut totals)
            {
                return false;
            }
            live += u64::from(bucket.mark.count_ones());
        }
        live == table[LIVE_COUNT]
            && self.is_base_sound(table, base_count as usize, &mut totals)
            && table[LEADING..HEADER] == totals
    }

    /// Free rows of Z 0, columns invertible, free rows units, occupied rows
    /// where they belong and with plans that may be given. These are counted.
    fn is_bucket_sound(
        &self,
        table: &[u64],
        index: usize,
        bucket: &Bucket,
        totals: &mut [u64; TOTALS],
    ) -> bool {
        if !bucket.is_clear() {
            return false;
        }
        let Some(rows) = bucket.rows() else {
            return false;
        };
        for (j, &row) in rows.iter().enumerate() {
            if bucket.mark >> j & 1 == 0 {
                if row != 1 << j {
                    return false;
                }
                continue;
            }
            let word = if index < self.buckets1 as usize {
                row
            } else {
                word_of_level2(row)
            };
            let plan = bucket.lookup(row);
            if !may_be_given(plan) || self.bucket_index(self.spot(table, word)) != Some(index) {
                return false;
            }
            totals[usize::from(plan)] += 1;
        }
        true
    }

    /// Base entries ascending, where they belong and with plans that may be
    /// given, unused pairs 0. The plans are counted.
    fn is_base_sound(&self, table: &[u64], count: usize, totals: &mut [u64; TOTALS]) -> bool {
        let mut before = None;
        for index in 0..count {
            let (vector, plan) = self.base_pair(table, index);
            let ascends = before.is_none_or(|before| before < vector);
            let due = self.spot(table, word_of_level2(vector));
            if !ascends || !may_be_given(plan) || due != Spot::Base {
                return false;
            }
            before = Some(vector);
            totals[plan as usize] += 1;
        }
        (count..BASE_MAX).all(|index| self.base_pair(table, index) == (0, 0))
    }

    /// The plan of a live word. The table must be sound.
    pub fn plan(&self, table: &[u64], word: u64) -> Option<u8> {
        let spot = self.spot(table, word);
        let vector = vector_at(spot, word);
        match self.bucket_index(spot) {
            Some(index) => {
                let bucket = self.read_bucket(table, index);
                bucket.live(vector).map(|_| bucket.lookup(vector))
            }
            None => {
                let index = self.find_base(table, vector).ok()?;
                Some(self.base_pair(table, index).1 as u8)
            }
        }
    }

    /// The query of a word. The table must be sound.
    pub fn query(&self, table: &[u64], word: u64) -> Result<u64, Answer> {
        match self.plan(table, word) {
            Some(plan) => Ok(u64::from(plan)),
            None => Err(Answer::refused(WORD_NOT_LIVE, 0)),
        }
    }

    /// The add of a word: causes 14, 6, 8. The table must be sound.
    pub fn add(&self, table: &mut [u64], word: u64, plan: u8) -> Result<u64, Answer> {
        check_plan(plan)?;
        let live = |plan: u64| Answer::refused(WORD_LIVE, plan);
        let spot = self.spot(table, word);
        let vector = vector_at(spot, word);
        let Some(index) = self.bucket_index(spot) else {
            if let Ok(index) = self.find_base(table, vector) {
                return Err(live(self.base_pair(table, index).1));
            }
            self.add_base(table, vector, plan)?;
            return Ok(count_in(table, plan));
        };
        let mut bucket = self.read_bucket(table, index);
        let product = bucket.product(vector);
        if bucket.live_with(product).is_some() {
            return Err(live(bucket.lookup(vector).into()));
        }
        let leaving = bucket.settle_with(vector, product, plan, threshold_of);
        if leaving.is_empty() {
            self.write_bucket(table, index, &bucket);
            return Ok(count_in(table, plan));
        }

        // Words go further, and the last of them may find the base list full:
        // work on a copy until all have their place.
        let mut draft = table.to_vec();
        self.write_bucket(&mut draft, index, &bucket);
        for left in leaving {
            match spot {
                Spot::Level1(_) => {
                    self.add_level2(&mut draft, level2_vector(left.vector), left.plan)?
                }
                _ => self.add_base(&mut draft, left.vector, left.plan)?,
            }
        }
        table.copy_from_slice(&draft);
        Ok(count_in(table, plan))
    }

    fn add_level2(&self, table: &mut [u64], vector: u64, plan: u8) -> Result<(), Answer> {
        let bucket = identifier::bucket(identifier::place(vector), self.buckets2);
        let index = (self.buckets1 + bucket) as usize;
        let mut bucket = self.read_bucket(table, index);
        let leaving = bucket.settle(vector, plan, threshold_of);
        self.write_bucket(table, index, &bucket);
        for left in leaving {
            self.add_base(table, left.vector, left.plan)?;
        }
        Ok(())
    }

    fn add_base(&self, table: &mut [u64], vector: u64, plan: u8) -> Result<(), Answer> {
        let count = table[BASE_COUNT] as usize;
        if count == BASE_MAX {
            return Err(Answer::refused(BASE_FULL, 0));
        }
        let (Ok(index) | Err(index)) = self.find_base(table, vector);
        for later in (index..count).rev() {
            let pair = self.base_pair(table, later);
            self.set_base_pair(table, later + 1, pair);
        }
        self.set_base_pair(table, index, (vector, u64::from(plan)));
        table[BASE_COUNT] += 1;
        Ok(())
    }

    /// The change of a word's plan: causes 14, 7. The table must be sound.
    pub fn change(&self, table: &mut [u64], word: u64, plan: u8) -> Result<u64, Answer> {
        check_plan(plan)?;
        let not_live = Answer::refused(WORD_NOT_LIVE, 0);
        let spot = self.spot(table, word);
        let vector = vector_at(spot, word);
        let earlier = match self.bucket_index(spot) {
            Some(index) => {
                let mut bucket = self.read_bucket(table, index);
                let earlier = bucket.change(vector, plan).ok_or(not_live)?;
                self.write_bucket(table, index, &bucket);
                earlier
            }
            None => {
                let index = self.find_base(table, vector).map_err(|_| not_live)?;
                let (_, earlier) = self.base_pair(table, index);
                self.set_base_pair(table, index, (vector, u64::from(plan)));
                earlier as u8
            }
        };
        table[total_at(earlier)] -= 1;
        table[total_at(plan)] += 1;
        Ok(u64::from(earlier))
    }

    /// The withdrawal of a word. The table must be sound.
    pub fn withdraw(&self, table: &mut [u64], word: u64) -> Result<u64, Answer> {
        let not_live = Answer::refused(WORD_NOT_LIVE, 0);
        let spot = self.spot(table, word);
        let vector = vector_at(spot, word);
        let plan = match self.bucket_index(spot) {
            Some(index) => {
                let mut bucket = self.read_bucket(table, index);
                let plan = bucket.withdraw(vector).ok_or(not_live)?;
                self.write_bucket(table, index, &bucket);
                plan
            }
            None => {
                let index = self.find_base(table, vector).map_err(|_| not_live)?;
                let (_, plan) = self.base_pair(table, index);
                self.remove_base(table, index);
                plan as u8
            }
        };
        table[LIVE_COUNT] -= 1;
        table[total_at(plan)] -= 1;
        Ok(u64::from(plan))
    }

    fn remove_base(&self, table: &mut [u64], index: usize) {
        let last = table[BASE_COUNT] as usize - 1;
        for earlier in index..last {
            let pair = self.base_pair(table, earlier + 1);
            self.set_base_pair(table, earlier, pair);
        }
        self.set_base_pair(table, last, (0, 0));
        table[BASE_COUNT] -= 1;
    }

    /// All live words with their plans, in the order of the table. The table
    /// must be sound.
    pub fn live_words(&self, table: &[u64]) -> Vec<(u64, u8)> {
        let mut words = Vec::new();
        for index in 0..self.buckets() {
            let bucket = self.read_bucket(table, index);
            for vector in bucket.live_vectors() {
                let word = if index < self.buckets1 as usize {
                    vector
                } else {
                    word_of_level2(vector)
                };
                words.push((word, bucket.lookup(vector)));
            }
        }
        for index in 0..table[BASE_COUNT] as usize {
            let (vector, plan) = self.base_pair(table, index);
            words.push((word_of_level2(vector), plan as u8));
        }
        words
    }
}

/// Where the total of a plan is.
fn total_at(plan: u8) -> usize {
    LEADING + usize::from(plan)
}

/// Counts a word that was added with a plan; the live count is returned.
fn count_in(table: &mut [u64], plan: u8) -> u64 {
    table[total_at(plan)] += 1;
    table[LIVE_COUNT] += 1;
    table[LIVE_COUNT]
}

/// The vector under which a word is held at a spot.
pub(crate) fn vector_at(spot: Spot, word: u64) -> u64 {
    match spot {
        Spot::Level1(_) => level1_vector(word),
        Spot::Level2(_) | Spot::Base => level2_vector(word),
    }
}

/// The threshold of a vector, of either level.
fn threshold_of(vector: u64) -> u64 {
    identifier::threshold(identifier::place(vector))
}

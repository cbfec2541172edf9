//! A slow model of the requirement for the tests. It shares no code with the
//! library (but for its `Answer` and `Bucket` structs, to compare by): hashes
//! in 128-bit arithmetic, K kept as a plain list of rows, independence by
//! rank, bounds by trying all of them.

pub mod patches;

use reference::answer::Answer;
use reference::bucket::Bucket;
use reference::rng::Rng;
use std::collections::BTreeMap;

const TWO_64: u128 = 1 << 64;

pub fn fnv(bytes: &[u8]) -> u64 {
    let mut hash: u128 = 0xcbf29ce484222325;
    for &byte in bytes {
        hash = ((hash ^ byte as u128) * 0x100000001b3) % TWO_64;
    }
    hash as u64
}

pub fn mix(n: u64) -> u64 {
    let mut z = (n as u128 + 0x9e3779b97f4a7c15) % TWO_64;
    z = ((z ^ (z >> 30)) * 0xbf58476d1ce4e5b9) % TWO_64;
    z = ((z ^ (z >> 27)) * 0x94d049bb133111eb) % TWO_64;
    (z ^ (z >> 31)) as u64
}

pub fn fold(byte: u8) -> Option<u8> {
    const FROM: &[u8] = b"abcdefghijklmnopqrstuvwxyzABCDEFGHIJKLMNOPQRSTUVWXYZ0123456789*-_=:+|@.";
    const TO: &[u8] = b"ABCDEFGHIJKLMNOPQRSTUVWXYZABCDEFGHIJKLMNOPQRSTUVWXYZ0123456789*-_=:+|@.";
    FROM.iter().position(|&b| b == byte).map(|i| TO[i])
}

pub fn word(kind: u8, bytes: &[u8]) -> Result<u64, Answer> {
    if kind == 0 || kind > 7 {
        return Err(Answer {
            cause: 15,
            value: 0,
        });
    }
    if bytes.is_empty() || bytes.len() > 36 {
        return Err(Answer {
            cause: 1,
            value: bytes.len() as u64,
        });
    }
    let mut hashed = vec![kind];
    for (i, &byte) in bytes.iter().enumerate() {
        match fold(byte) {
            Some(byte) => hashed.push(byte),
            None => {
                return Err(Answer {
                    cause: 2,
                    value: i as u64,
                })
            }
        }
    }
    Ok(mix(fnv(&hashed)))
}

/// One of the seven kinds.
pub fn random_kind(rng: &mut Rng) -> u8 {
    1 + rng.below(7) as u8
}

/// Any kind, now and then one that there is not.
pub fn any_kind(rng: &mut Rng) -> u8 {
    match rng.below(32) {
        0 => 0,
        1 => 8,
        2 => rng.byte(),
        _ => random_kind(rng),
    }
}

/// Allowed bytes only.
pub fn random_identifier(rng: &mut Rng, len: usize) -> Vec<u8> {
    const ALLOWED: &[u8] =
        b"abcdefghijklmnopqrstuvwxyzABCDEFGHIJKLMNOPQRSTUVWXYZ0123456789*-_=:+|@.";
    (0..len).map(|_| *rng.pick(ALLOWED)).collect()
}

/// A plan that a word may have.
pub fn random_plan(rng: &mut Rng) -> u8 {
    rng.below(255) as u8
}

/// Any plan, now and then 255, which no word may have.
pub fn any_plan(rng: &mut Rng) -> u8 {
    if rng.one_in(16) {
        255
    } else {
        random_plan(rng)
    }
}

pub fn second(word: u64) -> u64 {
    mix(mix(word))
}

pub fn threshold(vector: u64) -> u64 {
    mix(vector) % 8
}

/// Whether no nonempty selection of the vectors has XOR 0.
pub fn independent(vectors: &[u64]) -> bool {
    let mut rest = vectors.to_vec();
    while let Some(v) = rest.pop() {
        if v == 0 {
            return false;
        }
        let top = 63 - v.leading_zeros();
        for other in &mut rest {
            if *other >> top & 1 == 1 {
                *other ^= v;
            }
        }
    }
    true
}

/// One bucket as its K, kept as rows, and the 64 bytes Z_j.
#[derive(Clone)]
pub struct SlowBucket {
    pub rows: Vec<u64>,
    pub occupied: Vec<bool>,
    pub z: Vec<u8>,
    pub bound: u64,
}

impl SlowBucket {
    pub fn empty() -> SlowBucket {
        SlowBucket {
            rows: (0..64).map(|j| 1u64 << j).collect(),
            occupied: vec![false; 64],
            z: vec![0; 64],
            bound: 8,
        }
    }

    pub fn live(&self) -> Vec<u64> {
        (0..64)
            .filter(|&j| self.occupied[j])
            .map(|j| self.rows[j])
            .collect()
    }

    pub fn row(&self, k: u64) -> Option<usize> {
        (0..64).find(|&j| self.occupied[j] && self.rows[j] == k)
    }

    pub fn lookup(&self, k: u64) -> u8 {
        (0..64)
            .filter(|&j| k >> j & 1 == 1)
            .fold(0, |plan, j| plan ^ self.z[j])
    }

    fn with_row(&self, i: usize, v: u64) -> Vec<u64> {
        let mut rows = self.rows.clone();
        rows[i] = v;
        rows
    }

    /// K with k in row i is invertible exactly when bit i of the product of k
    /// is 1; so the rows can be tried by rank alone.
    pub fn add(&mut self, k: u64, plan: u8) -> bool {
        let row = (0..64)
            .filter(|&i| !self.occupied[i])
            .find(|&i| independent(&self.with_row(i, k)));
        let Some(i) = row else {
            return false;
        };
        self.rows[i] = k;
        self.occupied[i] = true;
        self.set_plan(i, plan);
        true
    }

    /// Row i gives `plan` from now on, every other row what it gave before.
    pub fn set_plan(&mut self, i: usize, plan: u8) {
        let mut goals: Vec<u8> = self.rows.iter().map(|&row| self.lookup(row)).collect();
        goals[i] = plan;
        self.z = solve(&self.rows, &goals);
    }

    /// Bit j of column i is 1 exactly when K with e_j in row i is invertible.
    /// Row j of Z, which is what e_j gives, becomes 0.
    pub fn withdraw(&mut self, k: u64) {
        let i = self.row(k).unwrap();
        let j = (0..64)
            .find(|&j| independent(&self.with_row(i, 1 << j)))
            .unwrap();
        self.rows[i] = 1 << j;
        self.rows.swap(i, j);
        self.occupied.swap(i, j);
        self.occupied[j] = false;
        if i != j {
            self.occupied[i] = true;
        }
        self.set_plan(j, 0);
        assert!((0..64).all(|row| self.occupied[row] || self.z[row] == 0));
    }

    /// What leaves, by the words of the requirement, one step at a time.
    pub fn settle(&mut self, k: u64, plan: u8, threshold: &dyn Fn(u64) -> u64) -> Vec<(u64, u8)> {
        let mut leaving = Vec::new();
        loop {
            if threshold(k) >= self.bound {
                leaving.push((k, plan));
                return leaving;
            }
            if self.add(k, plan) {
                return leaving;
            }
            self.bound -= 1;
            while let Some(v) = self
                .live()
                .into_iter()
                .filter(|&v| threshold(v) == self.bound)
                .min()
            {
                leaving.push((v, self.lookup(v)));
                self.withdraw(v);
            }
        }
    }

    /// The same as the library keeps it.
    pub fn as_bucket(&self) -> Bucket {
        let mut bucket = Bucket::empty();
        for i in 0..64 {
            // Column i of the inverse solves K x = e_i.
            let goals: Vec<u8> = (0..64).map(|r| u8::from(r == i)).collect();
            let x = solve(&self.rows, &goals);
            bucket.cols[i] = (0..64).fold(0, |col, j| col | (x[j] as u64) << j);
        }
        bucket.mark = (0..64).fold(0, |mark, j| mark | (self.occupied[j] as u64) << j);
        for c in 0..8 {
            bucket.sols[c] = (0..64).fold(0, |sol, j| sol | (self.z[j] as u64 >> c & 1) << j);
        }
        bucket.bound = self.bound;
        bucket
    }
}

/// The z with XOR of z_j over the bits j of row r = goal r, for every r.
pub fn solve(rows: &[u64], goals: &[u8]) -> Vec<u8> {
    let mut equations: Vec<(u64, u8)> = rows.iter().copied().zip(goals.iter().copied()).collect();
    let mut z = vec![0; 64];
    for bit in 0..64 {
        let at = equations
            .iter()
            .position(|&(row, _)| row >> bit & 1 == 1 && row & ((1u64 << bit) - 1) == 0)
            .expect("invertible");
        let (pivot, goal) = equations[at];
        for (i, equation) in equations.iter_mut().enumerate() {
            if i != at && equation.0 >> bit & 1 == 1 {
                equation.0 ^= pivot;
                equation.1 ^= goal;
            }
        }
    }
    for (row, goal) in equations {
        assert!(row.is_power_of_two());
        z[row.trailing_zeros() as usize] = goal;
    }
    z
}

/// The whole table as a plain map from live words to plans, and the bounds.
#[derive(Clone)]
pub struct SlowTable {
    pub buckets1: usize,
    pub buckets2: usize,
    pub bounds1: Vec<u64>,
    pub bounds2: Vec<u64>,
    pub plans: BTreeMap<u64, u8>,
}

fn bucket_of(vector: u64, buckets: usize) -> usize {
    (mix(vector) / 8 % buckets as u64) as usize
}

impl SlowTable {
    pub fn open(buckets1: usize, buckets2: usize) -> SlowTable {
        SlowTable {
            buckets1,
            buckets2,
            bounds1: vec![8; buckets1],
            bounds2: vec![8; buckets2],
            plans: BTreeMap::new(),
        }
    }

    pub fn held1(&self, word: u64) -> bool {
        threshold(word) < self.bounds1[bucket_of(word, self.buckets1)]
    }

    pub fn held2(&self, word: u64) -> bool {
        let v = second(word);
        threshold(v) < self.bounds2[bucket_of(v, self.buckets2)]
    }

    /// The words of the base list, ascending by w'.
    pub fn base(&self) -> Vec<(u64, u8)> {
        let mut base: Vec<(u64, u8)> = self
            .plans
            .iter()
            .filter(|(&w, _)| !self.held1(w) && !self.held2(w))
            .map(|(&w, &plan)| (second(w), plan))
            .collect();
        base.sort();
        base
    }

    pub fn add(&mut self, word: u64, plan: u8) -> Answer {
        if plan == 255 {
            return FOURTEEN;
        }
        if let Some(&plan) = self.plans.get(&word) {
            return Answer {
                cause: 6,
                value: plan as u64,
            };
        }
        let mut next = self.clone();
        next.plans.insert(word, plan);

        // The greatest bound, not above the present one, under which the
        // words due there are independent. Level 1 first, as it settles what
        // is due at level 2. Only the new word's bucket can change there.
        let index = bucket_of(word, self.buckets1);
        let due: Vec<u64> = next
            .plans
            .keys()
            .copied()
            .filter(|&w| bucket_of(w, self.buckets1) == index)
            .collect();
        next.bounds1[index] = greatest_bound(self.bounds1[index], &due);
        let mut due = vec![Vec::new(); self.buckets2];
        for &w in next.plans.keys() {
            if !next.held1(w) {
                let v = second(w);
                due[bucket_of(v, self.buckets2)].push(v);
            }
        }
        for (index, due) in due.iter().enumerate() {
            next.bounds2[index] = greatest_bound(self.bounds2[index], due);
        }

        if next.base().len() > 64 {
            return Answer { cause: 8, value: 0 };
        }
        *self = next;
        Answer {
            cause: 0,
            value: self.plans.len() as u64,
        }
    }

    pub fn change(&mut self, word: u64, plan: u8) -> Answer {
        if plan == 255 {
            return FOURTEEN;
        }
        match self.plans.get_mut(&word) {
            Some(kept) => accepted(std::mem::replace(kept, plan)),
            None => Answer { cause: 7, value: 0 },
        }
    }

    pub fn withdraw(&mut self, word: u64) -> Answer {
        match self.plans.remove(&word) {
            Some(plan) => accepted(plan),
            None => Answer { cause: 7, value: 0 },
        }
    }

    pub fn query(&self, word: u64) -> Answer {
        match self.plans.get(&word) {
            Some(&plan) => accepted(plan),
            None => Answer { cause: 7, value: 0 },
        }
    }

    /// How many live words have this plan.
    pub fn total(&self, plan: u8) -> u64 {
        self.plans.values().filter(|&&held| held == plan).count() as u64
    }
}

/// Plan 255 given.
const FOURTEEN: Answer = Answer {
    cause: 14,
    value: 0,
};

fn accepted(plan: u8) -> Answer {
    Answer {
        cause: 0,
        value: plan as u64,
    }
}

pub fn greatest_bound(present: u64, due: &[u64]) -> u64 {
    (0..=present)
        .rev()
        .find(|&bound| {
            let selected: Vec<u64> = due
                .iter()
                .copied()
                .filter(|&v| threshold(v) < bound)
                .collect();
            independent(&selected)
        })
        .expect("no vector is below bound 0")
}

/// The whole table with every row where the requirement puts it.
#[derive(Clone)]
pub struct ExactTable {
    pub level1: Vec<SlowBucket>,
    pub level2: Vec<SlowBucket>,
    pub base: BTreeMap<u64, u8>,
}

impl ExactTable {
    pub fn open(buckets1: usize, buckets2: usize) -> ExactTable {
        ExactTable {
            level1: vec![SlowBucket::empty(); buckets1],
            level2: vec![SlowBucket::empty(); buckets2],
            base: BTreeMap::new(),
        }
    }

    /// The bucket that holds the word and its vector there, or none: base.
    fn bucket(&mut self, word: u64) -> Option<(&mut SlowBucket, u64)> {
        let first = bucket_of(word, self.level1.len());
        if threshold(word) < self.level1[first].bound {
            return Some((&mut self.level1[first], word));
        }
        let v = second(word);
        let further = bucket_of(v, self.level2.len());
        if threshold(v) < self.level2[further].bound {
            return Some((&mut self.level2[further], v));
        }
        None
    }

    /// The word must not be live. Nothing happens if the plan is 255.
    pub fn add(&mut self, word: u64, plan: u8) {
        if plan == 255 {
            return;
        }
        let mut next = self.clone();
        let index = bucket_of(word, next.level1.len());
        for (w, plan) in next.level1[index].settle(word, plan, &threshold) {
            let v = second(w);
            let index = bucket_of(v, next.level2.len());
            next.base
                .extend(next.level2[index].settle(v, plan, &threshold));
        }
        if next.base.len() <= 64 {
            *self = next;
        }
    }

    /// The word must be live. Nothing happens if the plan is 255.
    pub fn change(&mut self, word: u64, plan: u8) {
        if plan == 255 {
            return;
        }
        match self.bucket(word) {
            Some((bucket, v)) => {
                let row = bucket.row(v).unwrap();
                bucket.set_plan(row, plan);
            }
            None => assert!(self.base.insert(second(word), plan).is_some()),
        }
    }

    /// The word must be live.
    pub fn withdraw(&mut self, word: u64) {
        match self.bucket(word) {
            Some((bucket, v)) => bucket.withdraw(v),
            None => assert!(self.base.remove(&second(word)).is_some()),
        }
    }

    /// The table as its numbers.
    pub fn numbers(&self) -> Vec<u64> {
        let buckets = || self.level1.iter().chain(&self.level2);
        let mut plans: Vec<u64> = self.base.values().map(|&plan| plan as u64).collect();
        for bucket in buckets() {
            plans.extend(bucket.live().iter().map(|&k| bucket.lookup(k) as u64));
        }
        let mut numbers = vec![
            self.level1.len() as u64,
            self.level2.len() as u64,
            self.base.len() as u64,
            plans.len() as u64,
        ];
        numbers.extend(counts(&plans));
        for bucket in buckets() {
            let bucket = bucket.as_bucket();
            numbers.extend(bucket.cols);
            numbers.push(bucket.mark);
            numbers.extend(bucket.sols);
            numbers.push(bucket.bound);
        }
        for (&v, &plan) in &self.base {
            numbers.extend([v, plan as u64]);
        }
        let buckets = self.level1.len() + self.level2.len();
        numbers.resize(4 + 256 + 74 * buckets + 128, 0);
        numbers
    }
}

/// A table with words at both levels and in the base list.
pub fn mixed(rng: &mut Rng, buckets1: usize, buckets2: usize) -> Vec<u64> {
    let mut exact = ExactTable::open(buckets1, buckets2);
    for bucket in exact.level1.iter_mut().chain(&mut exact.level2) {
        bucket.bound = 1 + rng.below(8);
    }
    exact.level1[0].bound = 4;
    exact.level2[0].bound = 4;
    for _ in 0..30 * buckets1 {
        exact.add(rng.next(), random_plan(rng));
    }
    let table = exact.numbers();
    assert!(table[2] > 1 && table[2] < 64);
    table
}

/// How often each of the 256 plans is among these.
fn counts(plans: &[u64]) -> Vec<u64> {
    (0..256)
        .map(|plan| plans.iter().filter(|&&other| other == plan).count() as u64)
        .collect()
}

/// The bucket numbers of a table, or cause 4, for any numbers.
fn bucket_numbers(table: &[u64]) -> Result<(usize, usize), Answer> {
    let four = Answer {
        cause: 4,
        value: table.len() as u64,
    };
    if table.len() < 4 {
        return Err(four);
    }
    let (b1, b2) = (table[0], table[1]);
    if b1 == 0 || b1 > 48 || b2 == 0 || b2 > 32 {
        return Err(four);
    }
    let (b1, b2) = (b1 as usize, b2 as usize);
    if table.len() != 4 + 256 + 74 * (b1 + b2) + 128 {
        return Err(four);
    }
    Ok((b1, b2))
}

/// The answer for the total of a plan, for any numbers.
pub fn plan_total(table: &[u64], plan: u8) -> Answer {
    match bucket_numbers(table) {
        Ok(_) => Answer {
            cause: 0,
            value: table[4..260][plan as usize],
        },
        Err(four) => four,
    }
}

/// The rows of K by the columns of its inverse, unless these depend.
fn rows_by(cols: &[u64]) -> Option<Vec<u64>> {
    if !independent(cols) {
        return None;
    }
    // Row r of K has an odd number of common ones with column r only. Eight
    // rows at a time, each in a bit of its own.
    let mut rows = Vec::new();
    for eight in 0..8 {
        let goal = |i| u8::from(i / 8 == eight) << (i % 8);
        let goals: Vec<u8> = (0..64).map(goal).collect();
        let z = solve(cols, &goals);
        let row = |c: u32| (0..64).fold(0, |row, j| row | (z[j] as u64 >> c & 1) << j);
        rows.extend((0..8).map(row));
    }
    Some(rows)
}

/// The plan that solution words give for a vector.
fn plan_by(solutions: &[u64], vector: u64) -> u64 {
    let z = |j: u32| (0..8).fold(0, |z, c| z | (solutions[c] >> j & 1) << c);
    (0..64)
        .filter(|&j| vector >> j & 1 == 1)
        .fold(0, |plan, j| plan ^ z(j))
}

/// The plan that row `row` of a bucket of a table has, occupied or free.
pub fn row_plan(table: &[u64], bucket: usize, row: usize) -> u8 {
    let part = &table[260 + 74 * bucket..][..74];
    let rows = rows_by(&part[..64]).expect("invertible");
    plan_by(&part[65..73], rows[row]) as u8
}

/// The table with that plan made another, by the solution words alone.
pub fn with_row_plan(table: &[u64], bucket: usize, row: usize, plan: u8) -> Vec<u64> {
    let difference = row_plan(table, bucket, row) ^ plan;
    let mut other = table.to_vec();
    let first = 260 + 74 * bucket;
    for c in (0..8).filter(|c| difference >> c & 1 == 1) {
        other[first + 65 + c] ^= other[first + row];
    }
    assert_eq!(row_plan(&other, bucket, row), plan);
    other
}

/// A word found in a table, the place it was found at (0 up for buckets, then
/// base) and its plan.
struct Found {
    word: u64,
    at: usize,
    plan: u64,
}

/// The numbers of a table of these bucket numbers after the totals: the
/// buckets, and the base pairs.
fn parts(table: &[u64], buckets: usize) -> (Vec<&[u64]>, Vec<&[u64]>) {
    let (buckets, base) = table[4 + 256..].split_at(74 * buckets);
    (buckets.chunks(74).collect(), base.chunks(2).collect())
}

/// The words of the occupied rows, given the rows of each bucket's K, and of
/// the base entries.
fn words_in(table: &[u64], rows: &[Vec<u64>]) -> Vec<Found> {
    let (buckets, base) = parts(table, rows.len());
    let mut found = Vec::new();
    for (at, bucket) in buckets.iter().enumerate() {
        for r in (0..64).filter(|r| bucket[64] >> r & 1 == 1) {
            let row = rows[at][r];
            let level1 = at < table[0] as usize;
            found.push(Found {
                word: if level1 { row } else { unsecond(row) },
                at,
                plan: plan_by(&bucket[65..73], row),
            });
        }
    }
    for pair in base.iter().take(table[2] as usize) {
        found.push(Found {
            word: unsecond(pair[0]),
            at: rows.len(),
            plan: pair[1],
        });
    }
    found
}

/// The rows of each bucket's K, unless the columns of one depend.
fn all_rows(buckets: &[&[u64]]) -> Option<Vec<Vec<u64>>> {
    buckets
        .iter()
        .map(|bucket| rows_by(&bucket[..64]))
        .collect()
}

/// Makes the totals right for what the rows and the base entries hold, where
/// the numbers are a table with columns that do not depend.
pub fn recount(table: &mut [u64]) {
    let Ok((b1, b2)) = bucket_numbers(table) else {
        return;
    };
    if let Some(rows) = all_rows(&parts(table, b1 + b2).0) {
        let plans: Vec<u64> = words_in(table, &rows).iter().map(|f| f.plan).collect();
        table[4..260].copy_from_slice(&counts(&plans));
    }
}

/// Cause 4, cause 5 or accepted, for any numbers.
pub fn soundness(table: &[u64]) -> Answer {
    match bucket_numbers(table) {
        Err(four) => four,
        Ok((b1, b2)) if is_sound(table, b1, b2) => Answer { cause: 0, value: 0 },
        Ok(_) => Answer { cause: 5, value: 0 },
    }
}

fn is_sound(table: &[u64], b1: usize, b2: usize) -> bool {
    let (buckets, base) = parts(table, b1 + b2);
    if table[2] > 64 || buckets.iter().any(|b| b[73] > 8) {
        return false;
    }
    let Some(rows) = all_rows(&buckets) else {
        return false;
    };
    if !free_rows_are_units(&buckets, &rows) || !free_rows_are_clear(&buckets) {
        return false;
    }
    if !base_in_order(&base, table[2] as usize) {
        return false;
    }
    let found = words_in(table, &rows);
    let plans: Vec<u64> = found.iter().map(|f| f.plan).collect();
    found.len() as u64 == table[3]
        && plans.iter().all(|&plan| plan <= 254)
        && counts(&plans) == table[4..260]
        && found.iter().all(|f| due(&buckets, b1, f.word) == f.at)
}

fn free_rows_are_units(buckets: &[&[u64]], rows: &[Vec<u64>]) -> bool {
    buckets.iter().zip(rows).all(|(bucket, rows)| {
        let mut free = (0..64).filter(|r| bucket[64] >> r & 1 == 0);
        free.all(|r| rows[r] == 1 << r)
    })
}

/// Row r of Z is bit r of each solution word: 0 for each free row r.
fn free_rows_are_clear(buckets: &[&[u64]]) -> bool {
    buckets.iter().all(|bucket| {
        let mut free = (0..64).filter(|r| bucket[64] >> r & 1 == 0);
        free.all(|r| bucket[65..73].iter().all(|word| word >> r & 1 == 0))
    })
}

/// Words ascending, unused pairs 0.
fn base_in_order(base: &[&[u64]], count: usize) -> bool {
    let (entries, unused) = base.split_at(count);
    entries.windows(2).all(|two| two[0][0] < two[1][0]) && unused.iter().all(|pair| *pair == [0, 0])
}

/// The place where the bounds send a word: 0 up for buckets, then base.
fn due(buckets: &[&[u64]], b1: usize, word: u64) -> usize {
    let v = second(word);
    let first = bucket_of(word, b1);
    let further = b1 + bucket_of(v, buckets.len() - b1);
    if threshold(word) < buckets[first][73] {
        first
    } else if threshold(v) < buckets[further][73] {
        further
    } else {
        buckets.len()
    }
}

/// The word with this w', by undoing each step of S bit by bit.
pub fn unsecond(v: u64) -> u64 {
    unmix(unmix(v))
}

pub fn unmix(n: u64) -> u64 {
    let mut z = unshift(n, 31);
    z = divide(z, 0x94d049bb133111eb);
    z = unshift(z, 27);
    z = divide(z, 0xbf58476d1ce4e5b9);
    z = unshift(z, 30);
    let n = (z as u128 + TWO_64 - 0x9e3779b97f4a7c15) % TWO_64;
    n as u64
}

fn unshift(y: u64, shift: u32) -> u64 {
    let mut z = 0;
    for bit in (0..64).rev() {
        let above = if bit + shift < 64 {
            z >> (bit + shift) & 1
        } else {
            0
        };
        z |= ((y >> bit & 1) ^ above) << bit;
    }
    z
}

/// The x with x * odd = y modulo 2^64, from the lowest bit up.
fn divide(y: u64, odd: u64) -> u64 {
    let mut x = 0u64;
    for bit in 0..64 {
        let so_far = (x as u128 * odd as u128 % TWO_64) as u64;
        x |= ((so_far ^ y) >> bit & 1) << bit;
    }
    x
}

/// The offset that cause 10 returns for any bytes, or none for a right plane.
pub fn wrong_offset(plane: &[u8]) -> Option<usize> {
    // (kind, length with the kind byte) of the records to come.
    let mut expected = vec![(1u8, 5usize)];
    let mut previous: Option<Vec<u8>> = None;
    let mut at = 0;
    let mut next = 0;
    while next < expected.len() {
        let (kind, len) = expected[next];
        if plane.len() - at < len || plane[at] != kind {
            return Some(at);
        }
        let body = &plane[at + 1..at + len];
        let allowed = match kind {
            1 => {
                let fine = body[0] == 1
                    && body[1] != 0
                    && body[1] < 49
                    && body[2] != 0
                    && body[2] < 33
                    && body[3] < 65;
                if fine {
                    let buckets = body[1] as usize + body[2] as usize;
                    expected.extend(vec![(2, 66); buckets]);
                    expected.extend(vec![(3, 10); body[3] as usize]);
                    expected.push((4, 5));
                }
                fine
            }
            2 => body[0] < 9,
            3 => {
                // Big-endian order of bytes is the order of the numbers.
                let number: Vec<u8> = body[..8].iter().rev().copied().collect();
                let fine = previous.as_ref().is_none_or(|before| number > *before);
                previous = Some(number);
                fine && body[8] < 255
            }
            _ => body == b"END\n",
        };
        if !allowed {
            return Some(at);
        }
        at += len;
        next += 1;
    }
    (at < plane.len()).then_some(at)
}

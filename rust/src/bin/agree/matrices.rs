//! Any columns with any mark: K's rows by both programs, where there is such a K. Whether there is one is also told by the rank of the
//! columns and their free rows, and K is multiplied with the columns.

use crate::compare::{differ, same};
use crate::parts::{numbers, sound_rows};
use reference::bucket::Bucket;
use reference::ours;
use reference::rng::Rng;

/// How the columns are made.
#[derive(Clone, Copy, Debug)]
enum Made {
    History,
    AnyNumbers,
    Permutation,
    /// Above or below the diagonal; half of them with K's rows reversed.
    Triangle,
}

impl Made {
    const ALL: [Made; 4] = [
        Made::History,
        Made::AnyNumbers,
        Made::Permutation,
        Made::Triangle,
    ];

    /// A bucket with this many occupied rows, whose free rows are units.
    fn make(self, rng: &mut Rng, count: usize) -> Bucket {
        let mut bucket = Bucket::empty();
        let mixed = some_order(rng)[..count].to_vec();
        let mut sorted = mixed.clone();
        sorted.sort_unstable();
        let mark = mixed.iter().fold(0, |mark, j| mark | 1 << j);
        bucket.mark = mark;
        match self {
            Made::History => bucket = history(rng, count),
            Made::AnyNumbers => {
                for col in &mut bucket.cols {
                    *col = *col & !mark | rng.next() & mark;
                }
            }
            Made::Permutation => {
                for (&i, j) in sorted.iter().zip(mixed) {
                    bucket.cols[i] = 1 << j;
                }
            }
            Made::Triangle => {
                let above = rng.one_in(2);
                for col in &mut bucket.cols {
                    let below = *col - 1;
                    let side = if above { !below } else { below };
                    *col |= rng.next() & mark & side;
                }
                if rng.one_in(2) {
                    let given = bucket.cols;
                    for (&i, &j) in sorted.iter().zip(sorted.iter().rev()) {
                        bucket.cols[i] = given[j];
                    }
                }
            }
        }
        bucket
    }

    fn is_invertible(self) -> bool {
        !matches!(self, Made::AnyNumbers)
    }
}

/// A bucket with this many vectors after adds and withdrawals.
fn history(rng: &mut Rng, count: usize) -> Bucket {
    let mut bucket = Bucket::empty();
    let mut live = Vec::new();
    for _ in 0..2 {
        let most = count + rng.below(65 - count as u64) as usize;
        while live.len() < most {
            let k = match rng.below(3) {
                0 => 1 << rng.below(64) | 1 << rng.below(64),
                _ => rng.next(),
            };
            if bucket.add(k, 0).is_some() {
                live.push(k);
            }
        }
        while live.len() > count {
            let k = live.swap_remove(rng.below(live.len() as u64) as usize);
            assert!(bucket.withdraw(k).is_some());
        }
    }
    bucket
}

/// Which columns are made dependent then.
#[derive(Clone, Copy, Debug)]
enum Dependent {
    Nothing,
    /// One is the XOR of some others.
    Sum,
    /// Two are equal.
    Equal,
    /// One is 0.
    Zero,
    /// Several are XORs of some of the rest.
    Several,
}

impl Dependent {
    /// Nothing as often as the others together.
    const ALL: [Dependent; 8] = [
        Dependent::Nothing,
        Dependent::Nothing,
        Dependent::Nothing,
        Dependent::Nothing,
        Dependent::Sum,
        Dependent::Equal,
        Dependent::Zero,
        Dependent::Several,
    ];

    /// Makes columns dependent, mostly those of occupied rows, which leaves the free rows units. How many: if there was an inverse, the
    /// rank falls by that.
    fn make(self, rng: &mut Rng, bucket: &mut Bucket) -> usize {
        let mut among = some_order(rng).to_vec();
        if bucket.mark != 0 && !rng.one_in(4) {
            among.retain(|i| bucket.mark >> i & 1 == 1);
        }
        let lost = match self {
            Dependent::Nothing => 0,
            Dependent::Several => 1 + rng.below(among.len() as u64) as usize,
            _ => 1,
        };
        let (made, rest) = among.split_at(lost);
        for &i in made {
            let cols = &bucket.cols;
            bucket.cols[i] = match self {
                Dependent::Zero => 0,
                Dependent::Equal => rest.first().map_or(0, |&j| cols[j]),
                _ => {
                    let chosen = rng.next();
                    let some = rest.iter().filter(|&j| chosen >> j & 1 == 1);
                    some.fold(0, |sum, &j| sum ^ cols[j])
                }
            };
        }
        lost
    }
}

/// The one bit that is flipped then.
#[derive(Clone, Copy, Debug, PartialEq)]
enum Flipped {
    None,
    OfColumn,
    OfMark,
}

impl Flipped {
    const ALL: [Flipped; 3] = [Flipped::None, Flipped::OfColumn, Flipped::OfMark];

    fn make(self, rng: &mut Rng, bucket: &mut Bucket) {
        let bit = 1 << rng.below(64);
        match self {
            Flipped::None => {}
            Flipped::OfColumn => bucket.cols[rng.below(64) as usize] ^= bit,
            Flipped::OfMark => bucket.mark ^= bit,
        }
    }
}

/// The numbers below 64 in any order.
fn some_order(rng: &mut Rng) -> [usize; 64] {
    let mut order = std::array::from_fn(|i| i);
    for i in 1..64 {
        order.swap(i, rng.below(i as u64 + 1) as usize);
    }
    order
}

/// K's rows and columns in another order, the mark with the rows; in half of the cases the same order for both, which leaves units units.
fn reorder(rng: &mut Rng, bucket: &mut Bucket) {
    let rows = some_order(rng);
    let columns = if rng.one_in(2) { rows } else { some_order(rng) };
    let ordered = |bits: u64, order: &[usize; 64]| {
        let places = order.iter().enumerate();
        places.fold(0, |all, (i, j)| all | (bits >> i & 1) << j)
    };
    let given = bucket.cols;
    for (col, j) in given.into_iter().zip(rows) {
        bucket.cols[j] = ordered(col, &columns);
    }
    bucket.mark = ordered(bucket.mark, &rows);
}

/// The rank of the columns: how many are kept, no two with the same highest bit.
fn rank(cols: &[u64; 64]) -> usize {
    let mut basis = [0; 64];
    for &col in cols {
        let mut left: u64 = col;
        while left != 0 {
            let kept: &mut u64 = &mut basis[left.ilog2() as usize];
            if *kept == 0 {
                *kept = left;
            }
            left ^= *kept;
        }
    }
    basis.iter().filter(|&&kept| kept != 0).count()
}

/// What the free rows of the columns are.
#[derive(Clone, Copy)]
enum Free {
    None,
    Units,
    Others,
}

/// What occurred.
struct Seen {
    /// K, by the number of occupied rows.
    found: [u64; 65],
    /// No inverse: by the free rows of the columns and by rank.
    singular: [[u64; 64]; 3],
    /// An inverse whose free rows are no units.
    refused: u64,
}

impl Seen {
    fn compare(&mut self, rng: &mut Rng, input: &str, bucket: &Bucket) {
        let part = numbers(bucket);
        let rank = rank(&bucket.cols);
        let mut cols = bucket.cols.iter().enumerate();
        let free = if bucket.mark == u64::MAX {
            Free::None
        } else if cols.all(|(i, col)| (col ^ 1 << i) & !bucket.mark == 0) {
            Free::Units
        } else {
            Free::Others
        };
        let expected = rank == 64 && !matches!(free, Free::Others);
        let rows = sound_rows(bucket);
        assert_eq!(rows.is_some(), expected, "{input}");
        if let Some(rows) = rows {
            for (i, row) in rows.into_iter().enumerate() {
                let ours = ours::bucket_matrix(&part, i);
                same("matrix", (input, i), ours, row);
                same("product", (input, i), bucket.product(ours), 1 << i);
            }
            self.found[bucket.mark.count_ones() as usize] += 1;
            return;
        }
        let i = rng.below(64) as usize;
        same("matrix", (input, i), ours::bucket_matrix(&part, i), 0);
        match self.singular[free as usize].get_mut(rank) {
            Some(times) => *times += 1,
            None => self.refused += 1,
        }
    }

    /// Prints what occurred. There must be a K with each number of occupied rows, and each rank of those without free rows.
    fn print(&self) {
        let found: u64 = self.found.iter().sum();
        let [full, units, others] = self.singular.map(|ranks| ranks.iter().sum::<u64>());
        let singular = full + units + others;
        let refused = self.refused;
        println!(
            "agree: {} matrices: {found} with K, all 64 rows compared and multiplied with the columns; {singular} singular, {full} of \
             them without free rows and {units} with free rows that are units; {refused} refused for free rows that are no units",
            found + singular + refused,
        );
        let of_rank = &self.singular[Free::None as usize];
        let fail = |what: &str| differ("matrices", what, "never occurred");
        if self.found.contains(&0) {
            fail("K with each number of occupied rows");
        }
        // Of rank 0 there is one alone.
        if of_rank[1..].contains(&0) {
            fail("each rank");
        }
        if [units, others, refused].contains(&0) {
            fail("free rows of each sort");
        }
    }
}

/// 24 matrices from each bucket. Half of the buckets are full.
pub fn matrices(rng: &mut Rng, buckets: usize) {
    let mut seen = Seen {
        found: [0; 65],
        singular: [[0; 64]; 3],
        refused: 0,
    };
    for case in 0..buckets {
        let count = if case % 2 == 0 { 64 } else { case / 2 % 64 };
        let made = *rng.pick(&Made::ALL);
        let given = made.make(rng, count);
        for dependent in Dependent::ALL {
            for flipped in Flipped::ALL {
                let mut bucket = given.clone();
                let lost = dependent.make(rng, &mut bucket);
                flipped.make(rng, &mut bucket);
                if rng.one_in(2) {
                    reorder(rng, &mut bucket);
                }
                let input = format!("{made:?}, {count} rows, {dependent:?}, {flipped:?}");
                if made.is_invertible() && flipped != Flipped::OfColumn {
                    assert_eq!(rank(&bucket.cols), 64 - lost, "{input}");
                }
                seen.compare(rng, &input, &bucket);
            }
        }
    }
    seen.print();
}

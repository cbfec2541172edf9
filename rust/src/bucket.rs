//! One bucket (document 01, "One bucket"; document 02, orders 5 and 6) and the
//! fall of its bound ("The whole table").
//!
//! Decisions:
//! - "smallest vector first" compares vectors as unsigned 64-bit numbers, of
//!   the level at which the words leave (w at level 1, w' at level 2).
//! - When the bound falls several times, all words of the higher threshold
//!   leave before those of the next one: the order of leaving is threshold
//!   descending, then vector ascending, and the new word after all of them.
//! - A new word whose threshold is not below the bound to begin with is not
//!   added here at all: `settle` hands on just that word and nothing changes.
//! - The plan of a leaving word is its lookup at the moment it leaves (a
//!   withdrawal keeps the lookups of the other live vectors, so any moment
//!   before the new word's own add gives the same).
//! - Adding a live vector depends: its product has no free row's bit.
//! - No step on columns gets a vector. Where v is k XOR 2^i, the parity of (v
//!   AND column a) is bit a of k's product XOR bit i of column a, whatever the
//!   columns are.
//! - An add forms the product of its vector once: whether the vector is live,
//!   the straight attempt and the fall of the bound go on from it. It is formed
//!   anew after words have left, if the bucket still holds the vector. At a fall
//!   at which none leaves it stays: the vector still depends, so nothing is
//!   tried.
//! - A withdrawal exchanges the two columns first and steps then. In the
//!   exchanged columns the vector's product is the bit of its new row, so this
//!   is the step of an add, and gives the same as to step and then to exchange.
//! - Every withdrawal clears the row j that it frees, those of a falling bound
//!   too. Row j of Z is bit j of each solution word, which the step on columns
//!   has left alone; column j is the one after step and exchange. Of the free
//!   rows' bits it has its own alone, so the other free rows stay clear.
//! - Change and withdraw of a vector that is not live do nothing (the table
//!   answers cause 7 before it would come to that).

#[cfg(test)]
mod tests;

pub const WIDTH: usize = 64;
pub const PLAN_BITS: usize = 8;
pub const BOUND_MAX: u64 = 8;

#[derive(Clone, Debug, PartialEq, Eq)]
pub struct Bucket {
    /// The columns of K's inverse: bit j of `cols[i]` is its entry in row j
    /// and column i.
    pub cols: [u64; WIDTH],
    /// The occupied rows of K.
    pub mark: u64,
    /// The solution words: bit j of `sols[c]` is bit c of Z_j.
    pub sols: [u64; PLAN_BITS],
    /// Words with a threshold below this are held here.
    pub bound: u64,
}

/// A vector that goes one level further, with its plan.
#[derive(Clone, Copy, Debug, PartialEq, Eq)]
pub struct Leaving {
    pub vector: u64,
    pub plan: u8,
}

/// 1 if the number of ones is odd, else 0.
pub fn parity(x: u64) -> u64 {
    #[cfg(test)]
    crate::products::note_parity();
    u64::from(x.count_ones() % 2)
}

impl Bucket {
    pub fn empty() -> Bucket {
        Bucket {
            cols: std::array::from_fn(|i| 1 << i),
            mark: 0,
            sols: [0; PLAN_BITS],
            bound: BOUND_MAX,
        }
    }

    /// The product of a vector with K's inverse: bit i is the parity of
    /// (k AND column i).
    pub fn product(&self, k: u64) -> u64 {
        #[cfg(test)]
        crate::products::note_product(self, k);
        let mut product = 0;
        for (i, &col) in self.cols.iter().enumerate() {
            product |= parity(k & col) << i;
        }
        product
    }

    /// The plan the solutions give for a vector, live or not.
    pub fn lookup(&self, k: u64) -> u8 {
        let mut plan = 0;
        for (c, &sol) in self.sols.iter().enumerate() {
            plan |= (parity(k & sol) as u8) << c;
        }
        plan
    }

    /// The row of a live vector, or nothing.
    pub fn live(&self, k: u64) -> Option<usize> {
        self.live_with(self.product(k))
    }

    /// `live` by the vector's product.
    pub fn live_with(&self, product: u64) -> Option<usize> {
        if product.is_power_of_two() && self.mark & product != 0 {
            Some(product.trailing_zeros() as usize)
        } else {
            None
        }
    }

    /// Adds a vector with its plan and gives its row; or, if the vector
    /// depends on the live ones, changes nothing and gives nothing.
    pub fn add(&mut self, k: u64, plan: u8) -> Option<usize> {
        self.add_with(k, self.product(k), plan)
    }

    /// `add` with the vector's product.
    pub fn add_with(&mut self, k: u64, product: u64, plan: u8) -> Option<usize> {
        let free = product & !self.mark;
        if free == 0 {
            return None;
        }
        let row = free.trailing_zeros() as usize;
        self.column_step(row, product);
        self.mark |= 1 << row;
        self.solution_step(k, plan, row);
        Some(row)
    }

    /// Gives a live vector another plan; the earlier plan is returned.
    pub fn change(&mut self, k: u64, plan: u8) -> Option<u8> {
        let row = self.live(k)?;
        Some(self.solution_step(k, plan, row))
    }

    /// Withdraws a live vector; its plan is returned.
    pub fn withdraw(&mut self, k: u64) -> Option<u8> {
        let row = self.live(k)?;
        let plan = self.lookup(k);
        // k is live in this row, so (k AND column) has odd parity and the
        // column has a set bit.
        let lowest = self.cols[row].trailing_zeros() as usize;
        // From here on k is in row `lowest`.
        self.cols.swap(row, lowest);
        self.column_step(lowest, 1 << lowest);
        self.mark &= !(1 << lowest);
        self.clear(lowest);
        Some(plan)
    }

    /// XORs column `row` into each column a for which bit a of the product and
    /// bit `row` of column a differ.
    fn column_step(&mut self, row: usize, product: u64) {
        let u = self.cols[row];
        for (a, col) in self.cols.iter_mut().enumerate() {
            let differ = (product >> a ^ *col >> row) & 1;
            *col ^= u & differ.wrapping_neg();
        }
    }

    /// Makes `plan` the lookup of k, which is in row `row`; the earlier lookup
    /// is returned.
    fn solution_step(&mut self, k: u64, plan: u8, row: usize) -> u8 {
        let earlier = self.lookup(k);
        let differing = earlier ^ plan;
        let col = self.cols[row];
        for (c, sol) in self.sols.iter_mut().enumerate() {
            if differing >> c & 1 == 1 {
                *sol ^= col;
            }
        }
        earlier
    }

    /// XORs column `row` into each solution word that has the bit of this row.
    fn clear(&mut self, row: usize) {
        let col = self.cols[row];
        for sol in &mut self.sols {
            *sol ^= col & (*sol >> row & 1).wrapping_neg();
        }
    }

    /// Whether every free row of Z is 0.
    pub fn is_clear(&self) -> bool {
        let bits = self.sols.iter().fold(0, |bits, sol| bits | sol);
        bits & !self.mark == 0
    }

    /// The rows of K, by Gaussian elimination on the columns of its inverse;
    /// nothing if these are not invertible.
    pub fn rows(&self) -> Option<[u64; WIDTH]> {
        // The columns, read as the rows of a matrix, are the inverse of K
        // transposed. Row operations turn them into the identity and the
        // identity into K transposed.
        let mut left = self.cols;
        let mut right: [u64; WIDTH] = std::array::from_fn(|i| 1 << i);
        for bit in 0..WIDTH {
            let pivot = (bit..WIDTH).find(|&r| left[r] >> bit & 1 == 1)?;
            left.swap(bit, pivot);
            right.swap(bit, pivot);
            let (pivot_left, pivot_right) = (left[bit], right[bit]);
            for r in 0..WIDTH {
                let odd = (left[r] >> bit & 1).wrapping_neg();
                left[r] ^= pivot_left & odd;
                right[r] ^= pivot_right & odd;
            }
            // The pivot row was cleared by itself: put it back.
            left[bit] = pivot_left;
            right[bit] = pivot_right;
        }
        Some(transposed(right))
    }

    /// The live vectors in the order of their rows. The columns must be
    /// invertible.
    pub fn live_vectors(&self) -> Vec<u64> {
        let rows = self.rows().expect("the columns of a bucket are invertible");
        (0..WIDTH)
            .filter(|&row| self.mark >> row & 1 == 1)
            .map(|row| rows[row])
            .collect()
    }

    /// Adds a vector with its plan under the bound. While it depends, the
    /// bound falls by one and the vectors of that threshold are withdrawn; if
    /// its own threshold is no longer below the bound, it is not added. What
    /// leaves is returned in order, the new vector last.
    ///
    /// `threshold` gives the threshold of every vector of this bucket. The
    /// bucket must be sound.
    pub fn settle(&mut self, k: u64, plan: u8, threshold: impl Fn(u64) -> u64) -> Vec<Leaving> {
        if threshold(k) < self.bound {
            self.settle_with(k, self.product(k), plan, threshold)
        } else {
            vec![Leaving { vector: k, plan }]
        }
    }

    /// `settle` with the vector's product. Its threshold must be below the
    /// bound.
    pub fn settle_with(
        &mut self,
        k: u64,
        product: u64,
        plan: u8,
        threshold: impl Fn(u64) -> u64,
    ) -> Vec<Leaving> {
        debug_assert!(threshold(k) < self.bound);
        let mut leaving = Vec::new();
        if self.add_with(k, product, plan).is_some() {
            return leaving;
        }
        let mut vectors = self.live_vectors();
        vectors.sort_unstable();
        loop {
            self.bound -= 1;
            let bound = self.bound;
            let gone = leaving.len();
            for &vector in vectors.iter().filter(|&&v| threshold(v) == bound) {
                let plan = self
                    .withdraw(vector)
                    .expect("the vectors of occupied rows are live");
                leaving.push(Leaving { vector, plan });
            }
            if threshold(k) >= bound {
                leaving.push(Leaving { vector: k, plan });
                return leaving;
            }
            // While none leaves, the vector depends as before.
            if leaving.len() > gone && self.add(k, plan).is_some() {
                return leaving;
            }
        }
    }
}

/// The transposed matrix: bit j of word i is bit i of word j of the given one.
/// Square blocks are exchanged across the diagonal, of side 32, 16, ... 1.
fn transposed(mut matrix: [u64; WIDTH]) -> [u64; WIDTH] {
    let mut side = WIDTH / 2;
    let mut low_half: u64 = 0x0000_0000_ffff_ffff;
    while side > 0 {
        for row in (0..WIDTH).filter(|row| row & side == 0) {
            let exchange = ((matrix[row] >> side) ^ matrix[row + side]) & low_half;
            matrix[row] ^= exchange << side;
            matrix[row + side] ^= exchange;
        }
        side /= 2;
        low_half ^= low_half << side;
    }
    matrix
}

//! Two tables of "X in B" for the Rust engine: a column for each concept, which is the faster one, and a row
//! for each X, as document 01 has the tables.

use crate::fast::{bit, each_bit};

pub trait Concepts {
    /// The free facts of n concepts.
    fn free(n: usize) -> Self;
    /// The X in b.
    fn column(&self, b: usize) -> u64;
    /// The X in a and in b that are not in c.
    fn lacking(&self, a: usize, b: usize, c: usize) -> u64;
    /// Puts these X into b.
    fn add(&mut self, new: u64, b: usize);
    /// The concepts of each X.
    fn rows(&self) -> [u64; 64];
}

/// Bit x of word b: x in b.
pub struct Columns([u64; 64]);

/// Bit b of row x: x in b. The rows from n on are empty.
pub struct Rows {
    rows: [u64; 64],
    n: usize,
}

fn diagonal(n: usize) -> [u64; 64] {
    std::array::from_fn(|x| u64::from(x < n) << x)
}

impl Concepts for Columns {
    fn free(n: usize) -> Columns {
        Columns(diagonal(n))
    }

    fn column(&self, b: usize) -> u64 {
        self.0[b]
    }

    fn lacking(&self, a: usize, b: usize, c: usize) -> u64 {
        self.0[a] & self.0[b] & !self.0[c]
    }

    fn add(&mut self, new: u64, b: usize) {
        self.0[b] |= new;
    }

    fn rows(&self) -> [u64; 64] {
        let mut rows = [0; 64];
        for (b, &column) in self.0.iter().enumerate() {
            each_bit(column, |x| rows[x] |= 1 << b);
        }
        rows
    }
}

impl Rows {
    /// The X whose row passes the test.
    fn column_of(&self, test: impl Fn(u64) -> bool) -> u64 {
        (0..self.n).fold(0, |column, x| column | u64::from(test(self.rows[x])) << x)
    }
}

impl Concepts for Rows {
    fn free(n: usize) -> Rows {
        Rows { rows: diagonal(n), n }
    }

    fn column(&self, b: usize) -> u64 {
        self.column_of(|row| bit(row, b))
    }

    fn lacking(&self, a: usize, b: usize, c: usize) -> u64 {
        self.column_of(|row| bit(row, a) & bit(row, b) & !bit(row, c))
    }

    fn add(&mut self, new: u64, b: usize) {
        each_bit(new, |x| self.rows[x] |= 1 << b);
    }

    fn rows(&self) -> [u64; 64] {
        self.rows
    }
}

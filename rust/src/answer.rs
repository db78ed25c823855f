//! Reductions, nearest vectors and membership with Rust's types.

use crate::raw::{self, MEMBER_NUMBERS, NEAREST_NUMBERS, REDUCTION_NUMBERS};
use crate::{Refusal, MOST_COORDINATES, MOST_VECTORS};

/// Where the parts of the answers begin, as in the header.
const PASSES_AT: usize = 2;
const SQUARES_AT: usize = 3;
const VECTORS_AT: usize = 7;
const U_AT: usize = 39;
const V_AT: usize = 55;
const SQUARE_AT: usize = 2;
const COEFFICIENTS_AT: usize = 3;
const TENTHS_AT: usize = 7;
const VECTOR_AT: usize = 11;
const MEMBER_AT: usize = 2;

/// The answer of a reduction: d reduced vectors of m coordinates, the tables that lead to them and back, their squared lengths and the
/// passes.
#[derive(Clone, Copy, Debug, PartialEq, Eq, Hash)]
pub struct Reduction {
    d: usize,
    m: usize,
    /// As the engine wrote them.
    numbers: [i64; REDUCTION_NUMBERS],
}

impl Reduction {
    /// How many vectors there are.
    pub fn d(&self) -> usize {
        self.d
    }

    /// How many coordinates each vector has.
    pub fn m(&self) -> usize {
        self.m
    }

    /// The reduced vectors, shortest first: d rows of m coordinates.
    pub fn vectors(&self) -> Rows<'_> {
        self.rows(VECTORS_AT, MOST_COORDINATES, self.m)
    }

    /// The table U, d rows of d numbers. Row i: the coefficients of output i on the inputs.
    pub fn u(&self) -> Rows<'_> {
        self.rows(U_AT, MOST_VECTORS, self.d)
    }

    /// The table V, d rows of d numbers. Row i: the coefficients of input i on the outputs.
    pub fn v(&self) -> Rows<'_> {
        self.rows(V_AT, MOST_VECTORS, self.d)
    }

    /// The squared lengths of the reduced vectors, d numbers.
    pub fn squares(&self) -> &[i64] {
        &self.numbers[SQUARES_AT..SQUARES_AT + self.d]
    }

    /// How often a nearest vector was looked for.
    pub fn passes(&self) -> u64 {
        self.numbers[PASSES_AT] as u64
    }

    /// d rows, each `width` long and `step` after the one before.
    fn rows(&self, at: usize, step: usize, width: usize) -> Rows<'_> {
        Rows {
            numbers: &self.numbers[at..at + self.d * step],
            step,
            width,
        }
    }
}

/// The rows of a table, one slice after another.
#[derive(Clone, Debug)]
pub struct Rows<'a> {
    numbers: &'a [i64],
    /// From the beginning of one row to that of the next.
    step: usize,
    /// How many numbers a row has.
    width: usize,
}

impl<'a> Iterator for Rows<'a> {
    type Item = &'a [i64];

    fn next(&mut self) -> Option<&'a [i64]> {
        if self.numbers.is_empty() {
            return None;
        }
        let (row, rest) = self.numbers.split_at(self.step);
        self.numbers = rest;
        Some(&row[..self.width])
    }

    fn size_hint(&self) -> (usize, Option<usize>) {
        let n = self.numbers.len() / self.step;
        (n, Some(n))
    }
}

impl ExactSizeIterator for Rows<'_> {}

/// The lattice vector nearest to a target, and the solution of the target's linear system on the reduced vectors.
#[derive(Clone, Copy, Debug, PartialEq, Eq, Hash)]
pub struct Nearest {
    d: usize,
    m: usize,
    /// As the engine wrote them.
    numbers: [i64; NEAREST_NUMBERS],
}

impl Nearest {
    /// The vector, m coordinates.
    pub fn vector(&self) -> &[i64] {
        &self.numbers[VECTOR_AT..VECTOR_AT + self.m]
    }

    /// Its coefficients on the reduced vectors that [`reduce`] gives, d numbers.
    pub fn coefficients(&self) -> &[i64] {
        &self.numbers[COEFFICIENTS_AT..COEFFICIENTS_AT + self.d]
    }

    /// The solution of the target's linear system in whole tenths, d numbers: 5 stands for 0.5. The exact numbers are those for which the
    /// sum of the reduced vectors that [`reduce`] gives, each taken so many times, has with every reduced vector the inner product that the
    /// target has: the target's own coefficients, or, for a target beside the span, those of its projection. Each is less than a tenth from
    /// the exact number. Where that leaves two, which of them is given is free, and a later version may give the other.
    pub fn tenths(&self) -> &[i64] {
        &self.numbers[TENTHS_AT..TENTHS_AT + self.d]
    }

    /// Its squared distance from the target, 0 exactly when the target is in the lattice.
    pub fn square(&self) -> i64 {
        self.numbers[SQUARE_AT]
    }
}

/// Reduces d vectors of m coordinates each, given one after another.
pub fn reduce(numbers: &[i64], d: usize, m: usize) -> Result<Reduction, Refusal> {
    let mut out = [0; REDUCTION_NUMBERS];
    assert!(raw::reduce(numbers, d, m, &mut out), "{OTHER_ARCHIVE}");
    Refusal::check(out[0])?;
    Ok(Reduction { d, m, numbers: out })
}

/// Finds the vector nearest to the target in the lattice of d vectors of m coordinates each. Of equally near vectors the one with the
/// least coefficients on the reduced vectors is given, the first coefficient compared first.
pub fn nearest(numbers: &[i64], d: usize, m: usize, target: &[i64]) -> Result<Nearest, Refusal> {
    let mut out = [0; NEAREST_NUMBERS];
    assert!(
        raw::nearest(numbers, d, m, target, &mut out),
        "{OTHER_ARCHIVE}"
    );
    Refusal::check(out[0])?;
    Ok(Nearest { d, m, numbers: out })
}

/// Says whether the target is in the lattice of d vectors of m coordinates each.
pub fn member(numbers: &[i64], d: usize, m: usize, target: &[i64]) -> Result<bool, Refusal> {
    let mut out = [0; MEMBER_NUMBERS];
    assert!(
        raw::member(numbers, d, m, target, &mut out),
        "{OTHER_ARCHIVE}"
    );
    Refusal::check(out[0])?;
    Ok(out[MEMBER_AT] == 1)
}

/// What is said where an answer wants more numbers than this version lends, or has a case that this version does not know.
pub(crate) const OTHER_ARCHIVE: &str = "libraghymtos.a is of another version than this crate";

//! What separates two entries, by document 02, request 2: the first true one of five cases.

use super::hermite::hermite;
use super::{reader::read, refuse, Entry, Refused};
use crate::{member, nearest};

/// Positions count from 1, among the vectors as entered; the square is that of the distance to the other entry's lattice.
#[derive(Clone, Copy, Debug, PartialEq, Eq)]
pub enum Separation {
    Same,
    DifferentM,
    DifferentD,
    /// A vector of the first entry is outside the second's lattice.
    FirstOutside {
        position: usize,
        square: i64,
    },
    /// A vector of the second entry is outside the first's lattice.
    SecondOutside {
        position: usize,
        square: i64,
    },
}

/// What separates the entries with these numbers.
pub fn separate(bytes: &[u8], first: u32, second: u32) -> Result<Separation, Refused> {
    let entries = read(bytes)?;
    let with = |number: u32| entries.iter().find(|e| e.number == number);
    match (with(first), with(second)) {
        (Some(a), Some(b)) => Ok(separation(a, b)),
        _ => refuse(17, 0),
    }
}

/// The same of two entries.
fn separation(a: &Entry, b: &Entry) -> Separation {
    if a.m() == b.m() && hermite(&a.vectors) == hermite(&b.vectors) {
        return Separation::Same;
    }
    if a.m() != b.m() {
        return Separation::DifferentM;
    }
    if a.d() != b.d() {
        return Separation::DifferentD;
    }
    if let Some((position, square)) = outside(a, b) {
        return Separation::FirstOutside { position, square };
    }
    if let Some((position, square)) = outside(b, a) {
        return Separation::SecondOutside { position, square };
    }
    panic!("each lattice holds the other, and they are not one: {a:?} {b:?}")
}

/// The position of the first vector of an entry that is outside the other's lattice, and its squared distance to it.
fn outside(entry: &Entry, other: &Entry) -> Option<(usize, i64)> {
    let numbers = other.vectors.concat();
    let is_inside = |v: &Vec<i64>| member(&numbers, other.d(), other.m(), v).expect("accepted");
    let at = entry.vectors.iter().position(|v| !is_inside(v))?;
    let near = nearest(&numbers, other.d(), other.m(), &entry.vectors[at]);
    assert!(near.refusal == 0 && near.square > 0, "{entry:?} {other:?}");
    Some((at + 1, near.square))
}

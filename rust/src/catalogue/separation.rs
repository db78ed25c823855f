//! What separates two entries.

use super::{answer, CatalogueRefusal};
use crate::answer::OTHER_ARCHIVE;
use crate::raw::{self, SEPARATION_NUMBERS};

/// What separates two entries, the first of these that is true. It is proved that one of them always is, so there will be no other.
///
/// A position is that of a vector among those of its entry as entered, from 1, the lowest of a vector that is outside; a square is its
/// squared distance to the lattice that it is outside.
#[derive(Clone, Copy, Debug, PartialEq, Eq, Hash)]
pub enum Separation {
    /// Nothing: they have the same m and the same lattice.
    Same,
    /// Their vectors have different numbers of coordinates.
    DifferentM,
    /// They have different numbers of vectors.
    DifferentD,
    /// A vector of the first entry is outside the second's lattice.
    FirstOutside {
        /// Which vector of the first entry.
        position: usize,
        /// Its squared distance to the second's lattice, never 0.
        square: i64,
    },
    /// A vector of the second entry is outside the first's lattice, which is a part of the second's.
    SecondOutside {
        /// Which vector of the second entry.
        position: usize,
        /// Its squared distance to the first's lattice, never 0.
        square: i64,
    },
}

impl Separation {
    /// The case with this number in the header; none for a number that no case has.
    fn of(case: i64, position: i64, square: i64) -> Option<Separation> {
        let position = position as usize;
        match case {
            1 => Some(Separation::Same),
            2 => Some(Separation::DifferentM),
            3 => Some(Separation::DifferentD),
            4 => Some(Separation::FirstOutside { position, square }),
            5 => Some(Separation::SecondOutside { position, square }),
            _ => None,
        }
    }
}

/// Says what separates the entries with these numbers: why a fold keeps both, or that it does not. The same number twice is the same
/// lattice.
///
/// ```
/// use raghymtos::catalogue::{from_entries, separate, Entry, Separation};
///
/// let bytes = from_entries(&[
///     Entry::new(7, [[1, 0], [4, 1]]),
///     Entry::new(9, [[2, 0], [0, 3]]),
///     Entry::new(12, [[0, 1], [1, 0]]),
/// ])?;
/// assert_eq!(separate(&bytes, 7, 12)?, Separation::Same);
/// match separate(&bytes, 9, 12)? {
///     Separation::SecondOutside { position, square } => assert_eq!((position, square), (1, 1)),
///     other => panic!("{other:?}"),
/// }
/// # Ok::<(), Box<dyn std::error::Error>>(())
/// ```
pub fn separate(bytes: &[u8], first: u32, second: u32) -> Result<Separation, CatalogueRefusal> {
    let [_, _, case, position, square] =
        answer::<SEPARATION_NUMBERS>(|answer| raw::separate(bytes, first, second, answer))?;
    Ok(Separation::of(case, position, square).expect(OTHER_ARCHIVE))
}

#[cfg(test)]
mod tests {
    use super::*;

    /// The case with this name in the header.
    fn named(name: &str) -> Option<Separation> {
        let header = include_str!("../../../include/raghymtos.h");
        let start = format!("    RAGHYMTOS_{name} = ");
        let rest = header
            .split(&start)
            .nth(1)
            .expect("the header has the name");
        let number = rest.split([',', ' ']).next().unwrap();
        Separation::of(number.parse().unwrap(), 2, 50)
    }

    #[test]
    fn numbers_are_those_of_the_header() {
        let (position, square) = (2, 50);
        assert_eq!(named("SAME"), Some(Separation::Same));
        assert_eq!(named("DIFFERENT_M"), Some(Separation::DifferentM));
        assert_eq!(named("DIFFERENT_D"), Some(Separation::DifferentD));
        let first = Separation::FirstOutside { position, square };
        assert_eq!(named("FIRST_OUTSIDE"), Some(first));
        let second = Separation::SecondOutside { position, square };
        assert_eq!(named("SECOND_OUTSIDE"), Some(second));
    }

    #[test]
    fn no_other_number_is_a_case() {
        for case in (-3..40).chain([i64::MIN, i64::MAX]) {
            let is_known = Separation::of(case, 1, 1).is_some();
            assert_eq!(is_known, (1..=5).contains(&case), "{case}");
        }
    }
}

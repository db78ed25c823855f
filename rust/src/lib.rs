//! Lattices of at most four vectors of at most eight coordinates: greedy reduction, the nearest vector, membership, and
//! catalogues of bases ([`catalogue`]), by a proved engine.
//!
//! ```
//! use raghymtos::{member, nearest, reduce, Refusal};
//!
//! let r = reduce(&[1, 0, 4, 1], 2, 2).unwrap();
//! assert_eq!(r.vectors().collect::<Vec<_>>(), [[1, 0], [0, 1]]);
//! assert_eq!(r.u().nth(1), Some(&[-4, 1][..]));
//! assert_eq!(reduce(&[1, 2, 2, 4], 2, 2), Err(Refusal::Dependent));
//!
//! let n = nearest(&[20, 0, 10, 20], 2, 2, &[14, 9]).unwrap();
//! assert_eq!((n.vector(), n.square()), (&[20, 0][..], 117));
//! assert_eq!(nearest(&[3], 1, 1, &[1, 2]), Err(Refusal::TargetCount));
//! // (14, 8) is 0.5 and 0.4 times the reduced vectors
//! let n = nearest(&[20, 0, 10, 20], 2, 2, &[14, 8]).unwrap();
//! assert_eq!(n.tenths(), [5, 4]);
//!
//! assert_eq!(member(&[20, 0, 10, 20], 2, 2, &[50, 20]), Ok(true));
//! ```
//!
//! What the engine writes is proved, for every input, to be what `docs/RULES.md` says. The Rust of this crate is not: it hands numbers to
//! the engine and takes its answers apart, and in [`catalogue`] it turns entries into words and back. Tests hold it against the header
//! and against an independent implementation.

#![deny(missing_docs)]

mod answer;
pub mod catalogue;
pub mod raw;
mod refusal;

pub use answer::{member, nearest, reduce, Nearest, Reduction, Rows};
pub use refusal::Refusal;

/// The version, that of `include/raghymtos.h`.
pub const VERSION: &str = env!("CARGO_PKG_VERSION");

/// The most vectors that a basis may have.
pub const MOST_VECTORS: usize = 4;

/// The most coordinates that a vector may have.
pub const MOST_COORDINATES: usize = 8;

/// The examples of both READMEs are run as tests.
#[cfg(doctest)]
mod examples {
    #[doc = include_str!("../README.md")]
    struct Crate;

    #[doc = include_str!("../../README.md")]
    struct Repository;
}

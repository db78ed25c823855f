//! Reduction, nearest vector, catalogues and the open merge by the rules of documents 01 and 02: a slow reference for comparison tests.
//! Every number is an exact integer. Nothing is tuned: the nearest vector is found by going through every coefficient list that can be as
//! near as the best one so far.

pub mod bases;
pub mod cases;
pub mod catalogue;
pub mod enumeration;
pub mod merge;
pub mod random;
pub mod search;
pub mod tied;
pub mod vectors;

use catalogue::hermite::{hermite, with};
use search::nearest_coefficients;
use vectors::{combination, coordinate, coordinates, minus, rank, rows, square};

/// The most vectors.
pub const MOST_VECTORS: usize = 4;
/// The most coordinates.
pub const MOST_COORDINATES: usize = 8;
/// The most a coordinate may be in size.
pub const MOST_SIZE: i64 = 20_000;
/// The most a squared length may be.
pub const MOST_SQUARE: i64 = 400_000_000;

/// A reduction's answer. Refusal 0 means none; after a refusal the lists are empty and the passes 0.
#[derive(Clone, Debug, PartialEq, Eq)]
pub struct Reduction {
    pub refusal: u64,
    pub place: u64,
    /// The d reduced vectors, of m coordinates each.
    pub vectors: Vec<Vec<i64>>,
    /// Row i: the coefficients of output i on the inputs.
    pub u: Vec<Vec<i64>>,
    /// Row i: the coefficients of input i on the outputs.
    pub v: Vec<Vec<i64>>,
    pub squares: Vec<i64>,
    pub passes: u64,
}

/// The answer of nearest. Refusal 0 means none; after a refusal the lists are empty and the square 0.
#[derive(Clone, Debug, PartialEq, Eq)]
pub struct Nearest {
    pub refusal: u64,
    pub place: u64,
    pub vector: Vec<i64>,
    /// The coefficients on the reduced basis.
    pub coefficients: Vec<i64>,
    /// For each reduced vector the least and the greatest whole number of tenths that is less than a tenth from the exact solution of the
    /// target's linear system: the same twice where the solution is in whole tenths.
    pub tenths: Vec<(i64, i64)>,
    /// The squared distance.
    pub square: i64,
}

/// Reduces d vectors of m coordinates each, given one after another.
pub fn reduce(numbers: &[i64], d: usize, m: usize) -> Reduction {
    let refusal = refused_vectors(numbers, d, m);
    if refusal != 0 {
        return Reduction {
            refusal,
            place: 0,
            vectors: vec![],
            u: vec![],
            v: vec![],
            squares: vec![],
            passes: 0,
        };
    }
    let inputs = rows(numbers, m);
    let mut vectors = inputs.clone();
    let mut passes = 0;
    greedy(&mut vectors, &mut passes);
    // independent vectors have one table each, so the tables need not be carried along
    let u = vectors.iter().map(|b| coordinates(&inputs, b)).collect();
    let v = inputs.iter().map(|b| coordinates(&vectors, b)).collect();
    let squares = vectors.iter().map(|b| square(b)).collect();
    Reduction {
        refusal: 0,
        place: 0,
        vectors,
        u,
        v,
        squares,
        passes,
    }
}

/// The vector nearest to the target in the lattice of d vectors of m coordinates each.
pub fn nearest(numbers: &[i64], d: usize, m: usize, target: &[i64]) -> Nearest {
    let mut refusal = refused_vectors(numbers, d, m);
    if refusal == 0 {
        refusal = refused_target(m, target);
    }
    if refusal != 0 {
        return Nearest {
            refusal,
            place: 0,
            vector: vec![],
            coefficients: vec![],
            tenths: vec![],
            square: 0,
        };
    }
    let mut basis = rows(numbers, m);
    greedy(&mut basis, &mut 0);
    let coefficients = nearest_coefficients(&basis, target);
    let tenths = (0..d)
        .map(|i| neighbours(coordinate(&basis, i, target)))
        .collect();
    let vector = combination(&coefficients, &basis, m);
    let square = square(&minus(target, 1, &vector));
    Nearest {
        refusal: 0,
        place: 0,
        vector,
        coefficients,
        tenths,
        square,
    }
}

/// The whole numbers of tenths less than a tenth from a fraction, the least and the greatest.
fn neighbours((top, bottom): (i128, i128)) -> (i64, i64) {
    let (whole, rest) = ((10 * top).div_euclid(bottom), (10 * top).rem_euclid(bottom));
    let below = i64::try_from(whole).unwrap();
    (below, below + (rest != 0) as i64)
}

/// Whether the target is in the lattice, or the refusal's number: by the Hermite normal form, which a vector of the lattice leaves as it
/// is.
pub fn member(numbers: &[i64], d: usize, m: usize, target: &[i64]) -> Result<bool, u64> {
    let mut refusal = refused_vectors(numbers, d, m);
    if refusal == 0 {
        refusal = refused_target(m, target);
    }
    if refusal != 0 {
        return Err(refusal);
    }
    let form = hermite(&rows(numbers, m));
    Ok(with(form.clone(), target) == form)
}

// ---- refusals

fn refused_vectors(numbers: &[i64], d: usize, m: usize) -> u64 {
    if !(1..=MOST_VECTORS).contains(&d) {
        1
    } else if !(1..=MOST_COORDINATES).contains(&m) {
        2
    } else if numbers.len() != d * m {
        3
    } else if !rows(numbers, m).iter().all(|v| fits(v)) {
        4
    } else if rank(&rows(numbers, m)) < d {
        5
    } else {
        0
    }
}

fn refused_target(m: usize, target: &[i64]) -> u64 {
    if target.len() != m {
        6
    } else if !fits(target) {
        7
    } else {
        0
    }
}

/// No coordinate is beyond the limit, and the length is not.
pub fn fits(v: &[i64]) -> bool {
    v.iter().all(|x| (-MOST_SIZE..=MOST_SIZE).contains(x)) && square(v) <= MOST_SQUARE
}

// ---- the greedy steps

fn greedy(vectors: &mut Vec<Vec<i64>>, passes: &mut u64) {
    // 1
    if vectors.len() == 1 {
        return;
    }
    loop {
        // 2: a stable sort
        vectors.sort_by_key(|v| square(v));
        // 3
        let mut last = vectors.pop().unwrap();
        greedy(vectors, passes);
        // 4
        let x = nearest_coefficients(vectors, &last);
        *passes += 1;
        // 5
        for (i, b) in vectors.iter().enumerate() {
            last = minus(&last, x[i], b);
        }
        // 6
        let kept = square(&last) >= square(&vectors[vectors.len() - 1]);
        vectors.push(last);
        if kept {
            return;
        }
    }
}

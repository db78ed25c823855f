//! Inputs for comparison tests, the same for the same seed.

use crate::bases::{any, at_limit, basis, limit, most_size};
use crate::random::Random;
use crate::vectors::{coefficient, dot, plus};
use crate::{fits, MOST_COORDINATES, MOST_SIZE, MOST_VECTORS};

/// What an input is made to try. Up to `Limit` they are accepted, unless chance makes the vectors dependent.
#[derive(Clone, Copy, Debug, PartialEq, Eq)]
pub enum Kind {
    Random,
    NearlyDependent,
    Scrambled,
    /// Scrambled unit vectors whose table U has large numbers.
    LargeTable,
    Cubic,
    Hexagonal,
    FaceCentred,
    BodyCentred,
    /// The lattice D4 and its dual.
    Checkerboard,
    /// The lattice A4 and its dual, in five coordinates or more.
    Simplex,
    /// Parts of the lattice E8, and of lattices of whole vectors with an even sum, in five coordinates or more.
    Section,
    /// (1, a, a², …) modulo M.
    Generator,
    /// Squared lengths at the limit or just below.
    Limit,
    Dependent,
    /// Squared lengths about the limit, on both sides, of a vector or of the target.
    Over,
    /// A number far out of range, among the vectors or in the target.
    Damaged,
    /// d or m out of range, or a wrong count of numbers.
    WrongLength,
}

/// So many kinds are accepted, the first ones.
pub const ACCEPTED: usize = 13;

pub const KINDS: [Kind; 17] = [
    Kind::Random,
    Kind::NearlyDependent,
    Kind::Scrambled,
    Kind::LargeTable,
    Kind::Cubic,
    Kind::Hexagonal,
    Kind::FaceCentred,
    Kind::BodyCentred,
    Kind::Checkerboard,
    Kind::Simplex,
    Kind::Section,
    Kind::Generator,
    Kind::Limit,
    Kind::Dependent,
    Kind::Over,
    Kind::Damaged,
    Kind::WrongLength,
];

/// Vectors and a target.
#[derive(Clone, Debug)]
pub struct Case {
    pub kind: Kind,
    pub numbers: Vec<i64>,
    pub d: usize,
    pub m: usize,
    pub target: Vec<i64>,
}

/// The first `count` cases of a seed, the kinds in turn.
pub fn cases(seed: u64, count: usize) -> Vec<Case> {
    let mut random = Random::new(seed);
    (0..count)
        .map(|i| case(KINDS[i % KINDS.len()], &mut random))
        .collect()
}

/// A case of one kind.
pub fn case(kind: Kind, random: &mut Random) -> Case {
    match kind {
        Kind::Dependent => complete(kind, dependent(random), random),
        Kind::Over => over(random),
        Kind::Damaged => damaged(random),
        Kind::WrongLength => wrong_length(random),
        _ => complete(kind, basis(kind, random), random),
    }
}

fn complete(kind: Kind, vectors: Vec<Vec<i64>>, random: &mut Random) -> Case {
    let (d, m) = (vectors.len(), vectors[0].len());
    let target = target(&vectors, random);
    Case {
        kind,
        numbers: vectors.concat(),
        d,
        m,
        target,
    }
}

/// A target in range: any, zero, in the lattice or near it, half of a lattice vector (where ties are), a third, a quarter or a fifth, in the
/// dual lattice (where deep holes are), or at the limit.
/// Where there are fewer vectors than coordinates, most of them lie outside the span.
fn target(vectors: &[Vec<i64>], random: &mut Random) -> Vec<i64> {
    let m = vectors[0].len();
    let way = random.between(0, 9);
    for _ in 0..20 {
        let mut t = vec![0; m];
        let most = random.pick(&[1, 1, 2, 5]);
        for v in vectors {
            t = plus(&t, random.between(-most, most), v);
        }
        match way {
            0 => {
                let size = random.pick(&[3, 100, most_size(m)]);
                t = random.vector(m, size);
            }
            1 => return vec![0; m],
            2 => {}
            3 | 4 => {
                let size = random.pick(&[1, 2, 40]);
                let e = random.vector(m, size);
                t = plus(&t, 1, &e);
            }
            5 => {
                let parts = random.pick(&[3, 4, 5, 5]);
                t = t.iter().map(|x| x / parts).collect();
            }
            6 => return at_limit(m, random),
            7 => match dual(vectors, random) {
                Some(point) => t = point,
                None => continue,
            },
            _ => t = t.iter().map(|x| x / 2).collect(),
        }
        if fits(&t) {
            return t;
        }
    }
    random.vector(m, most_size(m))
}

/// In a multiple of the dual lattice that has the lattice as a part: the inner products with the vectors are multiples of what all inner
/// products of the vectors are multiples of. Where coordinates are then no whole numbers, near it. None where the vectors are dependent or
/// the numbers too large.
fn dual(vectors: &[Vec<i64>], random: &mut Random) -> Option<Vec<i64>> {
    let pairs = vectors
        .iter()
        .flat_map(|v| vectors.iter().map(move |w| dot(v, w)));
    let unit = pairs.fold(0, divisor);
    let products: Vec<i64> = vectors
        .iter()
        .map(|_| unit * random.between(-2, 2))
        .collect();
    let coefficients: Vec<(i128, i128)> = (0..vectors.len())
        .map(|i| coefficient(vectors, i, |k| products[k]))
        .collect();
    let coordinate = |j: usize| {
        let pairs = coefficients.iter().zip(vectors);
        let mut terms = pairs.map(|((top, _), v)| top.checked_mul(v[j] as i128));
        let sum = terms.try_fold(0, |sum: i128, term| sum.checked_add(term?))?;
        i64::try_from(sum.checked_div(coefficients[0].1)?).ok()
    };
    let point: Option<Vec<i64>> = (0..vectors[0].len()).map(coordinate).collect();
    point.filter(|t| t.iter().all(|x| x.abs() <= MOST_SIZE))
}

/// The greatest common divisor.
fn divisor(a: i64, b: i64) -> i64 {
    match b {
        0 => a.abs(),
        _ => divisor(b, a % b),
    }
}

// ---- refused input

fn dependent(random: &mut Random) -> Vec<Vec<i64>> {
    let m = 1 + random.index(MOST_COORDINATES);
    let d = 1 + random.index(MOST_VECTORS);
    let size = random.pick(&[1, 5, 100, 1_000]);
    let mut vectors = any(d, m, size, random);
    let i = random.index(d);
    let mut sum = vec![0; m];
    for (j, v) in vectors.iter().enumerate() {
        if i != j {
            sum = plus(&sum, random.between(-2, 2), v);
        }
    }
    vectors[i] = sum;
    vectors
}

fn over(random: &mut Random) -> Case {
    let mut c = complete(Kind::Over, limit(random), random);
    if random.between(0, 1) == 0 {
        let i = random.index(c.numbers.len());
        c.numbers[i] += if c.numbers[i] < 0 { -1 } else { 1 };
    } else {
        c.target = limit(random).concat();
        c.target.resize(c.m, 1);
    }
    c
}

fn damaged(random: &mut Random) -> Case {
    let kind = KINDS[random.index(ACCEPTED)];
    let mut c = complete(Kind::Damaged, basis(kind, random), random);
    let values = [
        20_001,
        -20_001,
        1 << 31,
        1 << 32,
        3_037_000_500,
        1 << 40,
        i64::MIN,
        i64::MIN + 1,
        i64::MAX,
    ];
    let value = random.pick(&values);
    let numbers = if random.between(0, 1) == 0 {
        &mut c.numbers
    } else {
        &mut c.target
    };
    let i = random.index(numbers.len());
    numbers[i] = value;
    c
}

fn wrong_length(random: &mut Random) -> Case {
    let kind = KINDS[random.index(KINDS.len() - 1)];
    let mut c = case(kind, random);
    c.kind = Kind::WrongLength;
    let small = random.index(18);
    let sizes = [0, 5, 9, small, small, small, 1 << 32, 1 << 63, usize::MAX];
    match random.between(0, 5) {
        0 => c.d = random.pick(&sizes),
        1 => c.m = random.pick(&sizes),
        2 => c.numbers.push(random.between(-3, 3)),
        3 => c.numbers.truncate(random.index(c.numbers.len())),
        4 => c.target.push(0),
        _ => c.target.truncate(random.index(c.target.len())),
    }
    c
}

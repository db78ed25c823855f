//! Vectors that are accepted, unless chance makes them dependent: a way for each kind.

use crate::cases::Kind;
use crate::random::Random;
use crate::tied::{centred, checkerboard, hexagonal, section, simplex, tied};
use crate::vectors::{plus, square};
use crate::{fits, MOST_COORDINATES, MOST_SQUARE, MOST_VECTORS};

pub fn basis(kind: Kind, random: &mut Random) -> Vec<Vec<i64>> {
    match kind {
        Kind::NearlyDependent => nearly_dependent(random),
        Kind::Scrambled => {
            let (d, m) = sizes(random);
            let size = random.pick(&[1, 2, 5, 50, 500]);
            scrambled(any(d, m, size, random), random)
        }
        Kind::LargeTable => large_table(random),
        Kind::Cubic => {
            let (d, m) = sizes(random);
            tied(unit(d, m), random)
        }
        Kind::Hexagonal => hexagonal(random),
        Kind::FaceCentred => centred([[0, 1, 1], [1, 0, 1], [1, 1, 0]], random),
        Kind::BodyCentred => centred([[-1, 1, 1], [1, -1, 1], [1, 1, -1]], random),
        Kind::Checkerboard => checkerboard(random),
        Kind::Simplex => simplex(random),
        Kind::Section => section(random),
        Kind::Generator => generator(random),
        Kind::Limit => limit(random),
        _ => {
            let (d, m) = sizes(random);
            let size = random.pick(&[1, 2, 3, 10, 100, 1000, most_size(m)]);
            any(d, m, size, random)
        }
    }
}

/// m from 1 to 8, more often a small one, since some kinds have none; and d from 1 to 4, not above m.
fn sizes(random: &mut Random) -> (usize, usize) {
    let m = random.pick(&[1, 1, 1, 2, 2, 2, 3, 4, 5, 6, 7, 8]);
    (1 + random.index(m.min(MOST_VECTORS)), m)
}

/// A size that all m coordinates can have.
pub fn most_size(m: usize) -> i64 {
    if m <= 4 {
        10_000
    } else {
        7_000
    }
}

fn unit(d: usize, m: usize) -> Vec<Vec<i64>> {
    (0..d)
        .map(|i| (0..m).map(|j| (i == j) as i64).collect())
        .collect()
}

pub fn any(d: usize, m: usize, size: i64, random: &mut Random) -> Vec<Vec<i64>> {
    (0..d).map(|_| random.vector(m, size)).collect()
}

/// Adds vectors to each other, so that the lattice stays and the vectors grow, some up to the limit.
pub fn scrambled(mut vectors: Vec<Vec<i64>>, random: &mut Random) -> Vec<Vec<i64>> {
    let d = vectors.len();
    if d < 2 {
        return vectors;
    }
    for _ in 0..random.pick(&[1, 4, 20, 100]) {
        let (i, j) = (random.index(d), random.index(d));
        let sum = plus(
            &vectors[i],
            random.pick(&[-3, -2, -1, 1, 1, 2, 3]),
            &vectors[j],
        );
        if i != j && fits(&sum) {
            vectors[i] = sum;
        }
    }
    vectors
}

/// The same vectors with zeros behind them, so that there are m coordinates.
pub fn widened(mut vectors: Vec<Vec<i64>>, m: usize) -> Vec<Vec<i64>> {
    vectors.iter_mut().for_each(|v| v.resize(m, 0));
    vectors
}

/// The coordinates in any order, each with any sign.
pub fn placed(vectors: Vec<Vec<i64>>, random: &mut Random) -> Vec<Vec<i64>> {
    let m = vectors[0].len();
    let mut order: Vec<usize> = (0..m).collect();
    shuffle(&mut order, random);
    let signs: Vec<i64> = (0..m).map(|_| random.pick(&[-1, 1])).collect();
    let moved = |v: &Vec<i64>| (0..m).map(|j| signs[j] * v[order[j]]).collect();
    vectors.iter().map(moved).collect()
}

fn shuffle<T>(list: &mut [T], random: &mut Random) {
    for i in (1..list.len()).rev() {
        let j = random.index(i + 1);
        list.swap(i, j);
    }
}

/// Adds vectors to each other wherever that makes the columns of U longer, which are kept beside the vectors.
fn large_table(random: &mut Random) -> Vec<Vec<i64>> {
    let d = 2 + random.index(MOST_VECTORS - 1);
    let m = random.between(d as i64, MOST_COORDINATES as i64) as usize;
    let (mut vectors, mut columns) = (unit(d, d), unit(d, d));
    let long = |v: &[i64]| v.iter().map(|&x| (x as i128) * (x as i128)).sum::<i128>();
    for _ in 0..2_000 {
        let (i, j) = (random.index(d), random.index(d));
        let x = random.pick(&[-3, -2, -1, 1, 2, 3]);
        let (sum, column) = (
            plus(&vectors[i], x, &vectors[j]),
            plus(&columns[j], -x, &columns[i]),
        );
        if i != j && fits(&sum) && long(&column) > long(&columns[j]) {
            vectors[i] = sum;
            columns[j] = column;
        }
    }
    placed(widened(vectors, m), random)
}

/// Long vectors a little off the combinations of fewer.
fn nearly_dependent(random: &mut Random) -> Vec<Vec<i64>> {
    let m = 2 + random.index(MOST_COORDINATES - 1);
    let d = 2 + random.index(m.min(MOST_VECTORS) - 1);
    let directions = 1 + random.index(d - 1);
    let long = any(directions, m, 9_000, random);
    let noise = random.pick(&[1, 1, 3, 20]);
    (0..d)
        .map(|_| loop {
            let mut v = random.vector(m, noise);
            for w in &long {
                let eighths = random.between(-8, 8);
                v = v.iter().zip(w).map(|(x, y)| x + y * eighths / 8).collect();
            }
            if fits(&v) {
                break v;
            }
        })
        .collect()
}

/// In more than four coordinates a part of the lattice: four vectors at most.
fn generator(random: &mut Random) -> Vec<Vec<i64>> {
    let m = 1 + random.index(MOST_COORDINATES);
    let modulus = random.between(2, if m <= 4 { 11_000 } else { 7_500 });
    let a = random.between(1, modulus - 1);
    let mut first = vec![1];
    for j in 1..m {
        first.push(first[j - 1] * a % modulus);
    }
    let mut vectors = vec![first];
    for i in 1..m.min(MOST_VECTORS) {
        vectors.push((0..m).map(|j| if i == j { modulus } else { 0 }).collect());
    }
    vectors
}

/// Vectors of squared length 400,000,000 or a little less.
pub fn limit(random: &mut Random) -> Vec<Vec<i64>> {
    let (d, m) = sizes(random);
    (0..d).map(|_| at_limit(m, random)).collect()
}

/// Sizes of coordinates whose squares sum to 400,000,000, for the fewest coordinates first.
const EXACT: [&[i64]; 8] = [
    &[20_000],
    &[12_000, 16_000],
    &[5_600, 19_200],
    &[10_000, 10_000, 10_000, 10_000],
    &[12_000, 8_000, 8_000, 8_000, 8_000],
    &[10_000, 10_000, 6_000, 8_000, 6_000, 8_000],
    &[10_000, 6_000, 8_000, 6_000, 8_000, 6_000, 8_000],
    &[6_000, 8_000, 6_000, 8_000, 6_000, 8_000, 6_000, 8_000],
];

/// Of the squared length 400,000,000, or a little less.
pub fn at_limit(m: usize, random: &mut Random) -> Vec<i64> {
    let exact = EXACT.iter().filter(|sizes| sizes.len() <= m).count();
    let v = match random.index(exact + 1) {
        i if i < exact => EXACT[i].to_vec(),
        _ => near_limit(m, random),
    };
    placed(widened(vec![v], m), random).remove(0)
}

/// The last coordinate as large as the limit lets it be.
fn near_limit(m: usize, random: &mut Random) -> Vec<i64> {
    let mut v = random.vector(m, most_size(m));
    v[m - 1] = 0;
    v[m - 1] = (MOST_SQUARE - square(&v)).isqrt();
    v
}

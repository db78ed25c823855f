//! Two bases that are alike in some way, each accepted.

use super::made::{independent, is_basis, padded, turned};
use crate::bases::{limit, scrambled};
use crate::fits;
use crate::random::Random;

type Vectors = Vec<Vec<i64>>;

/// Two bases of one lattice.
pub fn same(random: &mut Random) -> [Vectors; 2] {
    let vectors = independent(random);
    let mixed = scrambled(turned(vectors.clone(), random), random);
    either_first(vectors, mixed, random)
}

/// A lattice and a part of it: one vector is a multiple. The vectors of the whole often stand as they were, so that the one that is
/// outside can have any position.
pub fn part(random: &mut Random) -> [Vectors; 2] {
    let (whole, i, multiple) = until(|| {
        let whole = independent(random);
        let i = random.index(whole.len());
        let times = random.pick(&[2, 2, 3, 5]);
        let multiple: Vec<i64> = whole[i].iter().map(|x| x * times).collect();
        fits(&multiple).then_some((whole, i, multiple))
    });
    let mut part = whole.clone();
    part[i] = multiple;
    let part = scrambled(turned(part, random), random);
    let whole = perhaps_scrambled(whole, random);
    either_first(whole, part, random)
}

/// One digit of one coordinate of one basis is another.
pub fn digit(random: &mut Random) -> [Vectors; 2] {
    let (vectors, changed) = until(|| {
        let vectors = independent(random);
        let mut changed = vectors.clone();
        let i = random.index(vectors.len());
        let j = random.index(vectors[0].len());
        changed[i][j] = with_a_digit(changed[i][j], random);
        is_basis(&changed).then_some((vectors, changed))
    });
    let vectors = perhaps_scrambled(vectors, random);
    either_first(vectors, changed, random)
}

/// The number with one of its decimal digits changed, or with one more before them.
fn with_a_digit(x: i64, random: &mut Random) -> i64 {
    let places = x.abs().to_string().len() as u32;
    let unit = 10_i64.pow(random.index(places as usize + 1) as u32);
    let old = x.abs() / unit % 10;
    let size = x.abs() + (random.between(0, 9) - old) * unit;
    if x < 0 {
        -size
    } else {
        size
    }
}

/// Vectors at the limit of length: one coordinate a little nearer to 0 in one basis, or two bases of the same d and m.
pub fn at_limit(random: &mut Random) -> [Vectors; 2] {
    let vectors = limit_basis(random);
    let other = if random.between(0, 1) == 0 {
        until(|| Some(limit_basis(random)).filter(|o| sizes(o) == sizes(&vectors)))
    } else {
        until(|| {
            let mut changed = vectors.clone();
            let x = &mut changed[random.index(vectors.len())][random.index(vectors[0].len())];
            *x -= x.signum() * random.between(1, 3);
            is_basis(&changed).then_some(changed)
        })
    };
    let mixed = turned(vectors, random);
    either_first(mixed, other, random)
}

fn limit_basis(random: &mut Random) -> Vectors {
    until(|| Some(limit(random)).filter(|v| is_basis(v)))
}

/// Two bases of the same d and m.
pub fn other(random: &mut Random) -> [Vectors; 2] {
    let vectors = independent(random);
    let other = until(|| Some(independent(random)).filter(|o| sizes(o) == sizes(&vectors)));
    [vectors, other]
}

/// Two bases of different m: one with a coordinate more, which is 0, and perhaps with a vector less; or any.
pub fn other_m(random: &mut Random) -> [Vectors; 2] {
    let vectors = independent(random);
    let other = match random.between(0, 2) {
        0 => padded(vectors.clone()),
        1 => without_one(padded(vectors.clone()), random),
        _ => independent(random),
    };
    if vectors[0].len() == other[0].len() {
        return other_m(random);
    }
    either_first(vectors, other, random)
}

/// The same m, and in one of both a vector less.
pub fn other_d(random: &mut Random) -> [Vectors; 2] {
    let vectors = until(|| Some(independent(random)).filter(|v| v.len() > 1));
    let fewer = without_one(turned(vectors.clone(), random), random);
    either_first(vectors, fewer, random)
}

/// A vector less, unless there is only one.
fn without_one(mut vectors: Vectors, random: &mut Random) -> Vectors {
    if vectors.len() > 1 {
        vectors.remove(random.index(vectors.len()));
    }
    vectors
}

fn perhaps_scrambled(vectors: Vectors, random: &mut Random) -> Vectors {
    match random.between(0, 2) {
        0 => scrambled(turned(vectors, random), random),
        _ => vectors,
    }
}

fn either_first(a: Vectors, b: Vectors, random: &mut Random) -> [Vectors; 2] {
    match random.between(0, 1) {
        0 => [a, b],
        _ => [b, a],
    }
}

/// d and m.
fn sizes(vectors: &[Vec<i64>]) -> (usize, usize) {
    (vectors.len(), vectors[0].len())
}

/// What the first try gives that gives something.
fn until<T>(mut attempt: impl FnMut() -> Option<T>) -> T {
    loop {
        if let Some(found) = attempt() {
            return found;
        }
    }
}

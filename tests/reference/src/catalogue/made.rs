//! Accepted catalogues: few lattices, most of them in several bases.

use super::{Entry, Form, MOST_ENTRIES};
use crate::bases::{basis, placed, scrambled, widened};
use crate::cases::{ACCEPTED, KINDS};
use crate::random::Random;
use crate::vectors::rank;
use crate::{fits, MOST_COORDINATES, MOST_VECTORS};

/// Numbers at the limits of the forms: the greatest of the old one, the next, and the greatest of the new one.
pub const LIMITS: [u32; 3] = [1_048_575, 1_048_576, 268_435_455];

/// A catalogue of so many entries, with numbers for this form.
pub fn made(form: Form, count: usize, random: &mut Random) -> Vec<Entry> {
    let most = random.pick(&[2, 6, 40]);
    let lattices: Vec<Vec<Vec<i64>>> = (0..1 + random.index(count.min(most)))
        .map(|_| independent(random))
        .collect();
    let numbers = numbers(form, count, random);
    let drafts = match random.between(0, 2) {
        0 => vec![0; lattices.len()],
        _ => drafts(lattices.len(), random),
    };
    (0..count)
        .map(|i| {
            let chosen = random.index(lattices.len());
            Entry {
                number: numbers[i],
                vectors: disguised(lattices[chosen].clone(), random),
                draft: is_draft(drafts[chosen], random),
                see: see(i, &numbers, random),
            }
        })
        .collect()
}

/// The largest catalogue: each entry with four vectors of eight coordinates, a mark and a see word.
pub fn largest(form: Form, random: &mut Random) -> Vec<Entry> {
    let numbers = numbers(form, MOST_ENTRIES, random);
    let some = (0..40).map(|_| loop {
        let vectors = independent(random);
        if vectors.len() == MOST_VECTORS {
            break placed(widened(vectors, MOST_COORDINATES), random);
        }
    });
    let lattices: Vec<Vec<Vec<i64>>> = some.collect();
    (0..MOST_ENTRIES)
        .map(|i| Entry {
            number: numbers[i],
            vectors: scrambled(lattices[i % lattices.len()].clone(), random),
            draft: true,
            see: Some(random.pick(&numbers)),
        })
        .collect()
}

/// A catalogue with drafts and with many see words on entries that do not stand: up to 32 entries of few lattices of small vectors, most with
/// a see word; the first of a lattice has one half the time, and often one that leads to itself.
pub fn referring(form: Form, random: &mut Random) -> Vec<Entry> {
    let count = 2 + random.index(31);
    let numbers = numbers(form, count, random);
    let lattices: Vec<(i64, usize)> = (0..1 + random.index(6))
        .map(|k| (k as i64 + 2, 1 + random.index(MOST_COORDINATES)))
        .collect();
    let drafts = drafts(lattices.len(), random);
    let of: Vec<usize> = (0..count).map(|_| random.index(lattices.len())).collect();
    let alike = |i: usize, random: &mut Random| {
        let others: Vec<u32> = (0..count)
            .filter(|&k| of[k] == of[i])
            .map(|k| numbers[k])
            .collect();
        random.pick(&others)
    };
    let mut all: Vec<Entry> = (0..count)
        .map(|i| {
            let is_first = (0..i).all(|k| of[k] != of[i]);
            let see = match (is_first, random.between(0, 7)) {
                (true, 0..=3) | (false, 0) => None,
                (true, 4..=6) | (false, 1..=2) => Some(alike(i, random)),
                _ => Some(random.pick(&numbers)),
            };
            Entry {
                number: numbers[i],
                vectors: line_or_square(lattices[of[i]], random),
                draft: is_draft(drafts[of[i]], random),
                see,
            }
        })
        .collect();
    if !all.iter().any(|e| e.draft) {
        all[random.index(count)].draft = true;
    }
    if all.iter().all(|e| e.see.is_none()) {
        all[random.index(count)].see = Some(random.pick(&numbers));
    }
    all
}

/// The lattice of the multiples of a, or that of the pairs of them, which is told by whether a is even, in the last of m coordinates.
fn line_or_square((a, m): (i64, usize), random: &mut Random) -> Vec<Vec<i64>> {
    let sign = random.pick(&[-1, 1]);
    if a % 2 == 0 || m == 1 {
        let mut v = vec![0; m];
        v[m - 1] = sign * a;
        return vec![v];
    }
    let k = random.between(-9, 9);
    let mut vectors = vec![vec![0; m]; 2];
    vectors[0][m - 2] = sign * a;
    vectors[1][m - 2] = k * a;
    vectors[1][m - 1] = a;
    vectors
}

/// A basis that is accepted.
pub fn independent(random: &mut Random) -> Vec<Vec<i64>> {
    loop {
        let vectors = basis(KINDS[random.index(ACCEPTED)], random);
        if is_basis(&vectors) {
            return vectors;
        }
    }
}

/// Whether the vectors are accepted, there being few enough.
pub fn is_basis(vectors: &[Vec<i64>]) -> bool {
    vectors.iter().all(|v| fits(v)) && rank(vectors) == vectors.len()
}

/// Different numbers for this form, often small ones, and often some at the limits.
pub fn numbers(form: Form, count: usize, random: &mut Random) -> Vec<u32> {
    let (few, most_old) = (count as u32, Form::Old.most_number());
    let most = random.pick(&[few, 300 + few, most_old, form.most_number()]);
    let mut all = vec![];
    while all.len() < count {
        let number = random.between(1, most as i64) as u32;
        if !all.contains(&number) {
            all.push(number);
        }
    }
    for limit in LIMITS.into_iter().filter(|&n| n <= form.most_number()) {
        if random.between(0, 4) == 0 && !all.contains(&limit) {
            all[random.index(count)] = limit;
        }
    }
    all
}

/// For each lattice how many of six entries are drafts: none, a third, most or all.
fn drafts(lattices: usize, random: &mut Random) -> Vec<i64> {
    let of_six = |_| random.pick(&[0, 2, 2, 2, 4, 6]);
    (0..lattices).map(of_six).collect()
}

/// True for so many of six.
pub fn is_draft(of_six: i64, random: &mut Random) -> bool {
    random.between(1, 6) <= of_six
}

/// None, its own number, or that of any entry.
pub fn see(i: usize, numbers: &[u32], random: &mut Random) -> Option<u32> {
    match random.between(0, 5) {
        0..=2 => None,
        3 => Some(numbers[i]),
        _ => Some(random.pick(numbers)),
    }
}

/// The same lattice in another basis, or one that is easily taken for it.
pub fn disguised(vectors: Vec<Vec<i64>>, random: &mut Random) -> Vec<Vec<i64>> {
    match random.between(0, 9) {
        0 => vectors,
        1 => padded(vectors),
        2 => permuted(vectors, random),
        3 => thinned(vectors, random),
        4 => independent(random),
        5 => turned(vectors, random),
        _ => scrambled(turned(vectors, random), random),
    }
}

/// Another order and other signs.
pub fn turned(mut vectors: Vec<Vec<i64>>, random: &mut Random) -> Vec<Vec<i64>> {
    for i in (0..vectors.len()).rev() {
        let j = random.index(i + 1);
        vectors.swap(i, j);
        let sign = random.pick(&[-1, 1]);
        vectors[i].iter_mut().for_each(|x| *x *= sign);
    }
    vectors
}

/// One coordinate more, which is 0: a lattice of another m.
pub fn padded(mut vectors: Vec<Vec<i64>>) -> Vec<Vec<i64>> {
    if vectors[0].len() < MOST_COORDINATES {
        vectors.iter_mut().for_each(|v| v.push(0));
    }
    vectors
}

/// Coordinates exchanged and with other signs: the same lengths, most often another lattice.
fn permuted(mut vectors: Vec<Vec<i64>>, random: &mut Random) -> Vec<Vec<i64>> {
    let m = vectors[0].len();
    let (i, j, k) = (random.index(m), random.index(m), random.index(m));
    for v in vectors.iter_mut() {
        v.swap(i, j);
        v[k] = -v[k];
    }
    vectors
}

/// One vector doubled: a part of the lattice.
fn thinned(mut vectors: Vec<Vec<i64>>, random: &mut Random) -> Vec<Vec<i64>> {
    let i = random.index(vectors.len());
    let doubled: Vec<i64> = vectors[i].iter().map(|x| 2 * x).collect();
    if fits(&doubled) {
        vectors[i] = doubled;
    }
    vectors
}

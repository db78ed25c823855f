//! Lattices with many equally near vectors.

use crate::bases::{placed, scrambled, widened};
use crate::random::Random;
use crate::vectors::{rank, square};
use crate::MOST_COORDINATES;

/// A squared length that can be doubled, and the vector then be as many times as long as [`tied`] may make it.
const MOST_DOUBLED: i64 = 13;

/// A lattice with many ties: even multiples of the vectors, so that halves of lattice vectors are whole, some scrambled.
pub fn tied(vectors: Vec<Vec<i64>>, random: &mut Random) -> Vec<Vec<i64>> {
    let scale = random.pick(&[1, 2, 2, 4, 10, 60, 1000, 3800]);
    let large: Vec<Vec<i64>> = vectors
        .iter()
        .map(|v| v.iter().map(|x| x * scale).collect())
        .collect();
    let mut mixed = if random.between(0, 1) == 0 {
        large
    } else {
        scrambled(large, random)
    };
    // any order, any signs
    for i in (1..mixed.len()).rev() {
        let j = random.index(i + 1);
        mixed.swap(i, j);
    }
    for v in mixed.iter_mut() {
        if random.between(0, 1) == 0 {
            v.iter_mut().for_each(|x| *x = -*x);
        }
    }
    mixed
}

/// Some of the vectors, at least one.
fn part(mut vectors: Vec<Vec<i64>>, random: &mut Random) -> Vec<Vec<i64>> {
    for _ in 0..random.pick(&[0, 0, 1, 2]) {
        let i = random.index(vectors.len());
        vectors.remove(i);
    }
    vectors
}

/// The same lattice in more coordinates, with zeros behind; short vectors perhaps with each coordinate twice. Most often with the
/// coordinates in any order and with any signs.
fn embedded(vectors: Vec<Vec<i64>>, random: &mut Random) -> Vec<Vec<i64>> {
    let m = vectors[0].len();
    let any = random.between(m as i64, MOST_COORDINATES as i64) as usize;
    let wide = random.pick(&[m, any]);
    let is_short = vectors.iter().all(|v| square(v) <= MOST_DOUBLED);
    let vectors = if is_short && wide >= 2 * m && random.between(0, 1) == 0 {
        let twice = |v: &Vec<i64>| v.iter().flat_map(|&x| [x, x]).collect();
        vectors.iter().map(twice).collect()
    } else {
        vectors
    };
    let vectors = widened(vectors, wide);
    match random.between(0, 2) {
        0 => vectors,
        _ => placed(vectors, random),
    }
}

/// Hexagonal layers in the plane where the coordinates sum to 0, stacked along other directions.
pub fn hexagonal(random: &mut Random) -> Vec<Vec<i64>> {
    let height = random.pick(&[1, 1, 2, 3]);
    let mut vectors = vec![vec![1, -1, 0], vec![0, 1, -1]];
    match random.between(0, 3) {
        0 => {}
        1 => vectors.push(vec![height; 3]),
        _ => {
            vectors.iter_mut().for_each(|v| v.push(0));
            match random.between(0, 2) {
                0 => vectors.push(vec![0, 0, 1, -1]),
                1 => vectors.push(vec![0, 0, 0, height]),
                _ => vectors.extend([vec![height, height, height, 0], vec![0, 0, 0, height]]),
            }
        }
    }
    tied(embedded(vectors, random), random)
}

/// A centred cubic lattice in three coordinates or more, with or without a fourth vector.
pub fn centred(vectors: [[i64; 3]; 3], random: &mut Random) -> Vec<Vec<i64>> {
    let mut all: Vec<Vec<i64>> = vectors.iter().map(|v| v.to_vec()).collect();
    if random.between(0, 2) == 0 {
        all.iter_mut().for_each(|v| v.push(0));
        if random.between(0, 1) == 0 {
            all.push(vec![0, 0, 0, random.pick(&[1, 2, 3])]);
        }
    }
    tied(embedded(all, random), random)
}

/// The lattice D4 or its dual, or part of it.
pub fn checkerboard(random: &mut Random) -> Vec<Vec<i64>> {
    let root = [[1, 1, 0, 0], [1, -1, 0, 0], [0, 1, -1, 0], [0, 0, 1, -1]];
    let dual = [[2, 0, 0, 0], [0, 2, 0, 0], [0, 0, 2, 0], [1, 1, 1, 1]];
    let whole = random.pick(&[root, dual]).map(|v| v.to_vec()).to_vec();
    tied(embedded(part(whole, random), random), random)
}

/// The lattice A4 in five coordinates or more, or its dual five times as large, or part of it.
pub fn simplex(random: &mut Random) -> Vec<Vec<i64>> {
    let difference = |i: usize, j: usize| unit_sum(5, &[(i, 1), (j, -1)]);
    let root: Vec<Vec<i64>> = (0..4).map(|i| difference(i, i + 1)).collect();
    let dual = |i: usize| (0..5).map(|j| if i == j { 4 } else { -1 }).collect();
    let whole = match random.between(0, 2) {
        0 => (0..4).map(dual).collect(),
        1 => (0..4).map(|i| difference(i, 4)).collect(),
        _ => root,
    };
    tied(embedded(part(whole, random), random), random)
}

/// Part of the lattice E8, in doubled coordinates: up to four of its shortest and next vectors. Of fewer than eight coordinates, the same
/// of twice the lattice of whole vectors with an even sum.
pub fn section(random: &mut Random) -> Vec<Vec<i64>> {
    let m = random.pick(&[5, 6, 7, 8, 8, 8]);
    let d = random.pick(&[2, 3, 4, 4]);
    let mut vectors: Vec<Vec<i64>> = vec![];
    while vectors.len() < d {
        vectors.push(short_vector(m, random));
        if rank(&vectors) < vectors.len() {
            vectors.pop();
        }
    }
    tied(vectors, random)
}

/// Of squared length 8 or 16: (2,2,0…), all ones with an even number of signs, (4,0…), (2,2,2,2,0…), or (3,1,1,1,1,1,1,1) with an odd
/// number of signs, up to order and signs.
fn short_vector(m: usize, random: &mut Random) -> Vec<i64> {
    let few = |places: &[(usize, i64)]| unit_sum(m, places);
    let ways = if m == MOST_COORDINATES { 8 } else { 4 };
    let v = match random.index(ways) {
        0 | 1 => few(&[(0, 2), (1, 2)]),
        2 => few(&[(0, 2), (1, 2), (2, 2), (3, 2)]),
        3 => few(&[(0, 4)]),
        7 => vec![3, 1, 1, 1, 1, 1, 1, 1],
        _ => vec![1; 8],
    };
    let is_glue = v[m - 1] == 1;
    let odd = is_glue && v[0] == 3;
    loop {
        let v = placed(vec![v.clone()], random).remove(0);
        let signs = v.iter().filter(|&&x| x < 0).count();
        if !is_glue || (signs % 2 == 1) == odd {
            return v;
        }
    }
}

/// m coordinates, those named with their values, the others 0.
fn unit_sum(m: usize, places: &[(usize, i64)]) -> Vec<i64> {
    let mut v = vec![0; m];
    places.iter().for_each(|&(i, x)| v[i] = x);
    v
}

//! What vectors a lattice has, by going through whole boxes of coefficient lists: slower and plainer than the search.

use crate::vectors::{combination, minus, rank, square, squared_volume};

/// The determinant of the inner products without vector i, and with all.
fn volumes(basis: &[Vec<i64>], i: usize) -> (i128, i128) {
    let mut others = basis.to_vec();
    others.remove(i);
    (squared_volume(&others, None), squared_volume(basis, None))
}

/// For each vector the most its coefficient can be in a combination of squared length at most r: x² ≤ r·|dual vector|².
fn bounds(basis: &[Vec<i64>], r: i64) -> Vec<i64> {
    (0..basis.len())
        .map(|i| {
            let (without, with) = volumes(basis, i);
            (0..)
                .take_while(|&x| x as i128 * x as i128 * with <= r as i128 * without)
                .last()
                .unwrap()
        })
        .collect()
}

/// Every list within the bounds, least first.
pub fn lists(bounds: &[i64]) -> Vec<Vec<i64>> {
    let mut all = vec![vec![]];
    for &b in bounds {
        all = all
            .iter()
            .flat_map(|l: &Vec<i64>| (-b..=b).map(move |x| [&l[..], &[x]].concat()))
            .collect();
    }
    all
}

fn small(bounds: &[i64]) -> bool {
    bounds.iter().map(|&b| 2 * b as i128 + 1).product::<i128>() <= 30_000
}

/// The nearest by going through a whole box: a nearest vector is at most twice as long as the target.
pub fn box_nearest(basis: &[Vec<i64>], target: &[i64]) -> Option<(i64, Vec<i64>)> {
    let bounds = bounds(basis, 4 * square(target));
    if !small(&bounds) {
        return None;
    }
    lists(&bounds)
        .into_iter()
        .map(|x| {
            (
                square(&minus(target, 1, &combination(&x, basis, target.len()))),
                x,
            )
        })
        .min()
}

/// The squares of the successive minima, by going through every vector no longer than the longest of the basis.
pub fn minima(basis: &[Vec<i64>]) -> Option<Vec<i64>> {
    let most = basis.iter().map(|b| square(b)).max().unwrap();
    let bounds = bounds(basis, most);
    if !small(&bounds) {
        return None;
    }
    let mut all: Vec<Vec<i64>> = lists(&bounds)
        .iter()
        .map(|x| combination(x, basis, basis[0].len()))
        .collect();
    all.sort_by_key(|v| square(v));
    let mut found: Vec<Vec<i64>> = vec![];
    for v in all {
        found.push(v);
        if rank(&found) < found.len() {
            found.pop();
        }
    }
    Some(found.iter().map(|v| square(v)).collect())
}

//! The nearest vector, by going through every coefficient list that can be as near as the best one so far.

use crate::vectors::{coordinate, minus, square, squared_volume};

/// The nearest found so far: squared distance, then coefficients. The less of two is nearer, or as near with the lesser list.
type Best = Option<(i128, Vec<i64>)>;

/// The least of all coefficient lists whose vector is nearest to the target.
pub fn nearest_coefficients(basis: &[Vec<i64>], target: &[i64]) -> Vec<i64> {
    let mut best = None;
    search(basis, target, &[], &mut best);
    best.unwrap().1
}

/// Goes through the lists that end in `chosen`, the target being what is left after those. For the last vector b of the basis, the
/// squared distance from left − x·b to the span of the other vectors is a parabola in x, and no list with this x is nearer. So x runs
/// from the parabola's lowest place up, and down, until that distance passes the best.
fn search(basis: &[Vec<i64>], left: &[i64], chosen: &[i64], best: &mut Best) {
    let Some((b, others)) = basis.split_last() else {
        let found = (square(left) as i128, chosen.to_vec());
        if best.as_ref().is_none_or(|known| found < *known) {
            *best = Some(found);
        }
        return;
    };
    let (top, bottom) = coordinate(basis, others.len(), left);
    let middle = i64::try_from((2 * top + bottom).div_euclid(2 * bottom)).unwrap();
    for step in [1, -1] {
        let mut x = if step == 1 { middle } else { middle - 1 };
        loop {
            let rest = minus(left, x, b);
            if let Some((known, _)) = best {
                // distance² to the span is volume²(others, rest) / volume²(others)
                if squared_volume(others, Some(&rest)) > *known * squared_volume(others, None) {
                    break;
                }
            }
            let list: Vec<i64> = std::iter::once(x).chain(chosen.iter().copied()).collect();
            search(others, &rest, &list, best);
            x += step;
        }
    }
}

//! The known results of document 01, the limits, and the order of refusals.

use reference::enumeration::lists;
use reference::vectors::{combination, minus, rows, square};
use reference::{member, nearest, reduce, Nearest, Reduction};

fn unit(n: usize) -> Vec<Vec<i64>> {
    (0..n)
        .map(|i| (0..n).map(|j| (i == j) as i64).collect())
        .collect()
}

#[test]
fn p1() {
    let r = reduce(&[-3], 1, 1);
    let one = vec![vec![1]];
    let vectors = vec![vec![-3]];
    assert_eq!(
        r,
        Reduction {
            refusal: 0,
            place: 0,
            vectors,
            u: one.clone(),
            v: one,
            squares: vec![9],
            passes: 0
        }
    );
}

#[test]
fn p2() {
    let r = reduce(&[1, 0, 4, 1], 2, 2);
    assert_eq!(r.vectors, [[1, 0], [0, 1]]);
    assert_eq!(r.u, [[1, 0], [-4, 1]]);
    assert_eq!(r.v, [[1, 0], [4, 1]]);
    assert_eq!(r.squares, [1, 1]);
    assert_eq!(r.passes, 1);
}

#[test]
fn p3_p4() {
    let r = reduce(&[2, 0, 1, 3], 2, 2);
    assert_eq!((r.vectors, r.u), (vec![vec![2, 0], vec![1, 3]], unit(2)));
    assert_eq!(reduce(&[2, 0, -1, 3], 2, 2).vectors, [[2, 0], [1, 3]]);
}

#[test]
fn p5() {
    let r = reduce(&[5, 8, 8, 13], 2, 2);
    assert_eq!(r.vectors, [[0, -1], [-1, 0]]);
    assert_eq!(r.u, [[8, -5], [-13, 8]]);
    assert_eq!(r.passes, 4);
}

#[test]
fn p6() {
    let numbers = [2, 0, 0, 0, 0, 2, 0, 0, 0, 0, 2, 0, 1, 1, 1, 1];
    let r = reduce(&numbers, 4, 4);
    assert_eq!(r.vectors, rows(&numbers, 4));
    assert_eq!(
        (r.u, r.v, r.squares, r.passes),
        (unit(4), unit(4), vec![4; 4], 3)
    );
}

#[test]
fn p7_p8() {
    assert_eq!(reduce(&[0], 1, 1).refusal, 5);
    let r = reduce(&[1, 2, 2, 4], 2, 2);
    assert_eq!(
        r,
        Reduction {
            refusal: 5,
            place: 0,
            vectors: vec![],
            u: vec![],
            v: vec![],
            squares: vec![],
            passes: 0
        }
    );
}

#[test]
fn p9_p10() {
    let n = nearest(&[2, 0, 0, 2], 2, 2, &[1, 1]);
    assert_eq!(
        n,
        Nearest {
            refusal: 0,
            place: 0,
            vector: vec![0, 0],
            coefficients: vec![0, 0],
            tenths: vec![(5, 5), (5, 5)],
            square: 2
        }
    );
    let n = nearest(&[20, 0, 10, 20], 2, 2, &[14, 9]);
    assert_eq!((n.vector, n.square), (vec![20, 0], 117));
    assert_eq!(n.tenths, [(4, 5), (4, 5)]);
}

/// In whole tenths and between them, below zero, and for targets beside the span.
#[test]
fn tenths() {
    let of = |numbers: &[i64], d, m, target: &[i64]| nearest(numbers, d, m, target).tenths;
    assert_eq!(of(&[20, 0, 10, 20], 2, 2, &[14, 8]), [(5, 5), (4, 4)]);
    assert_eq!(of(&[3], 1, 1, &[1]), [(3, 4)]);
    assert_eq!(of(&[3], 1, 1, &[-1]), [(-4, -3)]);
    assert_eq!(of(&[-3], 1, 1, &[6]), [(-20, -20)]);
    assert_eq!(of(&[0, 10], 1, 2, &[7, -1]), [(-1, -1)]);
    assert_eq!(of(&[1, 1], 1, 2, &[1, -1]), [(0, 0)]);
    assert_eq!(of(&[1, 1, 0, 0, 1, 1], 2, 3, &[1, 1, 1]), [(6, 7); 2]);
    assert_eq!(of(&[1], 1, 1, &[20_000]), [(200_000, 200_000)]);
    assert_eq!(of(&[1], 1, 1, &[]), []);
}

/// The lattice A4, in five coordinates: each root that follows is as near to its sum with those before as to itself.
#[test]
fn five_coordinates() {
    let numbers = [
        1, -1, 0, 0, 0, 0, 1, -1, 0, 0, 0, 0, 1, -1, 0, 0, 0, 0, 1, -1,
    ];
    let r = reduce(&numbers, 4, 5);
    let vectors = [
        [1, -1, 0, 0, 0],
        [1, 0, -1, 0, 0],
        [1, 0, 0, -1, 0],
        [1, 0, 0, 0, -1],
    ];
    assert_eq!(r.vectors, vectors);
    assert_eq!(r.u, [[1, 0, 0, 0], [1, 1, 0, 0], [1, 1, 1, 0], [1; 4]]);
    assert_eq!(
        r.v,
        [[1, 0, 0, 0], [-1, 1, 0, 0], [0, -1, 1, 0], [0, 0, -1, 1]]
    );
    assert_eq!((r.squares, r.passes), (vec![2; 4], 3));
    // a deep hole of five times the lattice: ten vectors are as near
    let times: Vec<i64> = vectors.concat().iter().map(|x| 5 * x).collect();
    let n = nearest(&times, 4, 5, &[3, 3, -2, -2, -2]);
    assert_eq!(
        (n.vector, n.coefficients, n.square),
        (vec![0, 5, 0, 0, -5], vec![-1, 0, 0, 1], 30)
    );
    assert_eq!(n.tenths, [(-6, -6), (4, 4), (4, 4), (4, 4)]);
}

/// Four vectors of the lattice E8 in doubled coordinates, with the inner products of twice those of p6.
const EIGHT: [i64; 32] = [
    2, 2, 0, 0, 0, 0, 0, 0, 0, 0, 2, 2, 0, 0, 0, 0, 0, 0, 0, 0, 2, 2, 0, 0, 1, 1, 1, 1, 1, 1, 1, 1,
];

#[test]
fn eight_coordinates() {
    let r = reduce(&EIGHT, 4, 8);
    assert_eq!(r.vectors, rows(&EIGHT, 8));
    assert_eq!(
        (r.u, r.v, r.squares, r.passes),
        (unit(4), unit(4), vec![8; 4], 3)
    );
    // one with the coefficients 1, 1, 1 and -1, and one beside the span
    assert_eq!(member(&EIGHT, 4, 8, &[1, 1, 1, 1, 1, 1, -1, -1]), Ok(true));
    assert_eq!(member(&EIGHT, 4, 8, &[1, 1, 1, 1, 1, -1, 1, -1]), Ok(false));
    // in the span, and half of a vector of the lattice
    assert_eq!(member(&EIGHT, 4, 8, &[1, 1, 1, 1, 0, 0, 0, 0]), Ok(false));
    // as near to the last vector as to the one with 1, 1, 1 and -1
    let n = nearest(&EIGHT, 4, 8, &[1, 1, 1, 1, 1, 1, -1, 1]);
    assert_eq!(
        (n.vector, n.coefficients, n.square),
        (vec![1; 8], vec![0, 0, 0, 1], 4)
    );
    assert_eq!(n.tenths, [(5, 5), (5, 5), (5, 5), (0, 0)]);
}

/// Vectors that are the same but for the last of eight coordinates are independent.
#[test]
fn the_last_coordinate_counts() {
    let mut numbers = [1; 16];
    assert_eq!(reduce(&numbers, 2, 8).refusal, 5);
    numbers[15] = 2;
    let r = reduce(&numbers, 2, 8);
    assert_eq!((r.refusal, r.squares), (0, vec![1, 7]));
    let fourfold: Vec<i64> = (0..32).map(|i| (i / 8 == i % 8 - 4) as i64).collect();
    assert_eq!(reduce(&fourfold, 4, 8).vectors, rows(&fourfold, 8));
}

#[test]
fn lengths() {
    assert_eq!(reduce(&[20_000], 1, 1).refusal, 0);
    assert_eq!(reduce(&[20_001], 1, 1).refusal, 4);
    assert_eq!(reduce(&[20_000, 1], 1, 2).refusal, 4);
    assert_eq!(reduce(&[10_000; 4], 1, 4).refusal, 0);
    let mut eight = [6_000, 8_000, 6_000, 8_000, 6_000, 8_000, 6_000, 8_000];
    assert_eq!(reduce(&eight, 1, 8).refusal, 0);
    eight[7] += 1;
    assert_eq!(reduce(&eight, 1, 8).refusal, 4);
    assert_eq!(
        reduce(&[10_000, 10_000, 10_000, 10_000, 1], 1, 5).refusal,
        4
    );
    assert_eq!(reduce(&[i64::MIN], 1, 1).refusal, 4);
}

#[test]
fn the_catalogue_in_full() {
    let r = reduce(&[1, 0, 4, 1], 2, 2);
    assert_eq!((r.vectors, r.passes), (vec![vec![1, 0], vec![0, 1]], 1));
    let r = reduce(&[2, 0, 0, 3], 2, 2);
    assert_eq!((r.vectors, r.passes), (vec![vec![2, 0], vec![0, 3]], 1));
    assert_eq!(reduce(&[0, 1, 1, 0], 2, 2).passes, 1);
}

/// Two equally near vectors that differ by a list of sizes 2, 1, 1.
#[test]
fn a_tie_beyond_the_table() {
    let numbers = [1, 1, 0, 1, 0, 1, 1, 0, -1];
    assert_eq!(reduce(&numbers, 3, 3).u, unit(3));
    let n = nearest(&numbers, 3, 3, &[0, -1, 0]);
    assert_eq!(
        (n.coefficients, n.vector, n.square),
        (vec![-2, 1, 1], vec![0, -2, 0], 1)
    );
}

/// Four reduced vectors where no list of −1, 0, 1 is nearer than zero, and another list is.
#[test]
fn four_vectors() {
    let numbers = [10, 10, 0, 0, 10, -10, 0, 0, 0, 0, 10, 10, 10, 0, 10, 0];
    let target = [0, 0, 6, -6];
    assert_eq!(reduce(&numbers, 4, 4).u, unit(4));
    let n = nearest(&numbers, 4, 4, &target);
    assert_eq!((n.square, n.coefficients), (32, vec![-1, -1, -1, 2]));
    let nearer = |x: &Vec<i64>| {
        square(&minus(&target, 1, &combination(x, &rows(&numbers, 4), 4))) < square(&target)
    };
    assert!(!lists(&[1; 4]).iter().any(nearer));
}

#[test]
fn the_first_refusal_is_given() {
    let far = [30_000; 7];
    assert_eq!(nearest(&far, 0, 0, &[]).refusal, 1);
    assert_eq!(nearest(&far, 5, 0, &[]).refusal, 1);
    assert_eq!(nearest(&far, 4, 0, &[]).refusal, 2);
    assert_eq!(nearest(&far, 4, 9, &[]).refusal, 2);
    assert_eq!(nearest(&far, 4, 8, &[]).refusal, 3);
    assert_eq!(nearest(&far, 5, 9, &[]).refusal, 1);
    assert_eq!(nearest(&far, 2, 3, &[]).refusal, 3);
    assert_eq!(nearest(&far, 7, 1, &[]).refusal, 1);
    assert_eq!(nearest(&far[..6], 2, 3, &[]).refusal, 4);
    assert_eq!(nearest(&[1; 6], 2, 3, &[]).refusal, 5);
    assert_eq!(nearest(&[1; 2], 2, 1, &[]).refusal, 5);
    assert_eq!(nearest(&[1; 3], 1, 3, &[30_000; 2]).refusal, 6);
    assert_eq!(nearest(&[1; 3], 1, 3, &[20_000, 1, 0]).refusal, 7);
    assert_eq!(nearest(&[1; 3], 1, 3, &[0, 0, i64::MIN]).refusal, 7);
    assert_eq!(nearest(&[1; 3], 1, 3, &[20_000, 0, 0]).refusal, 0);
    assert_eq!(nearest(&[1; 8], 1, 8, &[1; 7]).refusal, 6);
    assert_eq!(nearest(&[1; 8], 1, 8, &[7_072; 8]).refusal, 7);
    assert_eq!(nearest(&[1; 8], 1, 8, &[7_071; 8]).refusal, 0);
}

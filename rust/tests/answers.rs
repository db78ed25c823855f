//! Answers with Rust's types: rows as long as d and m say, and refusals.

use raghymtos::{member, nearest, reduce, Refusal, MOST_COORDINATES, MOST_VECTORS};

#[test]
fn rows_of_a_reduction() {
    let r = reduce(&[5, 8, 8, 13], 2, 2).unwrap();
    assert_eq!((r.d(), r.m(), r.passes()), (2, 2, 4));
    assert_eq!(r.vectors().collect::<Vec<_>>(), [[0, -1], [-1, 0]]);
    assert_eq!(r.u().collect::<Vec<_>>(), [[8, -5], [-13, 8]]);
    assert_eq!(r.v().collect::<Vec<_>>(), [[-8, -5], [-13, -8]]);
    assert_eq!(r.squares(), [1, 1]);
    assert_eq!(r.vectors().len(), 2);
}

#[test]
fn fewer_vectors_than_coordinates() {
    let r = reduce(&[0, 3, 4], 1, 3).unwrap();
    assert_eq!(r.vectors().collect::<Vec<_>>(), [[0, 3, 4]]);
    assert_eq!((r.u().next(), r.squares()), (Some(&[1][..]), &[25][..]));
    let n = nearest(&[0, 3, 4], 1, 3, &[7, 6, 8]).unwrap();
    assert_eq!(
        (n.vector(), n.coefficients(), n.square()),
        (&[0, 6, 8][..], &[2][..], 49)
    );
    assert_eq!(n.tenths(), [20]);
}

/// The lattice A4: four vectors of five coordinates.
const A4: [i64; 20] = [
    1, -1, 0, 0, 0, 0, 1, -1, 0, 0, 0, 0, 1, -1, 0, 0, 0, 0, 1, -1,
];

#[test]
fn five_coordinates() {
    let r = reduce(&A4, 4, 5).unwrap();
    let vectors = [
        [1, -1, 0, 0, 0],
        [1, 0, -1, 0, 0],
        [1, 0, 0, -1, 0],
        [1, 0, 0, 0, -1],
    ];
    assert_eq!(r.vectors().collect::<Vec<_>>(), vectors);
    let u = [[1, 0, 0, 0], [1, 1, 0, 0], [1, 1, 1, 0], [1, 1, 1, 1]];
    assert_eq!(r.u().collect::<Vec<_>>(), u);
    let v = [[1, 0, 0, 0], [-1, 1, 0, 0], [0, -1, 1, 0], [0, 0, -1, 1]];
    assert_eq!(r.v().collect::<Vec<_>>(), v);
    assert_eq!(
        (r.d(), r.m(), r.passes(), r.squares()),
        (4, 5, 3, &[2; 4][..])
    );
    // ten vectors of five times the lattice are as near
    let n = nearest(&A4.map(|x| 5 * x), 4, 5, &[3, 3, -2, -2, -2]).unwrap();
    assert_eq!(
        (n.vector(), n.coefficients(), n.square()),
        (&[0, 5, 0, 0, -5][..], &[-1, 0, 0, 1][..], 30)
    );
    assert_eq!(n.tenths(), [-6, 4, 4, 4]);
}

/// Four vectors of the lattice E8 in doubled coordinates.
const E8: [i64; 32] = [
    2, 2, 0, 0, 0, 0, 0, 0, 0, 0, 2, 2, 0, 0, 0, 0, 0, 0, 0, 0, 2, 2, 0, 0, 1, 1, 1, 1, 1, 1, 1, 1,
];

#[test]
fn eight_coordinates() {
    let r = reduce(&E8, 4, 8).unwrap();
    assert_eq!(r.vectors().collect::<Vec<_>>().concat(), E8);
    assert_eq!((r.passes(), r.squares()), (3, &[8; 4][..]));
    assert!(r.u().eq(r.v()) && r.u().next() == Some(&[1, 0, 0, 0]));
    let n = nearest(&E8, 4, 8, &[1, 1, 1, 1, 1, 1, -1, 1]).unwrap();
    assert_eq!(
        (n.vector(), n.coefficients(), n.square()),
        (&[1; 8][..], &[0, 0, 0, 1][..], 4)
    );
    assert_eq!(n.tenths(), [5, 5, 5, 0]);
}

/// As many vectors as coordinates up to four, then more coordinates.
#[test]
fn every_width() {
    for m in 1..=MOST_COORDINATES {
        let d = m.min(MOST_VECTORS);
        // d vectors with 2 in the last places
        let numbers: Vec<i64> = (0..d * m)
            .map(|i| 2 * (i % m == m - d + i / m) as i64)
            .collect();
        let r = reduce(&numbers, d, m).unwrap();
        assert_eq!(r.vectors().collect::<Vec<_>>().concat(), numbers, "{m}");
        assert_eq!(r.vectors().map(<[i64]>::len).max(), Some(m));
        let mut target = vec![0; m];
        target[m - 1] = 5;
        let n = nearest(&numbers, d, m, &target).unwrap();
        assert_eq!((n.vector()[m - 1], n.vector().len()), (4, m), "{m}");
        assert_eq!(n.coefficients()[d - 1], 2, "{m}");
        assert_eq!((n.tenths()[d - 1], n.tenths().len()), (25, d), "{m}");
        assert_eq!(member(&numbers, d, m, &target), Ok(false), "{m}");
        target[m - 1] = 6;
        assert_eq!(member(&numbers, d, m, &target), Ok(true), "{m}");
    }
    let nine = [1; MOST_COORDINATES + 1];
    assert_eq!(reduce(&nine, 1, 9), Err(Refusal::Coordinates));
    assert_eq!(nearest(&nine, 1, 9, &nine), Err(Refusal::Coordinates));
    assert_eq!(member(&nine, 1, 9, &nine), Err(Refusal::Coordinates));
}

/// Less than a tenth away, from below or from above; where the solution is in whole tenths, there is only one such number.
#[test]
fn tenths() {
    let of = |numbers: &[i64], target: i64| nearest(numbers, 1, 1, &[target]).unwrap().tenths()[0];
    assert!([3, 4].contains(&of(&[3], 1)));
    assert!([-4, -3].contains(&of(&[3], -1)));
    assert_eq!((of(&[10], 3), of(&[10], -3), of(&[-10], 3)), (3, -3, -3));
    assert_eq!(of(&[1], 20_000), 200_000);
    // beside the span
    let n = nearest(&[0, 10], 1, 2, &[7, -1]).unwrap();
    assert_eq!(n.tenths(), [-1]);
}

#[test]
fn members() {
    let d4 = [2, 0, 0, 0, 0, 2, 0, 0, 0, 0, 2, 0, 1, 1, 1, 1];
    assert_eq!(member(&d4, 4, 4, &[1, 1, 1, -1]), Ok(true));
    assert_eq!(member(&d4, 4, 4, &[1, 1, 1, 0]), Ok(false));
    assert_eq!(member(&[0, 3, 4], 1, 3, &[0, 6, 9]), Ok(false));
    assert_eq!(member(&E8, 4, 8, &[1, 1, 1, 1, 1, 1, -1, -1]), Ok(true));
    // beside the span
    assert_eq!(member(&E8, 4, 8, &[1, 1, 1, 1, 1, -1, 1, -1]), Ok(false));
    // in the span, half of a vector of the lattice
    assert_eq!(member(&E8, 4, 8, &[1, 1, 1, 1, 0, 0, 0, 0]), Ok(false));
    assert_eq!(member(&A4, 4, 5, &[4, -1, -1, -1, -1]), Ok(true));
    assert_eq!(member(&A4, 4, 5, &[4, -1, -1, -1, 0]), Ok(false));
}

#[test]
fn refused() {
    assert_eq!(member(&[0], 1, 1, &[0]), Err(Refusal::Dependent));
    assert_eq!(member(&[1], 1, 1, &[1, 1]), Err(Refusal::TargetCount));
    assert_eq!(reduce(&[], 0, 1), Err(Refusal::Vectors));
    assert_eq!(reduce(&[1], 1, usize::MAX), Err(Refusal::Coordinates));
    assert_eq!(reduce(&[1, 2], 1, 1), Err(Refusal::Count));
    assert_eq!(reduce(&[i64::MIN], 1, 1), Err(Refusal::TooLong));
    assert_eq!(reduce(&[0], 1, 1), Err(Refusal::Dependent));
    assert_eq!(nearest(&[1], 1, 1, &[]), Err(Refusal::TargetCount));
    assert_eq!(nearest(&[1], 1, 1, &[20_001]), Err(Refusal::TargetTooLong));
    assert_eq!(Refusal::Dependent.to_string(), "the vectors are dependent");
}

//! What the answers promise, and that the inputs cover what they name.

use reference::cases::{case, cases, Kind, ACCEPTED, KINDS};
use reference::enumeration::{box_nearest, lists, minima};
use reference::random::Random;
use reference::vectors::{combination, coordinate, dot, minus, rank, rows, square, squared_volume};
use reference::{nearest, reduce, MOST_COORDINATES, MOST_SQUARE, MOST_VECTORS};

/// Counts for each d and m.
type Sizes = [[u64; MOST_COORDINATES + 1]; MOST_VECTORS + 1];

/// Whether there are more than so many for each m, and for each d that is not above it.
fn all_above(sizes: &Sizes, least: u64) -> bool {
    (1..=MOST_COORDINATES).all(|m| (1..=m.min(MOST_VECTORS)).all(|d| sizes[d][m] > least))
}

fn unit(n: usize) -> Vec<Vec<i64>> {
    (0..n)
        .map(|i| (0..n).map(|j| (i == j) as i64).collect())
        .collect()
}

/// A table times a list of vectors, in wider numbers.
fn times(table: &[Vec<i64>], vectors: &[Vec<i64>]) -> Vec<Vec<i128>> {
    let at = |row: &Vec<i64>, j: usize| {
        row.iter()
            .zip(vectors)
            .map(|(&x, v)| x as i128 * v[j] as i128)
            .sum()
    };
    table
        .iter()
        .map(|row| (0..vectors[0].len()).map(|j| at(row, j)).collect())
        .collect()
}

fn wide(vectors: &[Vec<i64>]) -> Vec<Vec<i128>> {
    vectors
        .iter()
        .map(|v| v.iter().map(|&x| x as i128).collect())
        .collect()
}

#[test]
fn rank_agrees_with_the_volume() {
    let mut random = Random::new(3);
    for i in 0..20_000 {
        let c = case(KINDS[i % (ACCEPTED + 1)], &mut random);
        let vectors = rows(&c.numbers, c.m);
        assert_eq!(
            rank(&vectors) < c.d,
            squared_volume(&vectors, None) == 0,
            "{c:?}"
        );
    }
}

#[test]
fn tables_and_lengths() {
    let mut accepted = 0;
    for c in cases(1, 30_000) {
        let r = reduce(&c.numbers, c.d, c.m);
        if r.refusal != 0 {
            continue;
        }
        accepted += 1;
        let inputs = rows(&c.numbers, c.m);
        assert_eq!(times(&r.u, &inputs), wide(&r.vectors), "{c:?}");
        assert_eq!(times(&r.v, &r.vectors), wide(&inputs), "{c:?}");
        assert!(
            r.squares.windows(2).all(|s| s[0] <= s[1]) && r.squares[c.d - 1] <= MOST_SQUARE,
            "{c:?}"
        );
        assert!(
            r.u.iter()
                .chain(&r.v)
                .flatten()
                .all(|x| x.abs() <= 160_000_000_000_000_000),
            "{c:?}"
        );
        let again = reduce(&r.vectors.concat(), c.d, c.m);
        assert_eq!((again.vectors, again.u), (r.vectors, unit(c.d)), "{c:?}");
    }
    assert!(accepted > 15_000);
}

#[test]
fn squares_are_the_successive_minima() {
    let mut tried = Sizes::default();
    for c in cases(2, 12_000) {
        let r = reduce(&c.numbers, c.d, c.m);
        if r.refusal != 0 {
            continue;
        }
        if let Some(known) = minima(&r.vectors) {
            assert_eq!(r.squares, known, "{c:?}");
            tried[c.d][c.m] += 1;
        }
    }
    assert!(all_above(&tried, 20), "{tried:?}");
}

#[test]
fn nearest_is_the_least_of_a_box() {
    let mut tried = Sizes::default();
    for c in cases(4, 24_000) {
        let n = nearest(&c.numbers, c.d, c.m, &c.target);
        if n.refusal != 0 {
            continue;
        }
        let basis = reduce(&c.numbers, c.d, c.m).vectors;
        if let Some(known) = box_nearest(&basis, &c.target) {
            assert_eq!((n.square, &n.coefficients), (known.0, &known.1), "{c:?}");
            assert_eq!(n.vector, combination(&n.coefficients, &basis, c.m), "{c:?}");
            tried[c.d][c.m] += 1;
        }
    }
    assert!(all_above(&tried, 20), "{tried:?}");
}

/// Held modulo a prime, since the products pass 128 bits.
#[test]
fn the_solution_solves_its_system() {
    const PRIME: i128 = (1 << 61) - 1;
    let mut tried = Sizes::default();
    let (mut one, mut two) = (Sizes::default(), Sizes::default());
    for c in cases(6, 24_000) {
        let n = nearest(&c.numbers, c.d, c.m, &c.target);
        if n.refusal != 0 {
            assert_eq!(n.tenths, [], "{c:?}");
            continue;
        }
        tried[c.d][c.m] += 1;
        let basis = reduce(&c.numbers, c.d, c.m).vectors;
        let solution: Vec<(i128, i128)> =
            (0..c.d).map(|i| coordinate(&basis, i, &c.target)).collect();
        let bottom = solution[0].1;
        assert!(bottom > 0, "{c:?}");
        for b in &basis {
            let sum: i128 = solution
                .iter()
                .zip(&basis)
                .map(|((top, _), a)| top % PRIME * dot(a, b) as i128 % PRIME)
                .sum();
            let wanted = bottom % PRIME * dot(&c.target, b) as i128;
            assert_eq!((sum - wanted) % PRIME, 0, "{c:?}");
        }
        assert_eq!(n.tenths.len(), c.d, "{c:?}");
        for (&(low, high), &(top, bottom)) in n.tenths.iter().zip(&solution) {
            // both are less than a tenth away, the next ones are not
            let near = |s: i64| (s as i128 * bottom - 10 * top).abs() < bottom;
            let all = [low - 1, low, high, high + 1].map(near);
            assert_eq!(all, [false, true, true, false], "{c:?}");
            one[c.d][c.m] += (low == high) as u64;
            two[c.d][c.m] += (low + 1 == high) as u64;
        }
    }
    for sizes in [tried, one, two] {
        assert!(all_above(&sizes, 20), "{sizes:?}");
    }
}

#[test]
fn inputs_cover_what_they_name() {
    let mut refusals = [0; 8];
    let mut sizes = Sizes::default();
    let (mut ties, mut holes, mut inside, mut outside, mut longest) = ([0; 2], [0; 2], 0, 0, 0);
    for c in cases(5, 28_000) {
        let n = nearest(&c.numbers, c.d, c.m, &c.target);
        refusals[n.refusal as usize] += 1;
        if c.kind == Kind::Dependent {
            assert_eq!(n.refusal, 5, "{c:?}");
        }
        if KINDS[..ACCEPTED].contains(&c.kind) {
            assert!([0, 5].contains(&n.refusal), "{c:?}");
        }
        if n.refusal != 0 {
            continue;
        }
        sizes[c.d][c.m] += 1;
        inside += (n.square == 0) as u64;
        longest += (square(&c.target) == MOST_SQUARE) as u64;
        let with_target = [rows(&c.numbers, c.m), vec![c.target.clone()]].concat();
        outside += (rank(&with_target) > c.d) as u64;
        // a tie: another list as near, one step away; in a hole, d others
        let basis = reduce(&c.numbers, c.d, c.m).vectors;
        let tied = |e: &Vec<i64>| {
            let v = combination(e, &basis, c.m);
            square(&v) != 0 && square(&minus(&minus(&c.target, 1, &n.vector), 1, &v)) == n.square
        };
        let others = lists(&vec![1; c.d]).iter().filter(|e| tied(e)).count();
        let is_wide = (c.m > 4) as usize;
        ties[is_wide] += (others > 0) as u64;
        holes[is_wide] += (c.d > 1 && others >= c.d) as u64;
    }
    assert!(refusals.iter().all(|&n| n > 50), "{refusals:?}");
    assert!(all_above(&sizes, 50), "{sizes:?}");
    assert!(ties.iter().all(|&n| n > 1_000), "{ties:?}");
    assert!(holes.iter().all(|&n| n > 300), "{holes:?}");
    assert!(
        inside > 1_000 && outside > 1_000 && longest > 300,
        "{inside} {outside} {longest}"
    );
}

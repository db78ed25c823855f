//! Vectors of whole numbers, exactly.

use crate::MOST_VECTORS;

pub fn rows(numbers: &[i64], m: usize) -> Vec<Vec<i64>> {
    numbers.chunks(m).map(|v| v.to_vec()).collect()
}

pub fn dot(a: &[i64], b: &[i64]) -> i64 {
    a.iter().zip(b).map(|(x, y)| x * y).sum()
}

pub fn square(v: &[i64]) -> i64 {
    dot(v, v)
}

/// a − x·b
pub fn minus(a: &[i64], x: i64, b: &[i64]) -> Vec<i64> {
    a.iter().zip(b).map(|(p, q)| p - x * q).collect()
}

/// a + x·b
pub fn plus(a: &[i64], x: i64, b: &[i64]) -> Vec<i64> {
    minus(a, -x, b)
}

pub fn combination(x: &[i64], basis: &[Vec<i64>], m: usize) -> Vec<i64> {
    let mut sum = vec![0; m];
    for (i, b) in basis.iter().enumerate() {
        sum = plus(&sum, x[i], b);
    }
    sum
}

/// The coefficients of a lattice vector.
pub fn coordinates(basis: &[Vec<i64>], v: &[i64]) -> Vec<i64> {
    (0..basis.len())
        .map(|i| {
            let (top, bottom) = coordinate(basis, i, v);
            assert!(top % bottom == 0, "not in the lattice");
            i64::try_from(top / bottom).unwrap()
        })
        .collect()
}

/// Coefficient i of the projection of v to the span, as a fraction.
pub fn coordinate(basis: &[Vec<i64>], i: usize, v: &[i64]) -> (i128, i128) {
    coefficient(basis, i, |k| dot(&basis[k], v))
}

/// Coefficient i of the vector of the span that has these inner products with the basis, as a fraction, by Cramer's rule.
pub fn coefficient(basis: &[Vec<i64>], i: usize, product: impl Fn(usize) -> i64) -> (i128, i128) {
    let n = basis.len();
    let mut g = gram(basis);
    let bottom = determinant(&g, n);
    for (k, row) in g.iter_mut().enumerate().take(n) {
        row[i] = product(k) as i128;
    }
    (determinant(&g, n), bottom)
}

/// The determinant of the inner products of the vectors, one more vector among them where given. Of no vector it is 1.
pub fn squared_volume(vectors: &[Vec<i64>], more: Option<&[i64]>) -> i128 {
    let mut all = vectors.to_vec();
    all.extend(more.map(|v| v.to_vec()));
    determinant(&gram(&all), all.len())
}

type Matrix = [[i128; MOST_VECTORS]; MOST_VECTORS];

fn gram(vectors: &[Vec<i64>]) -> Matrix {
    let mut g = [[0; MOST_VECTORS]; MOST_VECTORS];
    for (i, a) in vectors.iter().enumerate() {
        for (j, b) in vectors.iter().enumerate() {
            g[i][j] = dot(a, b) as i128;
        }
    }
    g
}

/// The determinant of the first n rows and columns, by expansion along the first row.
fn determinant(a: &Matrix, n: usize) -> i128 {
    if n == 0 {
        return 1;
    }
    let mut sum = 0;
    for j in 0..n {
        let mut minor = [[0; MOST_VECTORS]; MOST_VECTORS];
        for i in 1..n {
            for k in 0..n - 1 {
                minor[i - 1][k] = a[i][if k < j { k } else { k + 1 }];
            }
        }
        let term = a[0][j] * determinant(&minor, n - 1);
        sum += if j % 2 == 0 { term } else { -term };
    }
    sum
}

/// The rank, by elimination without fractions: each entry stays a minor of the input.
pub fn rank(vectors: &[Vec<i64>]) -> usize {
    let mut a: Vec<Vec<i128>> = vectors
        .iter()
        .map(|v| v.iter().map(|&x| x as i128).collect())
        .collect();
    let m = a[0].len();
    let mut done = 0;
    let mut before = 1;
    for j in 0..m {
        let Some(p) = (done..a.len()).find(|&i| a[i][j] != 0) else {
            continue;
        };
        a.swap(done, p);
        let pivot = a[done].clone();
        for row in a.iter_mut().skip(done + 1) {
            let head = row[j];
            for k in 0..m {
                row[k] = (pivot[j] * row[k] - head * pivot[k]) / before;
            }
        }
        before = pivot[j];
        done += 1;
        if done == a.len() {
            break;
        }
    }
    done
}

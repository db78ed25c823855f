//! The Hermite normal form: two lists of vectors have one lattice exactly when their forms are the same.

type Row = Vec<i128>;

/// Rows in steps: each row's first number that is not 0, its lead, is positive, lies to the right of the one above, and the numbers above
/// it are from 0 to less than it. As many rows as the rank. The form is made anew after each vector, so that no number grows far.
pub fn hermite(vectors: &[Vec<i64>]) -> Vec<Row> {
    vectors.iter().fold(vec![], |form, v| with(form, v))
}

/// The form with one vector more.
pub fn with(mut form: Vec<Row>, vector: &[i64]) -> Vec<Row> {
    insert(&mut form, vector.iter().map(|&x| x.into()).collect());
    for i in (0..form.len()).rev() {
        let (above, below) = form.split_at_mut(i + 1);
        let row = &mut above[i];
        if row[lead(row)] < 0 {
            row.iter_mut().for_each(|x| *x = -*x);
        }
        lessen(row, below);
    }
    form
}

/// Where a row's first number stands that is not 0; behind its end where there is none.
fn lead(row: &Row) -> usize {
    row.iter().position(|&x| x != 0).unwrap_or(row.len())
}

/// Puts a vector among the rows. A row with the same lead gets the greatest common divisor, and what is left of the vector goes on.
fn insert(rows: &mut Vec<Row>, mut v: Row) {
    loop {
        let column = lead(&v);
        if column == v.len() {
            return;
        }
        match rows.binary_search_by_key(&column, lead) {
            Err(i) => {
                rows.insert(i, v);
                return;
            }
            Ok(i) => {
                divide(&mut rows[i], &mut v, column);
                lessen(&mut v, &rows[i + 1..]);
            }
        }
    }
}

/// Euclid's steps on one column: the row gets the greatest common divisor, or its negative, the vector 0.
fn divide(row: &mut Row, v: &mut Row, column: usize) {
    while v[column] != 0 {
        let times = row[column].div_euclid(v[column]);
        subtract(row, times, v);
        std::mem::swap(row, v);
    }
}

/// Takes multiples of rows off, so that the numbers at their leads are from 0 to less than those, which are positive.
fn lessen(row: &mut Row, rows: &[Row]) {
    for other in rows {
        let column = lead(other);
        let times = row[column].div_euclid(other[column]);
        subtract(row, times, other);
    }
}

/// The row less a multiple of another.
fn subtract(row: &mut Row, times: i128, other: &Row) {
    if times != 0 {
        row.iter_mut().zip(other).for_each(|(x, y)| *x -= times * y);
    }
}

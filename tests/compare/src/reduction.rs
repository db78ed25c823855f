//! One reduction: the engine's 71 numbers against the reference's answer, and the tables against the vectors.

use raghymtos::raw::{self, REDUCTION_NUMBERS};
use raghymtos::reduce;
use reference::cases::Case;
use reference::{MOST_COORDINATES, MOST_VECTORS};

use crate::lent::{padded, written};

/// Four rows of so many numbers, zeros in unused places.
type Table<const N: usize> = [[i64; N]; MOST_VECTORS];

/// The refusal's number, or what differs.
pub fn compare(case: &Case) -> Result<usize, String> {
    let out = written(REDUCTION_NUMBERS, |out| {
        raw::reduce(&case.numbers, case.d, case.m, out)
    })?;
    let expected = laid_out(&reference::reduce(&case.numbers, case.d, case.m));
    if out != expected {
        return Err(format!(
            "reduction: the engine gave {out:?}, the reference {expected:?}"
        ));
    }
    wrapped(case, &out)?;
    if out[0] == 0 {
        tables(case, &out)?;
    }
    Ok(out[0] as usize)
}

/// Whether the squared lengths were compared with the successive minima, which are found by enumeration where that is quick.
pub fn minima(case: &Case) -> Result<bool, String> {
    let Ok(r) = reduce(&case.numbers, case.d, case.m) else {
        return Ok(false);
    };
    let vectors: Vec<Vec<i64>> = r.vectors().map(<[i64]>::to_vec).collect();
    match reference::enumeration::minima(&vectors) {
        None => Ok(false),
        Some(known) if known == r.squares() => Ok(true),
        Some(known) => Err(format!(
            "reduction: squared lengths {:?}, successive minima {known:?}",
            r.squares()
        )),
    }
}

/// The reference's answer in the header's order, with zeros in unused places.
fn laid_out(r: &reference::Reduction) -> Vec<i64> {
    let mut all = vec![r.refusal as i64, r.place as i64, r.passes as i64];
    all.extend(padded::<MOST_VECTORS>(&r.squares));
    all.extend(table::<MOST_COORDINATES, _>(&r.vectors).concat());
    all.extend(table::<MOST_VECTORS, _>(&r.u).concat());
    all.extend(table::<MOST_VECTORS, _>(&r.v).concat());
    all
}

/// The rows as a table.
fn table<const N: usize, R: AsRef<[i64]>>(rows: &[R]) -> Table<N> {
    std::array::from_fn(|i| padded(rows.get(i).map_or(&[], |row| row.as_ref())))
}

/// The safe wrapper gives the same answer.
fn wrapped(case: &Case, out: &[i64]) -> Result<(), String> {
    let same = match reduce(&case.numbers, case.d, case.m) {
        Err(refusal) => refusal.number() == out[0],
        Ok(r) => {
            let mut all = vec![0, 0, r.passes() as i64];
            all.extend(padded::<MOST_VECTORS>(r.squares()));
            all.extend(table::<MOST_COORDINATES, _>(&r.vectors().collect::<Vec<_>>()).concat());
            for rows in [r.u(), r.v()] {
                all.extend(table::<MOST_VECTORS, _>(&rows.collect::<Vec<_>>()).concat());
            }
            (r.d(), r.m()) == (case.d, case.m) && all == out
        }
    };
    if same {
        Ok(())
    } else {
        Err("reduction: the Rust wrapper gives another answer".into())
    }
}

/// U times the inputs is the outputs, V times the outputs the inputs.
fn tables(case: &Case, out: &[i64]) -> Result<(), String> {
    let inputs: Table<MOST_COORDINATES> = table(&case.numbers.chunks(case.m).collect::<Vec<_>>());
    let outputs: Table<MOST_COORDINATES> = part(out, 7);
    let (u, v): (Table<MOST_VECTORS>, Table<MOST_VECTORS>) = (part(out, 39), part(out, 55));
    if product(&u, &inputs) != wide(&outputs) {
        return Err("U times the inputs is not the outputs".into());
    }
    if product(&v, &outputs) != wide(&inputs) {
        return Err("V times the outputs is not the inputs".into());
    }
    Ok(())
}

/// The table that stands in an answer from this place on.
fn part<const N: usize>(out: &[i64], at: usize) -> Table<N> {
    table(&out[at..at + MOST_VECTORS * N].chunks(N).collect::<Vec<_>>())
}

fn wide<const N: usize>(t: &Table<N>) -> [[i128; N]; MOST_VECTORS] {
    t.map(|row| row.map(i128::from))
}

fn product<const N: usize>(a: &Table<MOST_VECTORS>, b: &Table<N>) -> [[i128; N]; MOST_VECTORS] {
    let (a, b) = (wide(a), wide(b));
    let at = |i: usize, j: usize| (0..MOST_VECTORS).map(|k| a[i][k] * b[k][j]).sum();
    std::array::from_fn(|i| std::array::from_fn(|j| at(i, j)))
}

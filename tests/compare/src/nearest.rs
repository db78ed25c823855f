//! One nearest vector: the engine's 19 numbers against the reference's answer, in which the tenths are free within their bound.

use raghymtos::nearest;
use raghymtos::raw::{self, NEAREST_NUMBERS};
use reference::cases::Case;
use reference::{MOST_COORDINATES, MOST_VECTORS};

use crate::lent::{padded, written};
use crate::tenths::Tenths;

/// Where the tenths begin and end.
const TENTHS: std::ops::Range<usize> = 7..11;

/// The refusal's number, or what differs.
pub fn compare(case: &Case, tenths: &mut Tenths) -> Result<usize, String> {
    let out = written(NEAREST_NUMBERS, |out| {
        raw::nearest(&case.numbers, case.d, case.m, &case.target, out)
    })?;
    let r = reference::nearest(&case.numbers, case.d, case.m, &case.target);
    let expected = laid_out(&r, &out[TENTHS]);
    if out != expected {
        return Err(format!(
            "nearest: the engine gave {out:?}, the reference {expected:?}"
        ));
    }
    tenths.add(&out[TENTHS], &r.tenths)?;
    wrapped(case, &out)?;
    Ok(out[0] as usize)
}

/// The reference's answer in the header's order, with these tenths, and zeros in unused places.
fn laid_out(r: &reference::Nearest, tenths: &[i64]) -> Vec<i64> {
    let mut all = vec![r.refusal as i64, r.place as i64, r.square];
    all.extend(padded::<MOST_VECTORS>(&r.coefficients));
    all.extend(tenths);
    all.extend(padded::<MOST_COORDINATES>(&r.vector));
    all
}

/// The safe wrapper gives the same answer.
fn wrapped(case: &Case, out: &[i64]) -> Result<(), String> {
    let same = match nearest(&case.numbers, case.d, case.m, &case.target) {
        Err(refusal) => refusal.number() == out[0],
        Ok(n) => {
            let mut all = vec![0, 0, n.square()];
            all.extend(padded::<MOST_VECTORS>(n.coefficients()));
            all.extend(padded::<MOST_VECTORS>(n.tenths()));
            all.extend(padded::<MOST_COORDINATES>(n.vector()));
            all == out
        }
    };
    if same {
        Ok(())
    } else {
        Err("nearest: the Rust wrapper gives another answer".into())
    }
}

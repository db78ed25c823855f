//! One target: whether the engine finds it in the lattice where the reference does.

use raghymtos::member;
use raghymtos::raw::{self, MEMBER_NUMBERS};
use reference::cases::Case;
use reference::fits;

use crate::lent::written;

/// Whether the target is in the lattice, or the refusal's number, or what differs.
fn compare_one(case: &Case, target: &[i64]) -> Result<Result<bool, u64>, String> {
    let out = written(MEMBER_NUMBERS, |out| {
        raw::member(&case.numbers, case.d, case.m, target, out)
    })?;
    let r = reference::member(&case.numbers, case.d, case.m, target);
    let expected = match r {
        Ok(is_member) => [0, 0, is_member as i64],
        Err(refusal) => [refusal as i64, 0, 0],
    };
    if out != expected {
        return Err(format!(
            "member of {target:?}: the engine gave {out:?}, the reference {expected:?}"
        ));
    }
    let wrapped = member(&case.numbers, case.d, case.m, target);
    if wrapped.map_err(|refusal| refusal.number() as u64) != r {
        return Err("member: the Rust wrapper gives another answer".into());
    }
    Ok(r)
}

/// Sums and differences of the vectors, which are in the lattice, and the same with one coordinate changed, any in its turn.
fn made(case: &Case) -> Vec<Vec<i64>> {
    let vectors: Vec<&[i64]> = case.numbers.chunks(case.m).collect();
    let mut all = vec![];
    for (i, v) in vectors.iter().enumerate() {
        let w = vectors[(i + 1) % vectors.len()];
        for times in [-3, -1, 1, 2] {
            let sum: Vec<i64> = v.iter().zip(w).map(|(x, y)| x + times * y).collect();
            let mut beside = sum.clone();
            beside[(i + (times + 3) as usize) % case.m] += 1;
            all.extend([sum, beside].into_iter().filter(|t| fits(t)));
        }
    }
    all
}

/// How many targets were in the lattice, outside, and refused.
pub fn compare(case: &Case, counts: &mut [u64; 3]) -> Result<(), String> {
    let mut targets = vec![case.target.clone()];
    if reference::reduce(&case.numbers, case.d, case.m).refusal == 0 {
        targets.extend(made(case));
    }
    for target in targets {
        let at = match compare_one(case, &target)? {
            Ok(true) => 0,
            Ok(false) => 1,
            Err(_) => 2,
        };
        counts[at] += 1;
    }
    Ok(())
}

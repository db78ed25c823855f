//! Numbers lent to the engine.

/// What stands in the lent numbers before the call.
const MARK: i64 = 0x5555_5555_5555_5555;

/// The n numbers that `write` gives. Those behind them must keep their values, and so must a run that is too short.
pub fn written(n: usize, mut write: impl FnMut(&mut [i64]) -> bool) -> Result<Vec<i64>, String> {
    for room in [0, n / 2, n - 1] {
        let mut short = vec![MARK; room];
        if write(&mut short) || short.iter().any(|&x| x != MARK) {
            return Err(format!("{room} lent numbers were taken, or written to"));
        }
    }
    let mut out = vec![MARK; n + 3];
    if !write(&mut out) {
        return Err(format!("{} lent numbers were refused", n + 3));
    }
    if out[n..].iter().any(|&x| x != MARK) {
        return Err(format!("more than {n} numbers were written"));
    }
    out.truncate(n);
    Ok(out)
}

/// So many numbers, zeros behind those given.
pub fn padded<const N: usize>(row: &[i64]) -> [i64; N] {
    std::array::from_fn(|i| row.get(i).copied().unwrap_or(0))
}

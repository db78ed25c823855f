//! Reductions, nearest vectors and memberships on inputs of every kind.

use reference::cases::{cases, Case, KINDS};

use crate::tenths::Tenths;
use crate::widths::Widths;
use crate::{membership, nearest, reduction};

/// Inputs of one seed: every kind as often as every other.
const BATCH: usize = 1_000 * KINDS.len();
/// One input of so many is compared with the successive minima. Odd to the number of kinds, so that all kinds have their turn.
const SAMPLE: usize = 7;

/// How many inputs were answered, or refused with each number.
#[derive(Default)]
struct Counts {
    reductions: [u64; 8],
    nearest: [u64; 8],
    members: [u64; 3],
    minima: u64,
    /// Inputs whose reduction is answered, and of these such whose nearest vector is.
    reduced: Widths,
    found: Widths,
    tenths: Tenths,
}

impl Counts {
    fn compare(&mut self, case: &Case, is_sample: bool) -> Result<(), String> {
        let reduced = reduction::compare(case)?;
        let found = nearest::compare(case, &mut self.tenths)?;
        self.reductions[reduced] += 1;
        self.nearest[found] += 1;
        if reduced == 0 {
            self.reduced.add(case.m);
        }
        if found == 0 {
            self.found.add(case.m);
        }
        membership::compare(case, &mut self.members)?;
        if is_sample {
            self.minima += reduction::minima(case)? as u64;
        }
        Ok(())
    }

    fn print(&self) {
        let answered =
            |n: &[u64; 8]| format!("{} answered, refused with 1 to 7: {:?}", n[0], &n[1..]);
        println!(
            "reductions as the reference gives them: {}",
            answered(&self.reductions)
        );
        println!(
            "nearest vectors as the reference gives them: {}",
            answered(&self.nearest)
        );
        let [inside, outside, refused] = self.members;
        println!("members as the reference gives them: {inside} in the lattice, {outside} outside, {refused} refused");
        println!(
            "squared lengths as the successive minima are: {}",
            self.minima
        );
    }
}

fn joined(numbers: &[i64]) -> String {
    let words: Vec<String> = numbers.iter().map(i64::to_string).collect();
    words.join(" ")
}

/// Compares so many inputs, from a seed on. What differs is given with the input as a request.
pub fn compare(count: usize, first: u64) -> Result<(), String> {
    let mut counts = Counts::default();
    let mut done = 0;
    let mut seed = first;
    while done < count {
        for (index, case) in cases(seed, BATCH.min(count - done)).iter().enumerate() {
            let compared = counts.compare(case, index % SAMPLE == 0);
            compared.map_err(|what| format!("{what}\n{}", shown(case, seed, index)))?;
            done += 1;
        }
        seed += 1;
    }
    println!("{done} inputs, seeds {first} to {}", seed - 1);
    counts.print();
    counts.reduced.print("inputs reduced", count)?;
    counts.found.print("nearest vectors found", count)?;
    counts.tenths.print(count)
}

/// The input as a request.
fn shown(case: &Case, seed: u64, index: usize) -> String {
    format!(
        "seed {seed}, index {index}, kind {:?}, as a request:\n{} {} ; {} ; {}",
        case.kind,
        case.d,
        case.m,
        joined(&case.numbers),
        joined(&case.target)
    )
}

//! The solution in tenths: each number less than a tenth from the reference's exact solution, and how often that leaves two.

use reference::MOST_VECTORS;

/// So many cases must show numbers with two neighbours, and with one, for each d.
const ENOUGH: usize = 1_000;

/// Counts for each d, from 1 on.
type Sizes = [u64; MOST_VECTORS];

#[derive(Default)]
pub struct Tenths {
    /// Inputs, and of these such in which some number has two neighbours to choose from.
    inputs: Sizes,
    with_two: Sizes,
    /// Numbers with only one, and with two.
    one: Sizes,
    two: Sizes,
    /// Of two the lower was given, or the upper.
    lower: u64,
    upper: u64,
}

impl Tenths {
    /// Holds the four numbers that the engine gave against the neighbours of the exact ones, zeros behind them.
    pub fn add(&mut self, given: &[i64], neighbours: &[(i64, i64)]) -> Result<(), String> {
        let d = neighbours.len();
        let near = given
            .iter()
            .zip(neighbours)
            .all(|(&s, &(low, high))| s == low || s == high);
        if !near || given[d..].iter().any(|&s| s != 0) {
            return Err(format!(
                "nearest: the engine gave the tenths {given:?}, the reference has {neighbours:?}"
            ));
        }
        if d == 0 {
            return Ok(());
        }
        self.inputs[d - 1] += 1;
        self.with_two[d - 1] += neighbours.iter().any(|(low, high)| low < high) as u64;
        for (&s, &(low, high)) in given.iter().zip(neighbours) {
            let is_free = low < high;
            self.one[d - 1] += !is_free as u64;
            self.two[d - 1] += is_free as u64;
            self.lower += (is_free && s == low) as u64;
            self.upper += (is_free && s == high) as u64;
        }
        Ok(())
    }

    /// Prints the counts. A d, or a kind of number for a d, that did not occur is an error, unless there were few cases.
    pub fn print(&self, cases: usize) -> Result<(), String> {
        let sum = |sizes: &Sizes| sizes.iter().sum::<u64>();
        let only_one: Vec<u64> = self
            .inputs
            .iter()
            .zip(self.with_two)
            .map(|(all, two)| all - two)
            .collect();
        println!(
            "tenths less than a tenth from the exact solution: {} numbers with two to choose from (the lower given {}, the upper {}), {} \
             with one, for d from 1 to {MOST_VECTORS}: {:?} and {:?}",
            sum(&self.two),
            self.lower,
            self.upper,
            sum(&self.one),
            self.two,
            self.one
        );
        println!(
            "  inputs with a choice for some number {:?}, for none {only_one:?}",
            self.with_two
        );
        let missed = [&self.with_two[..], &only_one, &self.one, &self.two]
            .iter()
            .any(|sizes| sizes.contains(&0));
        if cases >= ENOUGH && missed {
            return Err("the cases: tenths with a choice, or without, did not occur".into());
        }
        Ok(())
    }
}

//! How often each m occurs.

use reference::MOST_COORDINATES;

/// So many cases must show every m.
const ENOUGH: usize = 1_000;

/// A count for each m, from 1 on.
#[derive(Default)]
pub struct Widths([u64; MOST_COORDINATES]);

impl Widths {
    pub fn add(&mut self, m: usize) {
        self.0[m - 1] += 1;
    }

    /// Adds each m once, however often it comes.
    pub fn add_each(&mut self, all: impl Iterator<Item = usize>) {
        let mut seen = [false; MOST_COORDINATES];
        all.for_each(|m| seen[m - 1] = true);
        (0..MOST_COORDINATES)
            .filter(|&i| seen[i])
            .for_each(|i| self.0[i] += 1);
    }

    /// Prints the counts. An m that did not occur is an error, unless there were few cases.
    pub fn print(&self, of: &str, cases: usize) -> Result<(), String> {
        println!("  {of} with m from 1 to {MOST_COORDINATES}: {:?}", self.0);
        match self.0.iter().position(|&n| n == 0) {
            Some(i) if cases >= ENOUGH => Err(format!("the cases: no {of} with m = {}", i + 1)),
            _ => Ok(()),
        }
    }
}

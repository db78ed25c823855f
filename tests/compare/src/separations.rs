//! What separates two entries of a catalogue, by the library and by the command line, against the reference.

use raghymtos::catalogue::{self as engine, Separation as Given};
use raghymtos::raw::{self, SEPARATION_NUMBERS};
use reference::catalogue::pairs::{pair, Pair};
use reference::catalogue::reader::read;
use reference::catalogue::separation::{separate, Separation};
use reference::catalogue::{Entry, Refused};
use reference::MOST_VECTORS;

use crate::commands::{said, same, same_of_file};
use crate::lent::written;
use crate::widths::Widths;

/// So many pairs must show every case, every position, and 17 for either number.
const ENOUGH: usize = 10_000;

/// Pairs by their answers. Positions count from 0 here.
#[derive(Default)]
struct Counts {
    same: u64,
    different_m: u64,
    different_d: u64,
    first_outside: [u64; MOST_VECTORS],
    second_outside: [u64; MOST_VECTORS],
    /// Refused with 17 for the first number alone, for the second alone, and for both.
    unknown: [u64; 3],
    /// Catalogues that are refused.
    refused: u64,
    /// Of these, with a number that no entry can have, so that 17 would be given if it came first.
    refused_before_17: u64,
    /// Answered pairs with a draft.
    drafts: u64,
    /// Answered pairs, by the m of the first entry.
    widths: Widths,
}

impl Counts {
    fn add(&mut self, pair: &Pair, said: Result<Separation, Refused>) {
        if said.is_ok() {
            let entries = read(&pair.bytes).expect("answered");
            let of = |number: u32| entries.iter().find(|e| e.number == number);
            let [first, second] = [pair.first, pair.second].map(|n| of(n).expect("answered"));
            self.widths.add(first.m());
            self.drafts += (first.draft || second.draft) as u64;
        }
        match said {
            Ok(Separation::Same) => self.same += 1,
            Ok(Separation::DifferentM) => self.different_m += 1,
            Ok(Separation::DifferentD) => self.different_d += 1,
            Ok(Separation::FirstOutside { position, .. }) => self.first_outside[position - 1] += 1,
            Ok(Separation::SecondOutside { position, .. }) => {
                self.second_outside[position - 1] += 1
            }
            Err(_) => match read(&pair.bytes) {
                Ok(entries) => self.unknown[unknown(&entries, pair)] += 1,
                Err(_) => {
                    self.refused += 1;
                    let is_possible = |n: u32| (1..=engine::MOST_NUMBER).contains(&n);
                    let both = is_possible(pair.first) && is_possible(pair.second);
                    self.refused_before_17 += !both as u64;
                }
            },
        }
    }

    fn print(&self) {
        let (first, second) = (self.first_outside, self.second_outside);
        println!(
            "{} pairs of entries as the reference separates them: same lattice {}, different m {}, different d {}, a vector of the first \
             outside {} (at positions 1 to 4: {first:?}), of the second {} (at positions 1 to 4: {second:?})",
            self.total(),
            self.same,
            self.different_m,
            self.different_d,
            first.iter().sum::<u64>(),
            second.iter().sum::<u64>(),
        );
        let [first, second, both] = self.unknown;
        println!(
            "  with a draft: {}; refused with 17: {} (for the first {first}, for the second {second}, for both {both}); catalogues refused: {} \
             (before 17 {})",
            self.drafts,
            first + second + both,
            self.refused,
            self.refused_before_17
        );
    }

    /// The counts that together are all pairs.
    fn all(&self) -> Vec<u64> {
        let mut all = vec![self.same, self.different_m, self.different_d, self.refused];
        all.extend(self.first_outside);
        all.extend(self.second_outside);
        all.extend(self.unknown);
        all
    }

    fn total(&self) -> u64 {
        self.all().iter().sum()
    }

    fn is_complete(&self) -> bool {
        self.all().iter().all(|&n| n > 0) && self.refused_before_17 > 0 && self.drafts > 0
    }
}

/// Which of the numbers no entry has: the first alone, the second alone, or both.
fn unknown(entries: &[Entry], pair: &Pair) -> usize {
    let is_known = |number: u32| entries.iter().any(|e| e.number == number);
    match (is_known(pair.first), is_known(pair.second)) {
        (false, true) => 0,
        (true, false) => 1,
        _ => 2,
    }
}

/// Compares so many pairs of a seed.
pub fn compare(count: usize, seed: u64) -> Result<(), String> {
    let mut counts = Counts::default();
    for index in 0..count {
        let pair = pair(seed, index);
        let expected = separate(&pair.bytes, pair.first, pair.second);
        separated_alike(&pair, expected)
            .map_err(|what| format!("{what}\n{}", shown(&pair, seed, index)))?;
        counts.add(&pair, expected);
    }
    counts.print();
    counts.widths.print("first entries", count)?;
    if count < ENOUGH || counts.is_complete() {
        Ok(())
    } else {
        Err("the cases: something that separates two entries, or a refusal, did not occur".into())
    }
}

/// The pair so that it can be shown again.
fn shown(pair: &Pair, seed: u64, index: usize) -> String {
    let bytes: String = pair.bytes.iter().map(|b| format!("{b:02x}")).collect();
    format!(
        "seed {seed}, index {index}, kind {:?}, entries {} and {} of, in hexadecimal:\n{bytes}",
        pair.kind, pair.first, pair.second
    )
}

fn separated_alike(pair: &Pair, expected: Result<Separation, Refused>) -> Result<(), String> {
    let answer = written(SEPARATION_NUMBERS, |answer| {
        raw::separate(&pair.bytes, pair.first, pair.second, answer)
    })?;
    if answer != laid_out(expected) {
        return Err(format!(
            "separate: the engine gave {answer:?}, the reference {expected:?}"
        ));
    }
    let given = engine::separate(&pair.bytes, pair.first, pair.second);
    let is_alike = match (given, expected) {
        (Ok(given), Ok(expected)) => given == wrapped(expected),
        (Err(r), Err(e)) => (r.refusal.number(), r.place) == (e.number as i64, e.place),
        _ => false,
    };
    if is_alike {
        Ok(())
    } else {
        Err(format!("separate: the Rust wrapper gives {given:?}"))
    }
}

/// The answer in the header's order.
fn laid_out(expected: Result<Separation, Refused>) -> [i64; SEPARATION_NUMBERS] {
    match expected {
        Err(r) => [r.number as i64, r.place as i64, 0, 0, 0],
        Ok(Separation::Same) => [0, 0, 1, 0, 0],
        Ok(Separation::DifferentM) => [0, 0, 2, 0, 0],
        Ok(Separation::DifferentD) => [0, 0, 3, 0, 0],
        Ok(Separation::FirstOutside { position, square }) => [0, 0, 4, position as i64, square],
        Ok(Separation::SecondOutside { position, square }) => [0, 0, 5, position as i64, square],
    }
}

/// The answer as the Rust crate has it.
fn wrapped(expected: Separation) -> Given {
    match expected {
        Separation::Same => Given::Same,
        Separation::DifferentM => Given::DifferentM,
        Separation::DifferentD => Given::DifferentD,
        Separation::FirstOutside { position, square } => Given::FirstOutside { position, square },
        Separation::SecondOutside { position, square } => Given::SecondOutside { position, square },
    }
}

/// The answer as the command line writes it.
fn line(expected: Separation) -> Vec<u8> {
    let line = match expected {
        Separation::Same => "same\n".into(),
        Separation::DifferentM => "different m\n".into(),
        Separation::DifferentD => "different d\n".into(),
        Separation::FirstOutside { position, square } => format!("first {position} {square}\n"),
        Separation::SecondOutside { position, square } => format!("second {position} {square}\n"),
    };
    line.into_bytes()
}

/// Compares the command line on the first pairs of a seed, in turn with the catalogue on standard input and in a file.
pub fn by_command(count: usize, seed: u64) -> Result<(), String> {
    let mut widths = Widths::default();
    for index in 0..count {
        let pair = pair(seed, index);
        let (first, second) = (pair.first.to_string(), pair.second.to_string());
        let words = ["separate", &first, &second];
        let expected = said(separate(&pair.bytes, pair.first, pair.second), line);
        let compared = match index % 2 {
            0 => same(&words, &pair.bytes, expected),
            _ => same_of_file(&words, &pair.bytes, expected),
        };
        compared.map_err(|what| format!("{what}\n{}", shown(&pair, seed, index)))?;
        widths.add_each(read(&pair.bytes).iter().flatten().map(Entry::m));
    }
    println!("{count} pairs of entries by the command line, as the reference separates them");
    widths.print("catalogues accepted", count)
}

//! Compares the compiled engine with the reference on inputs of every kind. Arguments, all optional: how many inputs, the seed to begin
//! with, how many random catalogues for the library, how many for the command line (and so many pairs of entries), how many with drafts and
//! many see words, how many pairs of entries for the library, how many catalogues that are moved to either form, and how many sequences of calls
//! of a merge. After the word `merge` only these: how many, the seed, and the program. A difference ends the run with the input and what both
//! gave.

mod catalogue;
mod catalogues;
mod commands;
mod drafts;
mod forms;
mod lattices;
mod lent;
mod membership;
mod merges;
mod nearest;
mod reduction;
mod references;
mod refusals;
mod separations;
mod tenths;
mod widths;

use std::process::ExitCode;

use commands::PROGRAM;

fn argument(n: usize, otherwise: u64) -> u64 {
    match std::env::args().nth(n) {
        Some(word) => word.parse().expect("the arguments are numbers"),
        None => otherwise,
    }
}

/// How many sequences of calls of a merge, where no number is given.
const SEQUENCES: u64 = 10_000;

fn compare_all() -> Result<(), String> {
    let seed = argument(2, 1);
    let by_command = argument(4, 1_000) as usize;
    lattices::compare(argument(1, 210_000) as usize, seed)
        .and_then(|()| catalogues::compare(argument(3, 100_000) as usize, seed))
        .and_then(|()| forms::compare(argument(7, 100_000) as usize, seed))
        .and_then(|()| drafts::compare())
        .and_then(|()| references::compare(argument(5, 100_000) as usize, seed))
        .and_then(|()| separations::compare(argument(6, 100_000) as usize, seed))
        .and_then(|()| commands::compare(by_command, seed))
        .and_then(|()| drafts::by_command(seed))
        .and_then(|()| forms::by_command(seed))
        .and_then(|()| separations::by_command(by_command, seed))
        .and_then(|()| merges::compare(PROGRAM, argument(8, SEQUENCES) as usize, seed))
}

fn compare_merges() -> Result<(), String> {
    let program = std::env::args().nth(4);
    let program = program.as_deref().unwrap_or(PROGRAM);
    merges::compare(program, argument(2, SEQUENCES) as usize, argument(3, 1))
}

fn main() -> ExitCode {
    let compared = match std::env::args().nth(1).as_deref() {
        Some("merge") => compare_merges(),
        _ => compare_all(),
    };
    match compared {
        Ok(()) => ExitCode::SUCCESS,
        Err(what) => {
            println!("differs: {what}");
            ExitCode::FAILURE
        }
    }
}

//! The open merge by the command line, against the reference: random sequences of calls, each in a process of its own.

use std::collections::{BTreeMap, BTreeSet};

use reference::catalogue::MOST_ENTRIES;
use reference::merge::lines::{difference, handed_over, Command, Said};
use reference::merge::sequences::{sequence, Sequence};

use crate::commands::run;

/// So many sequences must show every answer.
const ENOUGH: usize = 1_000;

/// How often it is said how far the comparison is.
const STEP: usize = 1_000;

/// Every kind of answer that must occur, with what it was given for.
const ANSWERS: [&str; 20] = [
    "added as text",
    "added as bytes",
    "the 256th entry added",
    "standing for itself, provisional",
    "standing for another, provisional",
    "standing otherwise than before, provisional",
    "standing for itself",
    "standing for another",
    "not yet",
    "looked up after not yet",
    "closed",
    "closed without entries",
    "closed after a refused closing",
    "closed with 256 entries",
    "21 for an addition",
    "21 before 8",
    "21 for a closing",
    "listed",
    "folded",
    "no command",
];

/// The numbers of refusals that must occur. No other may.
const REFUSALS: [usize; 13] = [1, 2, 4, 5, 8, 10, 11, 12, 15, 17, 18, 20, 21];

/// Refusals with 10, by what is there.
const TENS: [&str; 4] = [
    "no bytes",
    "another first word",
    "a missing word",
    "another word",
];

/// The greatest number of a refusal.
const LAST: usize = 21;

#[derive(Default)]
struct Counts {
    sequences: u64,
    calls: u64,
    answers: BTreeMap<&'static str, u64>,
    refusals: [u64; LAST + 1],
    tens: [u64; TENS.len()],
}

/// What was answered before in a sequence.
#[derive(Default)]
struct Before {
    entries: usize,
    is_closed: bool,
    has_lost: bool,
    /// Standing numbers that were given, and numbers that were not there yet.
    stood: BTreeMap<u32, u32>,
    awaited: BTreeSet<u32>,
}

impl Counts {
    fn add(&mut self, s: &Sequence) {
        let mut before = Before::default();
        self.sequences += 1;
        for (command, said) in s.commands.iter().zip(&s.said) {
            self.calls += 1;
            match (command, said) {
                (_, Said::Begins(_)) => self.count("no command"),
                (Command::List, _) => self.count("listed"),
                (Command::Fold, _) => self.count("folded"),
                (_, Said::Lines(line)) => {
                    let fields: Vec<&str> = line.split_whitespace().collect();
                    match fields[..] {
                        ["refused", number, place] => self.refused(
                            command,
                            number.parse().expect("a number"),
                            place.parse().expect("a place"),
                            &mut before,
                        ),
                        _ => self.answered(command, &fields, &mut before),
                    }
                }
            }
        }
    }

    fn count(&mut self, what: &'static str) {
        *self.answers.entry(what).or_default() += 1;
    }

    fn answered(&mut self, command: &Command, fields: &[&str], before: &mut Before) {
        match (command, fields) {
            (Command::Look(number), ["standing", n, ..]) => {
                let n: u32 = n.parse().expect("a number");
                self.stands(*number, n, fields.len() == 3, before);
            }
            (Command::Look(number), _) => {
                before.awaited.insert(*number);
                self.count("not yet");
            }
            (Command::Close, _) => {
                before.is_closed = true;
                self.count("closed");
                match before.entries {
                    0 => self.count("closed without entries"),
                    MOST_ENTRIES => self.count("closed with 256 entries"),
                    _ => (),
                }
                if before.has_lost {
                    self.count("closed after a refused closing");
                }
            }
            _ => {
                before.entries += 1;
                self.count(match command {
                    Command::Add(_) => "added as text",
                    _ => "added as bytes",
                });
                if before.entries == MOST_ENTRIES {
                    self.count("the 256th entry added");
                }
            }
        }
    }

    fn stands(&mut self, number: u32, n: u32, is_provisional: bool, before: &mut Before) {
        self.count(match (number == n, is_provisional) {
            (true, true) => "standing for itself, provisional",
            (false, true) => "standing for another, provisional",
            (true, false) => "standing for itself",
            (false, false) => "standing for another",
        });
        let last = before.stood.insert(number, n);
        if is_provisional && last.is_some_and(|last| last != n) {
            self.count("standing otherwise than before, provisional");
        }
        if before.awaited.remove(&number) {
            self.count("looked up after not yet");
        }
    }

    fn refused(&mut self, command: &Command, number: usize, place: usize, before: &mut Before) {
        self.refusals[number] += 1;
        before.has_lost |= number == 12;
        let handed = match command {
            Command::Add(entry) => handed_over(entry),
            Command::Bytes(bytes) => bytes.clone(),
            Command::Close if number == 21 => return self.count("21 for a closing"),
            _ => return,
        };
        match number {
            21 => {
                self.count("21 for an addition");
                if handed.len() % 4 != 0 {
                    self.count("21 before 8");
                }
            }
            10 => {
                let kind = match (handed.len() / 4, place) {
                    (0, _) => 0,
                    (_, 0) => 1,
                    (length, _) if length == place => 2,
                    _ => 3,
                };
                self.tens[kind] += 1;
            }
            _ => (),
        }
    }

    fn print(&self) {
        let of = |name: &str| self.answers.get(name).copied().unwrap_or(0);
        let all: Vec<String> = ANSWERS.iter().map(|a| format!("{a} {}", of(a))).collect();
        println!(
            "{} sequences of calls of a merge by the command line, {} lines, as the reference answers them: {}",
            self.sequences,
            self.calls,
            all.join("; ")
        );
        let refused = (0..=LAST).filter(|&n| self.refusals[n] > 0);
        let refused: Vec<String> = refused
            .map(|n| format!("{n}: {}", self.refusals[n]))
            .collect();
        let tens: Vec<String> = TENS
            .iter()
            .zip(self.tens)
            .map(|(t, n)| format!("{t} {n}"))
            .collect();
        println!(
            "  refused with {}; with 10 for {}",
            refused.join(", "),
            tens.join(", ")
        );
    }

    /// Every answer, and every refusal that an addition, a lookup or a closing can have and no other.
    fn check(&self) -> Result<(), String> {
        if let Some(name) = ANSWERS.iter().find(|&a| !self.answers.contains_key(a)) {
            return Err(format!("the sequences: no answer \"{name}\""));
        }
        if let Some(n) = (0..=LAST).find(|n| (self.refusals[*n] > 0) != REFUSALS.contains(n)) {
            let times = self.refusals[n];
            return Err(format!("the sequences: refused with {n} {times} times"));
        }
        match self.tens.iter().position(|&n| n == 0) {
            Some(i) => Err(format!("the sequences: never 10 for {}", TENS[i])),
            None => Ok(()),
        }
    }
}

/// Plays so many sequences of a seed to the program.
pub fn compare(program: &str, count: usize, seed: u64) -> Result<(), String> {
    let mut counts = Counts::default();
    for index in 0..count {
        let s = sequence(seed, index);
        let output = run(program, &["merge"], s.input.as_bytes())?;
        let output = String::from_utf8_lossy(&output);
        if let Some((at, got)) = difference(&s.said, &output) {
            return Err(shown(&s, at, &got, seed, index));
        }
        counts.add(&s);
        if (index + 1) % STEP == 0 {
            eprintln!("{} of {count} sequences of calls", index + 1);
        }
    }
    counts.print();
    match count < ENOUGH {
        true => Ok(()),
        false => counts.check(),
    }
}

/// The command that is answered otherwise, and the lines up to it, to be given to `merge` again.
fn shown(s: &Sequence, at: usize, got: &str, seed: u64, index: usize) -> String {
    let lines: Vec<&str> = s.input.split_inclusive('\n').take(at + 1).collect();
    let expected = match s.said.get(at) {
        Some(Said::Lines(lines)) => lines.as_str(),
        Some(Said::Begins(start)) => start,
        None => "no more lines",
    };
    format!(
        "merge: seed {seed}, index {index}, kind {:?}, line {}\ngives    {}\nexpected {}\nafter these lines, the last of them included:\n{}",
        s.kind,
        at + 1,
        got.escape_debug(),
        expected.escape_debug(),
        lines.concat()
    )
}

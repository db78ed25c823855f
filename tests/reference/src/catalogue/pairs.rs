//! Catalogues with the numbers of two entries, for comparison tests, the same for the same seed.

use super::cases::damaged_times;
use super::damage::{made_dependent, wrong_length};
use super::made::{independent, is_draft, largest, numbers, see};
use super::related;
use super::writer::write;
use super::{Entry, Form};
use crate::random::Random;

/// What a pair is made to try.
#[derive(Clone, Copy, Debug, PartialEq, Eq)]
pub enum Kind {
    /// One lattice in two bases.
    Same,
    /// A lattice and a part of it.
    Part,
    /// One digit of one coordinate is another.
    Digit,
    /// Vectors at the limit of length.
    Limit,
    /// Two lattices of the same d and m.
    Other,
    OtherM,
    OtherD,
    /// The same number twice.
    Twice,
    /// No entry has one of the numbers, or both.
    Unknown,
    /// A catalogue that is refused, most often; with numbers that its entries had, or with others.
    Damaged,
    /// Two of 256 entries.
    Largest,
}

/// All but the largest, which take long, in their turn.
const KINDS: [Kind; 12] = [
    Kind::Same,
    Kind::Part,
    Kind::Digit,
    Kind::Limit,
    Kind::Other,
    Kind::OtherM,
    Kind::Part,
    Kind::OtherD,
    Kind::Digit,
    Kind::Twice,
    Kind::Unknown,
    Kind::Damaged,
];

/// One pair of so many is of the largest catalogue.
const LARGEST: usize = 1_000;

#[derive(Clone, Debug)]
pub struct Pair {
    pub kind: Kind,
    pub bytes: Vec<u8>,
    pub first: u32,
    pub second: u32,
}

pub fn kind(index: usize) -> Kind {
    match index % LARGEST {
        n if n == LARGEST - 1 => Kind::Largest,
        _ => KINDS[index % KINDS.len()],
    }
}

/// The pair of a seed with this index.
pub fn pair(seed: u64, index: usize) -> Pair {
    let mut random = Random::new(seed ^ (index as u64).wrapping_mul(0xE703_7ED1_A0B4_28DB));
    let random = &mut random;
    let kind = kind(index);
    let form = random.pick(&Form::BOTH);
    let (mut entries, i, j) = match kind {
        Kind::Largest => {
            let all = largest(form, random);
            let (i, j) = (random.index(all.len()), random.index(all.len()));
            (all, i, j)
        }
        _ => among_others(form, two(kind, random), random),
    };
    let known = (entries[i].number, entries[j].number);
    let (first, second) = match kind {
        Kind::Twice => (known.0, known.0),
        Kind::Unknown => with_absent(known, &entries, random),
        Kind::Damaged if random.between(0, 1) == 0 => with_absent(known, &entries, random),
        _ => known,
    };
    let bytes = match kind {
        Kind::Damaged => damaged(form, &mut entries, random),
        _ => write(form, &entries),
    };
    Pair {
        kind,
        bytes,
        first,
        second,
    }
}

/// The vectors of both entries.
fn two(kind: Kind, random: &mut Random) -> [Vec<Vec<i64>>; 2] {
    match kind {
        Kind::Same => related::same(random),
        Kind::Part => related::part(random),
        Kind::Digit => related::digit(random),
        Kind::Limit => related::at_limit(random),
        Kind::Other => related::other(random),
        Kind::OtherM => related::other_m(random),
        Kind::OtherD => related::other_d(random),
        _ => [independent(random), independent(random)],
    }
}

/// A catalogue with these two somewhere among up to three others, and their indices.
fn among_others(
    form: Form,
    two: [Vec<Vec<i64>>; 2],
    random: &mut Random,
) -> (Vec<Entry>, usize, usize) {
    let mut all: Vec<Vec<Vec<i64>>> = (0..random.index(4)).map(|_| independent(random)).collect();
    let [first, second] = two;
    let mut i = random.index(all.len() + 1);
    all.insert(i, first);
    let j = random.index(all.len() + 1);
    all.insert(j, second);
    if j <= i {
        i += 1;
    }
    let numbers = numbers(form, all.len(), random);
    let entry = |(k, vectors)| Entry {
        number: numbers[k],
        vectors,
        draft: is_draft(2, random),
        see: see(k, &numbers, random),
    };
    (all.into_iter().enumerate().map(entry).collect(), i, j)
}

/// One of the numbers, or both, such that no entry has it.
fn with_absent(known: (u32, u32), entries: &[Entry], random: &mut Random) -> (u32, u32) {
    match random.between(0, 2) {
        0 => (absent(entries, random), known.1),
        1 => (known.0, absent(entries, random)),
        _ => (absent(entries, random), absent(entries, random)),
    }
}

/// A number that no entry has, often one that is easily taken for an entry's.
fn absent(entries: &[Entry], random: &mut Random) -> u32 {
    let used: Vec<u32> = entries.iter().map(|e| e.number).collect();
    loop {
        let number = match random.between(0, 5) {
            0 => 0,
            1 => u32::MAX,
            2 => random.pick(&used) + (1 << 20),
            3 => random.pick(&used) + (1 << 28),
            4 => random.pick(&used) + 1,
            _ => random.number() as u32,
        };
        if !used.contains(&number) {
            return number;
        }
    }
}

fn damaged(form: Form, entries: &mut [Entry], random: &mut Random) -> Vec<u8> {
    match random.between(0, 4) {
        0 => wrong_length(write(form, entries), random),
        1 => {
            made_dependent(entries, random);
            write(form, entries)
        }
        way => damaged_times(way as usize - 1, write(form, entries), random),
    }
}

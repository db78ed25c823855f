//! Catalogues for comparison tests, the same for the same seed.

use super::damage::{damaged, made_dependent, many, stray, too_large, wrong_length, DAMAGES};
use super::made::{is_draft, largest, made};
use super::reader::{words, END};
use super::writer::{bytes, write};
use super::Form;
use crate::random::Random;

/// What a catalogue is made to try.
#[derive(Clone, Copy, Debug, PartialEq, Eq)]
pub enum Kind {
    /// Accepted, a handful of entries.
    Accepted,
    /// Accepted, some ten or twenty entries.
    Longer,
    /// One of the damages.
    Damaged,
    /// Two damages, so that the order of the checks shows.
    DamagedTwice,
    /// An entry with dependent vectors, damaged or not.
    Dependent,
    WrongLength,
    /// Any bytes.
    Noise,
    /// About 256 heads, or more.
    Many,
    /// About the most bytes.
    TooLarge,
    /// Accepted, 256 entries of the largest kind, some drafts.
    Full,
    /// The same, all drafts, so that there are no more bytes.
    Largest,
}

/// How often each kind comes: its turn is where the case's index is a multiple of the number and of none before it.
const TURNS: [(usize, Kind); 10] = [
    (12_000, Kind::Largest),
    (11_000, Kind::Full),
    (301, Kind::Many),
    (251, Kind::TooLarge),
    (53, Kind::Longer),
    (23, Kind::WrongLength),
    (19, Kind::Noise),
    (7, Kind::Dependent),
    (5, Kind::DamagedTwice),
    (2, Kind::Damaged),
];

pub fn kind(index: usize) -> Kind {
    let turn = TURNS.iter().find(|(n, _)| index % n == n - 1);
    turn.map_or(Kind::Accepted, |t| t.1)
}

/// The case of a seed with this index, in either form.
pub fn case(seed: u64, index: usize) -> Vec<u8> {
    let mut random = Random::new(seed ^ (index as u64).wrapping_mul(0xA076_1D64_78BD_642F));
    let random = &mut random;
    let form = random.pick(&Form::BOTH);
    let count = random.pick(&[1, 1, 2, 2, 3, 3, 4, 5, 6]);
    match kind(index) {
        Kind::Accepted if random.between(0, 200) == 0 => write(form, &[]),
        Kind::Accepted => write(form, &made(form, count, random)),
        Kind::Longer => {
            let more = 7 + random.index(30);
            write(form, &made(form, more, random))
        }
        Kind::Damaged => damaged_times(1, write(form, &made(form, count, random)), random),
        Kind::DamagedTwice => damaged_times(2, write(form, &made(form, count, random)), random),
        Kind::Dependent => {
            let mut entries = made(form, count, random);
            made_dependent(&mut entries, random);
            let times = random.pick(&[0, 0, 1]);
            damaged_times(times, write(form, &entries), random)
        }
        Kind::WrongLength => wrong_length(write(form, &made(form, count, random)), random),
        Kind::Noise => noise(random),
        Kind::Many => many(form, random),
        Kind::TooLarge => too_large(form, random),
        Kind::Full => {
            let mut entries = largest(form, random);
            entries
                .iter_mut()
                .for_each(|e| e.draft = is_draft(2, random));
            write(form, &entries)
        }
        Kind::Largest => write(form, &largest(form, random)),
    }
}

/// So many damages.
pub fn damaged_times(times: usize, whole: Vec<u8>, random: &mut Random) -> Vec<u8> {
    let mut w = words(&whole);
    for _ in 0..times {
        let damage = random.pick(&DAMAGES);
        w = damaged(w, damage, random);
    }
    bytes(&w)
}

/// Any bytes, or any words of the seven kinds and of another, or a word behind the end word of a catalogue without entries.
fn noise(random: &mut Random) -> Vec<u8> {
    let n = random.index(40);
    match random.between(0, 4) {
        0 | 1 => return (0..n).map(|_| random.number() as u8).collect(),
        2 => return bytes(&[END << 28, stray(random)]),
        _ => (),
    }
    let word = |random: &mut Random| {
        let most = random.pick(&[3, 600]);
        (1 + random.index(8) as u32) << 28 | random.index(most) as u32
    };
    bytes(&(0..n).map(|_| word(random)).collect::<Vec<u32>>())
}

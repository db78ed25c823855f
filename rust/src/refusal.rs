//! Why something is refused.

use std::fmt;

/// Why an input is refused. The first that applies is given; `docs/RULES.md` has their order. Later versions may have more.
#[derive(Clone, Copy, Debug, PartialEq, Eq, Hash)]
#[non_exhaustive]
pub enum Refusal {
    /// 1: d is not 1 to 4.
    Vectors,
    /// 2: m is not 1 to 8.
    Coordinates,
    /// 3: there are not d times m numbers.
    Count,
    /// 4: a coordinate is beyond ±20,000, or a vector's squared length over 400,000,000.
    TooLong,
    /// 5: the vectors are dependent.
    Dependent,
    /// 6: the target has not m numbers.
    TargetCount,
    /// 7: a coordinate of the target is beyond ±20,000, or its squared length over 400,000,000.
    TargetTooLong,
    /// 8: the number of bytes is not a multiple of 4.
    NotWords,
    /// 9: there are more than 35,844 bytes, or 36,868 in the new form.
    TooLarge,
    /// 10: a word of a kind that cannot stand there, or no word where one must come.
    Unexpected,
    /// 11: an entry's number is 0 or used before.
    Number,
    /// 12: a see word names no entry.
    Lost,
    /// 13: the end word counts another number of entries.
    Entries,
    /// 14: a word behind the end word.
    Behind,
    /// 15: there are more than 256 entries.
    TooMany,
    /// 16: the output is shorter than what is to be written.
    OutputShort,
    /// 17: no entry has the number.
    NoEntry,
    /// 18: a draft mark whose load is not 1.
    DraftLoad,
    /// 19: a number over 1,048,575, which the old form has no place for.
    NumberLong,
    /// 20: a head's size has bits above d and m.
    SizeBits,
    /// A number that this version does not know: the archive is newer than the crate.
    Unknown(i64),
}

/// The refusals in the order of their numbers, with what they say.
const KNOWN: [(Refusal, &str); 20] = [
    (Refusal::Vectors, "d is not 1 to 4"),
    (Refusal::Coordinates, "m is not 1 to 8"),
    (Refusal::Count, "there are not d times m numbers"),
    (
        Refusal::TooLong,
        "a coordinate beyond 20000 or a squared length over 400000000",
    ),
    (Refusal::Dependent, "the vectors are dependent"),
    (Refusal::TargetCount, "the target has not m numbers"),
    (
        Refusal::TargetTooLong,
        "a coordinate of the target beyond 20000 or its squared length over 400000000",
    ),
    (
        Refusal::NotWords,
        "the number of bytes is not a multiple of 4",
    ),
    (
        Refusal::TooLarge,
        "more than 35844 bytes, or 36868 in the new form",
    ),
    (
        Refusal::Unexpected,
        "a word that cannot stand here, or none where one must come",
    ),
    (Refusal::Number, "the entry's number is 0 or used before"),
    (Refusal::Lost, "the see word names no entry"),
    (
        Refusal::Entries,
        "the end word counts another number of entries",
    ),
    (Refusal::Behind, "a word behind the end word"),
    (Refusal::TooMany, "more than 256 entries"),
    (
        Refusal::OutputShort,
        "the output is shorter than what is to be written",
    ),
    (Refusal::NoEntry, "no entry has the number"),
    (Refusal::DraftLoad, "a draft mark whose load is not 1"),
    (
        Refusal::NumberLong,
        "a number over 1048575 has no place in the old form",
    ),
    (Refusal::SizeBits, "a size word with bits above d and m"),
];

impl Refusal {
    /// The number that the engine gives, as in `include/raghymtos.h`; never 0.
    pub fn number(self) -> i64 {
        match self {
            Refusal::Unknown(number) => number,
            known => 1 + KNOWN.iter().take_while(|(r, _)| *r != known).count() as i64,
        }
    }

    /// What the number says: `Ok` for 0 and for nothing else.
    pub(crate) fn check(number: i64) -> Result<(), Refusal> {
        match number {
            0 => Ok(()),
            1..=20 => Err(KNOWN[number as usize - 1].0),
            _ => Err(Refusal::Unknown(number)),
        }
    }
}

impl fmt::Display for Refusal {
    fn fmt(&self, f: &mut fmt::Formatter) -> fmt::Result {
        match self {
            Refusal::Unknown(number) => {
                write!(f, "a refusal that this crate does not know, {number}")
            }
            known => f.write_str(KNOWN[known.number() as usize - 1].1),
        }
    }
}

impl std::error::Error for Refusal {}

#[cfg(test)]
mod tests {
    use super::*;

    #[test]
    fn only_zero_is_no_refusal() {
        for number in (-3..40).chain([i64::MIN, i64::MAX]) {
            match Refusal::check(number) {
                Ok(()) => assert_eq!(number, 0),
                Err(refusal) => assert_eq!(refusal.number(), number),
            }
        }
        assert_eq!(Refusal::check(21), Err(Refusal::Unknown(21)));
        assert_eq!(Refusal::check(-1), Err(Refusal::Unknown(-1)));
    }

    /// The header is the one place where C and Rust can be held against each other.
    #[test]
    fn texts_are_those_of_the_header() {
        let header = include_str!("../../include/raghymtos.h");
        let refusals = header.split("enum raghymtos_refusal {").nth(1).unwrap();
        for (refusal, text) in KNOWN {
            let name = refusals
                .lines()
                .filter_map(|line| line.trim().strip_prefix("RAGHYMTOS_"))
                .find(|line| {
                    let value = line
                        .split('=')
                        .nth(1)
                        .map(|v| v.trim().split([',', ' ']).next());
                    value == Some(Some(&refusal.number().to_string()))
                })
                .and_then(|line| line.split(' ').next())
                .expect("the header has the number");
            let said = format!("case RAGHYMTOS_{name}: return \"{text}\";");
            assert!(header.contains(&said), "{said}");
        }
    }
}

//! Small catalogues of both forms, and what they give, computed by hand.

use super::Refused;

/// One catalogue in both forms.
pub struct Alike {
    pub name: &'static str,
    pub old: &'static [u32],
    pub new: &'static [u32],
}

/// A catalogue in the new form that is accepted and has no old form: the place of the refusal with 19.
pub struct Long {
    pub name: &'static str,
    pub words: &'static [u32],
    pub place: usize,
}

/// Words that are refused.
pub struct Wrong {
    pub name: &'static str,
    pub words: &'static [u32],
    pub refused: Refused,
}

const fn alike(name: &'static str, old: &'static [u32], new: &'static [u32]) -> Alike {
    Alike { name, old, new }
}

const fn long(name: &'static str, words: &'static [u32], place: usize) -> Long {
    Long { name, words, place }
}

const fn wrong(name: &'static str, words: &'static [u32], number: u64, place: usize) -> Wrong {
    Wrong {
        name,
        words,
        refused: Refused { number, place },
    }
}

/// Heads of one word with the numbers 1 and 2, for one vector of one coordinate.
const ONE: u32 = 0x10000111;
const TWO: u32 = 0x10000211;
/// The same of two words: the numbers, and the size of both.
const N1: u32 = 0x60000001;
const N2: u32 = 0x60000002;
const SIZE: u32 = 0x70000011;
/// Numbers at the limits: 1048575, 1048576, 268435455.
const MOST_OLD: u32 = 0x600FFFFF;
const OVER: u32 = 0x60100000;
const MOST: u32 = 0x6FFFFFFF;
/// The coordinates 2, 3 and 0, see words to 1 and 2, a mark, and end words.
const X: u32 = 0x20004E22;
const Y: u32 = 0x20004E23;
const ZERO: u32 = 0x20004E20;
const SEE_1: u32 = 0x30000001;
const SEE_2: u32 = 0x30000002;
const MARK: u32 = 0x50000001;
const END_0: u32 = 0x40000000;
const END_1: u32 = 0x40000001;
const END_2: u32 = 0x40000002;

#[rustfmt::skip]
pub const ALIKE: [Alike; 11] = [
    alike("no entries", &[END_0], &[END_0]),
    alike("an entry", &[ONE, X, END_1], &[N1, SIZE, X, END_1]),
    alike("a see word", &[ONE, X, SEE_1, END_1], &[N1, SIZE, X, SEE_1, END_1]),
    alike("a draft", &[ONE, X, MARK, END_1], &[N1, SIZE, X, MARK, END_1]),
    alike("a draft with a see word", &[ONE, X, MARK, SEE_1, END_1], &[N1, SIZE, X, MARK, SEE_1, END_1]),
    alike("two entries", &[ONE, X, TWO, Y, SEE_1, END_2], &[N1, SIZE, X, N2, SIZE, Y, SEE_1, END_2]),
    alike("two entries of one lattice", &[TWO, X, ONE, 0x20004E1E, END_2], &[N2, SIZE, X, N1, SIZE, 0x20004E1E, END_2]),
    alike("a see word to a later entry", &[ONE, X, SEE_2, TWO, Y, MARK, END_2], &[N1, SIZE, X, SEE_2, N2, SIZE, Y, MARK, END_2]),
    alike("the greatest number of the old form", &[0x1FFFFF11, X, 0x300FFFFF, END_1], &[MOST_OLD, SIZE, X, 0x300FFFFF, END_1]),
    alike("two vectors of two coordinates", &[0x10000722, Y, ZERO, X, X, END_1], &[0x60000007, 0x70000022, Y, ZERO, X, X, END_1]),
    alike(
        "eight coordinates",
        &[0x10001118, X, X, X, X, X, X, X, Y, END_1],
        &[0x60000011, 0x70000018, X, X, X, X, X, X, X, Y, END_1],
    ),
];

#[rustfmt::skip]
pub const LONG: [Long; 7] = [
    long("the least such number", &[OVER, SIZE, X, END_1], 0),
    long("the greatest number", &[MOST, SIZE, X, END_1], 0),
    long("the second number", &[N1, SIZE, X, OVER, SIZE, Y, END_2], 3),
    long("the second behind the greatest of the old form", &[MOST_OLD, SIZE, X, MOST, SIZE, Y, END_2], 3),
    long("both numbers", &[OVER, SIZE, X, MOST, SIZE, Y, END_2], 0),
    long("with a mark and a see word", &[N1, SIZE, X, MARK, 0x30100000, OVER, SIZE, Y, SEE_1, END_2], 5),
    long("of one lattice with another", &[N1, SIZE, X, OVER, SIZE, 0x20004E1E, END_2], 3),
];

#[rustfmt::skip]
pub const WRONG: [Wrong; 68] = [
    // the size is missing
    wrong("a number as the last word", &[N1], 10, 1),
    wrong("a second number as the last word", &[N1, SIZE, X, N2], 10, 4),
    wrong("a head for the size", &[N1, ONE, X, END_1], 10, 1),
    wrong("a number for the size", &[N1, N2, SIZE, X, END_1], 10, 1),
    wrong("the same number for the size", &[N1, N1, SIZE, X, END_1], 10, 1),
    wrong("a coordinate for the size", &[N1, X, END_1], 10, 1),
    wrong("a see word for the size", &[N1, SEE_1, X, END_1], 10, 1),
    wrong("an end word for the size", &[N1, END_0], 10, 1),
    wrong("a mark for the size", &[N1, MARK, X, END_1], 10, 1),
    wrong("a mark with load 2 for the size", &[N1, 0x50000002, X, END_1], 10, 1),
    wrong("kind 0 for the size", &[N1, 0x00000011, X, END_1], 10, 1),
    wrong("kind 8 for the size", &[N1, 0x80000011, X, END_1], 10, 1),
    wrong("kind 15 for the size", &[N1, 0xF0000011, X, END_1], 10, 1),
    // a size or a number at another place
    wrong("a size first", &[SIZE, X, END_1], 10, 0),
    wrong("a size with bits first", &[0x70000111, X, END_1], 10, 0),
    wrong("a size alone", &[0x70000000], 10, 0),
    wrong("a size twice", &[N1, SIZE, SIZE, X, END_1], 10, 2),
    wrong("a size with bits after the size", &[N1, SIZE, 0x7FFFFF11, X, END_1], 10, 2),
    wrong("a size behind a head of one word", &[ONE, SIZE, X, END_1], 10, 1),
    wrong("a size for the end word", &[N1, SIZE, X, SIZE, END_1], 10, 3),
    wrong("a size behind a mark", &[N1, SIZE, X, MARK, SIZE, END_1], 10, 4),
    wrong("a size behind a see word", &[N1, SIZE, X, SEE_1, 0x70000111, END_1], 10, 4),
    wrong("a size behind the coordinates of the old form", &[ONE, X, SIZE, END_1], 10, 2),
    wrong("a number among the coordinates", &[N1, SIZE, N2, SIZE, X, END_1], 10, 2),
    wrong("a number among the coordinates of the old form", &[ONE, N2, SIZE, X, END_1], 10, 1),
    wrong("a size behind the end word", &[N1, SIZE, X, END_1, SIZE], 14, 4),
    wrong("a size with bits behind the end word", &[ONE, X, END_1, 0x7FFFFFFF], 14, 3),
    wrong("a number behind the end word", &[N1, SIZE, X, END_1, N2], 14, 4),
    wrong("a number behind the only word", &[END_0, N1], 14, 1),
    wrong("a size behind the only word", &[END_0, SIZE], 14, 1),
    // both forms
    wrong("a head of one word second", &[N1, SIZE, X, TWO, X, END_2], 10, 3),
    wrong("a head of two words second", &[ONE, X, N2, SIZE, X, END_2], 10, 2),
    wrong("a head of one word behind a mark", &[N1, SIZE, X, MARK, TWO, X, END_2], 10, 4),
    wrong("a head of two words behind a mark", &[ONE, X, MARK, N2, SIZE, X, END_2], 10, 3),
    wrong("a head of one word behind a see word", &[N1, SIZE, X, SEE_1, TWO, X, END_2], 10, 4),
    wrong("a head of two words behind a see word", &[ONE, X, SEE_1, N2, SIZE, X, END_2], 10, 3),
    wrong("a head of one word with a wrong size", &[N1, SIZE, X, 0x10000200, END_2], 10, 3),
    wrong("a head of one word with its number used", &[N1, SIZE, X, ONE, X, END_2], 10, 3),
    wrong("a head of two words with the number 0", &[ONE, X, 0x60000000, SIZE, X, END_2], 10, 2),
    wrong("a head of two words with its number used", &[ONE, X, N1, SIZE, X, END_2], 10, 2),
    wrong("a wrong third head before the zero vector", &[N1, SIZE, ZERO, N2, SIZE, X, ONE, X], 10, 6),
    // the number, before the size
    wrong("the number 0", &[0x60000000, SIZE, X, END_1], 11, 0),
    wrong("the number 0 without a size", &[0x60000000], 11, 0),
    wrong("the number 0 before bits", &[0x60000000, 0x70000111, X, END_1], 11, 0),
    wrong("the number 0 before a wrong d", &[0x60000000, 0x70000001, X, END_1], 11, 0),
    wrong("a number used before", &[N1, SIZE, X, N1, SIZE, Y, END_2], 11, 3),
    wrong("a number used before without a size", &[MOST, SIZE, X, MOST], 11, 3),
    wrong("a number used before, then bits and no d", &[OVER, SIZE, X, OVER, 0x7FFFFF00], 11, 3),
    // bits, before d, before m
    wrong("bit 8", &[N1, 0x70000111, X, END_1], 20, 1),
    wrong("bit 27", &[N1, 0x78000011, X, END_1], 20, 1),
    wrong("all bits", &[N1, 0x7FFFFFFF, X, END_1], 20, 1),
    wrong("bits before d", &[N1, 0x70000101, X, END_1], 20, 1),
    wrong("bits before m", &[N1, 0x70010010, X, END_1], 20, 1),
    wrong("bits in the second size", &[N1, SIZE, X, N2, 0x70100011, Y, END_2], 20, 4),
    wrong("d is 0", &[N1, 0x70000001, X, END_1], 1, 1),
    wrong("d is 5", &[N1, 0x70000051, X, END_1], 1, 1),
    wrong("d and m are 0", &[N1, 0x70000000, X, END_1], 1, 1),
    wrong("m is 0", &[N1, 0x70000010, X, END_1], 2, 1),
    wrong("m is 9 in the second size", &[N1, SIZE, X, N2, 0x70000019, Y, END_2], 2, 4),
    // what both forms have
    wrong("too long", &[N1, SIZE, 0x20009C41, END_1], 4, 2),
    wrong("a mark with load 2", &[N1, SIZE, X, 0x50000002, END_1], 18, 3),
    wrong("another number of entries", &[N1, SIZE, X, END_2], 13, 3),
    wrong("no end word", &[N1, SIZE, X], 10, 3),
    wrong("the zero vector", &[N1, SIZE, X, N2, SIZE, ZERO, END_2], 5, 3),
    wrong("the zero vector with a long number", &[OVER, SIZE, ZERO, END_1], 5, 0),
    wrong("a lost see word", &[N1, SIZE, X, SEE_2, END_1], 12, 3),
    wrong("a lost see word with a long number", &[N1, SIZE, X, SEE_2, OVER, SIZE, Y, END_2], 12, 3),
    wrong("a lost see word with the lowest bits of a number", &[N1, SIZE, X, 0x30100001, END_1], 12, 3),
];

//! Catalogues made wrong, each in one way.

use super::made::{is_draft, made, LIMITS};
use super::reader::{kind, load, COORDINATE, DRAFT, END, HEAD, MARK, NUMBER, SEE, SIZE};
use super::writer::{bytes, end_word, entry_words, head_words, mark_word, see_word, write};
use super::{Entry, Form, MOST_ENTRIES};
use crate::bases::any;
use crate::random::Random;
use crate::{MOST_COORDINATES, MOST_VECTORS};

/// What is done to the words. Some of it leaves a catalogue that is accepted.
#[derive(Clone, Copy, Debug, PartialEq, Eq)]
pub enum Damage {
    D,
    M,
    Number,
    /// Bits above d and m in a head's size.
    Bits,
    /// A head in the other form.
    Form,
    /// Another word, or none, where a head's size is due.
    Size,
    Load,
    Length,
    Mark,
    MarkBeside,
    MarkInstead,
    /// Any word beside one of any kind.
    Stray,
    See,
    Count,
    Behind,
    Kind,
    Bit,
    Drop,
    Twice,
    Exchange,
    Cut,
}

/// All of them; strays, which can be anything anywhere, twice as often.
pub const DAMAGES: [Damage; 22] = [
    Damage::D,
    Damage::M,
    Damage::Number,
    Damage::Bits,
    Damage::Form,
    Damage::Size,
    Damage::Load,
    Damage::Length,
    Damage::Mark,
    Damage::MarkBeside,
    Damage::MarkInstead,
    Damage::Stray,
    Damage::Stray,
    Damage::See,
    Damage::Count,
    Damage::Behind,
    Damage::Kind,
    Damage::Bit,
    Damage::Drop,
    Damage::Twice,
    Damage::Exchange,
    Damage::Cut,
];

/// Loads of words that are marks or nearly.
const MARKS: [u32; 7] = [DRAFT, DRAFT, DRAFT, 0, 2, 3, (1 << 28) - 1];

/// The kinds of words that a damage needs one of; none for any.
fn wanted(damage: Damage, random: &mut Random) -> Vec<u32> {
    let all = [HEAD, COORDINATE, SEE, END, MARK, NUMBER, SIZE];
    match damage {
        Damage::D | Damage::M => vec![HEAD, SIZE],
        Damage::Number | Damage::Form => vec![HEAD, NUMBER],
        Damage::Bits | Damage::Size => vec![SIZE],
        Damage::Load | Damage::Length => vec![COORDINATE],
        Damage::Mark => vec![MARK],
        Damage::MarkBeside | Damage::Stray => vec![random.pick(&all)],
        Damage::See => vec![SEE],
        Damage::Count => vec![END],
        _ => vec![],
    }
}

/// Any word, as it could stand in a catalogue or nearly.
pub fn stray(random: &mut Random) -> u32 {
    let number = random.pick(&[0, 1, 2, 300, LIMITS[0], LIMITS[1], LIMITS[2]]);
    let size = random.pick(&[0x11, 0x22, 0x48, 0x10, 0x01, 0x59]);
    let bits = size | 1 << (8 + random.index(20));
    let unknown = random.pick(&[0, 8, 9, 15]) << 28 | number;
    let (mark, end) = (random.pick(&MARKS), random.index(4));
    random.pick(&[
        HEAD << 28 | (number << 8) & 0xFFF_FF00 | size,
        NUMBER << 28 | number,
        SIZE << 28 | size,
        SIZE << 28 | bits,
        mark_word(mark),
        COORDINATE << 28 | 20_001,
        see_word(number),
        end_word(end),
        unknown,
    ])
}

/// The words with one damage; as they were where no word is of the kind that it needs.
pub fn damaged(mut words: Vec<u32>, damage: Damage, random: &mut Random) -> Vec<u32> {
    let wanted = wanted(damage, random);
    let places: Vec<usize> = (0..words.len())
        .filter(|&i| wanted.is_empty() || wanted.contains(&kind(words[i])))
        .collect();
    if places.is_empty() {
        return words;
    }
    let i = random.pick(&places);
    let other = random.index(words.len());
    match damage {
        Damage::D => words[i] = words[i] & !0xF0 | random.pick(&[0, 5, 6, 8, 15, 4]) << 4,
        Damage::M => {
            let wrong = 9 + random.index(7) as u32;
            words[i] = words[i] & !0xF | random.pick(&[0, wrong, wrong, wrong, 4, 8]);
        }
        Damage::Number => {
            // that of another head, or 0
            let used = number(words[random.pick(&places)]);
            let number = random.pick(&[0, used]);
            words[i] = match kind(words[i]) {
                NUMBER => NUMBER << 28 | number,
                _ => HEAD << 28 | (number << 8) & 0xFFF_FF00 | words[i] & 0xFF,
            };
        }
        Damage::Bits => {
            words[i] |= 1 << (8 + random.index(20));
            // before d and m
            if random.between(0, 2) == 0 {
                words[i] &= !random.pick(&[0x0F, 0xF0, 0xFF]);
            }
        }
        Damage::Form => {
            let size = words[i + (kind(words[i]) == NUMBER && i + 1 < words.len()) as usize];
            let (number, d, m) = (number(words[i]), size >> 4 & 15, size & 15);
            match kind(words[i]) {
                NUMBER => {
                    let head = head_words(Form::Old, number & LIMITS[0], d, m);
                    words.splice(i..words.len().min(i + 2), head);
                }
                _ => {
                    words.splice(i..=i, head_words(Form::New, number, d, m));
                }
            }
        }
        Damage::Size => match random.between(0, 3) {
            0 => words.truncate(i),
            1 => {
                words.remove(i);
            }
            2 => words.insert(i, stray(random)),
            _ => words[i] = stray(random),
        },
        Damage::Load => {
            let loads = [40_001, 40_002, 65_536, 1 << 20, (1 << 28) - 1, 40_000, 0];
            words[i] = COORDINATE << 28 | random.pick(&loads);
        }
        Damage::Length => words[i] = COORDINATE << 28 | random.pick(&[0, 40_000, 34_143]),
        Damage::Mark | Damage::MarkInstead => words[i] = mark_word(random.pick(&MARKS)),
        Damage::MarkBeside => words.insert(i + random.index(2), mark_word(random.pick(&MARKS))),
        Damage::Stray => words.insert(i + random.index(2), stray(random)),
        Damage::See => {
            let numbers = [0, 1, 2, 1 << 20, (1 << 28) - 1, random.number() as u32 >> 4];
            words[i] = see_word(random.pick(&numbers));
        }
        Damage::Count => words[i] ^= 1 << random.index(28),
        Damage::Behind => {
            let behind = [words[other], stray(random), random.number() as u32];
            words.push(random.pick(&behind));
        }
        Damage::Kind => words[i] = load(words[i]) | (random.index(16) as u32) << 28,
        Damage::Bit => words[i] ^= 1 << random.index(32),
        Damage::Drop => {
            words.remove(i);
        }
        Damage::Twice => words.insert(other, words[i]),
        Damage::Exchange => words.swap(i, other),
        Damage::Cut => words.truncate(i),
    }
    words
}

/// The number in the first word of a head.
fn number(word: u32) -> u32 {
    match kind(word) {
        NUMBER => load(word),
        _ => load(word) >> 8,
    }
}

/// One entry gets dependent vectors: a zero vector, one twice, one that is the negative of another, or more than there are coordinates.
pub fn made_dependent(entries: &mut [Entry], random: &mut Random) {
    let i = random.index(entries.len());
    let vectors = &mut entries[i].vectors;
    let m = vectors[0].len();
    match random.between(0, 2) {
        0 => vectors[0] = vec![0; m],
        1 if vectors.len() < MOST_VECTORS => {
            vectors.push(vectors[0].clone());
        }
        1 => vectors[MOST_VECTORS - 1] = vectors[0].clone(),
        _ if m < MOST_VECTORS => {
            let d = m + 1 + random.index(MOST_VECTORS - m);
            *vectors = any(d, m, 50, random);
        }
        _ => {
            vectors.truncate(MOST_VECTORS - 1);
            vectors.push(vectors[0].iter().map(|x| -x).collect());
        }
    }
}

/// About as many heads as a catalogue may have, or more, behind entries of all sorts; the first that is too many may be wrong in other ways
/// too, and be in the other form.
pub fn many(form: Form, random: &mut Random) -> Vec<u8> {
    let count = MOST_ENTRIES - 1 + random.index(5);
    let mut words = vec![];
    for i in 0..count {
        let e = Entry {
            number: 1 + i as u32,
            vectors: vec![vec![1 + i as i64]],
            draft: is_draft(3, random),
            see: random.pick(&[None, None, Some(1)]),
        };
        let head = words.len();
        words.extend(entry_words(form, &e));
        if i == MOST_ENTRIES {
            match random.between(0, 4) {
                // neither number nor d nor m
                0 => words[head] &= !0xFFF_FFFF,
                1 => words[head] = number_again(words[head]),
                2 => words.truncate(head + 1),
                3 => words = in_other_form(words, head, form),
                _ => (),
            }
        }
    }
    words.push(end_word(count));
    bytes(&words)
}

/// The first word of a head with the number 1, which the first entry has.
fn number_again(word: u32) -> u32 {
    match kind(word) {
        NUMBER => NUMBER << 28 | 1,
        _ => HEAD << 28 | 1 << 8 | word & 0xFF,
    }
}

/// The head that is here, for one vector of one coordinate, in the other form.
fn in_other_form(mut words: Vec<u32>, head: usize, form: Form) -> Vec<u32> {
    let number = number(words[head]);
    let length = head_words(form, number, 1, 1).len();
    words.splice(head..head + length, head_words(form.other(), number, 1, 1));
    words
}

/// More bytes than a catalogue of one of the forms may have, or a little less: a catalogue that is empty, small or full, cut there or with
/// any bytes behind.
pub fn too_large(form: Form, random: &mut Random) -> Vec<u8> {
    let most = random.pick(&Form::BOTH).most_bytes();
    let more = random.index(16);
    let length = random.pick(&[most - 4, most, most, most + 4, most + 4, most + more]);
    let start = match random.between(0, 3) {
        0 => vec![],
        1 | 2 => made(form, 2, random),
        _ => full(random),
    };
    let mut all = write(form, &start);
    all.resize(length, random.pick(&[0, 0x40, 0xFF]));
    all
}

/// As many entries as there can be, of the largest kind, with any vectors.
fn full(random: &mut Random) -> Vec<Entry> {
    let size = random.pick(&[1, 20, 1_000, 7_000]);
    let entry = |i| Entry {
        number: 1 + i as u32,
        vectors: any(MOST_VECTORS, MOST_COORDINATES, size, random),
        draft: true,
        see: Some(1),
    };
    (0..MOST_ENTRIES).map(entry).collect()
}

/// A few bytes less or more.
pub fn wrong_length(mut bytes: Vec<u8>, random: &mut Random) -> Vec<u8> {
    let n = 1 + random.index(3);
    if random.between(0, 1) == 0 {
        bytes.truncate(bytes.len() - n);
    } else {
        bytes.extend(vec![0x40; n]);
    }
    bytes
}

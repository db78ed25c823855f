//! Catalogues of bases: made from entries and read into them, folded to one entry for each lattice, looked up, listed, moved from one form
//! to the other, and asked what separates two entries.
//!
//! ```
//! use raghymtos::catalogue::{entries, fold, from_entries, list, lookup, Entry};
//!
//! // 7 and 12 are bases of one lattice; 9 refers to 12
//! let mut cells = [
//!     Entry::new(7, [[1, 0], [4, 1]]),
//!     Entry::new(9, [[2, 0], [0, 3]]).seeing(12),
//!     Entry::new(12, [[0, 1], [1, 0]]),
//! ];
//! let bytes = from_entries(&cells)?;
//! assert_eq!(lookup(&bytes, 12)?, 7);
//! assert_eq!(list(&bytes)?, "3 2\n7 7 0 1\nv 1 0\nv 0 1\n9 9 7 1\nv 2 0\nv 0 3\n12 7 0 1\n");
//! assert_eq!(
//!     entries(&fold(&bytes)?)?,
//!     [
//!         Entry::new(7, [[1, 0], [0, 1]]),
//!         Entry::new(9, [[2, 0], [0, 3]]).seeing(7),
//!     ]
//! );
//!
//! // a draft stands only where its lattice has no other entry
//! cells[0].draft = true;
//! assert_eq!(lookup(&from_entries(&cells)?, 7)?, 12);
//! # Ok::<(), Box<dyn std::error::Error>>(())
//! ```
//!
//! A catalogue has one of two forms ([`Form`]), which differ in the heads of its entries alone: the new one has room for longer numbers.
//! All functions but the two moves take either form, and a catalogue that they write has the form that they read.
//!
//! ```
//! use raghymtos::catalogue::{form, from_entries, from_entries_in, new_form, old_form, Entry, Form};
//!
//! let old = from_entries(&[Entry::new(7, [[1, 0], [4, 1]])])?;
//! let new = new_form(&old)?;
//! assert_eq!((form(&old)?, form(&new)?), (Some(Form::Old), Some(Form::New)));
//! assert_eq!(old_form(&new)?, old);
//!
//! // only the new form has room for this number
//! let long = [Entry::new(1_048_576, [[1, 0], [4, 1]])];
//! assert!(from_entries(&long).is_err());
//! assert!(old_form(&from_entries_in(Form::New, &long)?).is_err());
//! # Ok::<(), Box<dyn std::error::Error>>(())
//! ```
//!
//! A catalogue is bytes, as the engine takes and writes them. Which bytes are accepted, what is refused and where, the fold, the lookup,
//! the moves, the separation and the listing are the engine's and proved. [`from_entries`], [`from_entries_in`], [`entries`] and [`form`]
//! are plain Rust on top: the first two write words and let the engine read them, the others let the engine read and then take the words
//! apart. So a mistake of theirs could mix up entries, but could not make a catalogue that the engine does not accept.

mod entry;
mod separation;

use std::fmt;

pub use entry::{entries, form, from_entries, from_entries_in, Entry, NoCatalogue};
pub use separation::{separate, Separation};

use crate::answer::OTHER_ARCHIVE;
use crate::raw::{self, ANSWER_NUMBERS};
use crate::Refusal;

/// The most entries that a catalogue can have.
pub const MOST_ENTRIES: usize = 256;

/// The greatest number that an entry can have, in the new form; the least is 1.
pub const MOST_NUMBER: u32 = Form::New.most_number();

/// The greatest number that an entry can have in the old form.
pub const MOST_OLD_NUMBER: u32 = Form::Old.most_number();

/// The most bytes that a catalogue can have, in the new form, so the length of an output that is always long enough.
pub const MOST_BYTES: usize = Form::New.most_bytes();

/// The most bytes that a listing can have.
pub const MOST_LISTING_BYTES: usize = 71_000;

/// The form of a catalogue: how the heads of its entries are written. All of one catalogue have one form; a catalogue without entries
/// belongs to both.
#[derive(Clone, Copy, Debug, PartialEq, Eq, Hash)]
pub enum Form {
    /// A head is one word.
    Old,
    /// A head is two words: its number, and its size, which is d and m.
    New,
}

impl Form {
    /// The greatest number that an entry can have in this form; the least is 1.
    pub const fn most_number(self) -> u32 {
        match self {
            Form::Old => 1_048_575,
            Form::New => 268_435_455,
        }
    }

    /// The most bytes that a catalogue in this form can have.
    pub const fn most_bytes(self) -> usize {
        match self {
            Form::Old => 35_844,
            Form::New => 36_868,
        }
    }
}

/// Why a catalogue is refused, or a call with one that is accepted.
#[derive(Clone, Copy, Debug, PartialEq, Eq, Hash)]
#[non_exhaustive]
pub struct CatalogueRefusal {
    /// The reason.
    pub refusal: Refusal,
    /// The index of the word that it is about, from 0; where a word is missing, the number of words; where no word is concerned, 0.
    pub place: usize,
}

impl CatalogueRefusal {
    /// The place, if the refusal is about a word.
    pub fn word(&self) -> Option<usize> {
        match self.refusal {
            Refusal::NotWords | Refusal::TooLarge | Refusal::OutputShort | Refusal::NoEntry => None,
            _ => Some(self.place),
        }
    }
}

impl fmt::Display for CatalogueRefusal {
    fn fmt(&self, f: &mut fmt::Formatter) -> fmt::Result {
        match self.word() {
            Some(word) => write!(f, "word {word}: {}", self.refusal),
            None => self.refusal.fmt(f),
        }
    }
}

impl std::error::Error for CatalogueRefusal {
    fn source(&self) -> Option<&(dyn std::error::Error + 'static)> {
        Some(&self.refusal)
    }
}

/// Says whether a catalogue is accepted: `Ok`, or why not.
pub fn check(bytes: &[u8]) -> Result<(), CatalogueRefusal> {
    write_out_to(bytes, &mut [0; MOST_BYTES]).map(|_| ())
}

/// The folded catalogue: one entry for each lattice, the first that has it and is no draft, or the first of all where every one is a draft,
/// which stays one. It has its reduced vectors and a see word that leads to another entry that is there: its own, or else the first, in the
/// order of the file, of the entries with that lattice.
pub fn fold(bytes: &[u8]) -> Result<Vec<u8>, CatalogueRefusal> {
    let mut out = vec![0; MOST_BYTES];
    let n = fold_to(bytes, &mut out)?;
    out.truncate(n);
    Ok(out)
}

/// The catalogue, which is in the old form, in the new form: nothing but the heads changes. One in the new form is refused, one without
/// entries is given as it is.
pub fn new_form(bytes: &[u8]) -> Result<Vec<u8>, CatalogueRefusal> {
    let mut out = vec![0; MOST_BYTES];
    let n = new_form_to(bytes, &mut out)?;
    out.truncate(n);
    Ok(out)
}

/// The catalogue, which is in the new form, in the old form: nothing but the heads changes. One in the old form is refused, and so is one
/// with a number over 1,048,575 ([`Refusal::NumberLong`]); one without entries is given as it is.
pub fn old_form(bytes: &[u8]) -> Result<Vec<u8>, CatalogueRefusal> {
    let mut out = vec![0; MOST_BYTES];
    let n = old_form_to(bytes, &mut out)?;
    out.truncate(n);
    Ok(out)
}

/// The listing: a line with the number of entries and of standing entries; a line for each entry with its number, its standing number,
/// the number that its see word leads to, or 0, and its passes; under a standing entry a line `v` with the coordinates for each reduced
/// vector.
pub fn list(bytes: &[u8]) -> Result<String, CatalogueRefusal> {
    let mut out = vec![0; MOST_LISTING_BYTES];
    let n = list_to(bytes, &mut out)?;
    out.truncate(n);
    Ok(String::from_utf8(out).expect("a listing is ASCII"))
}

/// The number of the standing entry: the first with the lattice of the entry that has this number that is no draft, or the first of all
/// where every one is a draft.
pub fn lookup(bytes: &[u8], number: u32) -> Result<u32, CatalogueRefusal> {
    last(|answer| raw::lookup(bytes, number, answer)).map(|n| n as u32)
}

/// Writes the entries of a catalogue to `out`, unfolded. Gives the length written; what is behind it keeps its bytes, and on refusal all
/// does.
pub fn write_out_to(bytes: &[u8], out: &mut [u8]) -> Result<usize, CatalogueRefusal> {
    last(|answer| raw::write_out(bytes, out, answer)).map(|n| n as usize)
}

/// As [`fold`], to `out`. Gives the length written; what is behind it keeps its bytes, and on refusal all does.
pub fn fold_to(bytes: &[u8], out: &mut [u8]) -> Result<usize, CatalogueRefusal> {
    last(|answer| raw::fold(bytes, out, answer)).map(|n| n as usize)
}

/// As [`new_form`], to `out`. Gives the length written; what is behind it keeps its bytes, and on refusal all does.
pub fn new_form_to(bytes: &[u8], out: &mut [u8]) -> Result<usize, CatalogueRefusal> {
    last(|answer| raw::new_form(bytes, out, answer)).map(|n| n as usize)
}

/// As [`old_form`], to `out`. Gives the length written; what is behind it keeps its bytes, and on refusal all does.
pub fn old_form_to(bytes: &[u8], out: &mut [u8]) -> Result<usize, CatalogueRefusal> {
    last(|answer| raw::old_form(bytes, out, answer)).map(|n| n as usize)
}

/// As [`list`], to `out`. Gives the length written; what is behind it keeps its bytes, and on refusal all does.
pub fn list_to(bytes: &[u8], out: &mut [u8]) -> Result<usize, CatalogueRefusal> {
    last(|answer| raw::list(bytes, out, answer)).map(|n| n as usize)
}

/// The last number of an answer of three, or the refusal that its first ones are.
fn last(call: impl FnOnce(&mut [i64]) -> bool) -> Result<i64, CatalogueRefusal> {
    answer::<ANSWER_NUMBERS>(call).map(|[_, _, last]| last)
}

/// The numbers of an answer, or the refusal that its first ones are.
fn answer<const N: usize>(
    call: impl FnOnce(&mut [i64]) -> bool,
) -> Result<[i64; N], CatalogueRefusal> {
    let mut answer = [0; N];
    assert!(call(&mut answer), "{OTHER_ARCHIVE}");
    Refusal::check(answer[0]).map_err(|refusal| CatalogueRefusal {
        refusal,
        place: answer[1] as usize,
    })?;
    Ok(answer)
}

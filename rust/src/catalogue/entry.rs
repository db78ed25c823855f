//! Entries out of a catalogue's words and into them.

use std::fmt;

use super::{write_out_to, CatalogueRefusal, Form, MOST_BYTES};

/// The kinds of words, in their top 4 bits; the other 28 are the load.
const HEAD: u32 = 1;
const COORDINATE: u32 = 2;
const SEE: u32 = 3;
const END: u32 = 4;
const MARK: u32 = 5;
/// The two words of a head in the new form.
const NUMBER: u32 = 6;
const SIZE: u32 = 7;

/// The load of a draft's mark.
const DRAFT: u64 = 1;

/// The greatest load.
const MOST_LOAD: u32 = (1 << 28) - 1;

/// A coordinate's load is the coordinate and this.
const SHIFT: i64 = 20_000;

/// An entry of a catalogue: a numbered basis, perhaps a draft, perhaps with a reference to an entry.
#[derive(Clone, Debug, PartialEq, Eq, Hash)]
#[non_exhaustive]
pub struct Entry {
    /// Its number, 1 to 1,048,575, or to 268,435,455 in the new form.
    pub number: u32,
    /// Its d vectors, of m coordinates each.
    pub vectors: Vec<Vec<i64>>,
    /// Whether it is a draft: it does not stand for a lattice that has another entry that is none.
    pub draft: bool,
    /// The number of the entry that its see word refers to, if it has one.
    pub see: Option<u32>,
}

impl Entry {
    /// An entry that is no draft, without a see word.
    pub fn new<V: Into<Vec<i64>>>(number: u32, vectors: impl IntoIterator<Item = V>) -> Entry {
        Entry {
            number,
            vectors: vectors.into_iter().map(V::into).collect(),
            draft: false,
            see: None,
        }
    }

    /// The same entry as a draft.
    pub fn drafted(self) -> Entry {
        Entry {
            draft: true,
            ..self
        }
    }

    /// The same entry with a see word to the entry with this number.
    pub fn seeing(self, number: u32) -> Entry {
        Entry {
            see: Some(number),
            ..self
        }
    }

    /// How many vectors it has.
    pub fn d(&self) -> usize {
        self.vectors.len()
    }

    /// How many coordinates its first vector has, and so all of an entry that is accepted.
    pub fn m(&self) -> usize {
        self.vectors.first().map_or(0, Vec::len)
    }
}

/// Why entries make no catalogue.
#[derive(Clone, Copy, Debug, PartialEq, Eq, Hash)]
#[non_exhaustive]
pub enum NoCatalogue {
    /// The entry at this index has vectors of different numbers of coordinates.
    Uneven {
        /// The index of the entry, from 0.
        entry: usize,
    },
    /// The engine refuses the catalogue.
    Refused {
        /// The index of the entry that the refusal is about, from 0, if it is about one.
        entry: Option<usize>,
        /// What the engine gave.
        refusal: CatalogueRefusal,
    },
}

impl fmt::Display for NoCatalogue {
    fn fmt(&self, f: &mut fmt::Formatter) -> fmt::Result {
        match self {
            NoCatalogue::Uneven { entry } => {
                write!(f, "entry {entry}: vectors of different lengths")
            }
            NoCatalogue::Refused {
                entry: Some(entry),
                refusal,
            } => write!(f, "entry {entry}: {}", refusal.refusal),
            NoCatalogue::Refused {
                entry: None,
                refusal,
            } => refusal.fmt(f),
        }
    }
}

impl std::error::Error for NoCatalogue {
    fn source(&self) -> Option<&(dyn std::error::Error + 'static)> {
        match self {
            NoCatalogue::Refused { refusal, .. } => Some(refusal),
            _ => None,
        }
    }
}

/// The catalogue with these entries, in this order, in the old form.
pub fn from_entries(entries: &[Entry]) -> Result<Vec<u8>, NoCatalogue> {
    from_entries_in(Form::Old, entries)
}

/// The catalogue with these entries, in this order, in this form. Without entries it is the same in both.
pub fn from_entries_in(form: Form, entries: &[Entry]) -> Result<Vec<u8>, NoCatalogue> {
    if let Some(entry) = entries.iter().position(is_uneven) {
        return Err(NoCatalogue::Uneven { entry });
    }
    let mut heads = vec![];
    let mut words = vec![];
    for entry in entries {
        heads.push(words.len());
        words.extend(entry_words(form, entry));
    }
    words.push(word(END, entries.len() as u64));
    let bytes: Vec<u8> = words.iter().flat_map(|w| w.to_le_bytes()).collect();
    let mut out = vec![0; MOST_BYTES];
    let n = write_out_to(&bytes, &mut out).map_err(|refusal| NoCatalogue::Refused {
        entry: refusal.word().and_then(|word| holds(&heads, word)),
        refusal,
    })?;
    out.truncate(n);
    Ok(out)
}

fn is_uneven(entry: &Entry) -> bool {
    entry.vectors.iter().any(|v| v.len() != entry.m())
}

/// The index of the entry that holds a word, where the heads are at these places.
fn holds(heads: &[usize], word: usize) -> Option<usize> {
    heads.partition_point(|&head| head <= word).checked_sub(1)
}

// What no word can hold is written as something that reading refuses at this very word.

/// A word with the load, or with the greatest one: no coordinate has it, and no entry that a see word could name.
fn word(kind: u32, load: u64) -> u32 {
    kind << 28 | load.min(MOST_LOAD.into()) as u32
}

/// A head. A number that is too large for the form becomes 0, and d or m over 15 becomes 15.
fn head(form: Form, entry: &Entry) -> Vec<u32> {
    let number = match entry.number {
        number if number <= form.most_number() => number,
        _ => 0,
    };
    let (d, m) = (entry.d().min(15) as u32, entry.m().min(15) as u32);
    let size = d << 4 | m;
    match form {
        Form::Old => vec![word(HEAD, (number << 8 | size).into())],
        Form::New => vec![word(NUMBER, number.into()), word(SIZE, size.into())],
    }
}

/// A coordinate; one for which there is no load gets the greatest.
fn coordinate(x: i64) -> u32 {
    let load = x.checked_add(SHIFT).and_then(|l| u64::try_from(l).ok());
    word(COORDINATE, load.unwrap_or(u64::MAX))
}

fn entry_words(form: Form, entry: &Entry) -> Vec<u32> {
    let mut words = head(form, entry);
    words.extend(entry.vectors.iter().flatten().map(|&x| coordinate(x)));
    words.extend(entry.draft.then(|| word(MARK, DRAFT)));
    words.extend(entry.see.map(|n| word(SEE, n.into())));
    words
}

/// The entries of a catalogue, in order.
pub fn entries(bytes: &[u8]) -> Result<Vec<Entry>, CatalogueRefusal> {
    let mut out = vec![0; MOST_BYTES];
    let n = write_out_to(bytes, &mut out)?;
    Ok(entries_of(&out[..n]))
}

/// The form of a catalogue; none for one without entries, which belongs to both.
pub fn form(bytes: &[u8]) -> Result<Option<Form>, CatalogueRefusal> {
    super::check(bytes)?;
    Ok(match words_of(bytes).next().map(kind) {
        Some(HEAD) => Some(Form::Old),
        Some(NUMBER) => Some(Form::New),
        _ => None,
    })
}

fn words_of(bytes: &[u8]) -> impl Iterator<Item = u32> + '_ {
    bytes
        .chunks_exact(4)
        .map(|b| u32::from_le_bytes([b[0], b[1], b[2], b[3]]))
}

/// The entries of an accepted catalogue.
fn entries_of(bytes: &[u8]) -> Vec<Entry> {
    let mut words = words_of(bytes).peekable();
    let mut all = vec![];
    while let Some(head) = words.next_if(|&w| kind(w) == HEAD || kind(w) == NUMBER) {
        // the size of a head in the new form is where that of one word has it
        let (number, size) = match words.next_if(|&w| kind(w) == SIZE) {
            Some(size) => (load(head), size),
            None => (load(head) >> 8, head),
        };
        let (d, m) = (size >> 4 & 15, size & 15);
        let coordinates: Vec<i64> = words
            .by_ref()
            .take((d * m) as usize)
            .map(|w| i64::from(load(w)) - SHIFT)
            .collect();
        all.push(Entry {
            number,
            vectors: coordinates
                .chunks(m as usize)
                .map(<[i64]>::to_vec)
                .collect(),
            draft: words.next_if(|&w| kind(w) == MARK).is_some(),
            see: words.next_if(|&w| kind(w) == SEE).map(load),
        });
    }
    all
}

fn kind(word: u32) -> u32 {
    word >> 28
}

fn load(word: u32) -> u32 {
    word & MOST_LOAD
}

//! Catalogues by the rules of documents 01 and 02: read, written, folded, looked up, listed and moved from one form to the other, plainly and
//! slowly; and what separates two entries.

pub mod cases;
pub mod damage;
pub mod drafts;
pub mod fold;
pub mod forms;
pub mod hermite;
pub mod listing;
pub mod made;
pub mod moves;
pub mod pairs;
pub mod reader;
pub mod related;
pub mod separation;
pub mod text;
pub mod writer;

pub const MOST_ENTRIES: usize = 256;

/// How heads are written: as one word, or as two, a number and a size.
#[derive(Clone, Copy, Debug, PartialEq, Eq)]
pub enum Form {
    Old,
    New,
}

impl Form {
    pub const BOTH: [Form; 2] = [Form::Old, Form::New];

    /// The form whose heads begin with a word of this kind.
    pub fn of_head(kind: u32) -> Option<Form> {
        match kind {
            reader::HEAD => Some(Form::Old),
            reader::NUMBER => Some(Form::New),
            _ => None,
        }
    }

    pub fn other(self) -> Form {
        match self {
            Form::Old => Form::New,
            Form::New => Form::Old,
        }
    }

    pub fn most_bytes(self) -> usize {
        match self {
            Form::Old => 35_844,
            Form::New => 36_868,
        }
    }

    /// The greatest entry number.
    pub fn most_number(self) -> u32 {
        match self {
            Form::Old => 1_048_575,
            Form::New => 268_435_455,
        }
    }
}

/// An entry: its number, d vectors of m coordinates each, whether it is a draft, and the number in its see word.
#[derive(Clone, Debug, PartialEq, Eq)]
pub struct Entry {
    pub number: u32,
    pub vectors: Vec<Vec<i64>>,
    pub draft: bool,
    pub see: Option<u32>,
}

impl Entry {
    pub fn d(&self) -> usize {
        self.vectors.len()
    }

    pub fn m(&self) -> usize {
        self.vectors[0].len()
    }
}

/// The number of a refusal, and its place.
#[derive(Clone, Copy, Debug, PartialEq, Eq)]
pub struct Refused {
    pub number: u64,
    pub place: usize,
}

/// A refusal as a result.
pub fn refuse<T>(number: u64, place: usize) -> Result<T, Refused> {
    Err(Refused { number, place })
}

/// Writes to a lent output: the length written, or 16. What is behind it keeps its bytes.
pub fn lend(bytes: &[u8], out: &mut [u8]) -> Result<usize, Refused> {
    if out.len() < bytes.len() {
        return refuse(16, 0);
    }
    out[..bytes.len()].copy_from_slice(bytes);
    Ok(bytes.len())
}

/// Reads a catalogue and writes its entries to the lent output, unfolded.
pub fn write_out(bytes: &[u8], out: &mut [u8]) -> Result<usize, Refused> {
    let entries = reader::read(bytes)?;
    lend(&writer::write(reader::shown(bytes), &entries), out)
}

/// Reads a catalogue and writes the folded one to the lent output.
pub fn fold(bytes: &[u8], out: &mut [u8]) -> Result<usize, Refused> {
    let entries = fold::folded(&reader::read(bytes)?);
    lend(&writer::write(reader::shown(bytes), &entries), out)
}

/// The number of the standing entry of the entry with this number.
pub fn lookup(bytes: &[u8], number: u32) -> Result<u32, Refused> {
    let entries = reader::read(bytes)?;
    looked_up(&entries, &fold::standing(&entries), number)
}

/// The same, the standing entries being known.
pub fn looked_up(entries: &[Entry], standing: &[usize], number: u32) -> Result<u32, Refused> {
    match entries.iter().position(|e| e.number == number) {
        Some(i) => Ok(entries[standing[i]].number),
        None => refuse(17, 0),
    }
}

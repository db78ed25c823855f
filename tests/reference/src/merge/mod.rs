//! The open merge by document 02, ask 7: entries are added one at a time and looked up on the way, and it is closed at last. An addition is
//! read here word by word from the rules, not by the reader of files.

pub mod lines;
pub mod sequences;
pub mod wrong;

use crate::catalogue::fold::{folded, standing};
use crate::catalogue::listing::listing;
use crate::catalogue::text::text;
use crate::catalogue::writer::write;
use crate::catalogue::{lookup, refuse, Entry, Form, Refused, MOST_ENTRIES};
use crate::vectors::{rank, square};
use crate::{MOST_COORDINATES, MOST_SIZE, MOST_SQUARE, MOST_VECTORS};

/// What a call answers.
#[derive(Clone, Copy, Debug, PartialEq, Eq)]
pub enum Answer {
    Added,
    Closed,
    /// The standing number among the entries added so far.
    Provisional(u32),
    /// The standing number after closing.
    Standing(u32),
    NotYet,
    Refused(Refused),
}

/// The calls of a merge.
pub trait Calls {
    /// The bytes of one entry in the new form, without an end word.
    fn add(&mut self, bytes: &[u8]) -> Answer;
    fn look(&self, number: u32) -> Answer;
    fn close(&mut self) -> Answer;
    /// The listing; none while the merge is open.
    fn list(&self) -> Option<String>;
    /// The text of the folded catalogue; none while the merge is open.
    fn fold(&self) -> Option<String>;
}

/// The entries in the order added, and whether the merge is closed.
#[derive(Clone, Debug, Default, PartialEq, Eq)]
pub struct Merge {
    entries: Vec<Entry>,
    is_closed: bool,
}

impl Calls for Merge {
    fn add(&mut self, bytes: &[u8]) -> Answer {
        if self.is_closed {
            return refused(21, 0);
        }
        match self.read(bytes) {
            Ok(entry) => {
                self.entries.push(entry);
                Answer::Added
            }
            Err(refused) => Answer::Refused(refused),
        }
    }

    fn look(&self, number: u32) -> Answer {
        if self.is_closed {
            return lookup(&self.file(), number).map_or_else(Answer::Refused, Answer::Standing);
        }
        let is_named = |e: &Entry| e.see == Some(number);
        match self.entries.iter().position(|e| e.number == number) {
            Some(i) => Answer::Provisional(self.entries[standing(&self.entries)[i]].number),
            None if self.entries.iter().any(is_named) => Answer::NotYet,
            None => refused(17, 0),
        }
    }

    fn close(&mut self) -> Answer {
        if self.is_closed {
            return refused(21, 0);
        }
        if let Some(place) = self.first_lost() {
            return refused(12, place);
        }
        self.is_closed = true;
        Answer::Closed
    }

    fn list(&self) -> Option<String> {
        self.is_closed.then(|| listing(&self.file()))
    }

    fn fold(&self) -> Option<String> {
        self.is_closed
            .then(|| text(Form::New, &folded(&self.entries)))
    }
}

fn refused(number: u64, place: usize) -> Answer {
    Answer::Refused(Refused { number, place })
}

/// What has been read of an addition.
enum Read {
    Nothing,
    Number(u32),
    /// The number, d, m, and the coordinates so far.
    Part(u32, usize, usize, Vec<i64>),
    /// All coordinates, and a draft's mark perhaps.
    Whole(Entry),
    /// The see word is behind it.
    Ended(Entry),
}

impl Merge {
    /// The new-form file of the entries in the order added.
    pub fn file(&self) -> Vec<u8> {
        write(Form::New, &self.entries)
    }

    fn has(&self, number: u32) -> bool {
        self.entries.iter().any(|e| e.number == number)
    }

    /// 8, then word by word, then 5 at the head.
    fn read(&self, bytes: &[u8]) -> Result<Entry, Refused> {
        if bytes.len() % 4 != 0 {
            return refuse(8, 0);
        }
        let mut read = Read::Nothing;
        for (place, b) in bytes.chunks(4).enumerate() {
            let word = u32::from_le_bytes([b[0], b[1], b[2], b[3]]);
            let next = self.step(read, word >> 28, word & 0xFFF_FFFF);
            read = next.map_err(|number| Refused { number, place })?;
        }
        match read {
            Read::Whole(entry) | Read::Ended(entry) if rank(&entry.vectors) < entry.d() => {
                refuse(5, 0)
            }
            Read::Whole(entry) | Read::Ended(entry) => Ok(entry),
            _ => refuse(10, bytes.len() / 4),
        }
    }

    /// One word more, or the number of its refusal.
    fn step(&self, read: Read, kind: u32, load: u32) -> Result<Read, u64> {
        match (read, kind) {
            (Read::Nothing, 6) if self.entries.len() == MOST_ENTRIES => Err(15),
            (Read::Nothing, 6) if load == 0 || self.has(load) => Err(11),
            (Read::Nothing, 6) => Ok(Read::Number(load)),
            (Read::Number(_), 7) if load >> 8 != 0 => Err(20),
            (Read::Number(number), 7) => {
                let (d, m) = (load as usize >> 4, load as usize & 15);
                match (1..=MOST_VECTORS).contains(&d) {
                    false => Err(1),
                    true if !(1..=MOST_COORDINATES).contains(&m) => Err(2),
                    true => Ok(Read::Part(number, d, m, vec![])),
                }
            }
            (Read::Part(number, d, m, all), 2) => coordinate(number, d, m, all, load),
            (Read::Whole(entry), 5) if entry.draft => Err(10),
            (Read::Whole(_), 5) if load != 1 => Err(18),
            (Read::Whole(entry), 5) => Ok(Read::Whole(Entry {
                draft: true,
                ..entry
            })),
            (Read::Whole(entry), 3) => Ok(Read::Ended(Entry {
                see: Some(load),
                ..entry
            })),
            _ => Err(10),
        }
    }

    /// Where the first see word that names no entry stands in the file.
    fn first_lost(&self) -> Option<usize> {
        let mut place = 0;
        for e in &self.entries {
            place += 2 + e.d() * e.m() + e.draft as usize;
            if let Some(see) = e.see {
                if !self.has(see) {
                    return Some(place);
                }
                place += 1;
            }
        }
        None
    }
}

/// One coordinate more: in range, and with the last one of a vector that one too.
fn coordinate(number: u32, d: usize, m: usize, mut all: Vec<i64>, load: u32) -> Result<Read, u64> {
    let x = load as i64 - MOST_SIZE;
    if x > MOST_SIZE {
        return Err(4);
    }
    all.push(x);
    if all.len() % m == 0 && square(&all[all.len() - m..]) > MOST_SQUARE {
        return Err(4);
    }
    if all.len() < d * m {
        return Ok(Read::Part(number, d, m, all));
    }
    Ok(Read::Whole(Entry {
        number,
        vectors: all.chunks(m).map(<[i64]>::to_vec).collect(),
        draft: false,
        see: None,
    }))
}

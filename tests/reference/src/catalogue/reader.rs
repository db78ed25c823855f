//! Bytes to entries, or the first refusal.

use super::{refuse, Entry, Form, Refused, MOST_ENTRIES};
use crate::vectors::{rank, square};
use crate::{MOST_COORDINATES, MOST_SIZE, MOST_SQUARE, MOST_VECTORS};

/// The kinds of words.
pub const HEAD: u32 = 1;
pub const COORDINATE: u32 = 2;
pub const SEE: u32 = 3;
pub const END: u32 = 4;
pub const MARK: u32 = 5;
/// The two words of a head in the new form.
pub const NUMBER: u32 = 6;
pub const SIZE: u32 = 7;

/// The load of a draft's mark.
pub const DRAFT: u32 = 1;

pub fn kind(word: u32) -> u32 {
    word >> 28
}

pub fn load(word: u32) -> u32 {
    word & 0x0FFF_FFFF
}

pub fn words(bytes: &[u8]) -> Vec<u32> {
    bytes
        .chunks_exact(4)
        .map(|b| u32::from_le_bytes([b[0], b[1], b[2], b[3]]))
        .collect()
}

/// The form of the head that the first word begins; none where it begins none.
pub fn form(bytes: &[u8]) -> Option<Form> {
    let first = words(bytes.get(..4)?)[0];
    Form::of_head(kind(first))
}

/// The form that the first word shows: the old one unless it is of kind 6. It does not matter for a catalogue without entries, which is
/// written the same in both.
pub fn shown(bytes: &[u8]) -> Form {
    form(bytes).unwrap_or(Form::Old)
}

/// The row "whole file".
pub fn refused_whole(bytes: &[u8]) -> Result<(), Refused> {
    if bytes.len() % 4 != 0 {
        return refuse(8, 0);
    }
    if bytes.len() > shown(bytes).most_bytes() {
        return refuse(9, 0);
    }
    Ok(())
}

/// The words not yet read, and what has been read: entries, the place of each head, the place of each see word.
struct Reader {
    form: Form,
    words: Vec<u32>,
    at: usize,
    entries: Vec<Entry>,
    heads: Vec<usize>,
    sees: Vec<usize>,
}

pub fn read(bytes: &[u8]) -> Result<Vec<Entry>, Refused> {
    refused_whole(bytes)?;
    let mut reader = Reader {
        form: shown(bytes),
        words: words(bytes),
        at: 0,
        entries: vec![],
        heads: vec![],
        sees: vec![],
    };
    // a head of the other form is no head here, and no end word either
    while reader.is_head_next() {
        reader.entry()?;
    }
    reader.end()?;
    reader.after()?;
    Ok(reader.entries)
}

impl Reader {
    fn is_next(&self, wanted: u32) -> bool {
        self.words.get(self.at).is_some_and(|&w| kind(w) == wanted)
    }

    /// The load of the next word, which has to be of this kind.
    fn take(&mut self, wanted: u32) -> Result<u32, Refused> {
        if !self.is_next(wanted) {
            return refuse(10, self.at);
        }
        self.at += 1;
        Ok(load(self.words[self.at - 1]))
    }

    fn is_head_next(&self) -> bool {
        let next = self.words.get(self.at);
        next.is_some_and(|&w| Form::of_head(kind(w)) == Some(self.form))
    }

    fn entry(&mut self) -> Result<(), Refused> {
        let place = self.at;
        if self.entries.len() == MOST_ENTRIES {
            return refuse(15, place);
        }
        let (number, d, m) = match self.form {
            Form::Old => self.head()?,
            Form::New => self.long_head()?,
        };
        let mut vectors = vec![];
        for _ in 0..d {
            vectors.push(self.vector(m)?);
        }
        let draft = self.mark()?;
        let mut see = None;
        let see_place = self.at;
        if self.is_next(SEE) {
            see = Some(self.take(SEE)?);
        }
        self.entries.push(Entry {
            number,
            vectors,
            draft,
            see,
        });
        self.heads.push(place);
        self.sees.push(see_place);
        Ok(())
    }

    /// A head of one word: its number, d and m, which are looked at before the number.
    fn head(&mut self) -> Result<(u32, usize, usize), Refused> {
        let place = self.at;
        let head = self.take(HEAD)?;
        let (d, m) = size(head, place)?;
        Ok((self.number(head >> 8, place)?, d, m))
    }

    /// A head of two words, each looked at before the next.
    fn long_head(&mut self) -> Result<(u32, usize, usize), Refused> {
        let place = self.at;
        let number = self.take(NUMBER)?;
        let number = self.number(number, place)?;
        let place = self.at;
        let load = self.take(SIZE)?;
        if load > 0xFF {
            return refuse(20, place);
        }
        let (d, m) = size(load, place)?;
        Ok((number, d, m))
    }

    /// A number that is not 0 and that no entry before has.
    fn number(&self, number: u32, place: usize) -> Result<u32, Refused> {
        if number == 0 || self.entries.iter().any(|e| e.number == number) {
            return refuse(11, place);
        }
        Ok(number)
    }

    fn vector(&mut self, m: usize) -> Result<Vec<i64>, Refused> {
        let mut v = vec![];
        while v.len() < m {
            let place = self.at;
            let x = self.take(COORDINATE)? as i64 - MOST_SIZE;
            v.push(x);
            if x > MOST_SIZE || v.len() == m && square(&v) > MOST_SQUARE {
                return refuse(4, place);
            }
        }
        Ok(v)
    }

    /// Whether a draft's mark comes next. It is taken then.
    fn mark(&mut self) -> Result<bool, Refused> {
        let place = self.at;
        if !self.is_next(MARK) {
            return Ok(false);
        }
        match self.take(MARK)? {
            DRAFT => Ok(true),
            _ => refuse(18, place),
        }
    }

    fn end(&mut self) -> Result<(), Refused> {
        let place = self.at;
        let count = self.take(END)? as usize;
        if count != self.entries.len() {
            return refuse(13, place);
        }
        if self.at != self.words.len() {
            return refuse(14, self.at);
        }
        Ok(())
    }

    /// All entries are checked for dependent vectors before the first see word is looked at.
    fn after(&self) -> Result<(), Refused> {
        for (e, &place) in self.entries.iter().zip(&self.heads) {
            if rank(&e.vectors) < e.d() {
                return refuse(5, place);
            }
        }
        for (e, &place) in self.entries.iter().zip(&self.sees) {
            let is_named = |see: u32| self.entries.iter().any(|f| f.number == see);
            if e.see.is_some_and(|see| !is_named(see)) {
                return refuse(12, place);
            }
        }
        Ok(())
    }
}

/// d and m, in the lowest bits of a load.
fn size(load: u32, place: usize) -> Result<(usize, usize), Refused> {
    let (d, m) = (load as usize >> 4 & 15, load as usize & 15);
    if !(1..=MOST_VECTORS).contains(&d) {
        return refuse(1, place);
    }
    if !(1..=MOST_COORDINATES).contains(&m) {
        return refuse(2, place);
    }
    Ok((d, m))
}

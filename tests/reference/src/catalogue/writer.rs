//! Entries to bytes.

use super::reader::{COORDINATE, DRAFT, END, HEAD, MARK, NUMBER, SEE, SIZE};
use super::{Entry, Form};
use crate::MOST_SIZE;

/// A head, one word or two.
pub fn head_words(form: Form, number: u32, d: u32, m: u32) -> Vec<u32> {
    assert!(number <= form.most_number() && d < 16 && m < 16);
    let size = d << 4 | m;
    match form {
        Form::Old => vec![HEAD << 28 | number << 8 | size],
        Form::New => vec![NUMBER << 28 | number, SIZE << 28 | size],
    }
}

pub fn coordinate_word(x: i64) -> u32 {
    COORDINATE << 28 | (x + MOST_SIZE) as u32
}

pub fn see_word(number: u32) -> u32 {
    SEE << 28 | number
}

/// A draft's mark where the load is 1.
pub fn mark_word(load: u32) -> u32 {
    MARK << 28 | load
}

pub fn end_word(count: usize) -> u32 {
    END << 28 | count as u32
}

/// A head, the coordinates, a mark if it is a draft, and a see word if there is one.
pub fn entry_words(form: Form, e: &Entry) -> Vec<u32> {
    let mut all = head_words(form, e.number, e.d() as u32, e.m() as u32);
    all.extend(e.vectors.concat().iter().map(|&x| coordinate_word(x)));
    all.extend(e.draft.then_some(mark_word(DRAFT)));
    all.extend(e.see.map(see_word));
    all
}

pub fn bytes(words: &[u32]) -> Vec<u8> {
    words.iter().flat_map(|w| w.to_le_bytes()).collect()
}

/// Without entries the same in both forms.
pub fn write(form: Form, entries: &[Entry]) -> Vec<u8> {
    let each = entries.iter().flat_map(|e| entry_words(form, e));
    let mut words: Vec<u32> = each.collect();
    words.push(end_word(entries.len()));
    bytes(&words)
}

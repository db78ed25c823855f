//! The two moves between the forms, by document 02, ask 6, word by word: nothing but the heads changes.

use super::reader::{form, kind, load, read, refused_whole, words};
use super::writer::{bytes, head_words};
use super::{lend, refuse, Form, Refused};

/// The catalogue, which is in the other form, in this form.
pub fn moved(to: Form, file: &[u8]) -> Result<Vec<u8>, Refused> {
    refused_whole(file)?;
    if form(file) == Some(to) {
        return refuse(10, 0);
    }
    read(file)?;
    let old = words(file);
    if let Some(place) = old.iter().position(|&w| is_too_long(to, w)) {
        return refuse(19, place);
    }
    let mut new = vec![];
    let mut rest = old.into_iter();
    while let Some(word) = rest.next() {
        match Form::of_head(kind(word)) {
            Some(Form::Old) => {
                let (number, d, m) = (load(word) >> 8, word >> 4 & 15, word & 15);
                new.extend(head_words(to, number, d, m));
            }
            Some(Form::New) => {
                let size = load(rest.next().expect("a number has its size behind it"));
                new.extend(head_words(to, load(word), size >> 4, size & 15));
            }
            None => new.push(word),
        }
    }
    Ok(bytes(&new))
}

/// Whether a word is a head with a number for which the form has no room; heads of one word have none such.
fn is_too_long(to: Form, word: u32) -> bool {
    Form::of_head(kind(word)) == Some(Form::New) && load(word) > to.most_number()
}

/// The same to a lent output.
pub fn move_to(to: Form, file: &[u8], out: &mut [u8]) -> Result<usize, Refused> {
    lend(&moved(to, file)?, out)
}

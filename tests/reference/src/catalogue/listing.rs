//! What the listing program prints for a catalogue.

use super::fold::{leads, standing};
use super::{reader::read, Entry, Refused};
use crate::reduce;

pub fn listing(bytes: &[u8]) -> String {
    match read(bytes) {
        Err(Refused { number, place }) => format!("refused {number} {place}\n"),
        Ok(entries) => listed(&entries),
    }
}

fn listed(entries: &[Entry]) -> String {
    let standing = standing(entries);
    let leads = leads(entries, &standing);
    let stands = |i: usize| standing[i] == i;
    let count = (0..entries.len()).filter(|&i| stands(i)).count();
    let mut text = format!("{} {count}\n", entries.len());
    for (i, e) in entries.iter().enumerate() {
        let r = reduce(&e.vectors.concat(), e.d(), e.m());
        let led = leads[i].map_or(0, |k| entries[k].number);
        let stand = entries[standing[i]].number;
        text += &format!("{} {stand} {led} {}\n", e.number, r.passes);
        if stands(i) {
            for v in &r.vectors {
                let numbers: Vec<String> = v.iter().map(i64::to_string).collect();
                text += &format!("v {}\n", numbers.join(" "));
            }
        }
    }
    text
}

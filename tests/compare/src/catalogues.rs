//! Catalogues of both forms: random ones and damaged ones, every truncation of a few, every byte of six small ones changed, outputs of every
//! length.

use reference::catalogue::cases::{case, kind, Kind};
use reference::catalogue::moves::moved;
use reference::catalogue::{writer, Form};

use crate::catalogue::{self, Rooms};
use crate::refusals::{Call, Refusals};
use crate::widths::Widths;

/// Document 01's catalogue.
const SMALL: [u32; 18] = [
    0x10000722, 0x20004E21, 0x20004E20, 0x20004E24, 0x20004E21, 0x10000922, 0x20004E22, 0x20004E20,
    0x20004E20, 0x20004E23, 0x3000000C, 0x10000C22, 0x20004E20, 0x20004E21, 0x20004E21, 0x20004E20,
    0x30000009, 0x40000003,
];

/// An entry of two vectors of eight coordinates, (1,0,0,0,0,0,0,2) and (0,1,-1,0,0,0,3,0), that refers to itself.
const WIDE: [u32; 19] = [
    0x10000728, 0x20004E21, 0x20004E20, 0x20004E20, 0x20004E20, 0x20004E20, 0x20004E20, 0x20004E20,
    0x20004E22, 0x20004E20, 0x20004E21, 0x20004E1F, 0x20004E20, 0x20004E20, 0x20004E20, 0x20004E23,
    0x20004E20, 0x30000007, 0x40000001,
];

/// Entry 7: (1,0),(4,1), a draft that refers to 12; 12: (0,1),(1,0).
const DRAFT: [u32; 13] = [
    0x10000722, 0x20004E21, 0x20004E20, 0x20004E24, 0x20004E21, 0x50000001, 0x3000000C, 0x10000C22,
    0x20004E20, 0x20004E21, 0x20004E21, 0x20004E20, 0x40000002,
];

/// How many random catalogues of each kind are cut at every byte, and are written to outputs of every length.
const CUT: usize = 3;
const LENT: usize = 20;

/// So many random catalogues must show every refusal at every place.
const ENOUGH: usize = 100_000;

/// How many catalogues were accepted, or refused with each number at each kind of place, and what was called.
struct Counts {
    accepted: u64,
    /// Of these, in the new form, and without entries.
    new: u64,
    empty: u64,
    /// With drafts.
    drafts: u64,
    refusals: Refusals,
    /// Accepted catalogues with an entry of each m.
    widths: Widths,
    writings: u64,
    short_outputs: u64,
    lookups: u64,
    absent_numbers: u64,
}

impl Counts {
    fn new() -> Counts {
        Counts {
            accepted: 0,
            new: 0,
            empty: 0,
            drafts: 0,
            refusals: Refusals::new(Call::Reading),
            widths: Widths::default(),
            writings: 0,
            short_outputs: 0,
            lookups: 0,
            absent_numbers: 0,
        }
    }

    fn compare(&mut self, bytes: &[u8], rooms: Rooms, of: &str) -> Result<(), String> {
        let seen = catalogue::compare(bytes, rooms)
            .map_err(|what| format!("{what}\n{of}, in hexadecimal:\n{}", hexadecimal(bytes)))?;
        match (seen.refused, seen.form) {
            (None, form) => {
                self.accepted += 1;
                self.new += (form == Some(Form::New)) as u64;
                self.empty += form.is_none() as u64;
            }
            (Some(r), _) => self.refusals.add(bytes, r),
        }
        self.drafts += seen.has_drafts as u64;
        self.widths.add_each(seen.widths.into_iter());
        self.writings += seen.writings;
        self.short_outputs += seen.short_outputs;
        self.lookups += seen.lookups;
        self.absent_numbers += seen.absent_numbers;
        Ok(())
    }

    fn total(&self) -> u64 {
        self.accepted + self.refusals.total()
    }

    fn print(&self) {
        println!(
            "{} catalogues as the reference answers them: {} accepted, {} of them in the new form, {} without entries, {} with drafts; refused at {} \
             kinds of places",
            self.total(),
            self.accepted,
            self.new,
            self.empty,
            self.drafts,
            self.refusals.kinds()
        );
        self.refusals.print();
        self.refusals.print_loads();
        println!(
            "{} writings, refused with 16: {}; {} lookups, refused with 17: {}",
            self.writings, self.short_outputs, self.lookups, self.absent_numbers
        );
    }

    /// Every refusal at every kind of place that it can have, and catalogues accepted in both forms, with drafts and without.
    fn check(&self) -> Result<(), String> {
        self.refusals.check()?;
        self.refusals.check_loads()?;
        let is_accepted = self.accepted > self.drafts && self.drafts > 0;
        let is_formed = self.new > 0 && self.empty > 0 && self.accepted > self.new + self.empty;
        let is_called = self.short_outputs > 0 && self.absent_numbers > 0;
        match is_accepted && is_formed && is_called {
            true => Ok(()),
            false => Err("the cases: a form, a draft or none, 16 or 17 did not occur".into()),
        }
    }
}

fn hexadecimal(bytes: &[u8]) -> String {
    bytes.iter().map(|b| format!("{b:02x}")).collect()
}

/// Compares so many random catalogues of a seed, then the complete series.
pub fn compare(count: usize, seed: u64) -> Result<(), String> {
    let mut counts = Counts::new();
    for index in 0..count {
        let of = format!("seed {seed}, index {index}, kind {:?}", kind(index));
        counts.compare(&case(seed, index), Rooms::Few, &of)?;
    }
    for words in [&SMALL[..], &WIDE, &DRAFT] {
        let old = writer::bytes(words);
        let new = moved(Form::New, &old).expect("they are accepted");
        for bytes in [old, new] {
            truncations(&mut counts, &bytes)?;
            changes(&mut counts, &bytes)?;
        }
    }
    for wanted in [Kind::Accepted, Kind::Longer] {
        for bytes in of_kind(wanted, seed, CUT) {
            truncations(&mut counts, &bytes)?;
        }
        for bytes in of_kind(wanted, seed, LENT) {
            counts.compare(&bytes, Rooms::All, "outputs of every length")?;
        }
    }
    counts.print();
    counts.widths.print("catalogues accepted", count)?;
    if count < ENOUGH {
        return Ok(());
    }
    counts.check()
}

fn of_kind(wanted: Kind, seed: u64, count: usize) -> Vec<Vec<u8>> {
    let indices = (0..).filter(|&i| kind(i) == wanted);
    indices.map(|i| case(seed, i)).take(count).collect()
}

/// The catalogue cut at every byte.
fn truncations(counts: &mut Counts, bytes: &[u8]) -> Result<(), String> {
    (0..=bytes.len()).try_for_each(|n| {
        let of = format!("the first {n} bytes");
        counts.compare(&bytes[..n], Rooms::Few, &of)
    })
}

/// Every other value at every byte.
fn changes(counts: &mut Counts, bytes: &[u8]) -> Result<(), String> {
    for i in 0..bytes.len() {
        for value in (0..=u8::MAX).filter(|&v| v != bytes[i]) {
            let mut changed = bytes.to_vec();
            changed[i] = value;
            let of = format!("byte {i} changed to {value}");
            counts.compare(&changed, Rooms::Few, &of)?;
        }
    }
    Ok(())
}

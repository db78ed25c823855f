//! One catalogue: written out, folded, listed, moved to either form and looked up, and its entries read and written, against the reference.

use raghymtos::catalogue::{self as engine, CatalogueRefusal};
use raghymtos::raw::{self, ANSWER_NUMBERS};
use reference::catalogue::fold::{folded, standing};
use reference::catalogue::listing::listing;
use reference::catalogue::moves::moved;
use reference::catalogue::reader::{form, read, shown};
use reference::catalogue::writer::write;
use reference::catalogue::{lend, looked_up, Entry, Form, Refused};

use crate::lent::written;

/// What stands in the lent bytes before the call.
const MARK: u8 = 0xA5;

/// Which lengths of the lent output are tried, about the right one.
#[derive(Clone, Copy, PartialEq, Eq)]
pub enum Rooms {
    Few,
    All,
}

/// A function that writes to a lent output, as the header has it and as the Rust crate has it.
pub struct Writing {
    name: &'static str,
    into: fn(&[u8], &mut [u8], &mut [i64]) -> bool,
    wrapped: fn(&[u8], &mut [u8]) -> Result<usize, CatalogueRefusal>,
}

const WRITE_OUT: Writing = Writing {
    name: "write_out",
    into: raw::write_out,
    wrapped: engine::write_out_to,
};

const FOLD: Writing = Writing {
    name: "fold",
    into: raw::fold,
    wrapped: engine::fold_to,
};

const LIST: Writing = Writing {
    name: "list",
    into: raw::list,
    wrapped: engine::list_to,
};

/// The move to a form.
pub fn writing_of_move(to: Form) -> Writing {
    match to {
        Form::Old => Writing {
            name: "old_form",
            into: raw::old_form,
            wrapped: engine::old_form_to,
        },
        Form::New => Writing {
            name: "new_form",
            into: raw::new_form,
            wrapped: engine::new_form_to,
        },
    }
}

/// The form as the Rust crate has it.
pub fn wrapped_form(form: Form) -> engine::Form {
    match form {
        Form::Old => engine::Form::Old,
        Form::New => engine::Form::New,
    }
}

/// What was compared: the refusals of each call, and that of the catalogue itself.
#[derive(Default)]
pub struct Compared {
    pub refused: Option<Refused>,
    /// The form, where the catalogue is accepted and has entries.
    pub form: Option<Form>,
    /// The m of each entry, where the catalogue is accepted, and whether one is a draft.
    pub widths: Vec<usize>,
    pub has_drafts: bool,
    pub writings: u64,
    pub short_outputs: u64,
    pub lookups: u64,
    pub absent_numbers: u64,
}

/// What differs is said in a line.
pub fn compare(bytes: &[u8], rooms: Rooms) -> Result<Compared, String> {
    let entries = read(bytes);
    let mut seen = Compared {
        refused: entries.as_ref().err().copied(),
        form: form(bytes).filter(|_| entries.is_ok()),
        widths: entries.iter().flatten().map(Entry::m).collect(),
        has_drafts: entries.iter().flatten().any(|e| e.draft),
        ..Compared::default()
    };
    let write = |entries: &[Entry]| write(shown(bytes), entries);
    let whole = entries.as_ref().map(|e| write(e)).map_err(|r| *r);
    let fold = entries.as_ref().map(|e| write(&folded(e))).map_err(|r| *r);
    let list = entries.as_ref().map(|_| listing(bytes).into_bytes());
    let list = list.map_err(|r| *r);
    let mut all = vec![(WRITE_OUT, whole), (FOLD, fold), (LIST, list)];
    all.extend(Form::BOTH.map(|to| (writing_of_move(to), moved(to, bytes))));
    for (writing, expected) in all {
        for room in lengths(&expected, rooms) {
            let refused = written_alike(&writing, bytes, &expected, room)?;
            seen.writings += 1;
            seen.short_outputs += (refused == 16) as u64;
        }
        wrapped_alike(&writing, bytes, &expected)?;
    }
    entries_alike(bytes, &entries)?;
    let standing = entries.as_ref().map_or(vec![], |e| standing(e));
    let expected = |number: u32| match &entries {
        Ok(entries) => looked_up(entries, &standing, number),
        Err(refused) => Err(*refused),
    };
    let all = numbers(entries.as_deref().unwrap_or(&[]));
    for &number in &all {
        seen.lookups += 1;
        seen.absent_numbers += (looked_up_alike(bytes, number, expected(number))? == 17) as u64;
    }
    wrapped_lookup_alike(bytes, all[0], expected(all[0]))?;
    Ok(seen)
}

/// One byte too few, just enough, some more; or all lengths from none on.
pub fn lengths(expected: &Result<Vec<u8>, Refused>, rooms: Rooms) -> Vec<usize> {
    match (expected, rooms) {
        (Err(_), _) => vec![0, 80],
        (Ok(all), Rooms::Few) => vec![all.len() - 1, all.len(), all.len() + 5],
        (Ok(all), Rooms::All) => (0..all.len() + 9).collect(),
    }
}

/// The number of every entry, which are those of see words too, and some that no entry has. Of a large catalogue, which takes long,
/// every twentieth.
pub fn numbers(entries: &[Entry]) -> Vec<u32> {
    let step = if entries.len() < 100 { 1 } else { 20 };
    let mut all: Vec<u32> = entries.iter().step_by(step).map(|e| e.number).collect();
    // equal in the lowest 20 or 28 bits to one that an entry has
    let far = |bits: u32| entries.first().map_or(0, |e| e.number + (1 << bits));
    let next = entries.iter().map(|e| e.number).max().map_or(1, |n| n + 1);
    all.extend([0, next, far(20), far(28), u32::MAX]);
    all
}

/// One call: the output and the answer as the reference gives them. Gives the refusal.
pub fn written_alike(
    writing: &Writing,
    bytes: &[u8],
    expected: &Result<Vec<u8>, Refused>,
    room: usize,
) -> Result<i64, String> {
    let mut wanted_out = vec![MARK; room];
    let wanted = match expected {
        Ok(all) => lend(all, &mut wanted_out),
        Err(refused) => Err(*refused),
    };
    let said = format!("{}, {room} bytes lent", writing.name);
    let mut out = vec![MARK; room];
    let answer = written(ANSWER_NUMBERS, |answer| {
        let mut lent = vec![MARK; room];
        let is_taken = (writing.into)(bytes, &mut lent, answer);
        out.copy_from_slice(&lent);
        // an answer that is too short leaves the output alone too
        is_taken || lent.iter().any(|&b| b != MARK)
    })?;
    if answer != laid_out(wanted.map(|n| n as i64)) {
        return Err(format!(
            "{said}: the engine gave {answer:?}, the reference {wanted:?}"
        ));
    }
    if out != wanted_out {
        return Err(format!(
            "{said}: the engine wrote {out:x?}, the reference {wanted_out:x?}"
        ));
    }
    Ok(answer[0])
}

/// One call with Rust's types: what is written, or the refusal.
pub fn wrapped_alike(
    writing: &Writing,
    bytes: &[u8],
    expected: &Result<Vec<u8>, Refused>,
) -> Result<(), String> {
    let mut out = vec![MARK; engine::MOST_LISTING_BYTES];
    let given = (writing.wrapped)(bytes, &mut out);
    let is_alike = match (given, expected) {
        (Ok(n), Ok(all)) => out[..n] == all[..],
        (Err(refusal), Err(r)) => number_and_place(refusal) == (r.number as i64, r.place),
        _ => false,
    };
    if is_alike {
        Ok(())
    } else {
        Err(format!(
            "{}: the Rust wrapper gives {given:?}",
            writing.name
        ))
    }
}

/// The form and the entries with Rust's types, which are plain Rust: read, and made into a catalogue again.
fn entries_alike(bytes: &[u8], expected: &Result<Vec<Entry>, Refused>) -> Result<(), String> {
    let (given, given_form) = (engine::entries(bytes), engine::form(bytes));
    let wanted_form = form(bytes).map(wrapped_form);
    if given_form.ok() != expected.as_ref().ok().map(|_| wanted_form) {
        return Err(format!("form: the Rust wrapper gives {given_form:?}"));
    }
    let is_alike = match (&given, expected) {
        (Ok(given), Ok(expected)) => {
            let same = given.len() == expected.len()
                && given.iter().zip(expected).all(|(a, b)| {
                    let wanted = (b.number, &b.vectors, b.draft, b.see);
                    (a.number, &a.vectors, a.draft, a.see) == wanted
                });
            let again = engine::from_entries_in(wrapped_form(shown(bytes)), given);
            same && again.as_deref() == Ok(bytes)
        }
        (Err(refusal), Err(r)) => number_and_place(*refusal) == (r.number as i64, r.place),
        _ => false,
    };
    if is_alike {
        Ok(())
    } else {
        Err(format!("entries: the Rust wrapper gives {given:?}"))
    }
}

fn number_and_place(r: CatalogueRefusal) -> (i64, usize) {
    (r.refusal.number(), r.place)
}

fn looked_up_alike(bytes: &[u8], number: u32, wanted: Result<u32, Refused>) -> Result<i64, String> {
    let answer = written(ANSWER_NUMBERS, |answer| raw::lookup(bytes, number, answer))?;
    let expected = laid_out(wanted.map(|n| n as i64));
    if answer != expected {
        return Err(format!(
            "lookup {number}: the engine gave {answer:?}, the reference {expected:?}"
        ));
    }
    Ok(answer[0])
}

fn wrapped_lookup_alike(
    bytes: &[u8],
    number: u32,
    wanted: Result<u32, Refused>,
) -> Result<(), String> {
    let given = engine::lookup(bytes, number).map_err(number_and_place);
    if given == wanted.map_err(|r| (r.number as i64, r.place)) {
        Ok(())
    } else {
        Err(format!("lookup {number}: the Rust wrapper gives {given:?}"))
    }
}

/// The answer in the header's order.
fn laid_out(wanted: Result<i64, Refused>) -> Vec<i64> {
    match wanted {
        Ok(n) => vec![0, 0, n],
        Err(r) => vec![r.number as i64, r.place as i64, 0],
    }
}

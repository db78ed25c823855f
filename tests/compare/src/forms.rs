//! Catalogues of both forms, each with both moves: the bytes, refusals and places of the reference, there and back, and that both forms have
//! the same fold, listing, lookups and separations; then those that the reference has by hand, by the library and by the command line.

use raghymtos::catalogue as engine;
use reference::catalogue::cases::{case, kind};
use reference::catalogue::forms::{ALIKE, LONG, WRONG};
use reference::catalogue::made::LIMITS;
use reference::catalogue::moves::moved;
use reference::catalogue::reader::{form, load, read, shown, words, NUMBER};
use reference::catalogue::writer::bytes;
use reference::catalogue::{Entry, Form, Refused, MOST_ENTRIES};
use reference::random::Random;

use crate::catalogue::{
    self, lengths, numbers, wrapped_alike, wrapped_form, writing_of_move, written_alike, Rooms,
};
use crate::commands;
use crate::refusals::{Call, Refusals};

/// So many catalogues must show every refusal of the moves at every place, and the limits of the new form.
const ENOUGH: usize = 100_000;

/// The random catalogues are others than those of the same seed elsewhere.
const OTHER: u64 = 0x5851_F42D_4C95_7F2D;

/// What both moves gave. Where there are two counts of one thing, they are by the form: that of the file, or that to be written.
struct Counts {
    /// Accepted catalogues in each form, and without entries.
    accepted: [u64; 2],
    empty: u64,
    refusals: [Refusals; 2],
    moved: [u64; 2],
    short_outputs: [u64; 2],
    /// In the wrong form: such that reading accepts, and such that it refuses elsewhere.
    wrong_form: [u64; 2],
    /// With a number that the old form has no room for, and refused with 5, with 12.
    before_long: [u64; 2],
    /// Accepted catalogues in the new form with each of the numbers at the limits.
    limits: [u64; 3],
    /// In the new form: 255 and 256 entries, accepted, and a 257th, refused with 15.
    counts: [u64; 3],
    /// In the new form: 36,864 bytes, 36,868 bytes accepted, 36,868 refused, and 36,872 bytes.
    lengths: [u64; 4],
    calls: u64,
}

impl Counts {
    fn new() -> Counts {
        Counts {
            accepted: [0; 2],
            empty: 0,
            refusals: Form::BOTH.map(|to| Refusals::new(Call::Move(to))),
            moved: [0; 2],
            short_outputs: [0; 2],
            wrong_form: [0; 2],
            before_long: [0; 2],
            limits: [0; 3],
            counts: [0; 3],
            lengths: [0; 4],
            calls: 0,
        }
    }

    /// Both moves of one catalogue, and what both forms have in common.
    fn compare(&mut self, file: &[u8]) -> Result<(), String> {
        let outcome = read(file);
        self.add(file, &outcome);
        for to in Form::BOTH {
            let expected = moved(to, file);
            let writing = writing_of_move(to);
            for room in lengths(&expected, Rooms::Few) {
                let refused = written_alike(&writing, file, &expected, room)?;
                self.short_outputs[to as usize] += (refused == 16) as u64;
                self.calls += 1;
            }
            wrapped_alike(&writing, file, &expected)?;
            self.add_move(to, file, &outcome, &expected);
            if let (Ok(entries), Ok(other)) = (&outcome, &expected) {
                in_both(to, file, other, entries)?;
            }
        }
        Ok(())
    }

    fn add(&mut self, file: &[u8], outcome: &Result<Vec<Entry>, Refused>) {
        match (outcome, form(file)) {
            (Ok(_), None) => self.empty += 1,
            (Ok(entries), Some(form)) => {
                self.accepted[form as usize] += 1;
                if form == Form::New {
                    for (count, limit) in self.limits.iter_mut().zip(LIMITS) {
                        *count += entries.iter().any(|e| e.number == limit) as u64;
                    }
                    self.counts[0] += (entries.len() == MOST_ENTRIES - 1) as u64;
                    self.counts[1] += (entries.len() == MOST_ENTRIES) as u64;
                }
            }
            (Err(r), Some(Form::New)) => self.counts[2] += (r.number == 15) as u64,
            _ => (),
        }
        if form(file) == Some(Form::New) {
            let most = Form::New.most_bytes();
            self.lengths[0] += (file.len() == most - 4) as u64;
            self.lengths[1] += (file.len() == most && outcome.is_ok()) as u64;
            self.lengths[2] += (file.len() == most && outcome.is_err()) as u64;
            self.lengths[3] += (file.len() == most + 4) as u64;
        }
    }

    fn add_move(
        &mut self,
        to: Form,
        file: &[u8],
        outcome: &Result<Vec<Entry>, Refused>,
        expected: &Result<Vec<u8>, Refused>,
    ) {
        let Err(refused) = expected else {
            self.moved[to as usize] += 1;
            return;
        };
        self.refusals[to as usize].add(file, *refused);
        if form(file) == Some(to) && refused.number == 10 {
            self.wrong_form[0] += outcome.is_ok() as u64;
            self.wrong_form[1] += outcome.as_ref().is_err_and(|r| r.place > 0) as u64;
        }
        if to == Form::Old && has_long(file) {
            self.before_long[0] += (refused.number == 5) as u64;
            self.before_long[1] += (refused.number == 12) as u64;
        }
    }

    fn print(&self, count: usize) {
        let [old, new] = self.accepted;
        let [to_old, to_new] = self.moved;
        println!(
            "{count} catalogues, {old} accepted in the old form, {new} in the new form, {} without entries: both moves as the reference makes them, \
             {} calls; moved to the new form {to_new}, to the old form {to_old}, each there and back, with one fold, listing, lookups and \
             separations",
            self.empty, self.calls
        );
        for (to, name) in [(Form::New, "new"), (Form::Old, "old")] {
            let (refusals, short) = (&self.refusals[to as usize], self.short_outputs[to as usize]);
            println!(
                "  to the {name} form, refused with 16: {short}; others: {} at {} kinds of places",
                refusals.total(),
                refusals.kinds()
            );
            refusals.print();
        }
        let [accepted, refused] = self.wrong_form;
        println!("  in the wrong form: {accepted} that reading accepts, {refused} that it refuses at another place");
        let [dependent, lost] = self.before_long;
        println!("  before 19: {dependent} with 5, {lost} with 12");
        let [most_old, over, most] = self.limits;
        println!("  in the new form with the number 1048575: {most_old}, with 1048576: {over}, with 268435455: {most}");
        let [fewer, most, more] = self.counts;
        println!("  in the new form with 255 entries: {fewer}, with 256: {most}, with 257 or more: {more}");
        let [fewer, accepted, refused, more] = self.lengths;
        println!(
            "  in the new form of 36864 bytes: {fewer}, of 36868: {accepted} accepted, {refused} refused, of 36872: {more}"
        );
    }

    fn check(&self) -> Result<(), String> {
        self.refusals.iter().try_for_each(Refusals::check)?;
        let all = [
            &self.accepted[..],
            &[self.empty],
            &self.moved,
            &self.short_outputs,
            &self.wrong_form,
            &self.before_long,
            &self.limits,
            &self.counts,
            &self.lengths,
        ];
        match all.concat().iter().all(|&n| n > 0) {
            true => Ok(()),
            false => Err("the cases: a limit of the new form, or a move, did not occur".into()),
        }
    }
}

/// Whether the number of a head is one that the old form has no room for.
fn has_long(file: &[u8]) -> bool {
    let is_long = |&w: &u32| w >> 28 == NUMBER && load(w) > Form::Old.most_number();
    words(file).iter().any(is_long)
}

fn engine_move(to: Form, file: &[u8]) -> Result<Vec<u8>, engine::CatalogueRefusal> {
    match to {
        Form::Old => engine::old_form(file),
        Form::New => engine::new_form(file),
    }
}

/// A catalogue and the same in this form, by the engine alone: the move back restores the bytes, the fold of the moved one is the moved fold,
/// and listing, lookups and separations are the same.
fn in_both(to: Form, file: &[u8], other: &[u8], entries: &[Entry]) -> Result<(), String> {
    let same = |is_so: bool, what: &str| match is_so {
        true => Ok(()),
        false => Err(format!("{what} differs in the other form, {to:?}")),
    };
    let is_formed = engine::form(other) == Ok((!entries.is_empty()).then_some(wrapped_form(to)));
    same(is_formed, "what the Rust wrapper gives as form")?;
    let back = engine_move(to.other(), other);
    same(back.as_deref() == Ok(file), "the file there and back")?;
    let (fold, fold_of_other) = (engine::fold(file), engine::fold(other));
    let moved_fold = fold.and_then(|fold| engine_move(to, &fold));
    same(
        moved_fold.is_ok() && moved_fold == fold_of_other,
        "the fold",
    )?;
    let lists = [engine::list(file), engine::list(other)];
    same(lists[0].is_ok() && lists[0] == lists[1], "the listing")?;
    let all = numbers(entries);
    for &n in &all {
        let found = [engine::lookup(file, n), engine::lookup(other, n)];
        same(found[0] == found[1], &format!("lookup {n}"))?;
    }
    // pairs of neighbours, and of numbers that no entry has
    for two in all.windows(2).take(8).chain([&all[all.len() - 2..]]) {
        let said = [file, other].map(|bytes| engine::separate(bytes, two[0], two[1]));
        same(said[0] == said[1], &format!("separate {two:?}"))?;
    }
    Ok(())
}

fn hexadecimal(bytes: &[u8]) -> String {
    bytes.iter().map(|b| format!("{b:02x}")).collect()
}

/// Compares so many random catalogues of a seed, then those by hand.
pub fn compare(count: usize, seed: u64) -> Result<(), String> {
    let mut counts = Counts::new();
    for index in 0..count {
        let file = case(seed ^ OTHER, index);
        counts.compare(&file).map_err(|what| {
            let kind = kind(index);
            let file = hexadecimal(&file);
            format!("{what}\nseed {seed}, index {index}, kind {kind:?}, in hexadecimal:\n{file}")
        })?;
    }
    counts.print(count);
    if count >= ENOUGH {
        counts.check()?;
    }
    by_hand()
}

/// Those that the reference has by hand, each with its name.
fn known() -> Vec<(&'static str, Vec<u8>)> {
    let old = ALIKE.iter().map(|a| (a.name, bytes(a.old)));
    let new = ALIKE.iter().map(|a| (a.name, bytes(a.new)));
    let long = LONG.iter().map(|l| (l.name, bytes(l.words)));
    let wrong = WRONG.iter().map(|w| (w.name, bytes(w.words)));
    old.chain(new).chain(long).chain(wrong).collect()
}

/// With outputs of every length.
fn by_hand() -> Result<(), String> {
    for (name, file) in known() {
        let said = |what| format!("{what}\n{name}, in hexadecimal:\n{}", hexadecimal(&file));
        catalogue::compare(&file, Rooms::All).map_err(said)?;
        if let (Ok(entries), to) = (read(&file), shown(&file).other()) {
            if let Ok(other) = moved(to, &file) {
                in_both(to, &file, &other, &entries).map_err(said)?;
            }
        }
    }
    println!(
        "catalogues in both forms as the reference has them by hand: {}",
        ALIKE.map(|a| a.name).join("; ")
    );
    println!("  without an old form: {}", LONG.map(|l| l.name).join("; "));
    println!("  refused: {}", WRONG.map(|w| w.name).join("; "));
    Ok(())
}

/// Compares the command line.
pub fn by_command(seed: u64) -> Result<(), String> {
    let mut random = Random::new(seed);
    let all = known();
    for (name, file) in &all {
        commands::compare_one(file, &mut random).map_err(|what| format!("{name}: {what}"))?;
    }
    println!(
        "the {} catalogues of both forms that the reference has by hand, by the command line",
        all.len()
    );
    Ok(())
}

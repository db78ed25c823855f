//! Catalogues with drafts and with many see words on entries that do not stand: which entry stands, and which word it carries.

use raghymtos::catalogue as engine;
use reference::catalogue::fold::{carried, folded, leads, standing};
use reference::catalogue::listing::listing;
use reference::catalogue::made::referring;
use reference::catalogue::writer::write;
use reference::catalogue::{Entry, Form};
use reference::random::Random;

use crate::widths::Widths;

/// So many catalogues must show every way to a standing entry and to its word.
const ENOUGH: usize = 1_000;

/// One catalogue of so many is compared without its marks too.
const UNMARKED: usize = 4;

/// Standing entries, by what they are and by the word that they carry.
#[derive(Default)]
struct Counts {
    /// The first of its lattice, and no draft.
    first: u64,
    /// Behind a draft of its lattice.
    later: u64,
    /// A draft, alone and with others; with a see word.
    draft: [u64; 2],
    draft_with_word: u64,
    own: u64,
    of_another: u64,
    /// Of these, words of drafts in entries that are none.
    of_draft: u64,
    behind_own: u64,
    before_others: u64,
    /// The own word, although one before it in the file leads elsewhere.
    before_earlier: u64,
    none: u64,
    /// Catalogues with drafts and see words, and those with drafts in some lattices only.
    both: u64,
    in_some: u64,
    /// Catalogues with an entry of each m.
    widths: Widths,
}

impl Counts {
    fn add(&mut self, entries: &[Entry]) {
        self.widths.add_each(entries.iter().map(Entry::m));
        let has_see = entries.iter().any(|e| e.see.is_some());
        let has_drafts = entries.iter().any(|e| e.draft);
        self.both += (has_see && has_drafts) as u64;
        let standing = standing(entries);
        let leads = leads(entries, &standing);
        let stands: Vec<usize> = (0..entries.len()).filter(|&i| standing[i] == i).collect();
        for &i in &stands {
            let alike: Vec<usize> = (0..entries.len()).filter(|&k| standing[k] == i).collect();
            self.add_standing(entries, i, &alike);
            match carried(&standing, &leads, i) {
                Some(word) => self.add_word(entries, &leads, i, &alike, word),
                None => self.none += 1,
            }
        }
        let is_marked =
            |&&i: &&usize| (0..entries.len()).any(|k| standing[k] == i && entries[k].draft);
        let marked = stands.iter().filter(is_marked).count();
        self.in_some += (0 < marked && marked < stands.len()) as u64;
    }

    /// What entry i is, which stands for these.
    fn add_standing(&mut self, entries: &[Entry], i: usize, alike: &[usize]) {
        if entries[i].draft {
            self.draft[(alike.len() > 1) as usize] += 1;
            return;
        }
        match alike[0] == i {
            true => self.first += 1,
            false => self.later += 1,
        }
    }

    /// Which word entry i carries, which stands for these.
    fn add_word(
        &mut self,
        entries: &[Entry],
        leads: &[Option<usize>],
        i: usize,
        alike: &[usize],
        word: usize,
    ) {
        let differs = |k: &usize| leads[*k].is_some_and(|led| led != word);
        self.before_others += alike.iter().any(differs) as u64;
        self.draft_with_word += entries[i].draft as u64;
        if leads[i].is_some() {
            self.own += 1;
            self.before_earlier += alike.iter().take_while(|&&k| k < i).any(differs) as u64;
            return;
        }
        self.of_another += 1;
        self.behind_own += entries[i].see.is_some() as u64;
        let from = alike.iter().find(|&&k| leads[k].is_some());
        let is_of_draft = from.is_some_and(|&k| entries[k].draft);
        self.of_draft += (is_of_draft && !entries[i].draft) as u64;
    }

    fn print(&self, count: usize) {
        let [alone, with_others] = self.draft;
        println!(
            "{count} catalogues with drafts and see words ({}) as the reference folds, lists and looks them up, with drafts in some lattices only {}; \
             standing entries: the first and no draft {}, behind a draft {}, a draft that is alone {alone}, a draft with others {with_others}",
            self.both, self.in_some, self.first, self.later
        );
        println!(
            "  with their own word {} (although an earlier one leads elsewhere {}), with that of an entry folded into them {} (of a draft {}, \
             behind an own word that leads nowhere {}), a draft with a word {}, before a word that leads elsewhere {}, without {}",
            self.own,
            self.before_earlier,
            self.of_another,
            self.of_draft,
            self.behind_own,
            self.draft_with_word,
            self.before_others,
            self.none
        );
    }

    fn is_complete(&self, count: usize) -> bool {
        let [alone, with_others] = self.draft;
        let all = [
            self.first,
            self.later,
            alone,
            with_others,
            self.draft_with_word,
            self.own,
            self.of_another,
            self.of_draft,
            self.behind_own,
            self.before_others,
            self.before_earlier,
            self.none,
            self.in_some,
        ];
        all.iter().all(|&n| n > 0) && self.both == count as u64
    }
}

/// Folds, lists and looks up so many catalogues of a seed, and folds each again.
pub fn compare(count: usize, seed: u64) -> Result<(), String> {
    let mut counts = Counts::default();
    for index in 0..count {
        let mut random = Random::new(seed ^ (index as u64).wrapping_mul(0x9FB2_1C65_1E98_DF25));
        let form = random.pick(&Form::BOTH);
        let mut entries = referring(form, &mut random);
        counts.add(&entries);
        let of = |what, entries: &[Entry]| {
            format!("{what}\nseed {seed}, index {index}, {form:?}:\n{entries:?}")
        };
        answered_alike(form, &entries).map_err(|what| of(what, &entries))?;
        if index % UNMARKED == 0 {
            entries.iter_mut().for_each(|e| e.draft = false);
            answered_alike(form, &entries).map_err(|what| of(what, &entries))?;
        }
    }
    counts.print(count);
    counts.widths.print("catalogues", count)?;
    if count < ENOUGH || counts.is_complete(count) {
        Ok(())
    } else {
        Err("the cases: a way to a standing entry or to its see word did not occur".into())
    }
}

fn answered_alike(form: Form, entries: &[Entry]) -> Result<(), String> {
    let (bytes, wanted) = (write(form, entries), write(form, &folded(entries)));
    for (bytes, of) in [(&bytes, "the fold"), (&wanted, "the fold again")] {
        let given = engine::fold(bytes);
        if given.as_deref() != Ok(&wanted[..]) {
            return Err(format!(
                "{of}: the engine gave {given:x?}, the reference {wanted:x?}"
            ));
        }
    }
    let (given, wanted) = (engine::list(&bytes), listing(&bytes));
    if given.as_deref() != Ok(&wanted) {
        return Err(format!(
            "the listing: the engine gave {given:?}, the reference {wanted:?}"
        ));
    }
    let standing = standing(entries);
    for (e, &s) in entries.iter().zip(&standing) {
        let (given, wanted) = (engine::lookup(&bytes, e.number), entries[s].number);
        if given != Ok(wanted) {
            return Err(format!(
                "lookup {}: the engine gave {given:?}, the reference {wanted}",
                e.number
            ));
        }
    }
    Ok(())
}

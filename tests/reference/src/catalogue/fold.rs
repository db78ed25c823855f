//! Standing entries and the folded catalogue.

use super::hermite::hermite;
use super::Entry;
use crate::reduce;

/// For each entry the index of its standing entry: the first with the same m and the same lattice that is no draft, or the first of all
/// where every one is a draft.
pub fn standing(entries: &[Entry]) -> Vec<usize> {
    let forms: Vec<_> = entries
        .iter()
        .map(|e| (e.m(), hermite(&e.vectors)))
        .collect();
    let stands = |i: usize| {
        let alike = || (0..forms.len()).filter(|&k| forms[k] == forms[i]);
        let checked = alike().find(|&k| !entries[k].draft);
        checked.or_else(|| alike().next()).unwrap()
    };
    (0..forms.len()).map(stands).collect()
}

/// For each entry the index of the standing entry that its see word leads to, if that is another than its own.
pub fn leads(entries: &[Entry], standing: &[usize]) -> Vec<Option<usize>> {
    let led = |i: usize| -> Option<usize> {
        let see = entries[i].see?;
        let named = entries.iter().position(|e| e.number == see)?;
        Some(standing[named]).filter(|&s| s != standing[i])
    };
    (0..entries.len()).map(led).collect()
}

/// The standing entry that entry i, which stands, names in its see word: where its own word leads, if it leads to another; otherwise where
/// the first does, in file order, among the entries of its lattice whose words lead to another.
pub fn carried(standing: &[usize], leads: &[Option<usize>], i: usize) -> Option<usize> {
    let of_its_lattice = (0..standing.len()).filter(|&k| standing[k] == i);
    leads[i].or_else(|| of_its_lattice.filter_map(|k| leads[k]).next())
}

/// The standing entries in their order, with reduced vectors, their own marks and the see words that they carry.
pub fn folded(entries: &[Entry]) -> Vec<Entry> {
    let standing = standing(entries);
    let leads = leads(entries, &standing);
    let stands = (0..entries.len()).filter(|&i| standing[i] == i);
    stands
        .map(|i| Entry {
            number: entries[i].number,
            vectors: reduce(&entries[i].vectors.concat(), entries[i].d(), entries[i].m()).vectors,
            draft: entries[i].draft,
            see: carried(&standing, &leads, i).map(|k| entries[k].number),
        })
        .collect()
}

//! Merges that are wrong, each in one way, to see that a comparison tells them.

use super::{refused, Answer, Calls, Merge};
use crate::catalogue::fold::{folded, standing};
use crate::catalogue::reader::{kind, load, words, END, NUMBER, SIZE};
use crate::catalogue::text::text;
use crate::catalogue::writer;
use crate::catalogue::{Entry, Form, Refused, MOST_ENTRIES};

/// What is wrong.
#[derive(Clone, Copy, Debug, PartialEq, Eq)]
pub enum Wrong {
    /// 8 before 21.
    LengthBeforeClosed,
    /// A closed merge takes additions.
    ClosedTakes,
    /// 21 for a closing only.
    ClosesTwice,
    /// Of a refused addition the entry stays, if its words begin with one.
    RefusedStays,
    /// The number of a refused addition is used.
    NumberStays,
    /// A refused addition takes the last entry with it.
    RefusedTakes,
    /// 12 with the place in the addition.
    PlaceInAddition,
    /// 12 with the place in the file of the old form.
    PlaceInOldForm,
    /// 12 at the last see word that names no entry.
    LastLost,
    /// Refused with 12 it is closed all the same.
    ClosedByRefusal,
    /// A see word to a later entry is lost.
    LaterIsLost,
    /// A see word to its own entry is lost.
    OwnIsLost,
    /// "Not yet" for a number that nothing names.
    NotYetForAny,
    /// 17 for a number that a see word names.
    NeverNotYet,
    /// "Not yet" for a number that was added, where a see word names it.
    NotYetForAdded,
    /// "Not yet" only where the last entry names it.
    NamedByLast,
    /// Provisional after closing.
    AlwaysProvisional,
    /// Not provisional before.
    NeverProvisional,
    /// Closing loses the last entry.
    LosesLast,
    /// While it is open the first of a lattice stands, draft or not.
    DraftsStand,
    /// What stood when the entry was added.
    StoodWhenAdded,
    /// The entry itself while it is open.
    ItselfStands,
    /// Places in the file of all entries.
    PlaceInFile,
    /// The size before the number.
    SizeBeforeNumber,
    /// 11 before 15.
    NumberBeforeMany,
    /// 255 entries at most.
    FewerEntries,
    /// No limit.
    MoreEntries,
    /// An end word behind the entry.
    EndTaken,
    /// A head of one word.
    OldFormTaken,
    /// A second entry behind the first.
    TwoTaken,
    /// No bytes are an addition of nothing.
    NothingAdded,
    /// 10 for a missing word at the last one.
    MissingAtLast,
    /// The fold without see words.
    FoldWithoutSee,
    /// The fold of the entries as they came, not reduced.
    FoldNotReduced,
    /// The listing without its last line.
    ListCut,
}

pub const ALL: [Wrong; 35] = [
    Wrong::LengthBeforeClosed,
    Wrong::ClosedTakes,
    Wrong::ClosesTwice,
    Wrong::RefusedStays,
    Wrong::NumberStays,
    Wrong::RefusedTakes,
    Wrong::PlaceInAddition,
    Wrong::PlaceInOldForm,
    Wrong::LastLost,
    Wrong::ClosedByRefusal,
    Wrong::LaterIsLost,
    Wrong::OwnIsLost,
    Wrong::NotYetForAny,
    Wrong::NeverNotYet,
    Wrong::NotYetForAdded,
    Wrong::NamedByLast,
    Wrong::AlwaysProvisional,
    Wrong::NeverProvisional,
    Wrong::LosesLast,
    Wrong::DraftsStand,
    Wrong::StoodWhenAdded,
    Wrong::ItselfStands,
    Wrong::PlaceInFile,
    Wrong::SizeBeforeNumber,
    Wrong::NumberBeforeMany,
    Wrong::FewerEntries,
    Wrong::MoreEntries,
    Wrong::EndTaken,
    Wrong::OldFormTaken,
    Wrong::TwoTaken,
    Wrong::NothingAdded,
    Wrong::MissingAtLast,
    Wrong::FoldWithoutSee,
    Wrong::FoldNotReduced,
    Wrong::ListCut,
];

/// A merge with one fault.
pub struct WrongMerge {
    wrong: Wrong,
    merge: Merge,
    /// Numbers that count as used though no entry has them.
    used: Vec<u32>,
    /// For each entry the number that stood for it when it was added.
    stood: Vec<u32>,
}

impl WrongMerge {
    pub fn new(wrong: Wrong) -> WrongMerge {
        WrongMerge {
            wrong,
            merge: Merge::default(),
            used: vec![],
            stood: vec![],
        }
    }

    /// A right addition of these bytes.
    fn add_rightly(&mut self, bytes: &[u8]) -> Answer {
        let answer = self.merge.add(bytes);
        if answer == Answer::Added {
            let entries = &self.merge.entries;
            let last = standing(entries)[entries.len() - 1];
            self.stood.push(entries[last].number);
        }
        answer
    }

    /// The bytes as this merge takes them.
    fn taken<'a>(&self, bytes: &'a [u8], words: &[u32]) -> &'a [u8] {
        match (self.wrong, words.last()) {
            (Wrong::EndTaken, Some(&w)) if kind(w) == END => &bytes[..bytes.len() - 4],
            _ => bytes,
        }
    }

    /// After a refused addition.
    fn spoil(&mut self, bytes: &[u8], words: &[u32]) {
        match self.wrong {
            Wrong::RefusedStays => {
                let mut lengths = (0..=words.len()).rev();
                lengths.any(|n| self.add_rightly(&bytes[..4 * n]) == Answer::Added);
            }
            Wrong::NumberStays => {
                let head = words.first().filter(|&&w| kind(w) == NUMBER);
                self.used.extend(head.map(|&w| load(w)));
            }
            Wrong::RefusedTakes => {
                self.merge.entries.pop();
            }
            _ => (),
        }
    }

    /// The refusal as this merge gives it.
    fn refusal(&self, r: Refused, words: &[u32]) -> Answer {
        let size = words.get(1).filter(|&&w| kind(w) == SIZE);
        let is_sized = size.is_some_and(|&w| load(w) <= 0xFF);
        let number = words.first().map_or(0, |&w| load(w));
        match (self.wrong, r.number) {
            (Wrong::PlaceInFile, 1 | 2 | 4 | 10 | 18 | 20) => {
                refused(r.number, r.place + self.merge.file().len() / 4 - 1)
            }
            (Wrong::SizeBeforeNumber, 11) if size.is_none() => refused(10, 1),
            (Wrong::SizeBeforeNumber, 11) if !is_sized => refused(20, 1),
            (Wrong::NumberBeforeMany, 15) if number == 0 || self.merge.has(number) => {
                refused(11, 0)
            }
            (Wrong::MissingAtLast, 10) if r.place == words.len() && r.place > 0 => {
                refused(10, r.place - 1)
            }
            _ => Answer::Refused(r),
        }
    }

    /// The places of the see words that are lost in this merge, as it counts them.
    fn lost(&self) -> Vec<usize> {
        let entries = &self.merge.entries;
        let head = match self.wrong {
            Wrong::PlaceInOldForm => 1,
            _ => 2,
        };
        let (mut start, mut places) = (0, vec![]);
        for (i, e) in entries.iter().enumerate() {
            let place = head + e.d() * e.m() + e.draft as usize;
            let known = match self.wrong {
                Wrong::LaterIsLost => &entries[..=i],
                _ => &entries[..],
            };
            let is_known = |n: u32| {
                let is_own = self.wrong == Wrong::OwnIsLost && n == e.number;
                known.iter().any(|f| f.number == n) && !is_own
            };
            if e.see.is_some_and(|n| !is_known(n)) {
                places.push(match self.wrong {
                    Wrong::PlaceInAddition => place,
                    _ => start + place,
                });
            }
            start += place + e.see.is_some() as usize;
        }
        places
    }

    /// The lookup of a number that an entry of an open merge has.
    fn look_at(&self, i: usize, number: u32) -> Answer {
        let entries = &self.merge.entries;
        match self.wrong {
            Wrong::NeverProvisional => match self.merge.look(number) {
                Answer::Provisional(n) => Answer::Standing(n),
                other => other,
            },
            Wrong::NotYetForAdded if entries.iter().any(|e| e.see == Some(number)) => {
                Answer::NotYet
            }
            Wrong::DraftsStand => {
                let unmarked = |e: &Entry| Entry {
                    draft: false,
                    ..e.clone()
                };
                let unmarked: Vec<Entry> = entries.iter().map(unmarked).collect();
                Answer::Provisional(entries[standing(&unmarked)[i]].number)
            }
            Wrong::StoodWhenAdded => Answer::Provisional(self.stood[i]),
            Wrong::ItselfStands => Answer::Provisional(number),
            _ => self.merge.look(number),
        }
    }
}

impl Calls for WrongMerge {
    fn add(&mut self, bytes: &[u8]) -> Answer {
        let words = words(bytes);
        if self.merge.is_closed {
            return match self.wrong {
                Wrong::LengthBeforeClosed if bytes.len() % 4 != 0 => refused(8, 0),
                Wrong::ClosedTakes => {
                    self.merge.is_closed = false;
                    let answer = self.merge.add(bytes);
                    self.merge.is_closed = true;
                    answer
                }
                _ => refused(21, 0),
            };
        }
        let is_head = bytes.len() % 4 == 0 && words.first().is_some_and(|&w| kind(w) == NUMBER);
        let entries = self.merge.entries.len();
        match self.wrong {
            Wrong::NumberStays if is_head && self.used.contains(&load(words[0])) => {
                return refused(11, 0)
            }
            Wrong::FewerEntries if is_head && entries == MOST_ENTRIES - 1 => return refused(15, 0),
            Wrong::MoreEntries if entries == MOST_ENTRIES => {
                let mut others = self.merge.clone();
                others.entries.pop();
                return others.add(bytes);
            }
            Wrong::NothingAdded if bytes.is_empty() => return Answer::Added,
            Wrong::TwoTaken => {
                let mut lengths = 1..words.len();
                let mut both = |n: usize| {
                    let mut merge = self.merge.clone();
                    let added = [&bytes[..4 * n], &bytes[4 * n..]].map(|part| merge.add(part));
                    (added == [Answer::Added; 2]).then_some(merge)
                };
                if let Some(merge) = lengths.find_map(&mut both).filter(|_| bytes.len() % 4 == 0) {
                    self.merge = merge;
                    return Answer::Added;
                }
            }
            Wrong::OldFormTaken if words.first().is_some_and(|&w| kind(w) == 1) => {
                let head = load(words[0]);
                let new = [NUMBER << 28 | head >> 8, SIZE << 28 | head & 0xFF];
                let new = [writer::bytes(&new), bytes[4..].to_vec()].concat();
                return self.add_rightly(&new);
            }
            _ => (),
        }
        match self.add_rightly(self.taken(bytes, &words)) {
            Answer::Refused(r) => {
                let answer = self.refusal(r, &words);
                self.spoil(bytes, &words);
                answer
            }
            answer => answer,
        }
    }

    fn look(&self, number: u32) -> Answer {
        let right = self.merge.look(number);
        if self.merge.is_closed {
            return match (self.wrong, right) {
                (Wrong::AlwaysProvisional, Answer::Standing(n)) => Answer::Provisional(n),
                _ => right,
            };
        }
        let entries = &self.merge.entries;
        if let Some(i) = entries.iter().position(|e| e.number == number) {
            return self.look_at(i, number);
        }
        let is_named_last = entries.last().is_some_and(|e| e.see == Some(number));
        match self.wrong {
            Wrong::NotYetForAny => Answer::NotYet,
            Wrong::NeverNotYet => refused(17, 0),
            Wrong::NamedByLast if !is_named_last => refused(17, 0),
            _ => right,
        }
    }

    fn close(&mut self) -> Answer {
        if self.merge.is_closed {
            return match self.wrong {
                Wrong::ClosesTwice => Answer::Closed,
                _ => refused(21, 0),
            };
        }
        let lost = self.lost();
        let place = match self.wrong {
            Wrong::LastLost => lost.last(),
            _ => lost.first(),
        };
        if let Some(&place) = place {
            self.merge.is_closed = self.wrong == Wrong::ClosedByRefusal;
            return refused(12, place);
        }
        if self.wrong == Wrong::LosesLast {
            self.merge.entries.pop();
        }
        self.merge.is_closed = true;
        Answer::Closed
    }

    fn list(&self) -> Option<String> {
        let list = self.merge.list()?;
        match self.wrong {
            Wrong::ListCut => {
                let lines: Vec<&str> = list.split_inclusive('\n').collect();
                Some(lines[..lines.len() - 1].concat())
            }
            _ => Some(list),
        }
    }

    fn fold(&self) -> Option<String> {
        let right = self.merge.fold()?;
        let entries = &self.merge.entries;
        let mut fold = folded(entries);
        match self.wrong {
            Wrong::FoldWithoutSee => fold.iter_mut().for_each(|e| e.see = None),
            Wrong::FoldNotReduced => fold.iter_mut().for_each(|e| {
                let same = entries.iter().find(|f| f.number == e.number);
                e.vectors = same.expect("it was added").vectors.clone();
            }),
            _ => return Some(right),
        }
        Some(text(Form::New, &fold))
    }
}

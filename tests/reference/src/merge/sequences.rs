//! Sequences of commands for comparison tests, the same for the same seed. Each command is chosen with the merge that those before it made, so
//! that see words, lookups and closings meet what is there.

use super::lines::{all_answered, answered, handed_over, line, Command, Said};
use super::Merge;
use crate::bases::{any, at_limit};
use crate::catalogue::damage::{damaged, made_dependent, stray, wrong_length, DAMAGES};
use crate::catalogue::made::{disguised, independent, is_basis, is_draft, numbers, LIMITS};
use crate::catalogue::reader::NUMBER;
use crate::catalogue::writer::{bytes, end_word, entry_words, mark_word, see_word};
use crate::catalogue::{Entry, Form, MOST_ENTRIES};
use crate::random::Random;
use crate::{MOST_COORDINATES, MOST_SIZE, MOST_VECTORS};

/// What a sequence is made to try.
#[derive(Clone, Copy, Debug, PartialEq, Eq)]
pub enum Kind {
    /// A few calls of every sort.
    Short,
    /// Few lattices in many bases, with parts of them, and drafts.
    Lattices,
    /// See words to entries that come later, or not; closings that are refused.
    Open,
    /// Many additions that are refused.
    Damaged,
    /// About 256 small entries, or more.
    Full,
}

/// All but the full ones in their turn.
const KINDS: [Kind; 7] = [
    Kind::Short,
    Kind::Lattices,
    Kind::Open,
    Kind::Damaged,
    Kind::Short,
    Kind::Open,
    Kind::Damaged,
];

/// One sequence of so many is a full one.
const FULL: usize = 47;

pub fn kind(index: usize) -> Kind {
    match index % FULL {
        n if n == FULL - 1 => Kind::Full,
        _ => KINDS[index % KINDS.len()],
    }
}

/// Commands, the lines that write them, and the answers.
#[derive(Clone, Debug)]
pub struct Sequence {
    pub kind: Kind,
    pub commands: Vec<Command>,
    pub input: String,
    pub said: Vec<Said>,
}

/// Of a hundred commands to an open merge how many are wrong additions, lookups and closings; the others are additions. Of six entries how
/// many have a see word.
struct Habits {
    wrong: i64,
    look: i64,
    close: i64,
    see: i64,
}

fn habits(kind: Kind) -> Habits {
    let (wrong, look, close, see) = match kind {
        Kind::Short => (20, 30, 8, 3),
        Kind::Lattices => (3, 40, 2, 2),
        Kind::Open => (5, 35, 10, 5),
        Kind::Damaged => (60, 15, 3, 2),
        Kind::Full => (1, 4, 0, 1),
    };
    Habits {
        wrong,
        look,
        close,
        see,
    }
}

/// Of a hundred commands how many are none.
const UNREADABLE: i64 = 2;

/// Lines that are no commands.
const NO_COMMANDS: [&str; 26] = [
    "look",
    "look seven",
    "look 7 7",
    "look 7;",
    "looks 7",
    "lookup 7",
    "Look 7",
    "add",
    "add 7",
    "add 7 1 1",
    "add 7 1 1 ; 2 3",
    "add 7 1 1 ; x",
    "add 7 1 1 ; 20001",
    "add 7 1 16 ; 2",
    "add 268435456 1 1 ; 2",
    "add 7 1 1 ; 2 ; 268435456",
    "add 7 1 1 ; 2 ; 7 ; draft",
    "7 1 1 ; 2",
    "bytes 0",
    "bytes 0100006",
    "bytes 0x",
    "bytes 0100006g",
    "closed",
    "close 7",
    "list 7",
    "fold draft",
];

/// The sequence of a seed with this index.
pub fn sequence(seed: u64, index: usize) -> Sequence {
    let mut random = Random::new(seed ^ (index as u64).wrapping_mul(0xD6E8_FEB8_6659_FD93));
    let kind = kind(index);
    let calls = match kind {
        Kind::Short => 1 + random.index(12),
        Kind::Full => 0,
        _ => 5 + random.index(50),
    };
    let mut maker = Maker::new(habits(kind), &mut random);
    match kind {
        Kind::Full => maker.fill(),
        _ => maker.call(calls),
    }
    if maker.one_of(5) || maker.one_of(2) {
        maker.finish();
    }
    let commands = maker.commands;
    let said = all_answered(&mut Merge::default(), &commands);
    let input = commands.iter().map(|c| spelled(c, &mut random)).collect();
    Sequence {
        kind,
        commands,
        input,
        said,
    }
}

/// The line of a command, with other blanks or capital digits in some.
fn spelled(command: &Command, random: &mut Random) -> String {
    let line = line(command);
    match (command, random.index(6)) {
        (Command::Add(_), 0) => line.replace(" ; ", ";"),
        (Command::Add(_), 1) => line.replace(" ; ", "\t;  "),
        (Command::Bytes(_), 0 | 1) => line.to_uppercase().replace("BYTES", "bytes"),
        _ => line,
    }
}

/// The commands so far and the merge that they made, and what entries are made of.
struct Maker<'a> {
    random: &'a mut Random,
    habits: Habits,
    commands: Vec<Command>,
    merge: Merge,
    lattices: Vec<Vec<Vec<i64>>>,
    numbers: Vec<u32>,
    /// Of six entries so many are drafts.
    drafts: i64,
}

impl<'a> Maker<'a> {
    fn new(habits: Habits, random: &'a mut Random) -> Maker<'a> {
        let count = 4 + random.index(24);
        Maker {
            habits,
            commands: vec![],
            merge: Merge::default(),
            lattices: lattices(random),
            numbers: numbers(Form::New, count, random),
            drafts: random.pick(&[0, 1, 2, 4, 6]),
            random,
        }
    }

    fn say(&mut self, command: Command) {
        self.commands.push(command.clone());
        answered(&mut self.merge, &command, self.commands.len());
    }

    /// True once in so many times.
    fn one_of(&mut self, times: usize) -> bool {
        self.random.index(times) == 0
    }

    /// So many commands, or some after closing.
    fn call(&mut self, calls: usize) {
        for _ in 0..calls {
            if self.merge.is_closed && self.one_of(6) {
                return;
            }
            self.any();
        }
    }

    /// A command as the merge is, open or closed.
    fn any(&mut self) {
        let part = self.random.between(0, 99);
        let Habits {
            wrong, look, close, ..
        } = self.habits;
        if part < UNREADABLE {
            let line = self.random.pick(&NO_COMMANDS);
            self.say(Command::Unreadable(line.into()));
        } else if self.merge.is_closed {
            self.any_closed();
        } else if part < UNREADABLE + wrong {
            self.add_wrong();
        } else if part < UNREADABLE + wrong + look {
            self.look();
        } else if part < UNREADABLE + wrong + look + close {
            self.say(Command::Close);
        } else {
            self.add();
        }
    }

    fn any_closed(&mut self) {
        match self.random.between(0, 9) {
            0..=3 => self.look(),
            4 => self.say(Command::List),
            5 => self.say(Command::Fold),
            6 => self.add(),
            7 | 8 => self.add_wrong(),
            _ => self.say(Command::Close),
        }
    }

    // ---- additions

    /// An entry, as text or as bytes.
    fn add(&mut self) {
        let entry = self.entry();
        self.hand_over(entry);
    }

    fn hand_over(&mut self, entry: Entry) {
        match self.one_of(2) {
            true => self.say(Command::Add(entry)),
            false => self.say(Command::Bytes(handed_over(&entry))),
        }
    }

    fn entry(&mut self) -> Entry {
        let number = self.number();
        let lattice = self.random.index(self.lattices.len());
        Entry {
            number,
            vectors: disguised(self.lattices[lattice].clone(), self.random),
            draft: is_draft(self.drafts, self.random),
            see: self.see(number),
        }
    }

    /// A number that no entry has, most often; often one that a see word waits for.
    fn number(&mut self) -> u32 {
        let awaited = self.awaited();
        if !awaited.is_empty() && self.one_of(3) {
            return self.random.pick(&awaited);
        }
        let is_free = |n: &&u32| !self.merge.has(**n);
        let free: Vec<u32> = self.numbers.iter().filter(is_free).copied().collect();
        match free.is_empty() {
            true => self.random.between(1, LIMITS[2] as i64) as u32,
            false => self.random.pick(&free),
        }
    }

    /// None, the entry's own number, one that an entry has or will have perhaps, or, seldom, any.
    fn see(&mut self, own: u32) -> Option<u32> {
        if self.random.between(1, 6) > self.habits.see {
            return None;
        }
        let any = self.random.between(1, LIMITS[2] as i64) as u32;
        match self.random.between(0, 19) {
            0 => Some(self.random.pick(&[any, any, LIMITS[2], 0])),
            1..=3 => Some(own),
            4..=9 => Some(self.added().unwrap_or(own)),
            _ => Some(self.random.pick(&self.numbers)),
        }
    }

    /// The number of an entry.
    fn added(&mut self) -> Option<u32> {
        match self.merge.entries.len() {
            0 => None,
            n => Some(self.merge.entries[self.random.index(n)].number),
        }
    }

    /// The numbers that see words name and no entry has, 0 aside.
    fn awaited(&self) -> Vec<u32> {
        let sees = self.merge.entries.iter().filter_map(|e| e.see);
        sees.filter(|&n| n != 0 && !self.merge.has(n)).collect()
    }

    /// An addition that is refused, or nearly.
    fn add_wrong(&mut self) {
        let mut entry = self.entry();
        let whole = entry_words(Form::New, &entry);
        match self.random.between(0, 15) {
            0..=2 => self.damage(whole, 1),
            3 => self.damage(whole, 2),
            4 => {
                let bytes = wrong_length(bytes(&whole), self.random);
                self.say(Command::Bytes(bytes));
            }
            5 => {
                let n = self.random.index(whole.len());
                self.say(Command::Bytes(bytes(&whole[..n])));
            }
            6 => self.say(Command::Bytes(vec![])),
            7 | 8 => self.add_behind(whole),
            9 => self.say(Command::Bytes(bytes(&old_form(&entry)))),
            10 => {
                let used = self.added().unwrap_or(0);
                entry.number = self.random.pick(&[used, used, used, 0]);
                self.hand_over(entry);
            }
            11 => {
                made_dependent(std::slice::from_mut(&mut entry), self.random);
                self.hand_over(entry);
            }
            12 => {
                entry.vectors = self.wrong_size();
                self.hand_over(entry);
            }
            13 => {
                entry.vectors = too_long(self.random);
                self.hand_over(entry);
            }
            14 => self.add_marks(entry),
            _ => self.add_two_faults(whole),
        }
    }

    fn damage(&mut self, mut words: Vec<u32>, times: usize) {
        for _ in 0..times {
            let damage = self.random.pick(&DAMAGES);
            words = damaged(words, damage, self.random);
        }
        self.say(Command::Bytes(bytes(&words)));
    }

    /// A word behind the entry, or a whole entry.
    fn add_behind(&mut self, mut words: Vec<u32>) {
        let count = self.merge.entries.len() + 1;
        let next = self.entry();
        let next = entry_words(Form::New, &next);
        match self.random.between(0, 5) {
            0 => words.push(end_word(count)),
            1 => words.push(end_word(1)),
            2 => words.push(next[0]),
            3 => words.extend(next),
            4 => words.push(see_word(1)),
            _ => words.push(stray(self.random)),
        }
        self.say(Command::Bytes(bytes(&words)));
    }

    /// More vectors or more coordinates than there can be; as text it is read all the same.
    fn wrong_size(&mut self) -> Vec<Vec<i64>> {
        let most = |n: usize| n as i64 + 1;
        let d = self.random.between(most(MOST_VECTORS), 15) as usize;
        let m = self.random.between(most(MOST_COORDINATES), 15) as usize;
        match self.random.between(0, 2) {
            0 => any(d, 1, 3, self.random),
            1 => any(1, m, 3, self.random),
            _ => any(d, m, 3, self.random),
        }
    }

    /// Marks twice, with other loads, or behind the see word.
    fn add_marks(&mut self, entry: Entry) {
        let mut words = entry_words(
            Form::New,
            &Entry {
                draft: false,
                see: None,
                ..entry
            },
        );
        let other = self.random.pick(&[0, 2, 3, 0xFFF_FFFF]);
        let (mark, wrong, see) = (mark_word(1), mark_word(other), see_word(1));
        let behind: &[u32] = match self.random.between(0, 5) {
            0 => &[wrong],
            1 => &[wrong, see],
            2 => &[mark, mark],
            3 => &[mark, wrong],
            4 => &[see, mark],
            _ => &[see, wrong],
        };
        words.extend(behind);
        self.say(Command::Bytes(bytes(&words)));
    }

    /// The number is used or 0, and something behind it or the length is wrong too.
    fn add_two_faults(&mut self, mut words: Vec<u32>) {
        let number = self.added().unwrap_or(0);
        words[0] = NUMBER << 28 | number;
        match self.random.between(0, 3) {
            0 => words.truncate(1),
            1 => words[1] = stray(self.random),
            2 => words[1] |= 1 << (8 + self.random.index(20)),
            _ => {
                let bytes = wrong_length(bytes(&words), self.random);
                return self.say(Command::Bytes(bytes));
            }
        }
        self.say(Command::Bytes(bytes(&words)));
    }

    // ---- lookups

    /// A number that an entry has, one that a see word names, one that is easily taken for such, or any.
    fn look(&mut self) {
        let awaited = self.awaited();
        let near = self.added().unwrap_or(1);
        let first_draft = self.merge.entries.iter().find(|e| e.draft);
        let draft = first_draft.map_or(near, |e| e.number);
        let any = self.random.number() as u32;
        let number = match self.random.between(0, 11) {
            0..=4 => near,
            5 | 6 => draft,
            7 | 8 if !awaited.is_empty() => self.random.pick(&awaited),
            7..=9 => self.random.pick(&self.numbers),
            10 => near + self.random.pick(&[1, 1 << 20, 1 << 28]),
            _ => self.random.pick(&[0, 0, LIMITS[2], u32::MAX, any]),
        };
        self.say(Command::Look(number));
    }

    // ---- the end

    /// Closes, adds what see words wait for if that is refused, and closes again; then looks at what there is.
    fn finish(&mut self) {
        for _ in 0..4 {
            if self.merge.is_closed {
                break;
            }
            self.say(Command::Close);
            for number in self.awaited() {
                if self.one_of(2) {
                    self.say(Command::Look(number));
                }
                if !self.merge.has(number) {
                    let entry = self.entry();
                    let see = entry.see.filter(|_| self.random.index(4) == 0);
                    self.hand_over(Entry {
                        number,
                        see,
                        ..entry
                    });
                }
            }
        }
        for _ in 0..self.random.index(8) {
            self.look();
        }
        if self.merge.is_closed {
            self.say(Command::List);
            self.say(Command::Fold);
        }
        for _ in 0..self.random.index(5) {
            self.any();
        }
    }

    // ---- many entries

    /// 255 or 256 small entries, or more, those that are too many wrong in other ways too.
    fn fill(&mut self) {
        let most = MOST_ENTRIES;
        let count = self
            .random
            .pick(&[most - 1, most, most, most + 1, most + 1]);
        let first = self.random.pick(&[1, 1, 1 << 20]);
        self.numbers = (first..).take(count.min(most)).collect();
        while self.merge.entries.len() < count.min(most) {
            match self.random.between(0, 99) {
                0 => self.add_wrong(),
                1 => self.look(),
                _ => {
                    let entry = self.small();
                    self.hand_over(entry);
                }
            }
        }
        if count > most {
            (0..4 + self.random.index(8)).for_each(|_| self.add_to_full());
        }
    }

    /// An entry too many, with a number that is free, used or 0, or wrong otherwise; or a lookup.
    fn add_to_full(&mut self) {
        let mut entry = self.small();
        match self.random.between(0, 4) {
            0 => return self.look(),
            1 => return self.add_wrong(),
            2 => entry.number = self.added().unwrap_or(0),
            3 => entry.number = 0,
            _ => (),
        }
        self.hand_over(entry);
    }

    /// One vector of one coordinate; its see word names an entry that will be there, most often.
    fn small(&mut self) -> Entry {
        let number = self.number();
        let x = self.random.between(1, 9) * self.random.pick(&[-1, 1]);
        let see = self.see(number);
        let is_any = self.one_of(20);
        Entry {
            number,
            vectors: vec![vec![x]],
            draft: is_draft(self.drafts, self.random),
            see: see.filter(|n| is_any || self.numbers.contains(n)),
        }
    }
}

/// Few lattices: any, or of small vectors.
fn lattices(random: &mut Random) -> Vec<Vec<Vec<i64>>> {
    let small = |random: &mut Random| loop {
        let m = 1 + random.index(3);
        let d = 1 + random.index(m);
        let vectors = any(d, m, 4, random);
        if is_basis(&vectors) {
            return vectors;
        }
    };
    (0..1 + random.index(4))
        .map(|_| match random.between(0, 1) {
            0 => independent(random),
            _ => small(random),
        })
        .collect()
}

/// The words of an entry with a head of one word.
fn old_form(entry: &Entry) -> Vec<u32> {
    let number = entry.number & LIMITS[0];
    entry_words(
        Form::Old,
        &Entry {
            number,
            ..entry.clone()
        },
    )
}

/// A vector of the greatest length, or about, with a coordinate changed by 1; the one before it in range.
fn too_long(random: &mut Random) -> Vec<Vec<i64>> {
    let m = 2 + random.index(3);
    let mut vectors = vec![random.vector(m, 100), at_limit(m, random)];
    if random.between(0, 1) == 0 {
        vectors.swap(0, 1);
    }
    let long = if random.between(0, 3) == 0 { 0 } else { 1 };
    let i = random.index(m);
    vectors[long][i] = (vectors[long][i] + random.pick(&[-1, 1])).clamp(-MOST_SIZE, MOST_SIZE);
    vectors
}

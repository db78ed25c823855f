//! How often each refusal occurs at each kind of place: in which form, behind what, and at which word.

use reference::catalogue::reader::{
    form, kind, load, words, COORDINATE, DRAFT, END, HEAD, MARK, NUMBER, SEE, SIZE,
};
use reference::catalogue::{Form, Refused};
use reference::MOST_COORDINATES;

/// What was asked for.
#[derive(Clone, Copy, PartialEq, Eq)]
pub enum Call {
    Reading,
    /// The catalogue in this form.
    Move(Form),
}

/// What the first word begins: a head of one of the forms, or none.
const FORMS: [(Option<Form>, &str); 3] = [
    (Some(Form::Old), "old form"),
    (Some(Form::New), "new form"),
    (None, "no head"),
];

/// Where a refusal is in a catalogue.
#[derive(Clone, Copy, PartialEq, Eq)]
enum Position {
    WholeFile,
    First,
    /// Where a head's size is due.
    AfterNumber,
    /// Where a coordinate is due.
    Among,
    AfterCoordinates,
    AfterMark,
    AfterSee,
    AfterEnd,
}

const POSITIONS: [(Position, &str); 8] = [
    (Position::WholeFile, "whole file"),
    (Position::First, "first"),
    (Position::AfterNumber, "after a number"),
    (Position::Among, "among the coordinates"),
    (Position::AfterCoordinates, "after the coordinates"),
    (Position::AfterMark, "after a mark"),
    (Position::AfterSee, "after a see word"),
    (Position::AfterEnd, "after the end word"),
];

/// What stands there.
#[derive(Clone, Copy, PartialEq, Eq)]
enum Word {
    Head,
    Number,
    Size,
    /// Of a size's kind, with bits above d and m.
    Bits,
    Coordinate,
    See,
    End,
    Mark,
    /// Of a mark's kind, with another load.
    Load,
    Other,
    None,
}

const WORDS: [(Word, &str); 11] = [
    (Word::Head, "head"),
    (Word::Number, "number"),
    (Word::Size, "size"),
    (Word::Bits, "size with bits"),
    (Word::Coordinate, "coordinate"),
    (Word::See, "see word"),
    (Word::End, "end word"),
    (Word::Mark, "mark"),
    (Word::Load, "mark of another load"),
    (Word::Other, "other word"),
    (Word::None, "no word"),
];

/// The refusal with the greatest number.
const LAST: usize = 20;

/// The bits of a size that are refused with 20.
const FIRST_BIT: usize = 8;
const BITS: usize = 20;

type Counts = [[u64; WORDS.len()]; POSITIONS.len()];

/// The refusals of one call.
pub struct Refusals {
    call: Call,
    counts: [[Counts; FORMS.len()]; LAST + 1],
    /// Of those with 2, in each form, the m in the head.
    wrong_m: [[u64; 16]; 2],
    /// Of those with 18: the load 0, the load 2, and others.
    wrong_load: [u64; 3],
    /// Of those with 20: how often each bit is set.
    bits: [u64; BITS],
}

impl Refusals {
    pub fn new(call: Call) -> Refusals {
        Refusals {
            call,
            counts: Default::default(),
            wrong_m: [[0; 16]; 2],
            wrong_load: [0; 3],
            bits: [0; BITS],
        }
    }

    /// Counts the refusal of these bytes.
    pub fn add(&mut self, bytes: &[u8], refused: Refused) {
        let (words, number) = (words(bytes), refused.number as usize);
        let of = FORMS.iter().position(|f| f.0 == form(bytes));
        let of = of.expect("all are there");
        let at = position(&words, refused) as usize;
        self.counts[number][of][at][word(&words, refused) as usize] += 1;
        match number {
            2 => self.wrong_m[of][words[refused.place] as usize & 15] += 1,
            18 => {
                let other = match load(words[refused.place]) {
                    0 => 0,
                    2 => 1,
                    _ => 2,
                };
                self.wrong_load[other] += 1;
            }
            20 => (0..BITS)
                .for_each(|i| self.bits[i] += (words[refused.place] >> (FIRST_BIT + i) & 1) as u64),
            _ => (),
        }
    }

    pub fn total(&self) -> u64 {
        self.counts.iter().flatten().flatten().flatten().sum()
    }

    /// How many kinds of places there are, each with its refusal.
    pub fn kinds(&self) -> usize {
        let all = self.counts.iter().flatten().flatten().flatten();
        all.filter(|&&n| n > 0).count()
    }

    /// A line for each refusal in each form.
    pub fn print(&self) {
        for (number, forms) in self.counts.iter().enumerate() {
            let sum: u64 = forms.iter().flatten().flatten().sum();
            if sum > 0 {
                println!("  refused with {number}: {sum}");
            }
            for (counts, (_, form)) in forms.iter().zip(FORMS) {
                let places: Vec<String> = POSITIONS
                    .iter()
                    .filter(|(p, _)| counts[*p as usize].iter().any(|&n| n > 0))
                    .map(|(p, name)| format!("{name}: {}", at_words(&counts[*p as usize])))
                    .collect();
                if !places.is_empty() {
                    println!("    {form}: {}", places.join("; "));
                }
            }
        }
    }

    /// The same of what the words hold.
    pub fn print_loads(&self) {
        let [old, new] = self.wrong_m;
        println!(
            "  refused with 2 for m from 0 to 15: in the old form {old:?}, in the new form {new:?}"
        );
        let [zero, two, others] = self.wrong_load;
        println!("  refused with 18 for load 0: {zero}, for 2: {two}, for others: {others}");
        println!("  refused with 20 for bits from 8 to 27: {:?}", self.bits);
    }

    /// Every refusal at every kind of place that it can have, and at no other. What is missing or too much is said.
    pub fn check(&self) -> Result<(), String> {
        for (number, forms) in self.counts.iter().enumerate() {
            for (counts, (form, form_name)) in forms.iter().zip(FORMS) {
                for (p, position) in POSITIONS {
                    for (w, word) in WORDS {
                        let n = counts[p as usize][w as usize];
                        if (n > 0) != is_possible(self.call, form, number, p, w) {
                            return Err(format!(
                                "the cases: refused with {number} {n} times ({form_name}, {position}, {word})"
                            ));
                        }
                    }
                }
            }
        }
        Ok(())
    }

    /// 2 for every m, 18 for every load, and 20 for every bit, that they can have.
    pub fn check_loads(&self) -> Result<(), String> {
        let is_wrong = |m: usize| m == 0 || m > MOST_COORDINATES;
        let all_m = |counts: &[u64; 16]| (0..16).all(|m| (counts[m] > 0) == is_wrong(m));
        let all_loads = self.wrong_load.iter().chain(&self.bits).all(|&n| n > 0);
        match self.wrong_m.iter().all(all_m) && all_loads {
            true => Ok(()),
            false => Err("the cases: an m, a load or a bit that is refused did not occur".into()),
        }
    }
}

fn at_words(counts: &[u64; WORDS.len()]) -> String {
    let some = WORDS.iter().filter(|(w, _)| counts[*w as usize] > 0);
    let each: Vec<String> = some
        .map(|(w, name)| format!("{name} {}", counts[*w as usize]))
        .collect();
    each.join(", ")
}

/// What came before the place of a refusal. The words there are as they can stand, so each tells what it ends.
fn position(words: &[u32], refused: Refused) -> Position {
    if refused.number == 8 || refused.number == 9 {
        return Position::WholeFile;
    }
    let before = &words[..refused.place];
    match before.last().map(|&w| kind(w)) {
        None => Position::First,
        Some(NUMBER) => Position::AfterNumber,
        Some(MARK) => Position::AfterMark,
        Some(SEE) => Position::AfterSee,
        Some(END) => Position::AfterEnd,
        Some(_) => {
            // d and m are in the lowest bits of a head of one word, and of the second of two
            let sized = |&w: &u32| kind(w) == HEAD || kind(w) == SIZE;
            let head = before.iter().rposition(sized);
            let head = head.expect("coordinates are behind a head");
            let (d, m) = (before[head] as usize >> 4 & 15, before[head] as usize & 15);
            match before.len() - head - 1 < d * m {
                true => Position::Among,
                false => Position::AfterCoordinates,
            }
        }
    }
}

fn word(words: &[u32], refused: Refused) -> Word {
    if refused.number == 8 || refused.number == 9 {
        return Word::None;
    }
    match words.get(refused.place).map(|&w| (kind(w), load(w))) {
        Some((HEAD, _)) => Word::Head,
        Some((NUMBER, _)) => Word::Number,
        Some((SIZE, ..=0xFF)) => Word::Size,
        Some((SIZE, _)) => Word::Bits,
        Some((COORDINATE, _)) => Word::Coordinate,
        Some((SEE, _)) => Word::See,
        Some((END, _)) => Word::End,
        Some((MARK, DRAFT)) => Word::Mark,
        Some((MARK, _)) => Word::Load,
        Some(_) => Word::Other,
        None => Word::None,
    }
}

/// The first word of a head.
fn head_of(form: Form) -> Word {
    match form {
        Form::Old => Word::Head,
        Form::New => Word::Number,
    }
}

/// Whether a call can give a refusal there.
fn is_possible(
    call: Call,
    form: Option<Form>,
    number: usize,
    position: Position,
    word: Word,
) -> bool {
    use Position::{AfterCoordinates, AfterMark, AfterSee, First};
    let read = is_possible_in_reading(form, number, position, word);
    let is_head = form.is_some_and(|f| word == head_of(f));
    match (call, number) {
        // the wrong form comes before all but the file's length
        (Call::Move(to), 10) if form == Some(to) => position == First && is_head,
        (Call::Move(to), 8 | 9) if form == Some(to) => read,
        (Call::Move(to), _) if form == Some(to) => false,
        (Call::Move(Form::Old), 19) => {
            let is_due = matches!(position, First | AfterCoordinates | AfterMark | AfterSee);
            is_due && is_head && can_be(form, position, word)
        }
        _ => read,
    }
}

fn is_possible_in_reading(
    form: Option<Form>,
    number: usize,
    position: Position,
    word: Word,
) -> bool {
    use Position::{
        AfterCoordinates, AfterEnd, AfterMark, AfterNumber, AfterSee, Among, First, WholeFile,
    };
    let is_later = matches!(position, AfterCoordinates | AfterMark | AfterSee);
    let is_head = form.is_some_and(|f| word == head_of(f));
    let is_sized = match form {
        Some(Form::Old) => is_head && (is_later || position == First),
        _ => position == AfterNumber && word == Word::Size,
    };
    can_be(form, position, word)
        && match number {
            8 | 9 => position == WholeFile && word == Word::None,
            1 | 2 => is_sized,
            20 => position == AfterNumber && word == Word::Bits,
            5 | 11 => is_head && (is_later || position == First),
            15 => is_head && is_later,
            4 => position == Among && word == Word::Coordinate,
            18 => position == AfterCoordinates && word == Word::Load,
            12 => matches!(position, AfterCoordinates | AfterMark) && word == Word::See,
            13 => word == Word::End && (is_later || position == First),
            14 => position == AfterEnd && word != Word::None,
            10 => match position {
                First => !is_head && word != Word::End,
                AfterNumber => !matches!(word, Word::Size | Word::Bits),
                Among => word != Word::Coordinate,
                AfterCoordinates => {
                    let can_stand = [Word::See, Word::End, Word::Mark, Word::Load];
                    !is_head && !can_stand.contains(&word)
                }
                AfterMark => !is_head && ![Word::See, Word::End].contains(&word),
                AfterSee => !is_head && word != Word::End,
                AfterEnd | WholeFile => false,
            },
            _ => false,
        }
}

/// Whether a file that begins so can have this word there: its first word is the head that tells the form, and without one there is nothing
/// but an end word.
fn can_be(form: Option<Form>, position: Position, word: Word) -> bool {
    match position {
        Position::WholeFile | Position::AfterEnd => true,
        Position::First => {
            let told = [Form::Old, Form::New];
            told.into_iter().find(|&f| head_of(f) == word) == form
        }
        Position::AfterNumber => form == Some(Form::New),
        _ => form.is_some(),
    }
}

//! The lines of the command `merge`: what is written to it, what it answers, and how both are held against each other.

use super::{Answer, Calls};
use crate::catalogue::text::{parsed, text};
use crate::catalogue::writer::{bytes, entry_words};
use crate::catalogue::{Entry, Form, Refused};
use crate::MOST_SIZE;

/// A line on standard input.
#[derive(Clone, Debug, PartialEq, Eq)]
pub enum Command {
    /// An entry as text; it may be one that is refused.
    Add(Entry),
    Bytes(Vec<u8>),
    Look(u32),
    Close,
    List,
    Fold,
    /// A line that is no command.
    Unreadable(String),
}

/// What a line is answered with.
#[derive(Clone, Debug, PartialEq, Eq)]
pub enum Said {
    /// These lines, perhaps none.
    Lines(String),
    /// One line that begins so.
    Begins(String),
}

/// The line of a command, with one space between its words.
pub fn line(command: &Command) -> String {
    match command {
        // a line of the old form has nothing before it
        Command::Add(entry) => format!("add {}", text(Form::Old, std::slice::from_ref(entry))),
        Command::Bytes(bytes) => {
            let digits: String = bytes.iter().map(|b| format!("{b:02x}")).collect();
            format!("{}\n", format!("bytes {digits}").trim_end())
        }
        Command::Look(number) => format!("look {number}\n"),
        Command::Close => "close\n".into(),
        Command::List => "list\n".into(),
        Command::Fold => "fold\n".into(),
        Command::Unreadable(line) => format!("{line}\n"),
    }
}

/// The bytes that an entry hands over.
pub fn handed_over(entry: &Entry) -> Vec<u8> {
    bytes(&entry_words(Form::New, entry))
}

/// What a call's answer is on its line.
pub fn answer_line(answer: Answer) -> String {
    match answer {
        Answer::Added => "added\n".into(),
        Answer::Closed => "closed\n".into(),
        Answer::Provisional(number) => format!("standing {number} provisional\n"),
        Answer::Standing(number) => format!("standing {number}\n"),
        Answer::NotYet => "not yet\n".into(),
        Answer::Refused(Refused { number, place }) => format!("refused {number} {place}\n"),
    }
}

/// The answer to a command, whose line has this number. A listing or a fold of an open merge is no command.
pub fn answered(merge: &mut impl Calls, command: &Command, number: usize) -> Said {
    let all = |lines: Option<String>| match lines {
        Some(lines) => Said::Lines(lines),
        None => Said::Begins(format!("error {number}:")),
    };
    let one = |answer| Said::Lines(answer_line(answer));
    match command {
        Command::Add(entry) => one(merge.add(&handed_over(entry))),
        Command::Bytes(bytes) => one(merge.add(bytes)),
        Command::Look(number) => one(merge.look(*number)),
        Command::Close => one(merge.close()),
        Command::List => all(merge.list()),
        Command::Fold => all(merge.fold()),
        Command::Unreadable(_) => all(None),
    }
}

/// The answers to all commands, each on its line from the first.
pub fn all_answered(merge: &mut impl Calls, commands: &[Command]) -> Vec<Said> {
    let numbered = commands.iter().zip(1..);
    numbered.map(|(c, n)| answered(merge, c, n)).collect()
}

/// The first command that an output answers otherwise, and the lines there; none where it is what was to be said. Behind the last command
/// where there is more.
pub fn difference(said: &[Said], output: &str) -> Option<(usize, String)> {
    let mut rest = output;
    for (i, expected) in said.iter().enumerate() {
        let (length, count) = match expected {
            Said::Lines(lines) => (lines.len(), lines.lines().count()),
            Said::Begins(_) => (rest.find('\n').map_or(rest.len(), |n| n + 1), 1),
        };
        let is_so = match expected {
            Said::Lines(lines) => rest.starts_with(lines),
            Said::Begins(start) => rest.starts_with(start) && rest[..length].ends_with('\n'),
        };
        if !is_so {
            return Some((i, rest.split_inclusive('\n').take(count).collect()));
        }
        rest = &rest[length..];
    }
    match rest {
        "" => None,
        more => Some((said.len(), more.into())),
    }
}

/// Reads a line.
pub fn read(line: &str) -> Command {
    let (word, rest) = line.split_once([' ', '\t']).unwrap_or((line, ""));
    let command = match (word, rest.trim()) {
        ("add", entry) => entry_in(entry).map(Command::Add),
        ("bytes", digits) => bytes_in(digits).map(Command::Bytes),
        ("look", number) => number.parse().ok().map(Command::Look),
        ("close", "") => Some(Command::Close),
        ("list", "") => Some(Command::List),
        ("fold", "") => Some(Command::Fold),
        _ => None,
    };
    command.unwrap_or_else(|| Command::Unreadable(line.into()))
}

/// The entry of a text of the new form, if it is one whose words can be written.
fn entry_in(line: &str) -> Option<Entry> {
    let (_, mut entries) = parsed(&format!("new\n{line}\n")).ok()?;
    let entry = entries.pop().filter(|_| entries.is_empty())?;
    let is_small = |x: &i64| x.abs() <= MOST_SIZE;
    let fits = entry.d() < 16 && entry.m() < 16 && entry.vectors.concat().iter().all(is_small);
    let is_see = |see: u32| see <= Form::New.most_number();
    (fits && entry.see.is_none_or(is_see)).then_some(entry)
}

fn bytes_in(digits: &str) -> Option<Vec<u8>> {
    if digits.len() % 2 != 0 || !digits.bytes().all(|b| b.is_ascii_hexdigit()) {
        return None;
    }
    let byte = |i: usize| u8::from_str_radix(&digits[2 * i..2 * i + 2], 16).ok();
    (0..digits.len() / 2).map(byte).collect()
}

/// What a merge writes for all lines of an input.
pub fn written(merge: &mut impl Calls, input: &str) -> String {
    let reply = |(line, number)| match answered(merge, &read(line), number) {
        Said::Lines(lines) => lines,
        Said::Begins(start) => format!("{start} no command\n"),
    };
    input.lines().zip(1..).map(reply).collect()
}

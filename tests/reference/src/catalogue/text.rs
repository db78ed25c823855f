//! Catalogues as text, one entry to a line: `number d m ; coordinates`, vector by vector; where it is a draft `; draft` behind, and where
//! there is a see word `; see` last. What stands behind a `#` is a comment, and lines that hold nothing else are passed
//! over. The first line of a catalogue in the new form is `new`.

use super::reader::{read, shown};
use super::writer::write;
use super::{Entry, Form, Refused};
use crate::random::Random;

const DRAFT: &str = "draft";
const NEW: &str = "new";

/// The form and the entries of a text, or the number of the first line that is wrong, from 1. So is one with a number that the form has no
/// room for.
pub fn parsed(text: &str) -> Result<(Form, Vec<Entry>), usize> {
    let is_new = text
        .lines()
        .next()
        .is_some_and(|l| content(l).trim() == NEW);
    let form = if is_new { Form::New } else { Form::Old };
    let fits = |e: &Entry| e.number <= form.most_number();
    let numbered = text.lines().map(content).enumerate();
    let entries = numbered
        .skip(is_new as usize)
        .filter(|(_, line)| !line.trim().is_empty())
        .map(|(i, line)| entry(line).filter(fits).ok_or(i + 1))
        .collect::<Result<Vec<Entry>, usize>>()?;
    Ok((form, entries))
}

/// The entries of a text alone.
pub fn entries(text: &str) -> Result<Vec<Entry>, usize> {
    parsed(text).map(|(_, entries)| entries)
}

/// The catalogue of a text, not read again: what a line says may still be refused.
pub fn encoded(text: &str) -> Result<Vec<u8>, usize> {
    parsed(text).map(|(form, entries)| write(form, &entries))
}

/// The text of a catalogue; that of one without entries is empty.
pub fn decoded(bytes: &[u8]) -> Result<String, Refused> {
    let entries = read(bytes)?;
    Ok(text(shown(bytes), &entries))
}

fn content(line: &str) -> &str {
    line.split_once('#').map_or(line, |(content, _)| content)
}

fn entry(line: &str) -> Option<Entry> {
    let parts: Vec<&str> = line.split(';').collect();
    let is_draft = |part: &str| part.trim() == DRAFT;
    let (head, coordinates, draft, see) = match parts[..] {
        [head, coordinates] => (head, coordinates, false, None),
        [head, coordinates, last] if is_draft(last) => (head, coordinates, true, None),
        [head, coordinates, see] => (head, coordinates, false, Some(see)),
        [head, coordinates, mark, see] if is_draft(mark) => (head, coordinates, true, Some(see)),
        _ => return None,
    };
    let [number, d, m] = numbers(head)?[..] else {
        return None;
    };
    let coordinates = numbers(coordinates)?;
    if d < 1 || m < 1 || coordinates.len() as i64 != d * m {
        return None;
    }
    let see = match see {
        None => None,
        Some(see) => match numbers(see)?[..] {
            [see] => Some(u32::try_from(see).ok()?),
            _ => return None,
        },
    };
    Some(Entry {
        number: u32::try_from(number).ok()?,
        vectors: coordinates
            .chunks(m as usize)
            .map(<[i64]>::to_vec)
            .collect(),
        draft,
        see,
    })
}

fn numbers(part: &str) -> Option<Vec<i64>> {
    part.split_whitespace().map(|w| w.parse().ok()).collect()
}

/// One space between numbers.
pub fn text(form: Form, entries: &[Entry]) -> String {
    let lines: String = entries.iter().map(line).collect();
    first_line(form, entries) + &lines
}

fn first_line(form: Form, entries: &[Entry]) -> String {
    match form {
        Form::New if !entries.is_empty() => format!("{NEW}\n"),
        _ => String::new(),
    }
}

/// The same text with other blanks in some lines, with comments behind some, and with empty lines and comments between them, but not before
/// the line that tells the form.
pub fn commented(form: Form, entries: &[Entry], random: &mut Random) -> String {
    let first = match (form, random.index(3)) {
        (Form::Old, _) => String::new(),
        (Form::New, 0) => format!("{NEW}\n"),
        (Form::New, 1) => format!(" \t{NEW} # 1 1 1 ; 2\n"),
        (Form::New, _) => format!("{NEW}\t\n"),
    };
    let with_comment = |e| {
        let line = line(e);
        match random.index(6) {
            0 => line,
            1 => format!("{} # {line}", line.trim_end()),
            2 => format!("\n{line}"),
            3 => line.replace(" ; ", ";"),
            4 => line.replace(' ', "\t "),
            _ => format!(" \t#; 1 x\n{line}"),
        }
    };
    let lines: String = entries.iter().map(with_comment).collect();
    first + &lines
}

fn line(e: &Entry) -> String {
    let coordinates = e.vectors.concat();
    let coordinates: Vec<String> = coordinates.iter().map(i64::to_string).collect();
    let draft = if e.draft { " ; draft" } else { "" };
    let see = e.see.map_or(String::new(), |n| format!(" ; {n}"));
    format!(
        "{} {} {} ; {}{draft}{see}\n",
        e.number,
        e.d(),
        e.m(),
        coordinates.join(" ")
    )
}

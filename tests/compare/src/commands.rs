//! The command line on random catalogues: folded, listed, looked up, moved to either form, and turned into text and back.

use std::io::Write;
use std::process::{Command, Stdio};

use reference::catalogue::cases::case;
use reference::catalogue::fold::folded;
use reference::catalogue::listing::listing;
use reference::catalogue::moves::moved;
use reference::catalogue::reader::{read, shown};
use reference::catalogue::text::{commented, text};
use reference::catalogue::writer::write;
use reference::catalogue::{lookup, Entry, Form, Refused};
use reference::random::Random;

use crate::widths::Widths;

pub const PROGRAM: &str = "target/bin/raghymtos";

/// Where a catalogue is put that the program is to read from a file.
const FILE: &str = "target/compared.catalogue";

/// What a program writes for these words and this input, on standard output or else on standard error.
pub fn run(program: &str, words: &[&str], input: &[u8]) -> Result<Vec<u8>, String> {
    let fails = |e: std::io::Error| format!("{program}: {e}");
    let mut child = Command::new(program)
        .args(words)
        .stdin(Stdio::piped())
        .stdout(Stdio::piped())
        .stderr(Stdio::piped())
        .spawn()
        .map_err(fails)?;
    let mut stdin = child.stdin.take().ok_or("no standard input")?;
    stdin.write_all(input).map_err(fails)?;
    drop(stdin);
    let output = child.wait_with_output().map_err(fails)?;
    match (output.stdout.is_empty(), output.stderr.is_empty()) {
        (_, true) => Ok(output.stdout),
        (true, false) => Ok(without_sentence(&output.stderr)),
        (false, false) => Err(format!("{words:?} writes and says something")),
    }
}

/// A refusal on standard error has its sentence behind the numbers.
fn without_sentence(said: &[u8]) -> Vec<u8> {
    let said = String::from_utf8_lossy(said);
    let numbers = said.split_once(": ").map_or(&*said, |(numbers, _)| numbers);
    format!("{numbers}\n").into_bytes()
}

/// The program writes what is expected.
pub fn same(words: &[&str], input: &[u8], expected: Vec<u8>) -> Result<(), String> {
    compared(words, input, run(PROGRAM, words, input)?, expected)
}

/// The same with the input in a file that the last word names.
pub fn same_of_file(words: &[&str], input: &[u8], expected: Vec<u8>) -> Result<(), String> {
    std::fs::write(FILE, input).map_err(|e| format!("{FILE}: {e}"))?;
    let words = [words, &[FILE]].concat();
    compared(&words, input, run(PROGRAM, &words, &[])?, expected)
}

fn compared(words: &[&str], input: &[u8], got: Vec<u8>, expected: Vec<u8>) -> Result<(), String> {
    if got == expected {
        return Ok(());
    }
    let hexadecimal: String = input.iter().map(|b| format!("{b:02x}")).collect();
    let (got, expected) = (got.escape_ascii(), expected.escape_ascii());
    Err(format!(
        "{words:?} on {hexadecimal}\ngives    {got}\nexpected {expected}"
    ))
}

/// What is expected of an outcome: the refusal as a line, or what the entries give.
pub fn said<T>(outcome: Result<T, Refused>, accepted: impl FnOnce(T) -> Vec<u8>) -> Vec<u8> {
    match outcome {
        Err(Refused { number, place }) => format!("refused {number} {place}\n").into_bytes(),
        Ok(answer) => accepted(answer),
    }
}

/// Folds, lists, moves, looks up and decodes one catalogue, and encodes its text.
pub fn compare_one(bytes: &[u8], random: &mut Random) -> Result<(), String> {
    let (outcome, form) = (read(bytes), shown(bytes));
    same(&["list"], bytes, listing(bytes).into_bytes())?;
    let fold = |es: Vec<Entry>| write(form, &folded(&es));
    same(&["fold"], bytes, said(outcome.clone(), fold))?;
    for (command, to) in [("new-form", Form::New), ("old-form", Form::Old)] {
        same(&[command], bytes, said(moved(to, bytes), |bytes| bytes))?;
    }
    let decoded = |es: Vec<Entry>| text(form, &es).into_bytes();
    same(&["decode"], bytes, said(outcome.clone(), decoded))?;
    let number = outcome
        .as_ref()
        .map_or(1, |es| es.last().map_or(1, |e| e.number));
    let standing = |n: u32| format!("{n}\n").into_bytes();
    same(
        &["lookup", &number.to_string()],
        bytes,
        said(lookup(bytes, number), standing),
    )?;
    match outcome {
        Ok(entries) => {
            let texts = [text(form, &entries), commented(form, &entries, random)];
            texts
                .iter()
                .try_for_each(|t| same(&["encode"], t.as_bytes(), bytes.to_vec()))
        }
        Err(_) => Ok(()),
    }
}

/// Compares so many random catalogues of a seed.
pub fn compare(count: usize, seed: u64) -> Result<(), String> {
    let mut random = Random::new(seed);
    let mut widths = Widths::default();
    let mut drafts = 0;
    for index in 0..count {
        let bytes = case(seed, index);
        compare_one(&bytes, &mut random)
            .map_err(|what| format!("seed {seed}, index {index}: {what}"))?;
        let entries = read(&bytes).unwrap_or_default();
        widths.add_each(entries.iter().map(Entry::m));
        drafts += entries.iter().any(|e| e.draft) as u64;
    }
    println!(
        "{count} catalogues by the command line, with drafts {drafts}: folded, listed, moved to either form, looked up, decoded and encoded, with \
         comments and without, as the reference does"
    );
    widths.print("catalogues accepted", count)
}

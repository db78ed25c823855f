//! The open merge: each rule by hand, its additions beside the reader of files, and that the random sequences tell every wrong merge.

use reference::catalogue::fold::folded;
use reference::catalogue::listing::listing;
use reference::catalogue::reader::{kind, read, words};
use reference::catalogue::text::{entries, text};
use reference::catalogue::writer::bytes;
use reference::catalogue::{lookup, Form, Refused};
use reference::merge::lines::{
    answered, difference, handed_over, line, read as read_line, written, Command, Said,
};
use reference::merge::sequences::{sequence, Kind};
use reference::merge::wrong::{WrongMerge, ALL};
use reference::merge::{Answer, Calls, Merge};

/// What the command line is held to.
const TRANSCRIPTS: &str = include_str!("../../commands/merge.txt");

fn refused(number: u64, place: usize) -> Answer {
    Answer::Refused(Refused { number, place })
}

/// A merge of the entries of a text.
fn merged(text: &str) -> Merge {
    let mut merge = Merge::default();
    for e in entries(text).unwrap() {
        assert_eq!(merge.add(&handed_over(&e)), Answer::Added, "{e:?}");
    }
    merge
}

/// An output without the sentences of its errors.
fn without_sentences(output: &str) -> String {
    let short = |line: &str| match line.split_once(": ") {
        Some((start, _)) if line.starts_with("error ") => format!("{start}:\n"),
        _ => format!("{line}\n"),
    };
    output.lines().map(short).collect()
}

#[test]
fn transcripts() {
    let mut count = 0;
    for transcript in format!("\n{TRANSCRIPTS}").split("\n# ").skip(1) {
        let (title, lines) = transcript.split_once('\n').unwrap();
        let (mut input, mut expected) = (String::new(), String::new());
        for line in lines.lines().filter(|l| !l.is_empty()) {
            match line.strip_prefix("> ") {
                Some(command) => input += &format!("{command}\n"),
                None => expected += &format!("{line}\n"),
            }
        }
        let output = without_sentences(&written(&mut Merge::default(), &input));
        assert_eq!(output, expected, "{title}");
        count += 1;
    }
    assert!(count >= 25, "{count}");
}

/// Every kind of word at every place of an addition, with loads that could be right there.
#[test]
fn every_kind_at_every_place() {
    const START: [u32; 6] = [
        0x60000001, 0x70000012, 0x20004E22, 0x20004E23, 0x50000001, 0x30000009,
    ];
    for length in 0..=START.len() {
        for kind in 0..16 {
            for load in [1, 0x12, 0x4E22] {
                let mut all = START[..length].to_vec();
                all.push(kind << 28 | load);
                let expected = match (length, kind, load) {
                    (0, 6, _) => refused(10, 1),
                    (1, 7, 0x12) => refused(10, 2),
                    (1, 7, 1) => refused(1, 1),
                    (1, 7, _) => refused(20, 1),
                    (2, 2, _) => refused(10, 3),
                    (3, 2, _) => Answer::Added,
                    (4, 5, 1) => Answer::Added,
                    (4, 5, _) => refused(18, 4),
                    (4 | 5, 3, _) => Answer::Added,
                    _ => refused(10, length),
                };
                let said = Merge::default().add(&bytes(&all));
                assert_eq!(said, expected, "{all:x?}");
            }
        }
        let said = Merge::default().add(&bytes(&START[..length]));
        match length {
            0..=3 => assert_eq!(said, refused(10, length)),
            _ => assert_eq!(said, Answer::Added),
        }
    }
}

/// Every length of bytes, and every load of a mark and of a coordinate about the limits.
#[test]
fn lengths_and_loads() {
    let whole = bytes(&[0x60000001, 0x70000011, 0x20004E22]);
    for n in 0..whole.len() {
        let expected = if n % 4 == 0 { (10, n / 4) } else { (8, 0) };
        let said = Merge::default().add(&whole[..n]);
        assert_eq!(said, refused(expected.0, expected.1), "{n}");
    }
    for load in (0..3).chain([0x10, 0xFFF_FFFF]) {
        let all = [0x60000001, 0x70000011, 0x20004E22, 0x50000000 | load];
        let said = Merge::default().add(&bytes(&all));
        match load {
            1 => assert_eq!(said, Answer::Added),
            _ => assert_eq!(said, refused(18, 3)),
        }
    }
    for (load, expected) in [
        (0, Answer::Added),
        (19_999, Answer::Added),
        (20_000, refused(5, 0)),
        (40_000, Answer::Added),
        (40_001, refused(4, 2)),
        (0xFFF_FFFF, refused(4, 2)),
    ] {
        let all = [0x60000001, 0x70000011, 0x20000000 | load];
        assert_eq!(Merge::default().add(&bytes(&all)), expected, "{load}");
    }
}

/// 9 is never given: only what stands behind the entry is refused.
#[test]
fn more_bytes_than_a_file() {
    let mut all = bytes(&[0x60000001, 0x70000011, 0x20004E22]);
    all.resize(40_000, 0);
    assert_eq!(Merge::default().add(&all), refused(10, 3));
    all.push(0);
    assert_eq!(Merge::default().add(&all), refused(8, 0));
}

/// After closing the answers are those of the file; the place of 12 is that in the file.
#[test]
fn closed_as_the_file() {
    let mut merge = merged("1 1 1 ; 2 ; draft ; 3\n2 1 1 ; 3 ; 4\n");
    let before = merge.clone();
    assert_eq!(read(&merge.file()).map_err(|r| r.place), Err(4));
    assert_eq!(merge.close(), refused(12, 4));
    assert_eq!(merge, before);
    assert_eq!((merge.list(), merge.fold()), (None, None));
    let mut merge = merged("1 1 1 ; 2 ; draft ; 3\n2 1 1 ; 3 ; 4\n3 1 1 ; 5\n4 1 1 ; -2\n");
    assert_eq!(merge.look(1), Answer::Provisional(4));
    assert_eq!(merge.close(), Answer::Closed);
    assert_eq!(merge.look(1), Answer::Standing(4));
    assert_eq!(merge.list(), Some(listing(&merge.file())));
    let folded = "new\n2 1 1 ; 3 ; 4\n3 1 1 ; 5\n4 1 1 ; -2 ; 3\n";
    assert_eq!(merge.fold().as_deref(), Some(folded));
}

/// What a file gives that has the words of the merge before those handed over: the refusal with its place there, or none.
fn as_file(merge: &Merge, handed: &[u32], is_ended: bool) -> Option<Refused> {
    let file = words(&merge.file());
    let count = file[file.len() - 1] & 0xFFF;
    let mut all = [&file[..file.len() - 1], handed].concat();
    if is_ended {
        all.push(0x4000_0000 | (count + 1));
    }
    read(&bytes(&all)).err()
}

/// An addition is refused as a file would be, but for words that can stand in a file and not in an addition; it changes nothing then. A
/// closing is refused as the file is. The sequences do all of it.
#[test]
fn beside_the_reader_of_files() {
    let mut counts = [0; 22];
    for index in 0..2_000 {
        let mut merge = Merge::default();
        for command in &sequence(19, index).commands {
            let before = merge.clone();
            let handed = match command {
                Command::Add(entry) => handed_over(entry),
                Command::Bytes(bytes) => bytes.clone(),
                Command::Close => {
                    let said = merge.close();
                    match (before.list(), read(&before.file())) {
                        (Some(_), _) => assert_eq!(said, refused(21, 0)),
                        (None, Ok(_)) => assert_eq!(said, Answer::Closed),
                        (None, Err(r)) => assert_eq!(said, Answer::Refused(r)),
                    }
                    continue;
                }
                _ => continue,
            };
            let said = merge.add(&handed);
            let handed_words = words(&handed);
            let length = before.file().len() / 4 - 1;
            let Answer::Refused(r) = said else {
                let after = as_file(&before, &handed_words, true);
                assert!(after.is_none_or(|r| r.number == 12), "{after:?}");
                let grown = [words(&before.file())[..length].to_vec(), handed_words].concat();
                let file = words(&merge.file());
                assert_eq!(grown, file[..file.len() - 1]);
                continue;
            };
            assert_eq!(merge, before);
            counts[r.number as usize] += 1;
            let in_file = |is_ended| as_file(&before, &handed_words, is_ended).unwrap();
            let moved = Refused {
                place: length + r.place,
                ..r
            };
            match r.number {
                21 => assert!(before.list().is_some()),
                8 => assert!(handed.len() % 4 != 0),
                5 => assert_eq!(in_file(true), moved),
                10 => {
                    // in a file other words could begin an addition, and an end word or a head be behind it
                    let at = handed_words.get(r.place).map(|&w| kind(w));
                    let can_stand = match r.place {
                        0 => at != Some(6),
                        _ => matches!(at, Some(4 | 6)),
                    };
                    assert!(can_stand || in_file(false) == moved, "{handed_words:x?}");
                }
                _ => assert_eq!(in_file(false), moved, "{handed_words:x?}"),
            }
        }
    }
    for number in [1, 2, 4, 5, 8, 10, 11, 15, 18, 20, 21] {
        assert!(counts[number] > 20, "{number}: {counts:?}");
    }
    assert_eq!(counts[9] + counts[12] + counts[13] + counts[14], 0);
}

/// Lookups of an open merge are those of the file without its see words; of a closed one, and its listing and fold, those of the file.
#[test]
fn looked_up_beside_files() {
    let (mut open, mut closed) = (0, 0);
    for index in 0..1_000 {
        let mut merge = Merge::default();
        for (command, line) in sequence(20, index).commands.iter().zip(1..) {
            answered(&mut merge, command, line);
            let Command::Look(number) = *command else {
                continue;
            };
            let said = merge.look(number);
            let file = words(&merge.file());
            let (bytes, standing): (_, fn(u32) -> Answer) = match merge.list() {
                Some(list) => {
                    closed += 1;
                    assert_eq!(list, listing(&merge.file()));
                    let fold = folded(&read(&merge.file()).unwrap());
                    assert_eq!(merge.fold(), Some(text(Form::New, &fold)));
                    (merge.file(), Answer::Standing)
                }
                None => {
                    open += 1;
                    let without: Vec<u32> =
                        file.iter().copied().filter(|&w| kind(w) != 3).collect();
                    (bytes(&without), Answer::Provisional)
                }
            };
            let is_named = file.contains(&(0x3000_0000 | number & 0xFFF_FFFF));
            match lookup(&bytes, number) {
                Ok(n) => assert_eq!(said, standing(n)),
                Err(_) if merge.list().is_none() && is_named && number < 1 << 28 => {
                    assert_eq!(said, Answer::NotYet)
                }
                Err(r) => assert_eq!((said, r.number, r.place), (refused(17, 0), 17, 0)),
            }
        }
    }
    assert!(open > 2_000 && closed > 1_000, "{open} {closed}");
}

/// What is written for a command is read as that command.
#[test]
fn lines_are_read_back() {
    for index in 0..1_000 {
        let s = sequence(21, index);
        assert_eq!(s.input.lines().count(), s.commands.len());
        // a pipe takes all of it
        assert!(s.input.len() < 60_000);
        for (command, spelled) in s.commands.iter().zip(s.input.lines()) {
            assert_eq!(&read_line(line(command).trim_end()), command);
            assert_eq!(&read_line(spelled), command);
            assert!(spelled.len() < 4_096);
        }
    }
}

/// An output is told apart at the first command that it answers otherwise.
#[test]
fn differences() {
    let said = [
        Said::Lines("added\n".into()),
        Said::Begins("error 2:".into()),
        Said::Lines(String::new()),
        Said::Lines("standing 7\n".into()),
    ];
    let at = |output: &str| difference(&said, output).map(|(i, _)| i);
    assert_eq!(at("added\nerror 2: so\nstanding 7\n"), None);
    assert_eq!(at("added\nerror 2:\nstanding 7\n"), None);
    assert_eq!(at(""), Some(0));
    assert_eq!(at("added"), Some(0));
    assert_eq!(at("added\nerror 3: so\nstanding 7\n"), Some(1));
    assert_eq!(at("added\nerror 2: so"), Some(1));
    assert_eq!(at("added\nerror 2: so\nstanding 7 provisional\n"), Some(3));
    assert_eq!(at("added\nerror 2: so\nstanding 7\n\n"), Some(4));
    let got = difference(&said, "added\nerror 2: so\nstanding 8\nclosed\n");
    assert_eq!(got, Some((3, "standing 8\n".into())));
}

/// The right merge is as said, and each wrong one is told.
#[test]
fn wrong_merges_are_told() {
    let mut left = ALL.to_vec();
    for index in 0..500 {
        let s = sequence(18, index);
        let right = written(&mut Merge::default(), &s.input);
        assert_eq!(difference(&s.said, &right), None);
        left.retain(|&wrong| {
            let output = written(&mut WrongMerge::new(wrong), &s.input);
            difference(&s.said, &output).is_none()
        });
    }
    assert_eq!(left, []);
}

/// 255, 256 and more entries, and sequences of every kind.
#[test]
fn sequences_of_every_kind() {
    let mut kinds = vec![];
    let mut added = [0; 3];
    for index in 0..1_000 {
        let s = sequence(22, index);
        if !kinds.contains(&s.kind) {
            kinds.push(s.kind);
        }
        let is_added = |said: &&Said| **said == Said::Lines("added\n".into());
        let n = s.said.iter().filter(is_added).count();
        let is_full = s.said.contains(&Said::Lines("refused 15 0\n".into()));
        added[0] += (n == 255) as u64;
        added[1] += (n == 256 && !is_full) as u64;
        added[2] += (n == 256 && is_full) as u64;
        assert!(n <= 256 && (n > 200 || s.kind != Kind::Full));
    }
    assert_eq!(kinds.len(), 5);
    assert!(added.iter().all(|&n| n > 0), "{added:?}");
}

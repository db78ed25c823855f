//! Catalogues made from entries and read back, and what makes none.

use raghymtos::catalogue::{
    check, entries, fold, fold_to, from_entries, from_entries_in, list, list_to, lookup, Entry,
    Form, NoCatalogue, MOST_ENTRIES, MOST_OLD_NUMBER,
};
use raghymtos::Refusal;

/// Entries 7 and 12 have one lattice.
fn three() -> Vec<Entry> {
    vec![
        Entry::new(7, [[1, 0], [4, 1]]),
        Entry::new(9, [[2, 0], [0, 3]]).seeing(12),
        Entry::new(12, [[0, 1], [1, 0]]).seeing(9),
    ]
}

/// The same in the words of docs/RULES.md, R15.15.
const WORDS: [u32; 18] = [
    0x10000722, 0x20004E21, 0x20004E20, 0x20004E24, 0x20004E21, 0x10000922, 0x20004E22, 0x20004E20,
    0x20004E20, 0x20004E23, 0x3000000C, 0x10000C22, 0x20004E20, 0x20004E21, 0x20004E21, 0x20004E20,
    0x30000009, 0x40000003,
];

fn bytes(words: &[u32]) -> Vec<u8> {
    words.iter().flat_map(|w| w.to_le_bytes()).collect()
}

#[test]
fn made_and_read() {
    assert_eq!(from_entries(&three()), Ok(bytes(&WORDS)));
    assert_eq!(entries(&bytes(&WORDS)), Ok(three()));
    assert_eq!(from_entries(&[]), Ok(bytes(&[0x40000000])));
    assert_eq!(entries(&bytes(&[0x40000000])), Ok(vec![]));
    assert_eq!(check(&bytes(&WORDS)), Ok(()));
}

#[test]
fn the_largest_catalogue() {
    let unit = [
        [1, 0, 0, 0, 0, 0, 0, 0],
        [0, 1, 0, 0, 0, 0, 0, 0],
        [0, 0, 0, 0, 0, 0, 1, 0],
        [0, 0, 0, 0, 0, 0, 0, 20_000],
    ];
    let all: Vec<Entry> = (0..MOST_ENTRIES as u32)
        .map(|i| {
            Entry::new(MOST_OLD_NUMBER - i, unit)
                .drafted()
                .seeing(MOST_OLD_NUMBER)
        })
        .collect();
    let made = from_entries(&all).unwrap();
    assert_eq!(made.len(), Form::Old.most_bytes());
    assert_eq!(entries(&made), Ok(all));
    assert_eq!(
        entries(&fold(&made).unwrap()),
        Ok(vec![Entry::new(MOST_OLD_NUMBER, unit).drafted()])
    );
    // one word more
    let more = [&made[..], &[0; 4]].concat();
    assert_eq!(check(&more).map_err(|r| r.refusal), Err(Refusal::TooLarge));
}

/// The stack that the header names is enough.
#[test]
fn in_a_megabyte() {
    for test in [the_largest_catalogue, a_long_listing] {
        let thread = std::thread::Builder::new().stack_size(1 << 20);
        thread.spawn(test).unwrap().join().unwrap();
    }
}

/// Standing entries of the largest kind, all with see words and with the greatest numbers: what [`list`] lends is enough.
#[test]
fn a_long_listing() {
    // rows of signs at right angles to each other
    let sign = |i: usize, j: usize| if (i & j).count_ones() % 2 == 0 { -1 } else { 1 };
    let row = |i: usize, size: i64| -> Vec<i64> { (0..8).map(|j| sign(i, j) * size).collect() };
    let listed = |form: Form| {
        let number = |n: u32| form.most_number() - n % 256;
        let entry = |n: u32| {
            let vectors = (0..4).map(|i| row(i, 6_000 + i64::from(n)));
            Entry::new(number(n), vectors).seeing(number(n + 1))
        };
        let all: Vec<Entry> = (0..MOST_ENTRIES as u32).map(entry).collect();
        list(&from_entries_in(form, &all).unwrap()).unwrap()
    };
    let [old, new] = [Form::Old, Form::New].map(listed);
    assert!(old.starts_with("256 256\n1048575 1048575 1048574 3\nv -6000"));
    assert!(new.starts_with("256 256\n268435455 268435455 268435454 3\nv -6000"));
    assert_eq!(new.lines().count(), 1 + 256 * 5);
    assert!(old.len() > 50_000, "{}", old.len());
    // two digits more, three times for each entry
    assert_eq!(new.len(), old.len() + 6 * 256);
}

/// Entries 3 and 5 are one lattice of five coordinates; 8 has the same vectors with zeros behind.
#[test]
fn wide_entries() {
    let a4 = [
        [1, -1, 0, 0, 0],
        [0, 1, -1, 0, 0],
        [0, 0, 1, -1, 0],
        [0, 0, 0, 1, -1],
    ];
    let padded = a4.map(|v| [&v[..], &[0, 0, 0]].concat());
    let turned = a4.map(|[a, b, c, d, e]| [e, d, c, b, a]);
    let all = [
        Entry::new(3, a4),
        Entry::new(5, turned).seeing(8),
        Entry::new(8, padded),
    ];
    let made = from_entries(&all).unwrap();
    assert_eq!(made[..4], 0x10000345u32.to_le_bytes());
    assert_eq!(entries(&made), Ok(all.to_vec()));
    assert_eq!([3, 5, 8].map(|n| lookup(&made, n)), [Ok(3), Ok(3), Ok(8)]);
    let reduced = [
        [1, -1, 0, 0, 0],
        [1, 0, -1, 0, 0],
        [1, 0, 0, -1, 0],
        [1, 0, 0, 0, -1],
    ];
    let padded = reduced.map(|v| [&v[..], &[0, 0, 0]].concat());
    let folded = vec![Entry::new(3, reduced).seeing(8), Entry::new(8, padded)];
    assert_eq!(entries(&fold(&made).unwrap()), Ok(folded));
    let text = list(&made).unwrap();
    assert!(
        text.starts_with("3 2\n3 3 0 3\nv 1 -1 0 0 0\nv 1 0 -1 0 0\n"),
        "{text}"
    );
    assert!(text.ends_with("v 1 0 0 0 -1 0 0 0\n"), "{text}");
}

#[test]
fn folded_to_a_slice() {
    let mut out = [0x55; 54];
    assert_eq!(fold_to(&bytes(&WORDS), &mut out), Ok(52));
    assert_eq!(fold(&bytes(&WORDS)).unwrap(), out[..52]);
    assert_eq!(out[52..], [0x55; 2]);
    let short = fold_to(&bytes(&WORDS), &mut [0x55; 51]).unwrap_err();
    assert_eq!(
        (short.refusal, short.place, short.word()),
        (Refusal::OutputShort, 0, None)
    );
}

/// Entry 12 is folded into 7, which has no see word and carries its.
#[test]
fn a_folded_reference() {
    let folded = entries(&fold(&bytes(&WORDS)).unwrap());
    let seven = Entry::new(7, [[1, 0], [0, 1]]).seeing(9);
    let nine = Entry::new(9, [[2, 0], [0, 3]]).seeing(7);
    assert_eq!(folded, Ok(vec![seven, nine]));
}

/// The words of a draft with a see word and of the entry that it names.
const DRAFT: [u32; 13] = [
    0x10000722, 0x20004E21, 0x20004E20, 0x20004E24, 0x20004E21, 0x50000001, 0x3000000C, 0x10000C22,
    0x20004E20, 0x20004E21, 0x20004E21, 0x20004E20, 0x40000002,
];

#[test]
fn a_draft() {
    let seven = Entry::new(7, [[1, 0], [4, 1]]).drafted().seeing(12);
    let twelve = Entry::new(12, [[0, 1], [1, 0]]);
    let all = vec![seven.clone(), twelve.clone()];
    assert_eq!(from_entries(&all), Ok(bytes(&DRAFT)));
    assert_eq!(entries(&bytes(&DRAFT)), Ok(all));
    // 12 stands, the word of 7 leads to it
    assert_eq!([7, 12].map(|n| lookup(&bytes(&DRAFT), n)), [Ok(12); 2]);
    assert_eq!(
        list(&bytes(&DRAFT)).as_deref(),
        Ok("2 1\n7 12 0 1\n12 12 0 1\nv 0 1\nv 1 0\n")
    );
    let folded = |all: &[Entry]| entries(&fold(&from_entries(all).unwrap()).unwrap());
    assert_eq!(folded(&[seven.clone(), twelve.clone()]), Ok(vec![twelve]));
    // two drafts: the first stands and stays one
    let both = [seven, Entry::new(12, [[0, 1], [1, 0]]).drafted()];
    let first = Entry::new(7, [[1, 0], [0, 1]]).drafted();
    assert_eq!(folded(&both), Ok(vec![first]));
}

/// The own see word of a standing entry comes before that of a draft before it, and that of a draft where it has none.
#[test]
fn see_words_of_drafts() {
    let folded = |two: Entry| {
        let one = Entry::new(1, [[2]]).drafted().seeing(3);
        let all = [one, two, Entry::new(3, [[3]]), Entry::new(4, [[5]])];
        let mut folded = entries(&fold(&from_entries(&all).unwrap()).unwrap()).unwrap();
        assert_eq!(folded.len(), 3);
        folded.swap_remove(0)
    };
    let two = Entry::new(2, [[-2]]);
    assert_eq!(folded(two.clone()), two.clone().seeing(3));
    assert_eq!(folded(two.clone().seeing(4)), two.clone().seeing(4));
    assert_eq!(folded(two.clone().seeing(1)), two.seeing(3));
}

#[test]
fn marks_that_are_refused() {
    let refused = |at: usize, word: u32| {
        let mut words = DRAFT;
        words[at] = word;
        check(&bytes(&words)).map_err(|r| (r.refusal, r.word()))
    };
    let load = |load: u32| 0x5000_0000 | load;
    assert_eq!(refused(5, load(1)), Ok(()));
    for wrong in [0, 2, 3, 0xFFF_FFFF] {
        let said = refused(5, load(wrong));
        assert_eq!(said, Err((Refusal::DraftLoad, Some(5))));
    }
    // where none can stand, whatever the load
    for (at, wrong) in [(0, 1), (1, 2), (3, 0), (6, 1), (6, 2), (7, 1)] {
        let said = refused(at, load(wrong));
        assert_eq!(said, Err((Refusal::Unexpected, Some(at))));
    }
}

#[test]
fn listed() {
    let text = "3 2\n7 7 0 1\nv 1 0\nv 0 1\n9 9 7 1\nv 2 0\nv 0 3\n12 7 9 1\n";
    assert_eq!(list(&bytes(&WORDS)).as_deref(), Ok(text));
    assert_eq!(list(&bytes(&[0x40000000])).as_deref(), Ok("0 0\n"));
    assert_eq!(list(&[0; 3]).map_err(|r| r.refusal), Err(Refusal::NotWords));
    let mut out = vec![0x55; text.len() - 1];
    let short = list_to(&bytes(&WORDS), &mut out).unwrap_err();
    assert_eq!(short.refusal, Refusal::OutputShort);
    assert!(out.iter().all(|&b| b == 0x55));
}

#[test]
fn looked_up() {
    assert_eq!(lookup(&bytes(&WORDS), 12), Ok(7));
    assert_eq!(
        lookup(&bytes(&WORDS), 8).unwrap_err().refusal,
        Refusal::NoEntry
    );
    let refused = lookup(&bytes(&WORDS[..2]), 7).unwrap_err();
    assert_eq!(
        (refused.refusal, refused.word()),
        (Refusal::Unexpected, Some(2))
    );
    let [said, reason] = [refused.to_string(), refused.refusal.to_string()];
    assert_eq!(said, format!("word 2: {reason}"));
}

/// The refusal of a catalogue whose second entry is this one, and the entry that it is about.
fn refused(entry: Entry) -> (Refusal, Option<usize>) {
    let first = Entry::new(7, [[1, 0], [4, 1]]).seeing(7);
    match from_entries(&[first, entry]) {
        Err(NoCatalogue::Refused { entry, refusal }) => (refusal.refusal, entry),
        other => panic!("{other:?}"),
    }
}

#[test]
fn no_catalogue() {
    let none: [i64; 0] = [];
    let one = Some(1);
    assert_eq!(refused(Entry::new(9, [none; 0])), (Refusal::Vectors, one));
    assert_eq!(refused(Entry::new(9, [[1]; 5])), (Refusal::Vectors, one));
    assert_eq!(refused(Entry::new(9, [[1]; 17])), (Refusal::Vectors, one));
    assert_eq!(
        refused(Entry::new(9, [none; 1])),
        (Refusal::Coordinates, one)
    );
    assert_eq!(
        refused(Entry::new(9, [[1; 9]])),
        (Refusal::Coordinates, one)
    );
    assert_eq!(
        refused(Entry::new(9, [[1; 20]])),
        (Refusal::Coordinates, one)
    );
    for x in [20_001, -20_001, 1 << 28, i64::MAX, i64::MIN, -(1 << 40)] {
        assert_eq!(
            refused(Entry::new(9, [[x]])),
            (Refusal::TooLong, one),
            "{x}"
        );
    }
    assert_eq!(
        refused(Entry::new(9, [[20_000, 1]])),
        (Refusal::TooLong, one)
    );
    assert_eq!(
        refused(Entry::new(9, [[1, 2], [2, 4]])),
        (Refusal::Dependent, one)
    );
    for number in [0, 7, MOST_OLD_NUMBER + 1, (1 << 20) + 9, u32::MAX] {
        assert_eq!(
            refused(Entry::new(number, [[1]])),
            (Refusal::Number, one),
            "{number}"
        );
    }
    for number in [0, 8, MOST_OLD_NUMBER + 1, (1 << 28) + 9, u32::MAX] {
        assert_eq!(
            refused(Entry::new(9, [[1]]).seeing(number)),
            (Refusal::Lost, one),
            "{number}"
        );
    }
    let uneven = Entry::new(9, [vec![1, 0], vec![1], vec![0, 0, 1]]);
    assert_eq!(
        from_entries(&[uneven]),
        Err(NoCatalogue::Uneven { entry: 0 })
    );
}

#[test]
fn too_many_entries() {
    let all: Vec<Entry> = (1..=257).map(|n| Entry::new(n, [[1]])).collect();
    match from_entries(&all) {
        Err(NoCatalogue::Refused { entry, refusal }) => {
            assert_eq!((refusal.refusal, entry), (Refusal::TooMany, Some(256)));
        }
        other => panic!("{other:?}"),
    }
    let large: Vec<Entry> = (1..=300).map(|n| Entry::new(n, [[1; 8]; 4])).collect();
    match from_entries(&large) {
        Err(NoCatalogue::Refused { entry, refusal }) => {
            assert_eq!((refusal.refusal, entry), (Refusal::TooLarge, None));
        }
        other => panic!("{other:?}"),
    }
}

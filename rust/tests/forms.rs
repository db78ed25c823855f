//! Both forms of a catalogue, the moves between them, and what is refused.

use raghymtos::catalogue::{
    check, entries, fold, form, from_entries, from_entries_in, list, lookup, new_form, new_form_to,
    old_form, old_form_to, separate, CatalogueRefusal, Entry, Form, NoCatalogue, Separation,
    MOST_BYTES, MOST_ENTRIES, MOST_NUMBER, MOST_OLD_NUMBER,
};
use raghymtos::Refusal;

const BOTH: [Form; 2] = [Form::Old, Form::New];

/// Entries 7 and 12 have one lattice; 9 is a draft that refers to 12.
fn three() -> Vec<Entry> {
    vec![
        Entry::new(7, [[1, 0], [4, 1]]),
        Entry::new(9, [[2, 0], [0, 3]]).drafted().seeing(12),
        Entry::new(12, [[0, 1], [1, 0]]),
    ]
}

/// The same in the words of the new form.
const NEW: [u32; 21] = [
    0x60000007, 0x70000022, 0x20004E21, 0x20004E20, 0x20004E24, 0x20004E21, 0x60000009, 0x70000022,
    0x20004E22, 0x20004E20, 0x20004E20, 0x20004E23, 0x50000001, 0x3000000C, 0x6000000C, 0x70000022,
    0x20004E20, 0x20004E21, 0x20004E21, 0x20004E20, 0x40000003,
];

fn bytes(words: &[u32]) -> Vec<u8> {
    words.iter().flat_map(|w| w.to_le_bytes()).collect()
}

/// The refusal and its place.
fn refused<T: std::fmt::Debug>(said: Result<T, CatalogueRefusal>) -> (Refusal, usize) {
    let CatalogueRefusal { refusal, place, .. } = said.unwrap_err();
    (refusal, place)
}

#[test]
fn limits() {
    assert_eq!(
        (Form::Old.most_number(), MOST_OLD_NUMBER),
        (1_048_575, 1_048_575)
    );
    assert_eq!(
        (Form::New.most_number(), MOST_NUMBER),
        (268_435_455, 268_435_455)
    );
    assert_eq!(
        (Form::Old.most_bytes(), Form::New.most_bytes()),
        (35_844, 36_868)
    );
    assert_eq!(MOST_BYTES, Form::New.most_bytes());
}

#[test]
fn made_and_read() {
    let new = from_entries_in(Form::New, &three()).unwrap();
    assert_eq!(new, bytes(&NEW));
    assert_eq!(entries(&new), Ok(three()));
    let old = from_entries_in(Form::Old, &three()).unwrap();
    assert_eq!(from_entries(&three()), Ok(old.clone()));
    assert_eq!(entries(&old), Ok(three()));
    assert_eq!([&old, &new].map(|c| form(c)), BOTH.map(|f| Ok(Some(f))));
}

/// It belongs to both forms, and each move gives it as it is.
#[test]
fn without_entries() {
    let empty = bytes(&[0x40000000]);
    assert_eq!(form(&empty), Ok(None));
    for f in BOTH {
        assert_eq!(from_entries_in(f, &[]), Ok(empty.clone()));
    }
    assert_eq!(new_form(&empty), Ok(empty.clone()));
    assert_eq!(old_form(&empty), Ok(empty.clone()));
}

#[test]
fn there_and_back() {
    let old = from_entries(&three()).unwrap();
    let new = new_form(&old).unwrap();
    assert_eq!(new, bytes(&NEW));
    assert_eq!(old_form(&new), Ok(old.clone()));
    // the same but for the heads
    assert_eq!(new_form(&fold(&old).unwrap()), fold(&new));
    assert_eq!(form(&fold(&new).unwrap()), Ok(Some(Form::New)));
    assert_eq!(list(&old), list(&new));
    for number in [7, 9, 12, 13] {
        assert_eq!(lookup(&old, number), lookup(&new, number));
    }
    assert_eq!(separate(&new, 7, 12), Ok(Separation::Same));
    assert_eq!(separate(&new, 7, 9), separate(&old, 7, 9));
}

#[test]
fn moved_to_a_slice() {
    let old = from_entries(&three()).unwrap();
    let n = old.len() + 12;
    let mut out = vec![0x55; n + 3];
    assert_eq!(new_form_to(&old, &mut out), Ok(n));
    assert_eq!((&out[..n], &out[n..]), (&bytes(&NEW)[..], &[0x55; 3][..]));
    let mut short = vec![0x55; n - 1];
    let said = new_form_to(&old, &mut short);
    assert_eq!(refused(said), (Refusal::OutputShort, 0));
    assert!(short.iter().all(|&b| b == 0x55));
    let mut out = vec![0x55; old.len() + 1];
    assert_eq!(old_form_to(&bytes(&NEW), &mut out), Ok(old.len()));
    assert_eq!((&out[..old.len()], out[old.len()]), (&old[..], 0x55));
    let said = old_form_to(&bytes(&NEW), &mut out[..old.len() - 1]);
    assert_eq!(refused(said), (Refusal::OutputShort, 0));
}

/// Each move takes the other form; the wrong one is refused at its first word, whatever else is wrong.
#[test]
fn the_wrong_form() {
    let old = from_entries(&three()).unwrap();
    assert_eq!(refused(new_form(&bytes(&NEW))), (Refusal::Unexpected, 0));
    assert_eq!(refused(old_form(&old)), (Refusal::Unexpected, 0));
    assert_eq!(
        refused(new_form(&bytes(&NEW[..9]))),
        (Refusal::Unexpected, 0)
    );
    assert_eq!(refused(old_form(&old[..20])), (Refusal::Unexpected, 0));
    // but the length of the file
    assert_eq!(refused(old_form(&old[..21])), (Refusal::NotWords, 0));
    let large = [&bytes(&NEW)[..], &[0; 36_868]].concat();
    assert_eq!(refused(new_form(&large)), (Refusal::TooLarge, 0));
    // in the right form the refusals are those of reading
    assert_eq!(
        refused(old_form(&bytes(&NEW[..9]))),
        (Refusal::Unexpected, 9)
    );
    assert_eq!(refused(new_form(&old[..20])), (Refusal::Unexpected, 5));
}

#[test]
fn longer_numbers() {
    let of = |numbers: &[u32]| {
        let all: Vec<Entry> = numbers.iter().map(|&n| Entry::new(n, [[2]])).collect();
        from_entries_in(Form::New, &all)
    };
    for number in [1, MOST_OLD_NUMBER, MOST_OLD_NUMBER + 1, MOST_NUMBER] {
        let made = of(&[number]).unwrap();
        assert_eq!(entries(&made).unwrap()[0].number, number);
        assert_eq!(lookup(&made, number), Ok(number));
        let is_old = number <= MOST_OLD_NUMBER;
        assert_eq!(old_form(&made).is_ok(), is_old, "{number}");
    }
    let made = of(&[1, MOST_OLD_NUMBER, MOST_OLD_NUMBER + 1, MOST_NUMBER]).unwrap();
    assert_eq!(refused(old_form(&made)), (Refusal::NumberLong, 6));
    // before an output that is too short
    let said = old_form_to(&made, &mut []);
    assert_eq!(refused(said), (Refusal::NumberLong, 6));
    let refusal = old_form(&made).unwrap_err();
    let text = "word 6: a number over 1048575 has no place in the old form";
    assert_eq!(
        (refusal.word(), refusal.to_string()),
        (Some(6), text.into())
    );
    assert!(list(&made)
        .unwrap()
        .starts_with("4 1\n1 1 0 0\nv 2\n1048575 1 0 0\n"));
    for number in [0, MOST_NUMBER + 1, u32::MAX] {
        match of(&[5, number]) {
            Err(NoCatalogue::Refused { entry, refusal }) => {
                assert_eq!((refusal.refusal, entry), (Refusal::Number, Some(1)));
            }
            other => panic!("{other:?}"),
        }
    }
}

/// What is wrong with a head of two words.
#[test]
fn heads_that_are_refused() {
    let said = |at: usize, word: u32| {
        let mut words = NEW;
        words[at] = word;
        check(&bytes(&words)).map_err(|r| (r.refusal, r.word()))
    };
    let at = |refusal: Refusal, place: usize| Err((refusal, Some(place)));
    assert_eq!(said(0, 0x60000000), at(Refusal::Number, 0));
    assert_eq!(said(6, 0x60000007), at(Refusal::Number, 6));
    assert_eq!(said(7, 0x70000122), at(Refusal::SizeBits, 7));
    assert_eq!(said(7, 0x78000002), at(Refusal::SizeBits, 7));
    assert_eq!(said(7, 0x70000052), at(Refusal::Vectors, 7));
    assert_eq!(said(7, 0x70000029), at(Refusal::Coordinates, 7));
    assert_eq!(said(11, 0x20004E20), at(Refusal::Dependent, 6));
    assert_eq!(said(7, 0x20004E22), at(Refusal::Unexpected, 7));
    assert_eq!(said(2, 0x70000022), at(Refusal::Unexpected, 2));
    // of the other form
    assert_eq!(said(6, 0x10000922), at(Refusal::Unexpected, 6));
    assert_eq!(said(14, 0x10000000), at(Refusal::Unexpected, 14));
}

/// The entry that a refusal is about, in either form.
#[test]
fn no_catalogue() {
    let first = Entry::new(7, [[1, 0], [4, 1]]).seeing(7);
    let wrong = [
        (Entry::new(9, [[1]; 5]), Refusal::Vectors),
        (Entry::new(9, [[1; 9]]), Refusal::Coordinates),
        (Entry::new(9, [[1; 20]]), Refusal::Coordinates),
        (Entry::new(9, [[20_001]]), Refusal::TooLong),
        (Entry::new(9, [[0]]), Refusal::Dependent),
        (Entry::new(7, [[1]]), Refusal::Number),
        (Entry::new(u32::MAX, [[1]]), Refusal::Number),
        (Entry::new(9, [[1]]).seeing(8), Refusal::Lost),
    ];
    for form in BOTH {
        for (entry, reason) in &wrong {
            match from_entries_in(form, &[first.clone(), entry.clone()]) {
                Err(NoCatalogue::Refused { entry, refusal }) => {
                    assert_eq!((refusal.refusal, entry), (*reason, Some(1)), "{form:?}");
                }
                other => panic!("{other:?}"),
            }
        }
    }
}

/// 256 entries of the largest kind, and one more.
#[test]
fn the_largest_catalogues() {
    let unit = [
        [1, 0, 0, 0, 0, 0, 0, 0],
        [0, 1, 0, 0, 0, 0, 0, 0],
        [0, 0, 0, 0, 0, 0, 1, 0],
        [0, 0, 0, 0, 0, 0, 0, 20_000],
    ];
    let entry = |i: u32| {
        Entry::new(MOST_OLD_NUMBER - i, unit)
            .drafted()
            .seeing(MOST_OLD_NUMBER)
    };
    let all: Vec<Entry> = (0..MOST_ENTRIES as u32).map(entry).collect();
    let [old, new] = BOTH.map(|f| from_entries_in(f, &all).unwrap());
    assert_eq!((old.len(), new.len()), (35_844, 36_868));
    assert_eq!((new_form(&old), old_form(&new)), (Ok(new.clone()), Ok(old)));
    assert_eq!(entries(&new), Ok(all.clone()));
    let more = [&new[..], &[0; 4]].concat();
    assert_eq!(refused(check(&more)), (Refusal::TooLarge, 0));
    for f in BOTH {
        let small: Vec<Entry> = (1..=257).map(|n| Entry::new(n, [[1]])).collect();
        match from_entries_in(f, &small) {
            Err(NoCatalogue::Refused { entry, refusal }) => {
                assert_eq!((refusal.refusal, entry), (Refusal::TooMany, Some(256)));
            }
            other => panic!("{other:?}"),
        }
        assert_eq!(
            from_entries_in(f, &small[..256]).map(|c| entries(&c)),
            Ok(Ok(small[..256].to_vec()))
        );
    }
}

/// The stack that the header names is enough.
#[test]
fn in_a_megabyte() {
    let thread = std::thread::Builder::new().stack_size(1 << 20);
    thread
        .spawn(the_largest_catalogues)
        .unwrap()
        .join()
        .unwrap();
}

//! Catalogues of both forms, computed by hand; what the moves promise; and that the random ones cover what they are made for.

use reference::catalogue::cases::case;
use reference::catalogue::fold::folded;
use reference::catalogue::forms::{ALIKE, LONG, WRONG};
use reference::catalogue::listing::listing;
use reference::catalogue::made::LIMITS;
use reference::catalogue::moves::{move_to, moved};
use reference::catalogue::pairs::pair;
use reference::catalogue::reader::{form, kind, load, read, shown, words, END};
use reference::catalogue::separation::separate;
use reference::catalogue::text::{decoded, encoded};
use reference::catalogue::writer::{bytes, entry_words, write};
use reference::catalogue::{fold, lookup, Entry, Form, Refused};

fn refused<T>(number: u64, place: usize) -> Result<T, Refused> {
    Err(Refused { number, place })
}

#[test]
fn the_same_in_both_forms() {
    for a in ALIKE {
        let (old, new) = (bytes(a.old), bytes(a.new));
        assert_eq!(read(&old), read(&new), "{}", a.name);
        assert!(read(&old).is_ok(), "{}", a.name);
        assert_eq!(moved(Form::New, &old), Ok(new.clone()), "{}", a.name);
        assert_eq!(moved(Form::Old, &new), Ok(old.clone()), "{}", a.name);
        assert_eq!(listing(&old), listing(&new), "{}", a.name);
        // the wrong form, unless there are no entries
        if a.old != a.new {
            assert_eq!(moved(Form::Old, &old), refused(10, 0), "{}", a.name);
            assert_eq!(moved(Form::New, &new), refused(10, 0), "{}", a.name);
        }
    }
}

#[test]
fn numbers_without_an_old_form() {
    for l in LONG {
        let new = bytes(l.words);
        assert!(read(&new).is_ok(), "{}", l.name);
        assert_eq!(moved(Form::Old, &new), refused(19, l.place), "{}", l.name);
        assert_eq!(moved(Form::New, &new), refused(10, 0), "{}", l.name);
        // before 16
        assert_eq!(move_to(Form::Old, &new, &mut []), refused(19, l.place));
    }
}

#[test]
fn wrong_words() {
    for w in WRONG {
        let all = bytes(w.words);
        assert_eq!(read(&all), Err(w.refused), "{}", w.name);
        for to in Form::BOTH {
            let expected = match form(&all) {
                Some(form) if form == to => refused(10, 0),
                _ => Err(w.refused),
            };
            assert_eq!(moved(to, &all), expected, "{}", w.name);
        }
    }
}

/// Document 01's catalogue in the new form.
#[test]
fn a_catalogue_in_full() {
    let text = "new\n7 2 2 ; 1 0 4 1\n9 2 2 ; 2 0 0 3 ; 12\n12 2 2 ; 0 1 1 0 ; 9\n";
    let new = encoded(text).unwrap();
    let all = [
        0x60000007, 0x70000022, 0x20004E21, 0x20004E20, 0x20004E24, 0x20004E21, 0x60000009,
        0x70000022, 0x20004E22, 0x20004E20, 0x20004E20, 0x20004E23, 0x3000000C, 0x6000000C,
        0x70000022, 0x20004E20, 0x20004E21, 0x20004E21, 0x20004E20, 0x30000009, 0x40000003,
    ];
    assert_eq!(words(&new), all);
    assert_eq!(decoded(&new).as_deref(), Ok(text));
    assert_eq!(
        listing(&new),
        "3 2\n7 7 0 1\nv 1 0\nv 0 1\n9 9 7 1\nv 2 0\nv 0 3\n12 7 9 1\n"
    );
    assert_eq!(lookup(&new, 12), Ok(7));
    let mut out = [0x55; 64];
    assert_eq!(fold(&new, &mut out), Ok(60));
    let folded = [
        0x60000007, 0x70000022, 0x20004E21, 0x20004E20, 0x20004E20, 0x20004E21, 0x30000009,
        0x60000009, 0x70000022, 0x20004E22, 0x20004E20, 0x20004E20, 0x20004E23, 0x30000007,
        0x40000002, 0x55555555,
    ];
    assert_eq!(words(&out), folded);
    assert_eq!(move_to(Form::Old, &new, &mut [0x55; 71]), refused(16, 0));
    let mut out = [0x55; 76];
    assert_eq!(move_to(Form::Old, &new, &mut out), Ok(72));
    assert_eq!(out[72..], [0x55; 4]);
}

/// 8, then 9 by the form that the first word shows, then the wrong form, then all else.
#[test]
fn whole_files() {
    let padded = |first: u32, n: usize| {
        let mut all = first.to_le_bytes().to_vec();
        all.resize(n, 0);
        all
    };
    for (first, own) in [(0x10000111, Form::Old), (0x60000001, Form::New)] {
        let most = own.most_bytes();
        for to in Form::BOTH {
            let said = |n: usize| moved(to, &padded(first, n)).map_err(|r| (r.number, r.place));
            for n in [most + 1, most + 3, most - 1, 5] {
                assert_eq!(said(n), Err((8, 0)));
            }
            assert_eq!(said(most + 4), Err((9, 0)));
            let behind = if to == own { 0 } else { 1 };
            assert_eq!(said(most), Err((10, behind)));
        }
        assert_eq!(read(&padded(first, most)), refused(10, 1));
        assert_eq!(read(&padded(first, most + 4)), refused(9, 0));
    }
    // neither: the limit is the old one
    for first in [0, 0x40000000, 0x70000011] {
        for to in Form::BOTH {
            assert_eq!(moved(to, &padded(first, 35_848)), refused(9, 0));
        }
        assert_eq!(read(&padded(first, 35_848)), refused(9, 0));
    }
}

/// 256 entries, then one more in the other form.
#[test]
fn the_other_form_before_too_many() {
    for form in Form::BOTH {
        let entry = |n: u32| Entry {
            number: n,
            vectors: vec![vec![n.into()]],
            draft: false,
            see: None,
        };
        for count in [255, 256, 257] {
            let all: Vec<Entry> = (1..=count).map(entry).collect();
            let words = words(&write(form, &all));
            let last = words.len() - 1 - entry_words(form, &all[0]).len();
            let said = read(&bytes(&words));
            match count {
                257 => assert_eq!(said, refused(15, last)),
                _ => assert_eq!(said, Ok(all)),
            }
            let more = words[..words.len() - 1].to_vec();
            let other = write(form.other(), &[entry(300)]);
            let mixed = [bytes(&more), other].concat();
            match count {
                257 => assert_eq!(read(&mixed), refused(15, last)),
                _ => assert_eq!(read(&mixed), refused(10, more.len())),
            }
        }
    }
}

/// A line `new` is the first, or is wrong.
#[test]
fn texts() {
    let one = "1 1 1 ; 2\n";
    let empty = bytes(&[END << 28]);
    for text in [
        "",
        "\n# none\n",
        "new",
        "new\n",
        " new # 1\n\n# none\n",
        "\tnew\t\n",
    ] {
        assert_eq!(encoded(text), Ok(empty.clone()), "{text:?}");
    }
    assert_eq!(decoded(&empty).as_deref(), Ok(""));
    for first in [
        "new\n",
        " new\n",
        "new \t# old\n",
        "new\n\n",
        "new\n# new\n",
    ] {
        let made = encoded(&(first.to_string() + one)).unwrap();
        assert_eq!(shown(&made), Form::New, "{first:?}");
        assert_eq!(decoded(&made), Ok(format!("new\n{one}")), "{first:?}");
    }
    for (text, line) in [
        ("\nnew\n", 2),
        ("# new\nnew\n", 2),
        ("new\nnew\n", 2),
        ("1 1 1 ; 2\nnew\n", 2),
        ("new;\n", 1),
        ("news\n", 1),
        ("New\n", 1),
        ("new new\n", 1),
        ("new 1 1 1 ; 2\n", 1),
        ("1 1 1 ; 2 ; new\n", 1),
        ("old\n", 1),
        ("1048576 1 1 ; 2\n", 1),
        ("new\n268435456 1 1 ; 2\n", 2),
    ] {
        assert_eq!(encoded(text), Err(line), "{text:?}");
    }
    assert!(encoded("1048575 1 1 ; 2\n").is_ok());
    assert!(encoded("new\n268435455 1 1 ; 2\n").is_ok());
}

/// There and back restores the bytes; the entries, the listing and the lookups stay; the fold of the moved file is the moved fold.
#[test]
fn there_and_back() {
    let (mut there, mut back, mut long) = (0, 0, 0);
    for i in 0..6_000 {
        let bytes = case(15, i);
        let Ok(entries) = read(&bytes) else {
            continue;
        };
        let of = shown(&bytes);
        let other = match moved(of.other(), &bytes) {
            Ok(other) => other,
            Err(r) => {
                assert_eq!((of, r.number), (Form::New, 19));
                long += 1;
                continue;
            }
        };
        assert_eq!(other, write(of.other(), &entries));
        assert_eq!(read(&other).as_ref(), Ok(&entries));
        if !entries.is_empty() {
            assert_eq!(shown(&other), of.other());
        }
        assert_eq!(moved(of, &other), Ok(bytes.clone()));
        assert_eq!(listing(&bytes), listing(&other));
        let fold = folded(&entries);
        let moved_fold = moved(of.other(), &write(of, &fold));
        assert_eq!(moved_fold, Ok(write(of.other(), &fold)));
        for n in entries.iter().map(|e| e.number).chain([0, 1 << 20]) {
            assert_eq!(lookup(&bytes, n), lookup(&other, n));
        }
        there += (of == Form::Old) as u64;
        back += (of == Form::New) as u64;
    }
    assert!(
        there > 1_000 && back > 500 && long > 400,
        "{there} {back} {long}"
    );
}

/// What separates two entries does not depend on the form.
#[test]
fn separated_in_both_forms() {
    let mut compared = 0;
    for i in 0..3_000 {
        let p = pair(16, i);
        if let Ok(other) = moved(shown(&p.bytes).other(), &p.bytes) {
            let said = separate(&p.bytes, p.first, p.second);
            assert_eq!(separate(&other, p.first, p.second), said, "{p:?}");
            compared += 1;
        }
    }
    assert!(compared > 1_500, "{compared}");
}

/// The random catalogues have both forms, and numbers at their limits.
#[test]
fn random_forms() {
    let mut forms = [0; 2];
    let mut limits = [[0; 3]; 2];
    for i in 0..20_000 {
        let bytes = case(17, i);
        let Ok(entries) = read(&bytes) else {
            continue;
        };
        let of = shown(&bytes);
        forms[of as usize] += 1;
        for (at, limit) in LIMITS.iter().enumerate() {
            limits[of as usize][at] += entries.iter().any(|e| e.number == *limit) as u64;
        }
        let heads = words(&bytes).iter().any(|&w| kind(w) == 6 && load(w) > 0);
        assert_eq!(heads, of == Form::New);
    }
    assert!(forms.iter().all(|&n| n > 3_000), "{forms:?}");
    assert!(limits[1].iter().all(|&n| n > 400), "{limits:?}");
    assert!(limits[0][0] > 400 && limits[0][1..] == [0, 0], "{limits:?}");
}

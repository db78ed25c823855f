//! Document 01's catalogue, one catalogue for each row of the table of refusals, and what a fold promises.

use reference::catalogue::cases::case;
use reference::catalogue::fold::{folded, standing};
use reference::catalogue::hermite::hermite;
use reference::catalogue::listing::listing;
use reference::catalogue::made::largest;
use reference::catalogue::reader::{read, shown, words};
use reference::catalogue::text::{commented, encoded, entries, parsed, text};
use reference::catalogue::writer::{bytes, write};
use reference::catalogue::{fold, lookup, write_out, Form, Refused};
use reference::random::Random;
use reference::vectors::coordinate;

/// "A catalogue in full".
const FULL: [u32; 18] = [
    0x10000722, 0x20004E21, 0x20004E20, 0x20004E24, 0x20004E21, 0x10000922, 0x20004E22, 0x20004E20,
    0x20004E20, 0x20004E23, 0x3000000C, 0x10000C22, 0x20004E20, 0x20004E21, 0x20004E21, 0x20004E20,
    0x30000009, 0x40000003,
];

#[test]
fn a_catalogue_in_full() {
    let full = bytes(&FULL);
    let expected = "3 2\n7 7 0 1\nv 1 0\nv 0 1\n9 9 7 1\nv 2 0\nv 0 3\n12 7 9 1\n";
    assert_eq!(listing(&full), expected);
    assert_eq!(lookup(&full, 12), Ok(7));
    assert_eq!(
        lookup(&full, 8),
        Err(Refused {
            number: 17,
            place: 0
        })
    );
    let mut out = [0x55; 76];
    assert_eq!(write_out(&full, &mut out), Ok(72));
    assert_eq!((&out[..72], &out[72..]), (&full[..], &[0x55; 4][..]));
    // entry 12, which is folded into 7, has a see word to 9
    assert_eq!(fold(&full, &mut out), Ok(52));
    let again = out[..52].to_vec();
    assert_eq!(words(&again)[5], 0x30000009);
    assert_eq!(fold(&again, &mut out), Ok(52));
    assert_eq!(out[..52], again);
}

#[test]
fn rows_of_the_table() {
    let refused = |words: &[u32], number: u64, place: usize| {
        let said = read(&bytes(words)).unwrap_err();
        assert_eq!((said.number, said.place), (number, place), "{words:x?}");
    };
    let changed = |i: usize, word: u32| {
        let mut words = FULL;
        words[i] = word;
        words
    };
    assert_eq!(listing(&[0; 3]), "refused 8 0\n");
    assert_eq!(listing(&[0; 35_845]), "refused 8 0\n");
    assert_eq!(listing(&[0; 35_848]), "refused 9 0\n");
    assert_eq!(listing(&[0; 35_844]), "refused 10 0\n");
    refused(&[], 10, 0);
    refused(&FULL[..17], 10, 17);
    refused(&changed(2, 0x50004E20), 10, 2);
    refused(&changed(5, 0x10000900), 1, 5);
    refused(&changed(5, 0x10000920), 2, 5);
    for m in 9..=15 {
        refused(&changed(5, 0x10000920 + m), 2, 5);
    }
    // three vectors of eight coordinates are more words than there are
    refused(&changed(11, 0x10000C38), 10, 16);
    refused(&changed(5, 0x10000722), 11, 5);
    refused(&changed(0, 0x10000022), 11, 0);
    refused(&changed(1, 0x20009C41), 4, 1);
    refused(&changed(4, 0x20009C40), 4, 4);
    refused(&changed(17, 0x40000002), 13, 17);
    refused(&[&FULL[..], &[0x40000003]].concat(), 14, 18);
    refused(&changed(9, 0x20004E20), 5, 5);
    refused(&changed(16, 0x30000008), 12, 16);
    assert_eq!(listing(&bytes(&[0x40000000])), "0 0\n");
}

/// Entries of eight and of five coordinates: 2 has the lattice of 1 in another basis, 3 has another m.
#[test]
fn wide_entries() {
    let bytes = encoded(
        "1 2 8 ; 0 0 0 0 0 0 1 1 0 0 0 0 0 0 0 3 ; 3\n2 2 8 ; 0 0 0 0 0 0 -1 2 0 0 0 0 0 0 2 -1 ; 2\n\
         3 2 5 ; 0 0 0 1 1 0 0 0 0 3 ; 2\n4 2 8 ; 0 0 0 0 0 0 1 2 0 0 0 0 0 0 0 4\n",
    );
    let bytes = bytes.unwrap();
    assert_eq!(words(&bytes)[..2], [0x10000128, 0x20004E20]);
    let expected = "4 3\n1 1 3 1\nv 0 0 0 0 0 0 1 1\nv 0 0 0 0 0 0 -1 2\n2 1 0 2\n\
                    3 3 1 1\nv 0 0 0 1 1\nv 0 0 0 -1 2\n4 4 0 2\nv 0 0 0 0 0 0 -2 0\nv 0 0 0 0 0 0 -1 2\n";
    assert_eq!(listing(&bytes), expected);
    assert_eq!(lookup(&bytes, 2), Ok(1));
    assert_eq!(lookup(&bytes, 3), Ok(3));
}

/// 256 entries of four vectors of eight coordinates, drafts with see words, are the most bytes that are read.
#[test]
fn the_largest_catalogue() {
    for form in Form::BOTH {
        let all = largest(form, &mut Random::new(5));
        let mut bytes = write(form, &all);
        assert_eq!(bytes.len(), form.most_bytes());
        assert!(all.iter().all(|e| (e.d(), e.m(), e.draft) == (4, 8, true)));
        assert_eq!(read(&bytes), Ok(all));
        bytes.extend([0, 0, 0, 0x40]);
        assert_eq!(read(&bytes).map_err(|r| r.number), Err(9));
    }
}

/// Every vector is a combination with whole coefficients, by Cramer's rule.
fn inside(vectors: &[Vec<i64>], basis: &[Vec<i64>]) -> bool {
    vectors.iter().all(|v| {
        let at: Vec<_> = (0..basis.len()).map(|i| coordinate(basis, i, v)).collect();
        let sum = |j: usize| -> i128 {
            let terms = at.iter().zip(basis);
            terms
                .map(|((top, bottom), b)| top / bottom * b[j] as i128)
                .sum()
        };
        (0..v.len()).all(|j| sum(j) == v[j] as i128)
    })
}

/// One form for one lattice, two for two.
#[test]
fn forms_tell_lattices_apart() {
    let mut random = Random::new(7);
    let mut counts = [[0; 2]; 2];
    for i in 0..60_000 {
        let Ok(list) = read(&case(9, i)) else {
            continue;
        };
        for e in &list {
            let f = &list[random.index(list.len())];
            if (e.d(), e.m()) == (f.d(), f.m()) && e.vectors != f.vectors {
                let is_one = inside(&e.vectors, &f.vectors) && inside(&f.vectors, &e.vectors);
                let (g, h) = (hermite(&e.vectors), hermite(&f.vectors));
                assert_eq!(g == h, is_one, "{e:?} {f:?}");
                counts[(e.m() > 4) as usize][is_one as usize] += 1;
            }
        }
    }
    assert!(counts.iter().flatten().all(|&n| n > 3_000), "{counts:?}");
}

/// Catalogues as text, and as text what they fold to.
const CARRIED: [(&str, &str); 7] = [
    // 40 is folded into 12, which has none
    (
        "12 1 1 ; 2\n40 1 1 ; -2 ; 7\n7 1 1 ; 3\n",
        "12 1 1 ; 2 ; 7\n7 1 1 ; 3\n",
    ),
    // the own word leads back
    (
        "1 1 1 ; 2 ; 3\n2 1 1 ; 5\n3 1 1 ; -2 ; 2\n",
        "1 1 1 ; 2 ; 2\n2 1 1 ; 5\n",
    ),
    // a folded entry's word leads back
    (
        "1 1 1 ; 2\n2 1 1 ; -2 ; 1\n3 1 1 ; 2 ; 4\n4 1 1 ; 5\n",
        "1 1 1 ; 2 ; 4\n4 1 1 ; 5\n",
    ),
    // two words of folded entries
    (
        "1 1 1 ; 2\n2 1 1 ; 3\n3 1 1 ; 5\n4 1 1 ; 2 ; 3\n5 1 1 ; 2 ; 2\n",
        "1 1 1 ; 2 ; 3\n2 1 1 ; 3\n3 1 1 ; 5\n",
    ),
    // a circle
    (
        "1 1 1 ; 2\n2 1 1 ; 3\n3 1 1 ; -2 ; 2\n4 1 1 ; -3 ; 3\n",
        "1 1 1 ; 2 ; 2\n2 1 1 ; 3 ; 1\n",
    ),
    // words to entries of the same lattice only
    ("1 1 1 ; 2\n2 1 1 ; -2 ; 3\n3 1 1 ; 2 ; 1\n", "1 1 1 ; 2\n"),
    // the own word comes first
    (
        "1 1 1 ; 2 ; 2\n2 1 1 ; 3\n3 1 1 ; -2 ; 4\n4 1 1 ; 5\n",
        "1 1 1 ; 2 ; 2\n2 1 1 ; 3\n4 1 1 ; 5\n",
    ),
];

#[test]
fn the_first_see_word_that_leads_to_another() {
    for (lines, wanted) in CARRIED {
        assert_eq!(text(Form::Old, &folded(&entries(lines).unwrap())), wanted);
    }
}

#[test]
fn folding_again_gives_the_same() {
    let mut shorter = 0;
    for i in 0..5_000 {
        let bytes = case(3, i);
        let Ok(list) = read(&bytes) else {
            continue;
        };
        let once = folded(&list);
        assert_eq!(read(&write(shown(&bytes), &once)), Ok(once.clone()));
        assert_eq!(folded(&once), once);
        assert!(standing(&once).iter().enumerate().all(|(i, &s)| i == s));
        shorter += (once.len() < list.len()) as u64;
    }
    assert!(shorter > 500, "{shorter}");
}

#[test]
fn text_and_back() {
    let mut random = Random::new(4);
    for i in 0..2_000 {
        let bytes = case(4, i);
        if let Ok(list) = read(&bytes) {
            let form = shown(&bytes);
            let again = parsed(&commented(form, &list, &mut random));
            assert_eq!(again, Ok((form, list.clone())));
            assert_eq!(encoded(&text(form, &list)), Ok(bytes));
        }
    }
    assert_eq!(entries("1 1 1 ; 5\n2 1 1 ; \n"), Err(2));
    assert_eq!(entries("1 1 1 ; 5 ; 1 2\n"), Err(1));
    assert_eq!(entries("# none\n\n1 1 1 # ; 5\n"), Err(3));
}

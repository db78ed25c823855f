//! Small catalogues with drafts, computed by hand; and what drafts leave as it was.

use reference::catalogue::cases::case;
use reference::catalogue::drafts::{ACCEPTED, WRONG};
use reference::catalogue::fold::{folded, leads, standing};
use reference::catalogue::listing::listing;
use reference::catalogue::made::referring;
use reference::catalogue::reader::{read, words};
use reference::catalogue::separation::separate;
use reference::catalogue::text::{encoded, entries, text};
use reference::catalogue::writer::{bytes, write};
use reference::catalogue::{fold, lookup, Entry, Form, Refused};
use reference::random::Random;

#[test]
fn folded_and_listed() {
    for known in ACCEPTED {
        let list = entries(known.text).unwrap();
        let of_old = |list: &[Entry]| text(Form::Old, list);
        assert_eq!(of_old(&list), known.text, "{}", known.name);
        assert_eq!(of_old(&folded(&list)), known.folded, "{}", known.name);
        for form in Form::BOTH {
            let bytes = write(form, &list);
            assert_eq!(read(&bytes), Ok(list.clone()), "{}", known.name);
            assert_eq!(listing(&bytes), known.listing, "{}", known.name);
        }
    }
}

/// The standing numbers are those of the listing.
#[test]
fn looked_up() {
    for known in ACCEPTED {
        let bytes = encoded(known.text).unwrap();
        let lines = known.listing.lines().skip(1);
        let mut found = 0;
        for line in lines.filter(|l| !l.starts_with('v')) {
            let fields: Vec<u32> = line.split(' ').map(|n| n.parse().unwrap()).collect();
            assert_eq!(lookup(&bytes, fields[0]), Ok(fields[1]), "{}", known.name);
            found += 1;
        }
        assert_eq!(found, known.text.lines().count(), "{}", known.name);
    }
}

/// The words of an entry of the request, "7 2 2 ; 1 0 4 1 ; draft ; 12", and of the entry that it names.
#[test]
fn words_of_a_draft() {
    let bytes_of = encoded("7 2 2 ; 1 0 4 1 ; draft ; 12\n12 2 2 ; 0 1 1 0\n");
    let all = [
        0x10000722, 0x20004E21, 0x20004E20, 0x20004E24, 0x20004E21, 0x50000001, 0x3000000C,
        0x10000C22, 0x20004E20, 0x20004E21, 0x20004E21, 0x20004E20, 0x40000002,
    ];
    assert_eq!(words(&bytes_of.unwrap()), all);
    let mut out = [0x55; 56];
    assert_eq!(fold(&bytes(&all), &mut out), Ok(24));
    assert_eq!(words(&out[..20]), all[7..12]);
    assert_eq!(words(&out[20..28]), [0x40000001, 0x55555555]);
}

#[test]
fn marks_at_wrong_places_and_with_other_loads() {
    for wrong in WRONG {
        let bytes = bytes(wrong.words);
        assert_eq!(read(&bytes), Err(wrong.refused), "{}", wrong.name);
        let Refused { number, place } = wrong.refused;
        assert_eq!(listing(&bytes), format!("refused {number} {place}\n"));
    }
}

/// Every load but 1 is 18 where a mark can stand, and every load is 10 where none can.
#[test]
fn every_load() {
    let loads = (0..2_000)
        .chain((0..28).map(|i| 1 << i))
        .chain([0xFFF_FFFF]);
    for load in loads {
        let word = 0x5000_0000 | load;
        let said = |all: &[u32]| read(&bytes(all)).map_err(|r| (r.number, r.place));
        let after_coordinates = said(&[0x10000111, 0x20004E22, word, 0x40000001]);
        match load {
            1 => assert!(after_coordinates.is_ok()),
            _ => assert_eq!(after_coordinates, Err((18, 2))),
        }
        assert_eq!(said(&[word]), Err((10, 0)));
        assert_eq!(said(&[0x10000111, word, 0x20004E22]), Err((10, 1)));
        let twice = [0x10000111, 0x20004E22, 0x50000001, word, 0x40000001];
        assert_eq!(said(&twice), Err((10, 3)));
        assert_eq!(said(&[0x40000000, word]), Err((14, 1)));
    }
}

#[test]
fn parts_of_a_line() {
    let of = |line: &str| entries(line).map(|all| (all[0].draft, all[0].see));
    assert_eq!(of("7 1 1 ; 2 ; draft"), Ok((true, None)));
    assert_eq!(of("7 1 1;2;draft;7"), Ok((true, Some(7))));
    assert_eq!(of("7 1 1 ; 2 ;\tdraft \t; 7 # draft"), Ok((true, Some(7))));
    assert_eq!(of("7 1 1 ; 2 ; 7 # ; draft"), Ok((false, Some(7))));
    for line in [
        "7 1 1 ; 2 ; 7 ; draft",
        "7 1 1 ; 2 ; draft ; draft",
        "7 1 1 ; 2 ; draft ;",
        "7 1 1 ; 2 ; ; draft",
        "7 1 1 ; draft ; 2",
        "7 1 1 ; 2 draft",
        "7 1 1 ; 2 ; draft 7",
        "7 1 1 ; 2 ; 7 draft",
        "7 1 1 ; 2 ; draft ; 7 7",
        "7 1 1 ; 2 ; draft draft",
        "7 1 1 ; 2 ; drafts",
        "7 1 1 ; 2 ; Draft",
        "7 1 1 ; 2 ; d raft",
        "7 1 1 ; draft",
        "draft ; 7 1 1 ; 2",
    ] {
        assert_eq!(of(line), Err(1), "{line}");
    }
}

fn unmarked(list: &[Entry]) -> Vec<Entry> {
    let without = |e: &Entry| Entry {
        draft: false,
        ..e.clone()
    };
    list.iter().map(without).collect()
}

/// Every entry has a standing entry of its lattice: no draft unless all are, and none such before it.
#[test]
fn standing_entries() {
    let mut random = Random::new(11);
    for _ in 0..3_000 {
        let list = referring(Form::New, &mut random);
        let (now, before) = (standing(&list), standing(&unmarked(&list)));
        for i in 0..list.len() {
            let of_one = |k: &usize| before[*k] == before[i];
            let mut of_lattice = (0..list.len()).filter(of_one);
            assert!(of_one(&now[i]));
            match list[now[i]].draft {
                true => assert!(now[i] == before[i] && of_lattice.all(|k| list[k].draft)),
                false => assert_eq!(of_lattice.find(|&k| !list[k].draft), Some(now[i])),
            }
        }
    }
}

/// Marks on all entries, or on none, change nothing but the marks; marks never change which words lead nowhere, nor what separates.
#[test]
fn what_drafts_leave() {
    let mut random = Random::new(12);
    for _ in 0..1_000 {
        let list = referring(Form::New, &mut random);
        let plain = unmarked(&list);
        let all_drafts: Vec<Entry> = plain
            .iter()
            .map(|e| Entry {
                draft: true,
                ..e.clone()
            })
            .collect();
        let once = folded(&all_drafts);
        assert!(once.iter().all(|e| e.draft));
        assert_eq!(unmarked(&once), folded(&plain));
        let listed = |list: &[Entry]| listing(&write(Form::New, list));
        assert_eq!(listed(&all_drafts), listed(&plain));
        let leading = |list: &[Entry]| -> Vec<bool> {
            let led = leads(list, &standing(list));
            led.iter().map(Option::is_some).collect()
        };
        assert_eq!(leading(&list), leading(&plain));
        let two = [0, 1].map(|_| random.pick(&list.iter().map(|e| e.number).collect::<Vec<_>>()));
        let separated = |l: &[Entry]| separate(&write(Form::New, l), two[0], two[1]);
        let [marked, plain] = [&list, &plain].map(|l| separated(l));
        assert_eq!(marked, plain);
    }
}

/// The random catalogues have drafts, among them such that stand and such before their standing entry.
#[test]
fn random_drafts() {
    let mut counts = [0; 4];
    for i in 0..20_000 {
        let Ok(list) = read(&case(6, i)) else {
            continue;
        };
        let standing = standing(&list);
        counts[0] += list.iter().any(|e| e.draft) as u64;
        counts[1] += list.iter().all(|e| !e.draft) as u64;
        counts[2] += (0..list.len()).any(|i| standing[i] == i && list[i].draft) as u64;
        counts[3] += (0..list.len()).any(|i| standing[i] > i) as u64;
    }
    assert!(counts.iter().all(|&n| n > 300), "{counts:?}");
}

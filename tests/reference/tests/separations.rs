//! What separates two entries: worked examples of each case, the definition tried in other ways, and that the pairs cover what they name.

use reference::catalogue::pairs::{pair, Kind, Pair};
use reference::catalogue::reader::read;
use reference::catalogue::separation::{separate, Separation};
use reference::catalogue::text::encoded;
use reference::catalogue::{Entry, Refused};
use reference::enumeration::box_nearest;
use reference::vectors::{coordinate, minus, rank, square};
use reference::{nearest, reduce, MOST_COORDINATES, MOST_VECTORS};
use Separation::{DifferentD, DifferentM, Same};

fn first(position: usize, square: i64) -> Separation {
    Separation::FirstOutside { position, square }
}

fn second(position: usize, square: i64) -> Separation {
    Separation::SecondOutside { position, square }
}

/// Entries 1 and 2 as text, without the number, and what separates 1 from 2, and 2 from 1.
fn examples() -> Vec<(&'static str, &'static str, Separation, Separation)> {
    vec![
        ("2 2 ; 1 0 4 1", "2 2 ; 0 1 1 0", Same, Same),
        ("1 1 ; 3", "1 1 ; -3", Same, Same),
        ("1 3 ; 0 3 4", "1 3 ; 0 -3 -4", Same, Same),
        (
            "4 4 ; 2 0 0 0 0 2 0 0 0 0 2 0 1 1 1 1",
            "4 4 ; 1 1 1 -1 0 2 0 0 1 1 -1 1 0 0 -2 0",
            Same,
            Same,
        ),
        // a coordinate more, which is 0
        ("1 1 ; 3", "1 2 ; 3 0", DifferentM, DifferentM),
        ("2 3 ; 1 0 0 0 1 0", "2 2 ; 1 0 0 1", DifferentM, DifferentM),
        // m and d differ: m comes first
        ("1 1 ; 3", "2 2 ; 3 0 0 3", DifferentM, DifferentM),
        (
            "3 4 ; 1 0 0 0 0 1 0 0 0 0 1 0",
            "2 3 ; 1 0 0 0 1 0",
            DifferentM,
            DifferentM,
        ),
        // vectors of one are vectors of the other
        ("1 2 ; 1 0", "2 2 ; 1 0 0 1", DifferentD, DifferentD),
        (
            "4 4 ; 1 0 0 0 0 1 0 0 0 0 1 0 0 0 0 1",
            "3 4 ; 1 0 0 0 0 1 0 0 0 0 1 0",
            DifferentD,
            DifferentD,
        ),
        // a part, and the whole
        ("2 2 ; 2 0 0 3", "2 2 ; 1 0 0 1", second(1, 1), first(1, 1)),
        ("1 1 ; 15", "1 1 ; 5", second(1, 25), first(1, 25)),
        ("2 2 ; 1 0 0 3", "2 2 ; 1 0 0 1", second(2, 1), first(2, 1)),
        (
            "3 3 ; 1 0 0 0 1 0 0 0 7",
            "3 3 ; 1 0 0 5 1 0 2 0 1",
            second(3, 1),
            first(3, 1),
        ),
        (
            "4 4 ; 2 0 0 0 0 2 0 0 0 0 2 0 0 0 0 2",
            "4 4 ; 2 0 0 0 0 2 0 0 0 0 2 0 1 1 1 1",
            second(4, 4),
            first(4, 4),
        ),
        // neither holds the other: the first's vector is given in both orders
        ("1 1 ; 4", "1 1 ; 6", first(1, 4), first(1, 4)),
        ("1 1 ; 10", "1 1 ; 7", first(1, 9), first(1, 9)),
        ("2 2 ; 5 0 0 2", "2 2 ; 5 0 0 3", first(2, 1), first(2, 1)),
        // one digit
        (
            "2 2 ; 120 0 0 120",
            "2 2 ; 120 0 0 130",
            first(2, 100),
            first(2, 100),
        ),
        (
            "1 4 ; 10000 10000 10000 10000",
            "1 4 ; 10000 10000 10000 9000",
            first(1, 1_000_000),
            first(1, 1_000_000),
        ),
        // outside the span
        ("1 2 ; 0 3", "1 2 ; 2 0", first(1, 9), first(1, 4)),
        (
            "2 3 ; 1 0 0 0 1 0",
            "2 3 ; 1 0 0 0 1 1",
            first(2, 1),
            first(2, 1),
        ),
        ("1 2 ; 7 1", "1 2 ; 2 0", first(1, 2), first(1, 4)),
        // five to eight coordinates
        (
            "4 5 ; 1 -1 0 0 0 0 1 -1 0 0 0 0 1 -1 0 0 0 0 1 -1",
            "4 5 ; 1 0 0 0 -1 1 0 0 -1 0 1 0 -1 0 0 1 -1 0 0 0",
            Same,
            Same,
        ),
        (
            "1 8 ; 0 0 0 0 0 0 0 3",
            "1 7 ; 0 0 0 0 0 0 3",
            DifferentM,
            DifferentM,
        ),
        (
            "1 6 ; 0 0 0 0 0 3",
            "2 6 ; 0 0 0 0 0 3 1 0 0 0 0 0",
            DifferentD,
            DifferentD,
        ),
        (
            "1 8 ; 0 0 0 0 0 0 0 4",
            "1 8 ; 0 0 0 0 0 0 0 6",
            first(1, 4),
            first(1, 4),
        ),
        (
            "1 6 ; 0 0 0 0 0 3",
            "1 6 ; 0 0 0 0 2 0",
            first(1, 9),
            first(1, 4),
        ),
        (
            "4 8 ; 2 2 0 0 0 0 0 0 0 0 2 2 0 0 0 0 0 0 0 0 2 2 0 0 0 0 0 0 0 0 2 2",
            "4 8 ; 2 2 0 0 0 0 0 0 0 0 2 2 0 0 0 0 0 0 0 0 2 2 0 0 1 1 1 1 1 1 1 1",
            second(4, 8),
            first(4, 8),
        ),
        // the nearest vector is (4,4): neither zero nor a reduced vector
        ("2 2 ; 3 3 0 4", "2 2 ; 4 0 0 4", first(1, 2), first(1, 2)),
    ]
}

/// Both entries with these numbers.
fn catalogue(a: (u32, &str), b: (u32, &str)) -> Vec<u8> {
    let text = format!("{} {}\n{} {}\n", a.0, a.1, b.0, b.1);
    encoded(&text).unwrap()
}

#[test]
fn worked_examples() {
    for (a, b, there, back) in examples() {
        let bytes = catalogue((1, a), (2, b));
        assert_eq!(separate(&bytes, 1, 2), Ok(there), "{a} | {b}");
        assert_eq!(separate(&bytes, 2, 1), Ok(back), "{b} | {a}");
        // which entry is first is said by the call, not by the file
        let turned = catalogue((2, b), (1, a));
        assert_eq!(separate(&turned, 1, 2), Ok(there), "{a} | {b}");
        assert_eq!(separate(&bytes, 1, 1), Ok(Same), "{a}");
        assert_eq!(separate(&bytes, 2, 2), Ok(Same), "{b}");
    }
}

/// The least squared distance to zero, to a reduced vector and to its negative.
fn least_of_few(target: &[i64], reduced: &[Vec<i64>]) -> i64 {
    let few = reduced
        .iter()
        .flat_map(|v| [1, -1].map(|x| minus(target, x, v)));
    few.map(|left| square(&left)).fold(square(target), i64::min)
}

/// The example above whose nearest vector is no reduced vector is one.
#[test]
fn beyond_the_reduced_vectors() {
    let (basis, target) = ([4, 0, 0, 4], [3, 3]);
    assert_eq!(nearest(&basis, 2, 2, &target).vector, [4, 4]);
    assert_eq!(least_of_few(&target, &reduce(&basis, 2, 2).vectors), 10);
}

#[test]
fn refusals() {
    let refused = |number, place| Err(Refused { number, place });
    let bytes = catalogue((7, "1 1 ; 3"), (1_048_575, "1 1 ; 5"));
    assert_eq!(separate(&bytes, 7, 1_048_575), Ok(first(1, 4)));
    for number in [0, 8, 7 + (1 << 20), u32::MAX] {
        assert_eq!(separate(&bytes, 7, number), refused(17, 0));
        assert_eq!(separate(&bytes, number, 7), refused(17, 0));
        assert_eq!(separate(&bytes, number, number), refused(17, 0));
    }
    // the catalogue's own come first
    for (a, b) in [(7, 1_048_575), (7, 8), (8, 7), (8, 8), (7, 7)] {
        assert_eq!(separate(&bytes[..bytes.len() - 4], a, b), refused(10, 4));
        assert_eq!(separate(&bytes[..bytes.len() - 1], a, b), refused(8, 0));
        let dependent = catalogue((7, "1 1 ; 3"), (9, "1 1 ; 0"));
        assert_eq!(separate(&dependent, a, b), refused(5, 2));
    }
}

/// Whether a vector is a combination with whole coefficients, by Cramer's rule.
fn inside(v: &[i64], basis: &[Vec<i64>]) -> bool {
    let mut left: Vec<i128> = v.iter().map(|&x| x as i128).collect();
    for (i, b) in basis.iter().enumerate() {
        let (top, bottom) = coordinate(basis, i, v);
        for (x, y) in left.iter_mut().zip(b) {
            *x -= top / bottom * *y as i128;
        }
    }
    left.iter().all(|&x| x == 0)
}

/// Entries by their number.
fn both(p: &Pair) -> (Entry, Entry) {
    let all = read(&p.bytes).unwrap();
    let with = |number: u32| all.iter().find(|e| e.number == number).unwrap().clone();
    (with(p.first), with(p.second))
}

/// What is said of two entries is so, and nothing before it in the order is.
fn holds(a: &Entry, b: &Entry, said: Separation) {
    let is_part = |a: &Entry, b: &Entry| a.vectors.iter().all(|v| inside(v, &b.vectors));
    let is_one = a.m() == b.m() && is_part(a, b) && is_part(b, a);
    assert_eq!(said == Same, is_one, "{a:?} {b:?}");
    match said {
        Same => {}
        DifferentM => assert_ne!(a.m(), b.m()),
        DifferentD => assert!(a.m() == b.m() && a.d() != b.d()),
        Separation::FirstOutside { position, square } => holds_at(a, b, position, square),
        Separation::SecondOutside { position, square } => {
            assert!(is_part(a, b), "{a:?} {b:?}");
            holds_at(b, a, position, square);
        }
    }
}

/// The position is the lowest, and the distance that of a whole box of vectors, where the box is not too large.
fn holds_at(a: &Entry, b: &Entry, position: usize, square: i64) {
    assert_eq!((a.d(), a.m()), (b.d(), b.m()));
    let is_outside = |v: &Vec<i64>| !inside(v, &b.vectors);
    let lowest = a.vectors.iter().position(is_outside);
    assert_eq!(lowest, Some(position - 1), "{a:?} {b:?}");
    let basis = reduce(&b.vectors.concat(), b.d(), b.m()).vectors;
    if let Some((least, _)) = box_nearest(&basis, &a.vectors[position - 1]) {
        assert_eq!(square, least, "{a:?} {b:?}");
    }
}

#[test]
fn answers_are_what_they_say() {
    for i in 0..12_000 {
        let p = pair(6, i);
        let said = separate(&p.bytes, p.first, p.second);
        match p.kind {
            Kind::Damaged => continue,
            Kind::Unknown => assert_eq!(said.map_err(|r| r.number), Err(17), "{p:?}"),
            Kind::Same | Kind::Twice => assert_eq!(said, Ok(Same), "{p:?}"),
            Kind::OtherM => assert_eq!(said, Ok(DifferentM), "{p:?}"),
            Kind::OtherD => assert_eq!(said, Ok(DifferentD), "{p:?}"),
            _ => assert!(said.is_ok(), "{p:?}"),
        }
        if let Ok(said) = said {
            let (a, b) = both(&p);
            holds(&a, &b, said);
        }
    }
}

/// Each position in either entry, each d and m, vectors outside the span, and distances that need more than the reduced vectors.
#[test]
fn pairs_cover_what_can_be_outside() {
    let mut positions = [[0; MOST_VECTORS + 1]; 2];
    let mut sizes = [[0; MOST_COORDINATES + 1]; MOST_VECTORS + 1];
    let (mut off_span, mut beyond) = (0, 0);
    for i in 0..12_000 {
        let p = pair(7, i);
        let (which, position, least) = match separate(&p.bytes, p.first, p.second) {
            Ok(Separation::FirstOutside { position, square }) => (0, position, square),
            Ok(Separation::SecondOutside { position, square }) => (1, position, square),
            _ => continue,
        };
        let (a, b) = both(&p);
        let (entry, other) = if which == 0 { (a, b) } else { (b, a) };
        let target = entry.vectors[position - 1].clone();
        positions[which][position] += 1;
        sizes[entry.d()][entry.m()] += 1;
        let reduced = reduce(&other.vectors.concat(), other.d(), other.m()).vectors;
        beyond += (least < least_of_few(&target, &reduced)) as u64;
        let with_target = [other.vectors, vec![target]].concat();
        off_span += (rank(&with_target) > entry.d()) as u64;
    }
    let many = |counts: &[u64]| counts.iter().all(|&n| n > 20);
    assert!(positions.iter().all(|p| many(&p[1..])), "{positions:?}");
    assert!(
        (1..=MOST_VECTORS).all(|d| many(&sizes[d][d..])),
        "{sizes:?}"
    );
    assert!(off_span > 500 && beyond > 500, "{off_span} {beyond}");
}

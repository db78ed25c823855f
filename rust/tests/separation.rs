//! What separates two entries: each case, and what is refused.

use raghymtos::catalogue::Separation::{DifferentD, DifferentM, FirstOutside, Same, SecondOutside};
use raghymtos::catalogue::{from_entries, separate, CatalogueRefusal, Entry, MOST_OLD_NUMBER};
use raghymtos::{raw, Refusal};

/// Entries 1 and 2 have one lattice, and 3 a part of it.
fn seven() -> Vec<u8> {
    let all = [
        Entry::new(1, [[4, 0], [0, 4]]),
        Entry::new(2, [[-4, 4], [8, -4]]),
        Entry::new(3, [[4, 0], [0, 8]]),
        Entry::new(4, [[3, 3], [0, 4]]),
        Entry::new(5, [[4, 0]]).seeing(1),
        Entry::new(6, [[4, 0, 0], [0, 4, 0]]),
        Entry::new(MOST_OLD_NUMBER, [[4]]),
    ];
    from_entries(&all).unwrap()
}

/// The refusal and its place.
fn refused(bytes: &[u8], first: u32, second: u32) -> (Refusal, usize) {
    let CatalogueRefusal { refusal, place, .. } = separate(bytes, first, second).unwrap_err();
    (refusal, place)
}

#[test]
fn one_lattice() {
    assert_eq!(separate(&seven(), 1, 2), Ok(Same));
    assert_eq!(separate(&seven(), 2, 1), Ok(Same));
    for number in [1, 2, 3, 4, 5, 6, MOST_OLD_NUMBER] {
        assert_eq!(separate(&seven(), number, number), Ok(Same), "{number}");
    }
}

/// A lattice of another m is another one where its vectors are the same but for a 0, and m comes before d.
#[test]
fn other_sizes() {
    assert_eq!(separate(&seven(), 1, 6), Ok(DifferentM));
    assert_eq!(separate(&seven(), 6, 1), Ok(DifferentM));
    assert_eq!(separate(&seven(), MOST_OLD_NUMBER, 1), Ok(DifferentM));
    assert_eq!(separate(&seven(), 1, 5), Ok(DifferentD));
    assert_eq!(separate(&seven(), 5, 1), Ok(DifferentD));
}

#[test]
fn outside() {
    let (position, square) = (1, 2);
    // (3,3) is nearest to (4,4)
    assert_eq!(
        separate(&seven(), 4, 1),
        Ok(FirstOutside { position, square })
    );
    // (4,0) is nearest to (3,-1), and comes before (0,4), which is in both
    assert_eq!(
        separate(&seven(), 1, 4),
        Ok(FirstOutside { position, square })
    );
    let (position, square) = (2, 16);
    assert_eq!(
        separate(&seven(), 1, 3),
        Ok(FirstOutside { position, square })
    );
    assert_eq!(
        separate(&seven(), 3, 1),
        Ok(SecondOutside { position, square })
    );
    // of entry 2, whose lattice is that of 1, another vector is outside
    let position = 1;
    assert_eq!(
        separate(&seven(), 3, 2),
        Ok(SecondOutside { position, square })
    );
}

/// Lattices of eight coordinates: 1 is 2 without its last vector but with twice that, 3 differs in the last coordinate alone.
#[test]
fn eight_coordinates() {
    let [a, b, c] = [
        [2, 2, 0, 0, 0, 0, 0, 0],
        [0, 0, 2, 2, 0, 0, 0, 0],
        [0, 0, 0, 0, 2, 2, 0, 0],
    ];
    let all = [
        Entry::new(1, [a, b, c, [0, 0, 0, 0, 0, 0, 2, 2]]),
        Entry::new(2, [a, b, c, [1, 1, 1, 1, 1, 1, 1, 1]]),
        Entry::new(3, [a, b, c, [1, 1, 1, 1, 1, 1, 1, 2]]),
        Entry::new(4, [c, b, a, [1, 1, 1, 1, 1, 1, -1, -1]]),
        Entry::new(5, [[2, 2, 0, 0, 0, 0, 0]]),
        Entry::new(6, [a]),
    ];
    let bytes = from_entries(&all).unwrap();
    let (position, square) = (4, 8);
    assert_eq!(
        separate(&bytes, 1, 2),
        Ok(SecondOutside { position, square })
    );
    assert_eq!(
        separate(&bytes, 2, 1),
        Ok(FirstOutside { position, square })
    );
    let square = 1;
    assert_eq!(
        separate(&bytes, 3, 2),
        Ok(FirstOutside { position, square })
    );
    assert_eq!(separate(&bytes, 2, 4), Ok(Same));
    assert_eq!(separate(&bytes, 1, 5), Ok(DifferentM));
    assert_eq!(separate(&bytes, 1, 6), Ok(DifferentD));
}

#[test]
fn no_entry() {
    for number in [0, 7, MOST_OLD_NUMBER - 1, (1 << 20) + 1, u32::MAX] {
        assert_eq!(refused(&seven(), 1, number), (Refusal::NoEntry, 0));
        assert_eq!(refused(&seven(), number, 1), (Refusal::NoEntry, 0));
        assert_eq!(refused(&seven(), number, number), (Refusal::NoEntry, 0));
    }
    let said = separate(&seven(), 1, 7).unwrap_err();
    assert_eq!(
        (said.word(), said.to_string()),
        (None, "no entry has the number".into())
    );
}

#[test]
fn the_catalogue_is_refused_first() {
    let bytes = seven();
    for (first, second) in [(1, 2), (1, 7), (7, 1), (7, 7)] {
        let cut = &bytes[..bytes.len() - 1];
        assert_eq!(refused(cut, first, second), (Refusal::NotWords, 0));
        let cut = &bytes[..8];
        assert_eq!(refused(cut, first, second), (Refusal::Unexpected, 2));
    }
}

#[test]
fn lent_numbers() {
    let mut out = [0x55; 7];
    for room in 0..raw::SEPARATION_NUMBERS {
        assert!(!raw::separate(&seven(), 3, 1, &mut out[..room]), "{room}");
        assert_eq!(out, [0x55; 7]);
    }
    assert!(raw::separate(&seven(), 3, 1, &mut out));
    assert_eq!(out, [0, 0, 5, 2, 16, 0x55, 0x55]);
    assert!(raw::separate(&seven(), 1, 2, &mut out));
    assert_eq!(out, [0, 0, 1, 0, 0, 0x55, 0x55]);
    assert!(raw::separate(&seven(), 1, 7, &mut out));
    assert_eq!(out, [17, 0, 0, 0, 0, 0x55, 0x55]);
}

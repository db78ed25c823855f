//! The crate's constants are those of the C header.

use raghymtos::{catalogue, raw};

/// What the header defines a name as.
fn defined(name: &str) -> &'static str {
    let header = include_str!("../../include/raghymtos.h");
    let line = format!("#define RAGHYMTOS_{name} ");
    let rest = header.split(&line).nth(1).expect("the header has the name");
    rest.split(['\n', ' ']).next().unwrap()
}

#[test]
fn the_same_numbers() {
    let all = [
        ("REDUCTION_COUNT", raw::REDUCTION_NUMBERS),
        ("NEAREST_COUNT", raw::NEAREST_NUMBERS),
        ("MEMBER_COUNT", raw::MEMBER_NUMBERS),
        ("CATALOGUE_COUNT", raw::ANSWER_NUMBERS),
        ("SEPARATION_COUNT", raw::SEPARATION_NUMBERS),
        ("MOST_VECTORS", raghymtos::MOST_VECTORS),
        ("MOST_COORDINATES", raghymtos::MOST_COORDINATES),
        ("MOST_ENTRIES", catalogue::MOST_ENTRIES),
        ("MOST_NUMBER", catalogue::MOST_NUMBER as usize),
        ("MOST_OLD_NUMBER", catalogue::MOST_OLD_NUMBER as usize),
        ("MOST_CATALOGUE_BYTES", catalogue::MOST_BYTES),
        ("MOST_LISTING_BYTES", catalogue::MOST_LISTING_BYTES),
    ];
    for (name, value) in all {
        assert_eq!(defined(name), value.to_string(), "{name}");
    }
}

/// The parts of the answers follow each other without a gap.
#[test]
fn the_layout() {
    let at = |name: &str| defined(name).parse::<usize>().unwrap();
    assert_eq!(at("VECTOR_COUNT"), raghymtos::MOST_COORDINATES);
    assert_eq!(at("ROW_COUNT"), raghymtos::MOST_VECTORS);
    assert_eq!(at("VECTORS_AT"), at("SQUARES_AT") + 4);
    assert_eq!(at("U_AT"), at("VECTORS_AT") + 4 * at("VECTOR_COUNT"));
    assert_eq!(at("V_AT"), at("U_AT") + 4 * at("ROW_COUNT"));
    assert_eq!(at("REDUCTION_COUNT"), at("V_AT") + 4 * at("ROW_COUNT"));
    assert_eq!(at("TENTHS_AT"), at("COEFFICIENTS_AT") + 4);
    assert_eq!(at("VECTOR_AT"), at("TENTHS_AT") + 4);
    assert_eq!(at("NEAREST_COUNT"), at("VECTOR_AT") + at("VECTOR_COUNT"));
}

#[test]
fn the_same_version() {
    assert_eq!(defined("VERSION"), format!("\"{}\"", raghymtos::VERSION));
}

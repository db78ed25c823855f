//! The samples' texts, bytes and listings belong together.

use std::fs::{read, read_to_string};
use std::path::Path;

use reference::catalogue::listing::listing;
use reference::catalogue::text::{decoded, encoded};

/// The lines that are entries.
fn without_comments(text: &str) -> String {
    let lines = text.split_inclusive('\n');
    lines.filter(|line| !line.starts_with('#')).collect()
}

/// Entries and standing entries of a sample.
fn counts(name: &str) -> String {
    let folder = Path::new(env!("CARGO_MANIFEST_DIR")).join("../../samples");
    let path = |end: &str| folder.join(format!("{name}.{end}"));
    let words = read_to_string(path("txt")).unwrap();
    let bytes = read(path("catalogue")).unwrap();
    let lines = read_to_string(path("listing")).unwrap();
    assert_eq!(decoded(&bytes), Ok(without_comments(&words)));
    assert_eq!(encoded(&words).as_ref(), Ok(&bytes));
    assert_eq!(listing(&bytes), lines);
    lines.lines().next().unwrap().to_string()
}

#[test]
fn samples() {
    assert_eq!(counts("generators"), "51 27");
    assert_eq!(counts("cells"), "28 16");
    assert_eq!(counts("embedded"), "26 16");
    assert_eq!(counts("drafts"), "11 7");
}

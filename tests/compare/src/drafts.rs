//! The small catalogues with drafts whose outcome the reference has by hand, by the library and by the command line.

use reference::catalogue::drafts::{ACCEPTED, WRONG};
use reference::catalogue::moves::moved;
use reference::catalogue::text::encoded;
use reference::catalogue::writer::bytes;
use reference::catalogue::Form;
use reference::random::Random;

use crate::catalogue::{self, Rooms};
use crate::commands;

/// Each of them, with its name; those that are accepted in both forms.
fn all() -> Vec<(&'static str, Vec<u8>)> {
    let of_text = |text: &str| encoded(text).expect("an accepted catalogue");
    let old = ACCEPTED.iter().map(|a| (a.name, of_text(a.text)));
    let new = |bytes: Vec<u8>| moved(Form::New, &bytes).expect("an accepted catalogue");
    let new = old.clone().map(|(name, bytes)| (name, new(bytes)));
    let wrong = WRONG.iter().map(|w| (w.name, bytes(w.words)));
    old.chain(new).chain(wrong).collect()
}

/// Compares the library, with outputs of every length.
pub fn compare() -> Result<(), String> {
    for (name, bytes) in all() {
        catalogue::compare(&bytes, Rooms::All).map_err(|what| format!("{what}\n{name}"))?;
    }
    let accepted = ACCEPTED.map(|a| a.name).join("; ");
    let wrong = WRONG.map(|w| w.name).join("; ");
    println!("catalogues with drafts as the reference has them by hand: {accepted}");
    println!("  refused: {wrong}");
    Ok(())
}

/// Compares the command line.
pub fn by_command(seed: u64) -> Result<(), String> {
    let mut random = Random::new(seed);
    let all = all();
    for (name, bytes) in &all {
        commands::compare_one(bytes, &mut random).map_err(|what| format!("{name}: {what}"))?;
    }
    println!(
        "the {} catalogues with drafts that the reference has by hand, by the command line",
        all.len()
    );
    Ok(())
}

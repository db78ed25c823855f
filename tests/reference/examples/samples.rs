//! Writes the bytes and the listing of every text in samples/.

use std::fs::{read_dir, read_to_string, write};
use std::path::Path;

use reference::catalogue::{listing::listing, text::encoded};

fn main() -> std::io::Result<()> {
    let folder = Path::new(env!("CARGO_MANIFEST_DIR")).join("../../samples");
    for file in read_dir(folder)? {
        let path = file?.path();
        if path.extension().is_some_and(|e| e == "txt") {
            let bytes = encoded(&read_to_string(&path)?).expect("a line that is no entry");
            write(path.with_extension("listing"), listing(&bytes))?;
            write(path.with_extension("catalogue"), bytes)?;
        }
    }
    Ok(())
}

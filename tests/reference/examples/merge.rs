//! Answers the lines of standard input as `raghymtos merge` does, by the reference, or wrongly: a stand-in for the program, to try what
//! compares it. The first word is `merge`; MERGE_WRONG names what is wrong, as `LosesLast`.

use std::io::{stdin, stdout, BufRead, Write};

use reference::merge::lines::{answered, read, Said};
use reference::merge::wrong::{WrongMerge, ALL};
use reference::merge::{Calls, Merge};

fn main() -> std::io::Result<()> {
    assert_eq!(std::env::args().nth(1).as_deref(), Some("merge"));
    match std::env::var("MERGE_WRONG") {
        Ok(name) => {
            let wrong = ALL.iter().find(|w| format!("{w:?}") == name);
            answer(WrongMerge::new(*wrong.expect("a name of a wrong merge")))
        }
        Err(_) => answer(Merge::default()),
    }
}

/// Each line is answered before the next is read.
fn answer(mut merge: impl Calls) -> std::io::Result<()> {
    for (line, number) in stdin().lock().lines().zip(1..) {
        match answered(&mut merge, &read(&line?), number) {
            Said::Lines(lines) => write!(stdout(), "{lines}")?,
            Said::Begins(start) => writeln!(stdout(), "{start} no command")?,
        }
        stdout().flush()?;
    }
    Ok(())
}

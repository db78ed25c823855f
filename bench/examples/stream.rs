//! A million mixed reductions by the library, by the command line from file to file, and by the command line from pipe to pipe, in turns.
//! Run from the project's root, after `rust/archive` and `samples/build`. Argument, optional: how many requests.

#[allow(dead_code)]
#[path = "../src/baseline.rs"]
mod baseline;

use std::fs::File;
use std::io::Write;
use std::process::{Command, Stdio};
use std::time::{Duration, Instant};

const PROGRAM: &str = "target/bin/raghymtos";
const REQUESTS: &str = "target/requests";
const ANSWERS: &str = "target/answers";
const ROUNDS: usize = 3;

/// d, and the coordinates of d vectors of d coordinates.
struct Request {
    d: usize,
    numbers: Vec<i64>,
}

/// The sets of two, three and four vectors, so mixed that neighbours are of different kinds.
fn mixed() -> Vec<Request> {
    let sets: Vec<_> = (2..=4)
        .map(|d| baseline::set::<4, baseline::Narrow>(d, 10_000, 7))
        .collect();
    let third = 3_333;
    let place = |i: usize| i / 3 + i % 3 * third;
    (0..3 * third)
        .flat_map(|i| (2..=4).map(move |d| (d, place(i))))
        .map(|(d, i)| Request {
            d,
            numbers: sets[d - 2][i].basis[..d]
                .iter()
                .flat_map(|v| v[..d].to_vec())
                .collect(),
        })
        .collect()
}

fn write_requests(all: &[Request], count: usize) -> std::io::Result<()> {
    let mut file = std::io::BufWriter::new(File::create(REQUESTS)?);
    for input in all.iter().cycle().take(count) {
        write!(file, "{} {} ;", input.d, input.d)?;
        for number in &input.numbers {
            write!(file, " {number}")?;
        }
        writeln!(file)?;
    }
    file.flush()
}

fn timed(work: impl FnOnce()) -> Duration {
    let start = Instant::now();
    work();
    start.elapsed()
}

fn library(all: &[Request], count: usize) {
    let mut out = [0; raghymtos::raw::REDUCTION_NUMBERS];
    let mut passes = 0;
    for input in all.iter().cycle().take(count) {
        raghymtos::raw::reduce(&input.numbers, input.d, input.d, &mut out);
        passes += out[2];
    }
    assert!(std::hint::black_box(passes) > 0);
}

fn by_file() {
    let status = Command::new(PROGRAM)
        .arg("reduce")
        .stdin(File::open(REQUESTS).expect("the requests are there"))
        .stdout(File::create(ANSWERS).expect("the answers can be written"))
        .status();
    assert!(status.expect("the program is built").success());
}

fn by_pipe() {
    let line = format!("cat {REQUESTS} | {PROGRAM} reduce | cat > /dev/null");
    let status = Command::new("sh")
        .args(["-c", &line])
        .stderr(Stdio::inherit())
        .status();
    assert!(status.expect("a shell is there").success());
}

fn main() {
    let count = std::env::args()
        .nth(1)
        .map_or(1_000_000, |word| word.parse().expect("a number"));
    let all = mixed();
    write_requests(&all, count).expect("the requests can be written");
    println!("{count} reductions   library     file     pipe   file:library   pipe:library");
    for _ in 0..ROUNDS {
        let times = [
            timed(|| library(&all, count)),
            timed(by_file),
            timed(by_pipe),
        ]
        .map(|t| t.as_secs_f64());
        let [library, file, pipe] = times;
        println!(
            "                   {library:7.2} s {file:7.2} s {pipe:7.2} s {:14.2} {:14.2}",
            file / library,
            pipe / library
        );
    }
}

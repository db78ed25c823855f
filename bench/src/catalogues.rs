//! Full catalogues, 256 entries: read, folded and looked up, in the old form and in the new one, and moved from one to the other.

use std::hint::black_box;
use std::time::Instant;

use raghymtos::catalogue::{self as engine, MOST_BYTES};
use reference::bases::{placed, scrambled};
use reference::catalogue::fold::standing;
use reference::catalogue::reader::{HEAD, NUMBER};
use reference::catalogue::writer::write;
use reference::catalogue::{Entry, Form};
use reference::random::Random;
use reference::vectors::rows;

use crate::baseline::{self, Baseline};
use crate::{median, narrow, wide, Set};

const ENTRIES: usize = 256;

pub const NAMES: [&str; 15] = [
    "typical", "equal", "worst", "passes", "index", "planes", "typical8", "worst8", "last8", "passes8", "drafts", "drafts8", "typical-new",
    "worst-new", "drafts8-new",
];

/// Those that are moved.
pub const MOVED: [&str; 3] = ["typical", "worst", "drafts8"];

/// What ends the name of a catalogue in the new form.
const NEW: &str = "-new";

/// The entries of a catalogue, with see words to the entry before.
fn entries(name: &str) -> Vec<Entry> {
    let mut random = Random::new(1);
    let bases = match name {
        "typical" | "drafts" => twice(narrow, &mut random),
        "typical8" => twice(wide, &mut random),
        "equal" => equal(&mut random),
        "worst" => worst(&mut random),
        "worst8" | "drafts8" => worst_of_eight(&mut random),
        "last8" => behind_zeros(worst(&mut random)),
        "passes8" => behind_zeros(passes()),
        "passes" => passes(),
        "index" => index(&mut random),
        _ => planes(),
    };
    // in the first of both bases of each lattice, or in all
    let drafts = match name {
        "drafts" => ENTRIES as u32 / 2,
        "drafts8" => ENTRIES as u32,
        _ => 0,
    };
    let numbered = bases.into_iter().zip(1..);
    numbered
        .map(|(vectors, number)| Entry {
            number,
            vectors,
            draft: number <= drafts,
            see: Some(1.max(number - 1)),
        })
        .collect()
}

/// 128 lattices of the three sets, of two to four vectors, each in two bases.
fn twice<const W: usize, B: Baseline<W>>(
    sorts: fn(usize) -> Vec<Set<W, B>>,
    random: &mut Random,
) -> Vec<Vec<Vec<i64>>> {
    let mut all = vec![];
    for d in 2..=4 {
        for set in sorts(d) {
            all.extend(set.numbers[..15].iter().map(|numbers| rows(numbers, set.m)));
        }
    }
    all.truncate(ENTRIES / 2);
    let again: Vec<Vec<Vec<i64>>> = all.iter().map(|b| scrambled(b.clone(), random)).collect();
    [all, again].concat()
}

/// One lattice of four vectors in 256 bases.
fn equal(random: &mut Random) -> Vec<Vec<Vec<i64>>> {
    let basis: Vec<Vec<i64>> = (0..4).map(|_| random.vector(4, 500)).collect();
    (0..ENTRIES)
        .map(|_| scrambled(basis.clone(), random))
        .collect()
}

/// 256 lattices with the same inner products: coordinates permuted and with other signs, in half of them after a turn.
fn worst(random: &mut Random) -> Vec<Vec<Vec<i64>>> {
    let basis: Vec<Vec<i64>> = (0..4)
        .map(|_| random.vector(4, 4_000).iter().map(|x| 2 * x).collect())
        .collect();
    let turned: Vec<Vec<i64>> = basis.iter().map(|v| turn(v)).collect();
    let mut all = vec![];
    for order in orders() {
        // the opposite of every sign gives the same lattice
        for signs in 0..8 {
            for b in [&basis, &turned] {
                all.push(b.iter().map(|v| moved(v, order, signs)).collect());
            }
        }
    }
    all.truncate(ENTRIES);
    all
}

/// The same of eight coordinates, in any order and with any signs; the turn is of the first four and of the last four.
fn worst_of_eight(random: &mut Random) -> Vec<Vec<Vec<i64>>> {
    let basis: Vec<Vec<i64>> = (0..4)
        .map(|_| random.vector(8, 2_800).iter().map(|x| 2 * x).collect())
        .collect();
    let halves = |v: &Vec<i64>| [turn(&v[..4]), turn(&v[4..])].concat();
    let turned: Vec<Vec<i64>> = basis.iter().map(halves).collect();
    (0..ENTRIES)
        .map(|i| placed([&basis, &turned][i % 2].clone(), random))
        .collect()
}

/// In the last four coordinates of eight: the minors there come last.
fn behind_zeros(bases: Vec<Vec<Vec<i64>>>) -> Vec<Vec<Vec<i64>>> {
    let moved = |v: Vec<i64>| [vec![0; 4], v].concat();
    bases
        .into_iter()
        .map(|b| b.into_iter().map(moved).collect())
        .collect()
}

/// Two bases of small lattices that take 87 passes each.
const LONG: [[[i64; 4]; 4]; 2] = [
    [
        [6419, -10824, -82, -6430],
        [-6920, 12146, -4107, -3789],
        [-8667, 12803, 394, 10599],
        [-9603, 13216, -1550, 7469],
    ],
    [
        [-4744, -13559, 6529, 5027],
        [10344, -8995, -1275, 5690],
        [142, -11211, 3713, 4863],
        [-15648, 5310, 4717, -5024],
    ],
];

/// 256 small lattices of 87 passes each: coordinates permuted and with other signs.
fn passes() -> Vec<Vec<Vec<i64>>> {
    let mut all = vec![];
    for order in orders() {
        for signs in 0..8 {
            for basis in LONG {
                all.push(basis.iter().map(|v| moved(v, order, signs)).collect());
            }
        }
    }
    all.truncate(ENTRIES);
    all
}

/// Sublattices of index 2 to 5 of one lattice, each scrambled.
fn index(random: &mut Random) -> Vec<Vec<Vec<i64>>> {
    let basis: Vec<Vec<i64>> = (0..4).map(|_| random.vector(4, 1_500)).collect();
    (0..ENTRIES)
        .map(|_| {
            let (times, long) = (2 + random.index(4) as i64, random.index(4));
            let part = (0..4)
                .map(|i| {
                    let own = if i == long { times } else { 1 };
                    let more = if i == long { 0 } else { random.index(times as usize) as i64 };
                    let pairs = basis[i].iter().zip(&basis[long]);
                    pairs.map(|(x, y)| own * x + more * y).collect()
                })
                .collect();
            scrambled(part, random)
        })
        .collect()
}

/// Lattices of determinant 127 and 126 in a plane, with (0, 0, 20000, 0) and (0, 0, 0, 20000).
fn planes() -> Vec<Vec<Vec<i64>>> {
    let mut all = vec![];
    for determinant in [127, 126] {
        for a in (1..=determinant).filter(|a| determinant % a == 0) {
            for k in 0..determinant / a {
                all.push(vec![
                    vec![a, k, 0, 0],
                    vec![0, determinant / a, 0, 0],
                    vec![0, 0, 20_000, 0],
                    vec![0, 0, 0, 20_000],
                ]);
            }
        }
    }
    all.truncate(ENTRIES);
    all
}

/// An isometry that is no permutation, on even coordinates.
fn turn(v: &[i64]) -> Vec<i64> {
    let half = |a: i64, b: i64, c: i64, d: i64| (a * v[0] + b * v[1] + c * v[2] + d * v[3]) / 2;
    vec![
        half(1, 1, 1, 1),
        half(1, 1, -1, -1),
        half(1, -1, 1, -1),
        half(1, -1, -1, 1),
    ]
}

fn orders() -> Vec<[usize; 4]> {
    let mut all = vec![];
    for i in 0..256 {
        let order = [i / 64, i / 16 % 4, i / 4 % 4, i % 4];
        if (0..4).all(|k| order.contains(&k)) {
            all.push(order);
        }
    }
    all
}

fn moved(v: &[i64], order: [usize; 4], signs: usize) -> Vec<i64> {
    (0..4)
        .map(|i| v[order[i]] * if signs >> i & 1 == 1 { -1 } else { 1 })
        .collect()
}

/// Seconds for one call.
fn timed<T>(mut call: impl FnMut(&mut [u8]) -> T) -> f64 {
    let mut out = vec![0; MOST_BYTES];
    let start = Instant::now();
    black_box(call(black_box(&mut out)));
    start.elapsed().as_secs_f64()
}

/// The catalogue in the other form: by the engine, and by the C.
fn engine_move(to: Form, bytes: &[u8], out: &mut [u8]) -> Option<usize> {
    let length = match to {
        Form::Old => engine::old_form_to(bytes, out),
        Form::New => engine::new_form_to(bytes, out),
    };
    length.ok()
}

fn c_move(to: Form, bytes: &[u8], out: &mut [u8]) -> usize {
    let head = match to {
        Form::Old => HEAD,
        Form::New => NUMBER,
    };
    baseline::moved(bytes, head, out)
}

/// Both must write the same bytes, or the times compare nothing.
fn same(bytes: &[u8], last: u32) {
    let (mut a, mut b) = (vec![0; MOST_BYTES], vec![0; MOST_BYTES]);
    assert_eq!(baseline::read(bytes, &mut baseline::room()), 0);
    let lengths = (
        engine::fold_to(bytes, &mut a),
        baseline::fold(bytes, &mut b),
    );
    assert_eq!((lengths.0.ok(), &a), (Some(lengths.1), &b));
    assert_eq!(
        engine::lookup(bytes, last).ok(),
        Some(baseline::lookup(bytes, last))
    );
}

/// Times both in turn, so that what else the machine does falls on both, and prints a line. Reading is timed by a lookup of a number that
/// no entry has: the catalogue is read with all checks, and nothing is reduced.
pub fn measure(name: &str, runs: usize) {
    let (form, entries) = match name.strip_suffix(NEW) {
        Some(name) => (Form::New, entries(name)),
        None => (Form::Old, entries(name)),
    };
    let bytes = write(form, &entries);
    let last = entries.len() as u32;
    same(&bytes, last);
    let bytes = &bytes[..];
    let mut room = baseline::room();
    let times: Vec<[f64; 6]> = (0..runs)
        .map(|_| {
            [
                timed(|_| engine::lookup(bytes, 1_000_000)),
                timed(|_| baseline::read(bytes, &mut room)),
                timed(|out| engine::fold_to(bytes, out)),
                timed(|out| baseline::fold(bytes, out)),
                timed(|_| engine::lookup(bytes, last)),
                timed(|_| baseline::lookup(bytes, last)),
            ]
        })
        .collect();
    let stand = standing(&entries)
        .iter()
        .enumerate()
        .filter(|(i, &s)| *i == s)
        .count();
    print!("{name:<11} {:>5} {stand:>6}", bytes.len());
    print_times(&times);
}

/// Of each two calls the milliseconds and the ratio.
fn print_times<const N: usize>(times: &[[f64; N]]) {
    let milliseconds = |i: usize| 1e3 * median(times.iter().map(|t| t[i]).collect());
    let ratio = |i: usize| median(times.iter().map(|t| t[i] / t[i + 1]).collect());
    for i in (0..N).step_by(2) {
        print!(
            " {:>9.3} {:>8.3} {:>6.2}",
            milliseconds(i),
            milliseconds(i + 1),
            ratio(i)
        );
    }
    println!();
}

pub fn print_heading() {
    println!("catalogue   bytes stands      read        C  ratio      fold        C  ratio    lookup        C  ratio");
}

/// Times both moves of a catalogue, and prints a line.
pub fn measure_moves(name: &str, runs: usize) {
    let entries = entries(name);
    let [old, new] = Form::BOTH.map(|form| write(form, &entries));
    for (to, from, wanted) in [(Form::New, &old, &new), (Form::Old, &new, &old)] {
        let (mut a, mut b) = (vec![0; MOST_BYTES], vec![0; MOST_BYTES]);
        let lengths = (engine_move(to, from, &mut a), c_move(to, from, &mut b));
        assert_eq!(lengths, (Some(wanted.len()), wanted.len()));
        assert!(a.starts_with(wanted) && a == b);
    }
    let times: Vec<[f64; 4]> = (0..runs)
        .map(|_| {
            [
                timed(|out| engine_move(Form::New, &old, out)),
                timed(|out| c_move(Form::New, &old, out)),
                timed(|out| engine_move(Form::Old, &new, out)),
                timed(|out| c_move(Form::Old, &new, out)),
            ]
        })
        .collect();
    print!("{name:<11} {:>5} {:>6}", old.len(), new.len());
    print_times(&times);
}

pub fn print_heading_of_moves() {
    println!("moved         old    new    to new        C  ratio    to old        C  ratio");
}

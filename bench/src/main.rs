//! The proved engine against hand-written C, in one process, on the same inputs: nanoseconds for a reduction and for a nearest vector, and
//! full catalogues. `bench once D`, `bench once Dw` (eight coordinates) and `bench once far` call each function once for each input, so
//! that its instructions can be counted. Other arguments, all optional: how many runs, and the only set or catalogue.

mod baseline;
mod catalogues;

use std::hint::black_box;
use std::marker::PhantomData;
use std::time::Instant;

use baseline::{Answer, Baseline, Input, Narrow, Wide};

const INPUTS: usize = 10_000;
const SEED: u64 = 20_240_601;
const RUNS: usize = 51;
/// A catalogue takes longer.
const MOST_CATALOGUE_RUNS: usize = 21;

/// Inputs of one sort, d vectors of m coordinates, as both sides take them, and the C that takes them.
struct Set<const W: usize, B: Baseline<W>> {
    name: &'static str,
    d: usize,
    m: usize,
    inputs: Vec<Input<W>>,
    /// The coordinates one after another.
    numbers: Vec<Vec<i64>>,
    side: PhantomData<B>,
}

impl<const W: usize, B: Baseline<W>> Set<W, B> {
    fn new(name: &'static str, d: usize, m: usize, inputs: &[Input<W>]) -> Self {
        let flat = |i: &Input<W>| i.basis[..d].iter().flat_map(|v| v[..m].to_vec()).collect();
        Set {
            name,
            d,
            m,
            inputs: inputs.to_vec(),
            numbers: inputs.iter().map(flat).collect(),
            side: PhantomData,
        }
    }

    /// As the sets of d vectors are called.
    fn label(&self) -> String {
        let end = if W == 4 { "" } else { "w" };
        format!("{}{end}", self.d)
    }
}

/// The three sorts of the set of d vectors of m coordinates.
fn sorts<const W: usize, B: Baseline<W>>(d: usize, m: usize) -> Vec<Set<W, B>> {
    let all = baseline::set::<W, B>(d, INPUTS, SEED);
    let third = INPUTS / 3;
    let (first, rest) = all.split_at(INPUTS - 2 * third);
    let (second, last) = rest.split_at(third);
    vec![
        Set::new("random", d, m, first),
        Set::new("scrambled", d, m, second),
        Set::new("generator", d, m, last),
    ]
}

/// The three sorts of d vectors of d coordinates.
fn narrow(d: usize) -> Vec<Set<4, Narrow>> {
    sorts(d, d)
}

/// The three sorts of d vectors of eight coordinates.
fn wide(d: usize) -> Vec<Set<8, Wide>> {
    sorts(d, 8)
}

/// Short vectors and far targets.
fn far(d: usize) -> Set<4, Narrow> {
    Set::new("far", d, d, &baseline::far_set(d, INPUTS / 10, SEED))
}

/// The four calls that are compared. Each writes its answer to one place.
fn engine_reduce<const W: usize, B: Baseline<W>>(s: &Set<W, B>, i: usize) {
    let mut out = [0; raghymtos::raw::REDUCTION_NUMBERS];
    raghymtos::raw::reduce(&s.numbers[i], s.d, s.m, &mut out);
    black_box(&out);
}

fn c_reduce<const W: usize, B: Baseline<W>>(s: &Set<W, B>, i: usize) {
    let mut out = Answer::default();
    baseline::reduce::<W, B>(s.d, s.m, &s.inputs[i], &mut out);
    black_box(&out);
}

fn engine_nearest<const W: usize, B: Baseline<W>>(s: &Set<W, B>, i: usize) {
    let mut out = [0; raghymtos::raw::NEAREST_NUMBERS];
    raghymtos::raw::nearest(
        &s.numbers[i],
        s.d,
        s.m,
        &s.inputs[i].target[..s.m],
        &mut out,
    );
    black_box(&out);
}

fn c_nearest<const W: usize, B: Baseline<W>>(s: &Set<W, B>, i: usize) {
    black_box(baseline::nearest::<W, B>(s.d, s.m, &s.inputs[i]));
}

type Service<const W: usize, B> = fn(&Set<W, B>, usize);

fn services<const W: usize, B: Baseline<W>>() -> [Service<W, B>; 4] {
    [engine_reduce, c_reduce, engine_nearest, c_nearest]
}

/// Both must give the same answers, or the times compare nothing.
fn same<const W: usize, B: Baseline<W>>(s: &Set<W, B>, i: usize) {
    let (input, d, m) = (&s.inputs[i], s.d, s.m);
    let mut a = Answer::default();
    baseline::reduce::<W, B>(d, m, input, &mut a);
    let r = raghymtos::reduce(&s.numbers[i], d, m).expect("the sets are accepted");
    assert_eq!(
        (r.passes() as i64, r.squares()),
        (a.passes, &a.squares[..d]),
        "{input:?}"
    );
    let mut vectors = r.vectors().zip(a.vectors);
    assert!(vectors.all(|(x, y)| x == &y[..m]), "{input:?}");
    for (rows, table) in [(r.u(), a.u), (r.v(), a.v)] {
        assert!(rows.zip(table).all(|(x, y)| x == &y[..d]), "{input:?}");
    }
    let n =
        raghymtos::nearest(&s.numbers[i], d, m, &input.target[..m]).expect("the sets are accepted");
    let b = baseline::nearest::<W, B>(d, m, input);
    let given = (n.square(), n.coefficients(), n.vector());
    assert_eq!(
        given,
        (b.square, &b.coefficients[..d], &b.vector[..m]),
        "{input:?}"
    );
}

/// Nanoseconds for one input.
fn timed<const W: usize, B: Baseline<W>>(s: &Set<W, B>, service: Service<W, B>) -> f64 {
    let start = Instant::now();
    for i in 0..s.inputs.len() {
        service(s, i);
    }
    start.elapsed().as_secs_f64() * 1e9 / s.inputs.len() as f64
}

fn median(mut values: Vec<f64>) -> f64 {
    values.sort_by(f64::total_cmp);
    values[values.len() / 2]
}

/// Times all four in turn, so that what else the machine does falls on all, and prints a line.
fn measure<const W: usize, B: Baseline<W>>(s: &Set<W, B>, runs: usize) {
    (0..s.inputs.len()).for_each(|i| same(s, i));
    let times: Vec<[f64; 4]> = (0..runs)
        .map(|_| services().map(|service| timed(s, service)))
        .collect();
    let middle = |i: usize| median(times.iter().map(|t| t[i]).collect());
    let ratio = |i: usize, j: usize| median(times.iter().map(|t| t[i] / t[j]).collect());
    println!(
        "{:<10} {:<2} {:>7.0} {:>8.0} {:>6.2} {:>9.0} {:>8.0} {:>6.2} {:>15.2}",
        s.name,
        s.label(),
        middle(0),
        middle(1),
        ratio(0, 1),
        middle(2),
        middle(3),
        ratio(2, 3),
        ratio(2, 0),
    );
}

/// Every call once for each input.
fn once(word: &str) {
    let d = |word: &str| word.parse().expect("d is a number");
    match word.strip_suffix('w') {
        Some(word) => each_once(&wide(d(word))),
        None if word == "far" => each_once(&[far(3), far(4)]),
        None => each_once(&narrow(d(word))),
    }
}

fn each_once<const W: usize, B: Baseline<W>>(sets: &[Set<W, B>]) {
    for s in sets {
        for service in services() {
            (0..s.inputs.len()).for_each(|i| service(s, i));
        }
    }
    println!("{}", sets.iter().map(|s| s.inputs.len()).sum::<usize>());
}

fn argument(n: usize) -> Option<String> {
    std::env::args().nth(n)
}

fn main() {
    if argument(1).as_deref() == Some("once") {
        once(&argument(2).expect("once D, once Dw, or once far"));
        return;
    }
    let runs = argument(1).map_or(RUNS, |word| word.parse().expect("runs is a number"));
    let only = argument(2);
    let is_wanted = |name: &str, kind: &str| {
        only.as_deref()
            .is_none_or(|only| only == name || only == kind)
    };
    let mut sets: Vec<Set<4, Narrow>> = (2..=4).flat_map(narrow).collect();
    sets.extend((3..=4).map(far));
    sets.retain(|s| is_wanted(s.name, "sets"));
    let mut wide_sets: Vec<Set<8, Wide>> = (2..=4).flat_map(wide).collect();
    wide_sets.retain(|s| is_wanted(s.name, "sets"));
    if !sets.is_empty() {
        println!("set        d   reduce        C  ratio   nearest        C  ratio  nearest:reduce");
    }
    sets.iter().for_each(|s| measure(s, runs));
    wide_sets.iter().for_each(|s| measure(s, runs));
    let names: Vec<&str> = catalogues::NAMES
        .into_iter()
        .filter(|n| is_wanted(n, "catalogues"))
        .collect();
    if !names.is_empty() {
        catalogues::print_heading();
    }
    let runs = runs.min(MOST_CATALOGUE_RUNS);
    names
        .iter()
        .for_each(|name| catalogues::measure(name, runs));
    let moved: Vec<&str> = catalogues::MOVED
        .into_iter()
        .filter(|n| is_wanted(n, "catalogues"))
        .collect();
    if !moved.is_empty() {
        catalogues::print_heading_of_moves();
    }
    moved
        .iter()
        .for_each(|name| catalogues::measure_moves(name, runs));
}

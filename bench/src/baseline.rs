//! Hand-written C of the same steps (`baseline/own.h`), with its sets of inputs, and catalogues with the same checks. There is one for
//! vectors of four numbers and one for vectors of eight.

/// A basis of d vectors, and a target, all of W numbers; unused places are 0.
#[repr(C)]
#[derive(Clone, Copy, Debug)]
pub struct Input<const W: usize> {
    pub basis: [[i64; W]; 4],
    pub target: [i64; W],
}

/// A reduction's answer.
#[repr(C)]
#[derive(Clone, Copy)]
pub struct Answer<const W: usize> {
    pub vectors: [[i64; W]; 4],
    pub u: [[i64; 4]; 4],
    pub v: [[i64; 4]; 4],
    pub squares: [i64; 4],
    pub passes: i64,
}

/// The answer with a nearest vector.
#[derive(Clone, Copy, Debug, PartialEq, Eq)]
pub struct Nearest<const W: usize> {
    pub square: i64,
    pub coefficients: [i64; 4],
    pub vector: [i64; W],
}

impl<const W: usize> Default for Input<W> {
    fn default() -> Input<W> {
        Input {
            basis: [[0; W]; 4],
            target: [0; W],
        }
    }
}

impl<const W: usize> Default for Answer<W> {
    fn default() -> Answer<W> {
        Answer {
            vectors: [[0; W]; 4],
            u: [[0; 4]; 4],
            v: [[0; 4]; 4],
            squares: [0; 4],
            passes: 0,
        }
    }
}

impl<const W: usize> Default for Nearest<W> {
    fn default() -> Nearest<W> {
        Nearest {
            square: 0,
            coefficients: [0; 4],
            vector: [0; W],
        }
    }
}

type Fill<const W: usize> = unsafe extern "C" fn(i32, i64, u64, *mut Input<W>);
type Reduce<const W: usize> =
    unsafe extern "C" fn(i32, i32, *const [[i64; W]; 4], *mut Answer<W>) -> i32;
type Search<const W: usize> = unsafe extern "C" fn(
    i32,
    *const [[i64; W]; 4],
    *const [i64; W],
    *mut [i64; 4],
    *mut [i64; W],
) -> i64;

extern "C" {
    fn own_set(d: i32, n: i64, seed: u64, out: *mut Input<4>);
    fn own8_set(d: i32, n: i64, seed: u64, out: *mut Input<8>);
    fn own_far_set(d: i32, n: i64, seed: u64, out: *mut Input<4>);
    fn own_answer_size() -> usize;
    fn own8_answer_size() -> usize;
    fn own8_catalogue_size() -> usize;
    fn own_reduce(d: i32, m: i32, basis: *const [[i64; 4]; 4], answer: *mut Answer<4>) -> i32;
    fn own8_reduce(d: i32, m: i32, basis: *const [[i64; 8]; 4], answer: *mut Answer<8>) -> i32;
    fn own_reduce_full(d: i32, m: i32, basis: *const [[i64; 4]; 4], answer: *mut Answer<4>) -> i32;
    fn own8_reduce_full(d: i32, m: i32, basis: *const [[i64; 8]; 4], answer: *mut Answer<8>)
        -> i32;
    fn own_nearest(
        d: i32,
        basis: *const [[i64; 4]; 4],
        target: *const [i64; 4],
        coefficients: *mut [i64; 4],
        vector: *mut [i64; 4],
    ) -> i64;
    fn own8_nearest(
        d: i32,
        basis: *const [[i64; 8]; 4],
        target: *const [i64; 8],
        coefficients: *mut [i64; 4],
        vector: *mut [i64; 8],
    ) -> i64;
    fn own_read(bytes: *const u8, n: usize, catalogue: *mut u8) -> i32;
    fn own8_read(bytes: *const u8, n: usize, catalogue: *mut u8) -> i32;
    fn own_fold(bytes: *const u8, n: usize, out: *mut u8) -> usize;
    fn own_lookup(bytes: *const u8, n: usize, number: u32) -> u32;
    fn own_in_form(bytes: *const u8, n: usize, form: u32, out: *mut u8) -> usize;
}

/// The C of one width.
pub trait Baseline<const W: usize> {
    const FILL: Fill<W>;
    const REDUCE: Reduce<W>;
    const REDUCE_FULL: Reduce<W>;
    const NEAREST: Search<W>;
}

/// Vectors of up to four coordinates.
pub struct Narrow;

impl Baseline<4> for Narrow {
    const FILL: Fill<4> = own_set;
    const REDUCE: Reduce<4> = own_reduce;
    const REDUCE_FULL: Reduce<4> = own_reduce_full;
    const NEAREST: Search<4> = own_nearest;
}

/// Vectors of up to eight coordinates.
pub struct Wide;

impl Baseline<8> for Wide {
    const FILL: Fill<8> = own8_set;
    const REDUCE: Reduce<8> = own8_reduce;
    const REDUCE_FULL: Reduce<8> = own8_reduce_full;
    const NEAREST: Search<8> = own8_nearest;
}

fn filled<const W: usize>(fill: Fill<W>, d: usize, n: usize, seed: u64) -> Vec<Input<W>> {
    let mut inputs = vec![Input::default(); n];
    unsafe { fill(d as i32, n as i64, seed, inputs.as_mut_ptr()) };
    inputs
}

/// The inputs of a set: thirds of random vectors, scrambled small lattices and generators.
pub fn set<const W: usize, B: Baseline<W>>(d: usize, n: usize, seed: u64) -> Vec<Input<W>> {
    filled(B::FILL, d, n, seed)
}

/// Short vectors and far targets.
pub fn far_set(d: usize, n: usize, seed: u64) -> Vec<Input<4>> {
    filled(own_far_set, d, n, seed)
}

/// The reduced vectors with U, V, squared lengths and passes.
pub fn reduce<const W: usize, B: Baseline<W>>(
    d: usize,
    m: usize,
    input: &Input<W>,
    answer: &mut Answer<W>,
) {
    unsafe { (B::REDUCE_FULL)(d as i32, m as i32, &input.basis, answer) };
}

/// The vector nearest to the target; the basis is reduced without U and V, which nobody asks for there.
pub fn nearest<const W: usize, B: Baseline<W>>(d: usize, m: usize, input: &Input<W>) -> Nearest<W> {
    let (mut answer, mut r) = (Answer::default(), Nearest::default());
    unsafe {
        (B::REDUCE)(d as i32, m as i32, &input.basis, &mut answer);
        r.square = (B::NEAREST)(
            d as i32,
            &answer.vectors,
            &input.target,
            &mut r.coefficients,
            &mut r.vector,
        );
    }
    r
}

/// Room for a catalogue that the C reads.
pub fn room() -> Vec<u8> {
    unsafe {
        assert_eq!(own_answer_size(), size_of::<Answer<4>>());
        assert_eq!(own8_answer_size(), size_of::<Answer<8>>());
        vec![0; own8_catalogue_size()]
    }
}

/// The refusal of a catalogue, 0 for none. What has more than four coordinates is read by the C of eight.
pub fn read(bytes: &[u8], room: &mut [u8]) -> i32 {
    let (at, n, room) = (bytes.as_ptr(), bytes.len(), room.as_mut_ptr());
    match unsafe { own_read(at, n, room) } {
        2 => unsafe { own8_read(at, n, room) },
        refusal => refusal,
    }
}

/// How many bytes of the folded catalogue were written. The output must be long enough for any.
pub fn fold(bytes: &[u8], out: &mut [u8]) -> usize {
    unsafe { own_fold(bytes.as_ptr(), bytes.len(), out.as_mut_ptr()) }
}

/// The standing number, 0 for none.
pub fn lookup(bytes: &[u8], number: u32) -> u32 {
    unsafe { own_lookup(bytes.as_ptr(), bytes.len(), number) }
}

/// How many bytes of the catalogue in the form whose heads begin with this kind of word were written, 0 where it is refused. The output must
/// be long enough for any.
pub fn moved(bytes: &[u8], form: u32, out: &mut [u8]) -> usize {
    unsafe { own_in_form(bytes.as_ptr(), bytes.len(), form, out.as_mut_ptr()) }
}

//! The functions of `include/raghymtos.h`, with slices for pointers and lengths. These declarations are not checked against the archive:
//! they are taken on trust, as the header is.

/// How many numbers a reduction's answer takes; the header gives their order.
pub const REDUCTION_NUMBERS: usize = 71;

/// How many numbers the answer with a nearest vector takes.
pub const NEAREST_NUMBERS: usize = 19;

/// How many numbers the answer of a membership takes.
pub const MEMBER_NUMBERS: usize = 3;

/// How many numbers the answer about a catalogue takes: the refusal, its place, and the length written or the standing number.
pub const ANSWER_NUMBERS: usize = 3;

/// How many numbers the answer of a separation takes: the refusal, its place, the case, the position and the squared distance.
pub const SEPARATION_NUMBERS: usize = 5;

extern "C" {
    fn raghymtos_reduce(
        numbers: *const i64,
        count: usize,
        d: usize,
        m: usize,
        out: *mut i64,
        room: usize,
    ) -> bool;

    fn raghymtos_nearest(
        numbers: *const i64,
        count: usize,
        d: usize,
        m: usize,
        target: *const i64,
        target_count: usize,
        out: *mut i64,
        room: usize,
    ) -> bool;

    fn raghymtos_member(
        numbers: *const i64,
        count: usize,
        d: usize,
        m: usize,
        target: *const i64,
        target_count: usize,
        out: *mut i64,
        room: usize,
    ) -> bool;

    fn raghymtos_write_out(
        bytes: *const u8,
        count: usize,
        out: *mut u8,
        room: usize,
        answer: *mut i64,
        answer_room: usize,
    ) -> bool;

    fn raghymtos_fold(
        bytes: *const u8,
        count: usize,
        out: *mut u8,
        room: usize,
        answer: *mut i64,
        answer_room: usize,
    ) -> bool;

    fn raghymtos_new_form(
        bytes: *const u8,
        count: usize,
        out: *mut u8,
        room: usize,
        answer: *mut i64,
        answer_room: usize,
    ) -> bool;

    fn raghymtos_old_form(
        bytes: *const u8,
        count: usize,
        out: *mut u8,
        room: usize,
        answer: *mut i64,
        answer_room: usize,
    ) -> bool;

    fn raghymtos_list(
        bytes: *const u8,
        count: usize,
        out: *mut u8,
        room: usize,
        answer: *mut i64,
        answer_room: usize,
    ) -> bool;

    fn raghymtos_lookup(
        bytes: *const u8,
        count: usize,
        number: u32,
        answer: *mut i64,
        answer_room: usize,
    ) -> bool;

    fn raghymtos_separate(
        bytes: *const u8,
        count: usize,
        first: u32,
        second: u32,
        answer: *mut i64,
        answer_room: usize,
    ) -> bool;
}

// Slices are never null, are aligned and do not overlap where one is `&mut`: all that the header asks for.

/// Writes the answer of a reduction to the first 71 numbers of `out`. A shorter `out` is left as it is, and false is given.
pub fn reduce(numbers: &[i64], d: usize, m: usize, out: &mut [i64]) -> bool {
    unsafe {
        raghymtos_reduce(
            numbers.as_ptr(),
            numbers.len(),
            d,
            m,
            out.as_mut_ptr(),
            out.len(),
        )
    }
}

/// Writes the answer with the nearest vector to the first 19 numbers of `out`. A shorter `out` is left as it is, and false is given.
pub fn nearest(numbers: &[i64], d: usize, m: usize, target: &[i64], out: &mut [i64]) -> bool {
    unsafe {
        raghymtos_nearest(
            numbers.as_ptr(),
            numbers.len(),
            d,
            m,
            target.as_ptr(),
            target.len(),
            out.as_mut_ptr(),
            out.len(),
        )
    }
}

/// Writes the answer of a membership to the first 3 numbers of `out`. A shorter `out` is left as it is, and false is given.
pub fn member(numbers: &[i64], d: usize, m: usize, target: &[i64], out: &mut [i64]) -> bool {
    unsafe {
        raghymtos_member(
            numbers.as_ptr(),
            numbers.len(),
            d,
            m,
            target.as_ptr(),
            target.len(),
            out.as_mut_ptr(),
            out.len(),
        )
    }
}

/// Writes a catalogue's entries to `out`, unfolded, and the answer to the first 3 numbers of `answer`. A shorter `answer` is left as it
/// is, and so is `out`, and false is given.
pub fn write_out(bytes: &[u8], out: &mut [u8], answer: &mut [i64]) -> bool {
    unsafe {
        raghymtos_write_out(
            bytes.as_ptr(),
            bytes.len(),
            out.as_mut_ptr(),
            out.len(),
            answer.as_mut_ptr(),
            answer.len(),
        )
    }
}

/// Writes the folded catalogue to `out`, and the answer to the first 3 numbers of `answer`. A shorter `answer` is left as it is, and so
/// is `out`, and false is given.
pub fn fold(bytes: &[u8], out: &mut [u8], answer: &mut [i64]) -> bool {
    unsafe {
        raghymtos_fold(
            bytes.as_ptr(),
            bytes.len(),
            out.as_mut_ptr(),
            out.len(),
            answer.as_mut_ptr(),
            answer.len(),
        )
    }
}

/// Writes a catalogue in the old form to `out` in the new form, and the answer to the first 3 numbers of `answer`. A shorter `answer` is
/// left as it is, and so is `out`, and false is given.
pub fn new_form(bytes: &[u8], out: &mut [u8], answer: &mut [i64]) -> bool {
    unsafe {
        raghymtos_new_form(
            bytes.as_ptr(),
            bytes.len(),
            out.as_mut_ptr(),
            out.len(),
            answer.as_mut_ptr(),
            answer.len(),
        )
    }
}

/// Writes a catalogue in the new form to `out` in the old form, and the answer to the first 3 numbers of `answer`. A shorter `answer` is
/// left as it is, and so is `out`, and false is given.
pub fn old_form(bytes: &[u8], out: &mut [u8], answer: &mut [i64]) -> bool {
    unsafe {
        raghymtos_old_form(
            bytes.as_ptr(),
            bytes.len(),
            out.as_mut_ptr(),
            out.len(),
            answer.as_mut_ptr(),
            answer.len(),
        )
    }
}

/// Writes the listing to `out`, and the answer to the first 3 numbers of `answer`. A shorter `answer` is left as it is, and so is `out`,
/// and false is given.
pub fn list(bytes: &[u8], out: &mut [u8], answer: &mut [i64]) -> bool {
    unsafe {
        raghymtos_list(
            bytes.as_ptr(),
            bytes.len(),
            out.as_mut_ptr(),
            out.len(),
            answer.as_mut_ptr(),
            answer.len(),
        )
    }
}

/// Writes the answer of a lookup to the first 3 numbers of `answer`. A shorter `answer` is left as it is, and false is given.
pub fn lookup(bytes: &[u8], number: u32, answer: &mut [i64]) -> bool {
    unsafe {
        raghymtos_lookup(
            bytes.as_ptr(),
            bytes.len(),
            number,
            answer.as_mut_ptr(),
            answer.len(),
        )
    }
}

/// Writes the answer of a separation to the first 5 numbers of `answer`. A shorter `answer` is left as it is, and false is given.
pub fn separate(bytes: &[u8], first: u32, second: u32, answer: &mut [i64]) -> bool {
    unsafe {
        raghymtos_separate(
            bytes.as_ptr(),
            bytes.len(),
            first,
            second,
            answer.as_mut_ptr(),
            answer.len(),
        )
    }
}

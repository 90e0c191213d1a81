//! The library for Rust callers: each function of `hoengtila.h` with slices in the place of a pointer and a length. Nothing is refused
//! here: any numbers and any lengths go through, and the library's answer comes back. The header has the table of the refusals, and says
//! of each function what it takes and gives.
//!
//! ```
//! use hoengtila::{block_inverse, Shape};
//!
//! let shape = Shape::new(4, 4, 1, 1, 10); // 4 by 4, DST-VII both ways, 10 bits
//! let mut coefficients = [0; 16];
//! coefficients[0] = 64;
//! let mut residuals = [0; 16];
//! let answer = block_inverse(shape, &coefficients, &mut residuals);
//! assert_eq!(answer.number, 0); // not refused
//! assert_eq!(residuals, [0, 1, 1, 1, 1, 2, 2, 2, 1, 2, 3, 3, 1, 2, 3, 3]);
//! ```
//!
//! A decoder calls [`transform_block_inverse`]. No function has a state or allocates, so any number of threads may call them.
//!
//! `build.rs` finds the library by `HOENGTILA_ARCHIVE`, the folder of `libhoengtila.a`, else by pkg-config. Each function is `#[inline]`, so
//! that a program that calls none of them needs no archive.

/// The version of this crate and of the library that it is for: 10000 times the first number, 100 times the second, and the third.
pub const VERSION: u32 = 301;

/// What a block is: its sides, a kind for each direction (0 DCT-II, 1 DST-VII, 2 DCT-VIII), its bit depth, and how many
/// columns and rows are kept.
#[repr(C)]
#[derive(Clone, Copy, Debug, Default, PartialEq, Eq)]
pub struct Shape {
    pub width: u32,
    pub height: u32,
    pub horizontal: u32,
    pub vertical: u32,
    pub depth: u32,
    pub columns: u32,
    pub rows: u32,
}

impl Shape {
    /// A shape that keeps the most columns and rows that it can.
    #[inline]
    pub fn new(width: u32, height: u32, horizontal: u32, vertical: u32, depth: u32) -> Shape {
        unsafe { c::hoengtila_shape_of(width, height, horizontal, vertical, depth) }
    }

    /// The same with other kept numbers.
    pub fn keeping(self, columns: u32, rows: u32) -> Shape {
        Shape {
            columns,
            rows,
            ..self
        }
    }
}

/// What a transform block is: its sides, a kind for each direction, its bit depth, the extended-precision switch (0 off, any other
/// number on), how many columns and rows are read, and LFNST: its index (0 none), the set of its matrices, and whether its values go
/// column by column (1).
#[repr(C)]
#[derive(Clone, Copy, Debug, Default, PartialEq, Eq)]
pub struct TransformBlock {
    pub width: u32,
    pub height: u32,
    pub horizontal: u32,
    pub vertical: u32,
    pub depth: u32,
    pub extended: u32,
    pub columns: u32,
    pub rows: u32,
    pub lfnst: u32,
    pub set: u32,
    pub transposed: u32,
}

impl TransformBlock {
    /// A block that reads the most that is allowed, with the switch off and no LFNST.
    #[inline]
    pub fn new(
        width: u32,
        height: u32,
        horizontal: u32,
        vertical: u32,
        depth: u32,
    ) -> TransformBlock {
        unsafe { c::hoengtila_transform_block_of(width, height, horizontal, vertical, depth) }
    }

    /// The same with fewer columns and rows.
    pub fn reading(self, columns: u32, rows: u32) -> TransformBlock {
        TransformBlock {
            columns,
            rows,
            ..self
        }
    }

    /// The same with the extended-precision switch as it is told.
    pub fn extended(self, on: bool) -> TransformBlock {
        TransformBlock {
            extended: u32::from(on),
            ..self
        }
    }

    /// The same with LFNST of this index, 1 or 2, and set. It asks for at most 4 columns and rows.
    pub fn lfnst(self, index: u32, set: u32, transposed: bool) -> TransformBlock {
        TransformBlock {
            lfnst: index,
            set,
            transposed: u32::from(transposed),
            ..self
        }
    }
}

/// What a call hands back beside its output: the number of the refusal or 0, its place, and the rail count.
#[repr(C)]
#[derive(Clone, Copy, Debug, Default, PartialEq, Eq)]
pub struct Answer {
    pub number: u32,
    pub place: u32,
    pub rails: u32,
}

/// What a call over two areas hands back: the number of the refusal or 0, its place, the rail count, and which area starts with the
/// residuals: 1 or 2, or 0 where the call was refused.
#[repr(C)]
#[derive(Clone, Copy, Debug, PartialEq, Eq)]
pub struct Thin {
    pub number: u32,
    pub place: u32,
    pub rails: u32,
    pub area: u32,
}

/// What a run of a list of steps hands back beside its output: the number of the refusal or 0, and how many multiplying
/// steps it took.
#[repr(C)]
#[derive(Clone, Copy, Debug, PartialEq, Eq)]
pub struct StepCount {
    pub number: u32,
    pub count: u32,
}

/// What is told of a list of steps, which has four numbers to a step.
#[repr(C)]
#[derive(Clone, Copy, Debug, PartialEq, Eq)]
pub struct Listed {
    pub number: u32,
    pub inputs: u32,
    pub cells: u32,
    pub steps: u32,
    pub outs: u32,
}

/// What writing a picture hands back: the number of the refusal or 0, and how long the picture is.
#[repr(C)]
#[derive(Clone, Copy, Debug, PartialEq, Eq)]
pub struct Written {
    pub number: u32,
    pub bytes: u32,
}

/// What reading a picture hands back: the number of the refusal or 0, and the sides that its header gives.
#[repr(C)]
#[derive(Clone, Copy, Debug, PartialEq, Eq)]
pub struct Picture {
    pub number: u32,
    pub width: u32,
    pub height: u32,
}

/// What is told of a residual: the number of the refusal or 0, its place, and the four parts, all over the same power of 2.
#[repr(C)]
#[derive(Clone, Copy, Debug, PartialEq, Eq)]
pub struct Parts {
    pub number: u32,
    pub place: u32,
    pub exact: i64,
    pub middle_roundings: i64,
    pub clippings: i64,
    pub last_rounding: i64,
}

/// What saving a broken block file hands back: the number of the refusal or 0, how many bytes the new file has, and how many
/// stretches were dropped.
#[repr(C)]
#[derive(Clone, Copy, Debug, PartialEq, Eq)]
pub struct Saved {
    pub number: u32,
    pub bytes: u32,
    pub stretches: u32,
}

// Nothing holds these lines to the header or to the Rattle source but the tests. One line each, as in the header.
#[rustfmt::skip]
mod c {
    use super::{Answer, Listed, Parts, Picture, Saved, Shape, StepCount, Thin, TransformBlock, Written};

    unsafe extern "C" {
        pub fn hoengtila_version() -> u32;
        pub fn hoengtila_shape_of(width: u32, height: u32, horizontal: u32, vertical: u32, depth: u32) -> Shape;
        pub fn hoengtila_line_forward(n: u32, kind: u32, x: *const i16, x_len: usize, y: *mut i32, y_len: usize) -> Answer;
        pub fn hoengtila_line_inverse(n: u32, kind: u32, x: *const i16, x_len: usize, y: *mut i32, y_len: usize) -> Answer;
        pub fn hoengtila_line_forward_product(n: u32, kind: u32, x: *const i16, x_len: usize, y: *mut i32, y_len: usize) -> Answer;
        pub fn hoengtila_line_inverse_product(n: u32, kind: u32, x: *const i16, x_len: usize, y: *mut i32, y_len: usize) -> Answer;
        pub fn hoengtila_line_forward_wrapped(n: u32, kind: u32, start: u32, order: *const u32, order_len: usize, x: *const i16, x_len: usize, y: *mut i32, y_len: usize) -> Answer;
        pub fn hoengtila_line_inverse_wrapped(n: u32, kind: u32, start: u32, order: *const u32, order_len: usize, x: *const i16, x_len: usize, y: *mut i32, y_len: usize) -> Answer;
        pub fn hoengtila_weight(kind: u32, n: u32, i: u32, j: u32) -> i32;
        pub fn hoengtila_stray(kind: u32, n: u32, j: u32) -> u32;
        pub fn hoengtila_block_inverse(shape: Shape, coefficients: *const i16, coefficients_len: usize, residuals: *mut i32, residuals_len: usize) -> Answer;
        pub fn hoengtila_block_forward(shape: Shape, residuals: *const i16, residuals_len: usize, coefficients: *mut i16, coefficients_len: usize) -> Answer;
        pub fn hoengtila_block_row(shapes: *const Shape, count: usize, answers: *mut Answer, coefficients: *const i16, coefficients_len: usize, residuals: *mut i32, residuals_len: usize) -> u32;
        pub fn hoengtila_block_inverse_long(shape: Shape, extended: u32, coefficients: *const i32, coefficients_len: usize, residuals: *mut i32, residuals_len: usize) -> Answer;
        pub fn hoengtila_block_inverse_thin(shape: Shape, coefficients: *const i16, coefficients_len: usize, first: *mut i32, first_len: usize, second: *mut i32, second_len: usize) -> Thin;
        pub fn hoengtila_transform_block_of(width: u32, height: u32, horizontal: u32, vertical: u32, depth: u32) -> TransformBlock;
        pub fn hoengtila_transform_block_inverse(block: TransformBlock, numbers: *mut i32, numbers_len: usize) -> Answer;
        pub fn hoengtila_block_why(shape: Shape, coefficients: *const i16, coefficients_len: usize, place: u32) -> Parts;
        pub fn hoengtila_block_why_long(shape: Shape, extended: u32, coefficients: *const i32, coefficients_len: usize, place: u32) -> Parts;
        pub fn hoengtila_report_clear(totals: *mut [u64; 578]);
        pub fn hoengtila_report_add(totals: *mut [u64; 578], shape: Shape, residuals: *const i16, residuals_len: usize) -> Answer;
        pub fn hoengtila_picture_write(width: u32, height: u32, residuals: *const i32, residuals_len: usize, file: *mut u8, file_len: usize) -> Written;
        pub fn hoengtila_picture_read(file: *const u8, file_len: usize, residuals: *mut i32, residuals_len: usize) -> Picture;
        pub fn hoengtila_salvage(file: *const u8, file_len: usize, out: *mut u8, out_len: usize, list: *mut u32, list_len: usize) -> Saved;
        pub fn hoengtila_steps_run(inputs: u32, cells: u32, steps: *const i32, steps_len: usize, outs: *const i32, outs_len: usize, x: *const i16, x_len: usize, y: *mut i32, y_len: usize) -> StepCount;
        pub fn hoengtila_steps_list(n: u32, steps: *mut i32, steps_len: usize, outs: *mut i32, outs_len: usize) -> Listed;
        pub fn hoengtila_steps_forward(n: u32, x: *const i16, x_len: usize, y: *mut i32, y_len: usize) -> StepCount;
    }
}

// SAFETY, for every call below: a slice's pointer is valid for its length, also where that is 0, and a `&mut` slice
// overlaps no other. The library owes the rest for any numbers.

/// A call of C: its numbers; then the slices that it reads; then those that it writes. A slice crosses as its pointer and its length.
macro_rules! call {
    (c::$function:ident($($number:expr),*; $($read:ident),*; $($written:ident),*)) => {
        unsafe {
            c::$function(
                $($number,)*
                $($read.as_ptr(), $read.len(),)*
                $($written.as_mut_ptr(), $written.len(),)*
            )
        }
    };
}

/// The version of the library that is linked, as [`VERSION`] has it.
///
/// ```
/// assert_eq!(hoengtila::version() / 100, hoengtila::VERSION / 100); // the same calls and structs
/// ```
#[inline]
pub fn version() -> u32 {
    unsafe { c::hoengtila_version() }
}

/// The weight of row `i` in column `j` at `n` points; 0 outside.
///
/// ```
/// use hoengtila::weight;
///
/// assert_eq!([0, 1, 2, 3].map(|j| weight(1, 4, 0, j)), [29, 55, 74, 84]); // the first row of DST-VII
/// assert_eq!(weight(1, 4, 0, 4), 0);
/// ```
#[inline]
pub fn weight(kind: u32, n: u32, i: u32, j: u32) -> i32 {
    unsafe { c::hoengtila_weight(kind, n, i, j) }
}

/// D(j): how many times the size of a line's numbers its round trip can stray at place j; 0 outside.
///
/// ```
/// assert_eq!([0, 1, 2, 3].map(|j| hoengtila::stray(0, 4, j)), [14; 4]);
/// ```
#[inline]
pub fn stray(kind: u32, n: u32, j: u32) -> u32 {
    unsafe { c::hoengtila_stray(kind, n, j) }
}

/// The forward line of `n` points, by the fast path: exact sums, with no shift.
///
/// ```
/// let mut sums = [0; 4];
/// let answer = hoengtila::line_forward(4, 0, &[1, 1, 1, 1], &mut sums);
/// assert_eq!((answer.number, sums), (0, [256, 0, 0, 0]));
/// ```
#[inline]
pub fn line_forward(n: u32, kind: u32, x: &[i16], y: &mut [i32]) -> Answer {
    call!(c::hoengtila_line_forward(n, kind; x; y))
}

/// The inverse line of `n` points, by the fast path: exact sums, with no shift.
///
/// ```
/// let mut sums = [0; 4];
/// let answer = hoengtila::line_inverse(4, 1, &[1, 0, 0, 0], &mut sums);
/// assert_eq!((answer.number, sums), (0, [29, 55, 74, 84]));
/// let short = hoengtila::line_inverse(4, 1, &[1, 0, 0], &mut sums);
/// assert_eq!(short.number, 6); // the input has another length
/// ```
#[inline]
pub fn line_inverse(n: u32, kind: u32, x: &[i16], y: &mut [i32]) -> Answer {
    call!(c::hoengtila_line_inverse(n, kind; x; y))
}

/// The forward line of `n` points, by the full matrix product: what [`line_forward`] gives.
#[inline]
pub fn line_forward_product(n: u32, kind: u32, x: &[i16], y: &mut [i32]) -> Answer {
    call!(c::hoengtila_line_forward_product(n, kind; x; y))
}

/// The inverse line of `n` points, by the full matrix product: what [`line_inverse`] gives.
#[inline]
pub fn line_inverse_product(n: u32, kind: u32, x: &[i16], y: &mut [i32]) -> Answer {
    call!(c::hoengtila_line_inverse_product(n, kind; x; y))
}

/// The forward line of `n` points by adders of 32 bits that wrap: its products in the order given, from the number `start`. Whatever
/// these are, it gives what [`line_forward`] gives.
///
/// ```
/// use hoengtila::{line_forward, line_forward_wrapped};
///
/// let (line, order) = ([7, -3, 0, 32767], [2, 0, 3, 1]);
/// let (mut wrapped, mut sums) = ([0; 4], [0; 4]);
/// assert_eq!(line_forward_wrapped(4, 1, u32::MAX, &order, &line, &mut wrapped).number, 0);
/// line_forward(4, 1, &line, &mut sums);
/// assert_eq!(wrapped, sums);
/// ```
#[inline]
pub fn line_forward_wrapped(
    n: u32,
    kind: u32,
    start: u32,
    order: &[u32],
    x: &[i16],
    y: &mut [i32],
) -> Answer {
    call!(c::hoengtila_line_forward_wrapped(n, kind, start; order, x; y))
}

/// The inverse line of `n` points by adders of 32 bits that wrap: its products in the order given, from the number `start`. Whatever
/// these are, it gives what [`line_inverse`] gives.
#[inline]
pub fn line_inverse_wrapped(
    n: u32,
    kind: u32,
    start: u32,
    order: &[u32],
    x: &[i16],
    y: &mut [i32],
) -> Answer {
    call!(c::hoengtila_line_inverse_wrapped(n, kind, start; order, x; y))
}

/// The residuals of a block of coefficients, which stand row by row. A coefficient other than 0 outside the kept part is refused (8).
///
/// ```
/// use hoengtila::{block_inverse, Shape};
///
/// let shape = Shape::new(4, 4, 0, 0, 10).keeping(1, 1);
/// let mut coefficients = [0; 16];
/// let mut residuals = [0; 16];
/// coefficients[0] = 64;
/// assert_eq!(block_inverse(shape, &coefficients, &mut residuals).number, 0);
/// assert_eq!(residuals, [2; 16]);
/// coefficients[5] = 1;
/// let answer = block_inverse(shape, &coefficients, &mut residuals);
/// assert_eq!((answer.number, answer.place), (8, 5));
/// ```
#[inline]
pub fn block_inverse(shape: Shape, coefficients: &[i16], residuals: &mut [i32]) -> Answer {
    call!(c::hoengtila_block_inverse(shape; coefficients; residuals))
}

/// The residuals of a block of long numbers; `extended` is the extended-precision switch.
///
/// ```
/// use hoengtila::{block_inverse_long, Shape};
///
/// let shape = Shape::new(4, 4, 0, 0, 16);
/// let mut coefficients = [0; 16];
/// coefficients[0] = 1 << 19;
/// let mut residuals = [0; 16];
/// assert_eq!(block_inverse_long(shape, true, &coefficients, &mut residuals).number, 0);
/// assert_eq!(residuals, [32768; 16]);
/// assert_eq!(block_inverse_long(shape, false, &coefficients, &mut residuals).number, 5); // 8 to 12 bits
/// ```
#[inline]
pub fn block_inverse_long(
    shape: Shape,
    extended: bool,
    coefficients: &[i32],
    residuals: &mut [i32],
) -> Answer {
    call!(c::hoengtila_block_inverse_long(shape, u32::from(extended); coefficients; residuals))
}

/// The residuals of a block of coefficients of which one side may be 1: at the start of the area that is told, of two.
///
/// ```
/// use hoengtila::{block_inverse_thin, Shape};
///
/// let shape = Shape::new(4, 1, 0, 0, 10);
/// let (mut first, mut second) = ([0; 4], [0; 4]);
/// let thin = block_inverse_thin(shape, &[64, 0, 0, 0], &mut first, &mut second);
/// assert_eq!((thin.number, thin.area, first), (0, 1, [2; 4]));
/// ```
#[inline]
pub fn block_inverse_thin(
    shape: Shape,
    coefficients: &[i16],
    first: &mut [i32],
    second: &mut [i32],
) -> Thin {
    call!(c::hoengtila_block_inverse_thin(shape; coefficients; first, second))
}

/// The residuals of a transform block in the place of its coefficients, which stand row by row with no stride. Sides are 1 to 64. What
/// stands beyond the columns and rows that are read counts as 0.
///
/// ```
/// use hoengtila::{transform_block_inverse, TransformBlock};
///
/// let block = TransformBlock::new(64, 64, 0, 0, 10).reading(1, 1);
/// let mut numbers = vec![0; 64 * 64];
/// numbers[0] = 64;
/// let answer = transform_block_inverse(block, &mut numbers);
/// assert_eq!((answer.number, answer.rails), (0, 0));
/// assert!(numbers.iter().all(|residual| *residual == 2));
/// ```
#[inline]
pub fn transform_block_inverse(block: TransformBlock, numbers: &mut [i32]) -> Answer {
    call!(c::hoengtila_transform_block_inverse(block;; numbers))
}

/// The coefficients of a block of residuals, which stand row by row.
///
/// ```
/// use hoengtila::{block_forward, Shape};
///
/// let mut coefficients = [0; 16];
/// let answer = block_forward(Shape::new(4, 4, 0, 0, 10), &[2; 16], &mut coefficients);
/// assert_eq!(answer.number, 0);
/// assert_eq!(coefficients, [64, 0, 0, 0, 0, 0, 0, 0, 0, 0, 0, 0, 0, 0, 0, 0]);
/// ```
#[inline]
pub fn block_forward(shape: Shape, residuals: &[i16], coefficients: &mut [i16]) -> Answer {
    call!(c::hoengtila_block_forward(shape; residuals; coefficients))
}

/// The residuals of a row of blocks, of which the first `count` shapes tell; an answer for each of them, or the number of
/// the whole call's refusal.
#[inline]
pub fn block_row(
    shapes: &[Shape; 64],
    count: usize,
    answers: &mut [Answer; 64],
    coefficients: &[i16],
    residuals: &mut [i32],
) -> u32 {
    let (shapes, answers) = (shapes.as_ptr(), answers.as_mut_ptr());
    call!(c::hoengtila_block_row(shapes, count, answers; coefficients; residuals))
}

/// The same of as many blocks as there are shapes, and an answer for each, as far as there is room for answers.
///
/// ```
/// use hoengtila::{blocks_inverse, Answer, Shape};
///
/// let shapes = [Shape::new(4, 4, 0, 0, 10), Shape::new(8, 4, 0, 0, 10)];
/// let mut answers = [Answer::default(); 2];
/// let (mut coefficients, mut residuals) = ([0; 48], [0; 48]);
/// coefficients[0] = 64;
/// assert_eq!(blocks_inverse(&shapes, &mut answers, &coefficients, &mut residuals), 0);
/// assert_eq!((residuals[15], residuals[16]), (2, 0)); // the second block starts at 16
/// ```
#[inline]
pub fn blocks_inverse(
    shapes: &[Shape],
    answers: &mut [Answer],
    coefficients: &[i16],
    residuals: &mut [i32],
) -> u32 {
    let count = shapes.len();
    let mut list = [Shape::default(); 64];
    for (to, from) in list.iter_mut().zip(shapes) {
        *to = *from;
    }
    let mut told = [Answer::default(); 64];
    let number = block_row(&list, count, &mut told, coefficients, residuals);
    if number == 0 {
        for (to, from) in answers.iter_mut().zip(&told[..count]) {
            *to = *from;
        }
    }
    number
}

/// The parts of the residual at a place of a block of coefficients: over 2^(27 - depth) they add up to it.
///
/// ```
/// use hoengtila::{block_why, Shape};
///
/// let mut coefficients = [0; 16];
/// coefficients[0] = 64;
/// let parts = block_why(Shape::new(4, 4, 1, 1, 10), &coefficients, 15);
/// let sum = parts.exact + parts.middle_roundings + parts.clippings + parts.last_rounding;
/// assert_eq!(sum, 3 << 17);
/// ```
#[inline]
pub fn block_why(shape: Shape, coefficients: &[i16], place: u32) -> Parts {
    let input = coefficients;
    unsafe { c::hoengtila_block_why(shape, input.as_ptr(), input.len(), place) }
}

/// The same of a block of long numbers; `extended` is the extended-precision switch.
#[inline]
pub fn block_why_long(shape: Shape, extended: bool, coefficients: &[i32], place: u32) -> Parts {
    let (input, switch) = (coefficients, u32::from(extended));
    unsafe { c::hoengtila_block_why_long(shape, switch, input.as_ptr(), input.len(), place) }
}

/// Runs a list of steps on `x`: four numbers to a step in `steps`, the output cells in `outs`.
#[inline]
pub fn steps_run(
    inputs: u32,
    cells: u32,
    steps: &[i32],
    outs: &[i32],
    x: &[i16],
    y: &mut [i32],
) -> StepCount {
    call!(c::hoengtila_steps_run(inputs, cells; steps, outs, x; y))
}

/// The forward DST-VII of `n` points as a list of steps, into buffers of its lengths: four numbers to a step.
///
/// ```
/// use hoengtila::{steps_list, steps_run};
///
/// let (mut steps, mut outs) = ([0; 72], [0; 4]);
/// let list = steps_list(4, &mut steps, &mut outs);
/// assert_eq!((list.number, list.steps), (0, 18));
/// let mut sums = [0; 4];
/// steps_run(list.inputs, list.cells, &steps, &outs, &[1, 0, 0, 0], &mut sums);
/// assert_eq!(sums, [29, 74, 84, 55]);
/// ```
#[inline]
pub fn steps_list(n: u32, steps: &mut [i32], outs: &mut [i32]) -> Listed {
    call!(c::hoengtila_steps_list(n;; steps, outs))
}

/// The forward DST-VII of `n` points by its list of steps.
///
/// ```
/// let mut sums = [0; 4];
/// let told = hoengtila::steps_forward(4, &[1, 0, 0, 0], &mut sums);
/// assert_eq!((told.number, told.count, sums), (0, 8, [29, 74, 84, 55]));
/// ```
#[inline]
pub fn steps_forward(n: u32, x: &[i16], y: &mut [i32]) -> StepCount {
    call!(c::hoengtila_steps_forward(n; x; y))
}

/// A block of residuals, which stand row by row, as a graymap at the start of `file`.
///
/// ```
/// use hoengtila::{picture_read, picture_write};
///
/// let (residuals, mut file) = ([-5; 16], [0; 15 + 2 * 16]);
/// let written = picture_write(4, 4, &residuals, &mut file);
/// assert_eq!(written.number, 0);
/// let mut again = [0; 16];
/// let picture = picture_read(&file[..written.bytes as usize], &mut again);
/// assert_eq!((picture.number, picture.width, again), (0, 4, residuals));
/// ```
#[inline]
pub fn picture_write(width: u32, height: u32, residuals: &[i32], file: &mut [u8]) -> Written {
    call!(c::hoengtila_picture_write(width, height; residuals; file))
}

/// The residuals of a graymap, row by row.
#[inline]
pub fn picture_read(file: &[u8], residuals: &mut [i32]) -> Picture {
    call!(c::hoengtila_picture_read(; file; residuals))
}

/// What can be saved of a broken block file, at the start of `out`; each dropped stretch, its offset and its length, at the start
/// of `list`, which has two numbers to a place.
///
/// ```
/// let file = [9, 9]; // no field
/// let (mut out, mut list) = ([0; 2], [0; 2048]);
/// let saved = hoengtila::salvage(&file, &mut out, &mut list);
/// assert_eq!((saved.number, saved.bytes, saved.stretches), (0, 0, 1));
/// assert_eq!(list[..2], [0, 2]); // all of it was dropped
/// ```
#[inline]
pub fn salvage(file: &[u8], out: &mut [u8], list: &mut [u32]) -> Saved {
    call!(c::hoengtila_salvage(; file; out, list))
}

/// Makes totals those of no blocks.
#[inline]
pub fn report_clear(totals: &mut [u64; 578]) {
    unsafe { c::hoengtila_report_clear(totals) }
}

/// Runs a block of residuals, which stand row by row, forward and back, and counts it in the totals.
///
/// ```
/// use hoengtila::{report_add, report_clear, Shape};
///
/// let mut totals = [0; 578];
/// report_clear(&mut totals);
/// assert_eq!(report_add(&mut totals, Shape::new(4, 4, 0, 0, 10), &[2; 16]).number, 0);
/// assert_eq!((totals[0], totals[577]), (1, 1)); // one block of 4 by 4, one in all
/// ```
#[inline]
pub fn report_add(totals: &mut [u64; 578], shape: Shape, residuals: &[i16]) -> Answer {
    call!(c::hoengtila_report_add(totals, shape; residuals;))
}

//! The order of refusals that the header gives each function: every set of them, on one small call.

use crate::calls::elements;
use hoengtila_harness::call::{Call, Path, What};
use hoengtila_harness::compare::Comparison;
use hoengtila_harness::header::{each_set, Set};
use hoengtila_harness::library::{Answer, Shape, TransformBlock};
use hoengtila_harness::long_call::LongCall;
use hoengtila_harness::row_call::RowCall;
use hoengtila_harness::step_call::{ForwardCall, ListCall, RunCall};
use hoengtila_harness::subject::Answered;
use hoengtila_harness::thin_call::ThinCall;
use hoengtila_harness::transform_call::{Shaped, TransformCall};
use hoengtila_harness::why_call::WhyCall;

/// How many numbers the block of `shape` has.
const AREA: usize = 32;

/// 8 by 4, of which 4 columns and 2 rows are kept; 1 to 5 and 20 each spoil a number of their own. No call takes a depth of 17.
fn shape(set: &Set) -> Shape {
    Shape {
        width: set.pick(1, 5, 8),
        height: set.pick(2, 5, 4),
        horizontal: set.pick(3, 3, 1),
        vertical: set.pick(4, 3, 2),
        depth: set.pick(5, 17, 10),
        columns: 4,
        rows: set.pick(20, 5, 2),
    }
}

/// Zeros, one short for 6; for 8 with a number outside the kept part, and for `large` with such a number inside it.
fn numbers(set: &Set, large: (u32, i32)) -> Vec<i32> {
    let mut numbers = vec![0; set.pick(6, AREA - 1, AREA)];
    numbers[7] = set.pick(8, 1, 0);
    numbers[0] = set.pick(large.0, large.1, 0);
    numbers
}

fn shorts(numbers: Vec<i32>) -> Vec<i16> {
    numbers.into_iter().map(|z| z as i16).collect()
}

/// An output, one too long for 7.
fn held(set: &Set, right: usize) -> Vec<i32> {
    vec![9; set.pick(7, right + 1, right)]
}

fn line(set: &Set, path: Path) -> Call {
    let (n, kind) = (set.pick(1, 5, 4), set.pick(3, 3, 1));
    let input = vec![5; set.pick(6, 3, 4)];
    Call::new(What::Line { path, n, kind }, input, held(set, 4))
}

fn wrapped(set: &Set, forward: bool) -> Call {
    let what = What::Wrapped {
        forward,
        n: set.pick(1, 5, 4),
        kind: set.pick(3, 3, 1),
        start: 7,
    };
    Call {
        what,
        order: vec![3, 1, set.pick(21, 3, 2), 0],
        ..line(set, Path::Forward)
    }
}

#[test]
fn orders_of_lines() {
    let mut c = Comparison::open("lines, refused in the header's order");
    let mut number = |call: Call| c.outcome(&call).number();
    each_set("line_forward", |set| number(line(set, Path::Forward)));
    each_set("line_inverse", |set| number(line(set, Path::Inverse)));
    each_set("line_forward_product", |set| {
        number(line(set, Path::ForwardProduct))
    });
    each_set("line_inverse_product", |set| {
        number(line(set, Path::InverseProduct))
    });
    each_set("line_forward_wrapped", |set| number(wrapped(set, true)));
    each_set("line_inverse_wrapped", |set| number(wrapped(set, false)));
    c.close(&[0, 1, 3, 6, 7, 21]);
}

#[test]
fn orders_of_blocks() {
    let mut c = Comparison::open("blocks, refused in the header's order");
    each_set("block_inverse", |set| {
        let input = shorts(numbers(set, (0, 0)));
        let call = Call::new(What::Inverse(shape(set)), input, held(set, AREA));
        c.outcome(&call).number()
    });
    each_set("block_forward", |set| {
        let input = shorts(numbers(set, (9, 1024)));
        let call = Call::new(What::Forward(shape(set)), input, held(set, AREA));
        c.outcome(&call).number()
    });
    c.close(&[0, 1, 2, 3, 4, 5, 6, 7, 8, 9, 20]);
}

#[test]
fn orders_of_other_blocks() {
    let mut c =
        Comparison::open("long numbers, thin blocks and parts, refused in the header's order");
    each_set("block_inverse_long", |set| {
        let call = LongCall {
            shape: shape(set),
            extended: 1,
            input: numbers(set, (27, i32::MIN)),
            held: held(set, AREA),
        };
        c.outcome(&call).number()
    });
    each_set("block_inverse_thin", |set| {
        let call = ThinCall {
            shape: shape(set),
            input: shorts(numbers(set, (0, 0))),
            first: vec![9; AREA],
            second: vec![9; set.pick(19, AREA - 1, AREA)],
        };
        c.outcome(&call).number()
    });
    let why = |set: &Set, extended: Option<u32>| WhyCall {
        shape: shape(set),
        extended,
        input: numbers(set, (27, i32::MAX)),
        place: set.pick(15, AREA as u32, 0),
    };
    each_set("block_why", |set| c.outcome(&why(set, None)).number());
    each_set("block_why_long", |set| {
        c.outcome(&why(set, Some(1))).number()
    });
    c.close(&[0, 1, 2, 3, 4, 5, 6, 7, 8, 15, 19, 20, 27]);
}

/// 8 by 4, of which 4 columns and 2 rows are read; for 30 the sides are 64 and 2, as far as 1 and 2 leave them; for 31 the set is 4. No
/// number spoils what another one spoils.
fn transform_block(set: &Set) -> TransformBlock {
    let shape = shape(set);
    TransformBlock {
        width: set.pick(1, 5, set.pick(30, 64, 8)),
        height: set.pick(2, 5, set.pick(30, 2, 4)),
        set: set.pick(31, 4, 3),
        ..TransformBlock::of(shape, 1)
    }
}

#[test]
fn orders_of_transform_blocks() {
    let mut c = Comparison::open("transform blocks, refused in the header's order");
    each_set("transform_block_inverse", |set| {
        let block = transform_block(set);
        let right = (block.width * block.height) as usize;
        let mut numbers = vec![0; set.pick(6, right - 1, right)];
        numbers[0] = set.pick(27, i32::MIN, 0);
        c.outcome(&TransformCall { block, numbers }).number()
    });
    c.close(&[0, 1, 2, 3, 4, 5, 6, 20, 27, 30, 31]);
}

#[test]
fn orders_of_rows() {
    let mut c = Comparison::open("rows of blocks, refused in the header's order");
    each_set("block_row", |set| {
        let block = Shape {
            width: 4,
            height: 4,
            horizontal: 1,
            vertical: 1,
            depth: 8,
            columns: 4,
            rows: 4,
        };
        let shapes = vec![block; set.pick(16, 65, 2)];
        let sum = shapes.len() * elements(&block);
        let call = RowCall {
            answers: vec![Answer::default(); shapes.len()],
            input: vec![1; set.pick(6, sum - 1, sum)],
            held: held(set, sum),
            shapes,
        };
        c.outcome(&call).number()
    });
    c.close(&[0, 6, 7, 16]);
}

/// A list of two steps, or of 2,050, over one input. The first step multiplies it into cell 1, the second subtracts that cell and meets
/// 28, if the cell `to` that it writes is outside, 17 and 29.
///
/// 17 and 29 are told apart by such a step alone, one that takes -2^31 from a cell that was not written: the library has 0 there, so
/// the result would be 2^31. Of any other step that reads such a cell the result would be 0, what the other cell holds, or that with
/// its sign changed, which fits 32 bits: 29 cannot apply beside 17, and which of the two is looked for first cannot be seen.
fn list(set: &Set, to: i32, cells: u32) -> RunCall {
    let steps = [
        [3, 1, 0, set.pick(29, -1 << 30, 1)],
        [1, to, set.pick(17, 2, 0), 1],
    ];
    RunCall {
        inputs: 1,
        cells,
        steps: steps.concat().repeat(set.pick(18, 1025, 1)),
        outs: vec![1],
        x: vec![2; set.pick(6, 2, 1)],
        held: held(set, 1),
    }
}

#[test]
fn orders_of_steps() {
    let mut c = Comparison::open("lists of steps, refused in the header's order");
    each_set("steps_run", |set| {
        c.outcome(&list(set, set.pick(28, 3, 1), 3)).number()
    });
    // 28 of more inputs than cells, which is looked for before any step
    each_set("steps_run", |set| {
        c.outcome(&list(set, 1, set.pick(28, 0, 3))).number()
    });
    each_set("steps_list", |set| {
        let call = ListCall {
            n: set.pick(1, 8, 4),
            steps: held(set, 72),
            outs: vec![9; 4],
        };
        c.outcome(&call).number()
    });
    each_set("steps_forward", |set| {
        let call = ForwardCall {
            n: set.pick(1, 8, 4),
            x: vec![2; set.pick(6, 3, 4)],
            held: held(set, 4),
        };
        c.outcome(&call).number()
    });
    c.close(&[0, 1, 6, 7, 17, 18, 28, 29]);
}

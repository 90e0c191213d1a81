//! Calls with random numbers in their outputs, and the shapes that they are made of.

use hoengtila_harness::call::{Call, Path, What};
use hoengtila_harness::direction::Direction::{self, Forward, Inverse};
use hoengtila_harness::library::Shape;
use hoengtila_harness::patterns::{keeping_any, SIXTEEN_BITS};
use hoengtila_harness::random::Random;
use hoengtila_harness::widths::{narrow, shape_of};

pub const SIZES: [u32; 4] = [4, 8, 16, 32];
pub const KINDS: [u32; 3] = [0, 1, 2];

/// What an output holds before a call: any numbers, so that one left untouched is hardly ever the right one.
pub fn held(random: &mut Random, count: usize) -> Vec<i32> {
    narrow(&random.numbers(count, i32::MIN.into(), i32::MAX.into()))
}

/// The same of 16 bits; an input too.
pub fn shorts(random: &mut Random, count: usize) -> Vec<i16> {
    let [low, high] = SIXTEEN_BITS;
    narrow(&random.numbers(count, low, high))
}

pub fn line_call(
    random: &mut Random,
    path: Path,
    [n, kind]: [u32; 2],
    x: &[i64],
    output: usize,
) -> Call {
    let held = held(random, output);
    Call::new(What::Line { path, n, kind }, narrow(x), held)
}

/// A line whose products are fed in that order to an adder that holds `start`.
pub fn wrapped_call(
    random: &mut Random,
    direction: Direction,
    [n, kind, start]: [u32; 3],
    order: &[u32],
    x: &[i64],
    output: usize,
) -> Call {
    let what = What::Wrapped {
        forward: direction == Forward,
        n,
        kind,
        start,
    };
    Call {
        order: order.to_vec(),
        ..Call::new(what, narrow(x), held(random, output))
    }
}

pub fn block_call(
    random: &mut Random,
    direction: Direction,
    shape: Shape,
    input: &[i64],
    output: usize,
) -> Call {
    let (what, held) = match direction {
        Forward => {
            let held = shorts(random, output).into_iter();
            (What::Forward(shape), held.map(i32::from).collect())
        }
        Inverse => (What::Inverse(shape), held(random, output)),
    };
    Call::new(what, narrow(input), held)
}

pub fn elements(shape: &Shape) -> usize {
    (shape.width * shape.height) as usize
}

/// Every pair of a width and a height.
pub fn sides() -> impl Iterator<Item = [u32; 2]> {
    SIZES.into_iter().flat_map(|w| SIZES.map(|h| [w, h]))
}

/// Every shape of these sides that keeps the most.
fn shapes_of_sides([width, height]: [u32; 2]) -> Vec<Shape> {
    let mut shapes = vec![];
    for horizontal in KINDS {
        for vertical in KINDS {
            let shape = |depth| shape_of([width, height, horizontal, vertical, depth]);
            shapes.extend((8..=12).map(shape));
        }
    }
    shapes
}

/// All 720 shapes that keep the most.
pub fn shapes() -> Vec<Shape> {
    sides().flat_map(shapes_of_sides).collect()
}

/// One shape for each pair of sides, and one that keeps any part: kinds and depths take turns.
pub fn shapes_in_turn(random: &mut Random) -> Vec<Shape> {
    let shape = |(k, sides)| {
        let most = shapes_of_sides(sides)[7 * k % 45];
        [most, keeping_any(random, &most)]
    };
    sides().enumerate().flat_map(shape).collect()
}

/// Every pair of sides with any kinds and every depth to `deepest`; every other shape keeps any part.
pub fn shapes_to(random: &mut Random, deepest: u32) -> Vec<Shape> {
    let mut all = vec![];
    for [w, h] in sides() {
        for depth in 8..=deepest {
            let kinds = [random.choose(&KINDS), random.choose(&KINDS)];
            let most = shape_of([w, h, kinds[0], kinds[1], depth]);
            all.extend([most, keeping_any(random, &most)]);
        }
    }
    all
}

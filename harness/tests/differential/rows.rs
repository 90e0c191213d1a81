//! Rows of blocks in one call: rows of good blocks, refused ones among them, and every refusal of the whole call.

use crate::calls::{shapes, SIZES};
use hoengtila_harness::call::{Call, Outcome, What};
use hoengtila_harness::compare::Comparison;
use hoengtila_harness::header::numbers;
use hoengtila_harness::library::{Answer, Shape};
use hoengtila_harness::model;
use hoengtila_harness::patterns::{clear_outside, keeping_any};
use hoengtila_harness::random::Random;
use hoengtila_harness::row_call::{RowCall, RowOutcome};
use hoengtila_harness::widths::{narrow, shape_numbers, shape_of};
use hoengtila_harness::wrong::{NO_DEPTH, NO_KIND, NO_SIZE};
use std::collections::BTreeMap;

/// What one test compares, and how often a block was handed back each number.
struct Rows {
    comparison: Comparison,
    met_of_blocks: BTreeMap<u32, usize>,
}

impl Rows {
    fn open(title: &'static str) -> Rows {
        Rows {
            comparison: Comparison::open(title),
            met_of_blocks: BTreeMap::new(),
        }
    }

    fn compare(&mut self, call: &RowCall) -> RowOutcome {
        let found = self.comparison.outcome(call);
        if found.number == 0 {
            for answer in &found.answers[..call.shapes.len()] {
                *self.met_of_blocks.entry(answer.number).or_default() += 1;
            }
        }
        found
    }

    /// "It equals the calls made one by one in order", each on its own stretch.
    fn compare_with_single_calls(&mut self, call: &RowCall, found: &RowOutcome) {
        let mut start = 0;
        let mut single = |shape: &Shape| {
            let own = start..start + span(shape);
            start = own.end;
            let (input, held) = (call.input[own.clone()].to_vec(), call.held[own].to_vec());
            self.comparison
                .other(&Call::new(What::Inverse(*shape), input, held))
        };
        let outcomes: Vec<Outcome> = call.shapes.iter().map(&mut single).collect();
        let answers: Vec<Answer> = outcomes.iter().map(|o| o.answer).collect();
        assert_eq!(answers, found.answers[..answers.len()]);
        let outputs: Vec<i32> = outcomes.into_iter().flat_map(|o| o.output).collect();
        assert_eq!(outputs, found.output);
    }

    /// Says how much there was, and that each of these numbers was met.
    fn close(self, numbers: &[u32], of_blocks: &[u32]) {
        self.comparison.close(numbers);
        assert_eq!(
            self.met_of_blocks.into_keys().collect::<Vec<_>>(),
            of_blocks
        );
    }
}

/// How long a block's stretch is.
fn span(shape: &Shape) -> usize {
    model::row::span(&(*shape).into())
}

fn sum(shapes: &[Shape]) -> usize {
    shapes.iter().map(span).sum()
}

/// Any shape of sides to `most`: every other one keeps the most, the others any part.
fn good(random: &mut Random, most: u32) -> Shape {
    let small: Vec<Shape> = shapes()
        .into_iter()
        .filter(|s| s.width <= most && s.height <= most)
        .collect();
    let shape = random.choose(&small);
    match random.once_in(2) {
        true => keeping_any(random, &shape),
        false => shape,
    }
}

/// A kept number that is none, where so many are the most.
fn none_kept(random: &mut Random, most: u32) -> u32 {
    random.choose(&[0, most + 1, 33, u32::MAX])
}

/// The same with one number that is none, or with two.
fn spoiled(random: &mut Random, mut shape: Shape) -> Shape {
    for _ in 0..=random.below(2) {
        let [width, height, horizontal, vertical, depth, ..] = shape_numbers(&shape);
        let most = shape_of([width, height, horizontal, vertical, depth]);
        match random.below(7) {
            0 => shape.width = random.choose(&NO_SIZE) as u32,
            1 => shape.height = random.choose(&NO_SIZE) as u32,
            2 => shape.horizontal = random.choose(&NO_KIND) as u32,
            3 => shape.vertical = random.choose(&NO_KIND) as u32,
            4 => shape.depth = random.choose(&NO_DEPTH) as u32,
            5 => shape.columns = none_kept(random, most.columns),
            _ => shape.rows = none_kept(random, most.rows),
        }
    }
    shape
}

/// Any shape of sides to `most`, spoiled once in so many times.
fn good_or_spoiled(random: &mut Random, most: u32, times: usize) -> Shape {
    let shape = good(random, most);
    match random.once_in(times) {
        true => spoiled(random, shape),
        false => shape,
    }
}

/// Coefficients of a block that is accepted: small ones, or such that middle values are clipped.
fn coefficients(random: &mut Random, shape: &Shape) -> Vec<i16> {
    let most = random.choose(&[255, 32767]);
    let mut numbers = random.numbers(span(shape), -most - 1, most);
    if !numbers.is_empty() {
        clear_outside(shape, &mut numbers);
    }
    narrow(&numbers)
}

/// The row of these shapes with these numbers, and random ones in its answers, of which there are some more, and its output.
fn row_of(random: &mut Random, shapes: Vec<Shape>, input: Vec<i16>, output: usize) -> RowCall {
    let mut any = || random.bits() as u32;
    let answer = |_| Answer {
        number: any(),
        place: any(),
        rails: any(),
    };
    let answers = (0..shapes.len() + 2).map(answer).collect();
    let held = (0..output).map(|_| random.bits() as i32).collect();
    RowCall {
        shapes,
        answers,
        input,
        held,
    }
}

fn row(random: &mut Random, shapes: Vec<Shape>) -> RowCall {
    let input: Vec<i16> = shapes
        .iter()
        .flat_map(|s| coefficients(random, s))
        .collect();
    let output = input.len();
    row_of(random, shapes, input, output)
}

/// Rows of every count, of blocks of any size; and the row of 64 of the largest.
#[test]
fn good_rows() {
    let mut c = Rows::open("rows of blocks that are accepted");
    for (count, most) in (0..=64).flat_map(|count| [(count, 8), (count, 32)]) {
        let shapes = (0..count)
            .map(|_| good(&mut c.comparison.random, most))
            .collect();
        let call = row(&mut c.comparison.random, shapes);
        let found = c.compare(&call);
        c.compare_with_single_calls(&call, &found);
    }
    let largest = shapes()
        .into_iter()
        .find(|s| s.width == 32 && s.height == 32);
    let call = row(
        &mut c.comparison.random,
        vec![largest.expect("32 by 32 is a shape"); 64],
    );
    c.compare(&call);
    c.close(&[0], &[0]);
}

/// Refused blocks among good ones, for each reason that a block can meet in a row: they keep their stretch, and the others
/// go on.
#[test]
fn refused_blocks_among_good_ones() {
    let mut c = Rows::open("rows with blocks that are refused");
    for _ in 0..400 {
        let count = c.comparison.random.between(1, 64) as usize;
        let times = c.comparison.random.choose(&[1, 2, 8]);
        let random = &mut c.comparison.random;
        let mut any = || {
            let most = random.choose(&SIZES);
            good_or_spoiled(random, most, times)
        };
        let shapes: Vec<Shape> = (0..count).map(|_| any()).collect();
        let mut call = row(&mut c.comparison.random, shapes);
        // 8: numbers anywhere, some of them outside a kept part
        for _ in 0..c.comparison.random.below(4).min(call.input.len()) {
            let place = c.comparison.random.below(call.input.len());
            call.input[place] = c.comparison.random.choose(&[1, -1, 32767, -32768]);
        }
        let found = c.compare(&call);
        c.compare_with_single_calls(&call, &found);
    }
    c.close(&[0], &[0, 1, 2, 3, 4, 5, 8, 20]);
}

/// The sum, shorter and longer ones, and one that would fit if shapes that 1 or 2 refuses counted.
fn lengths(shapes: &[Shape]) -> [usize; 7] {
    let right = sum(shapes);
    let elements = |s: &Shape| u64::from(s.width) * u64::from(s.height);
    let whole: u64 = shapes.iter().map(elements).sum();
    [
        right,
        right + 1,
        right.saturating_sub(1),
        0,
        2 * right,
        right + 16,
        whole.min(5000) as usize,
    ]
}

#[test]
fn wrong_sums() {
    let mut c = Rows::open("rows with buffers of other lengths");
    for _ in 0..4000 {
        let random = &mut c.comparison.random;
        let count = random.choose(&[0, 1, 2, 3, 7]);
        let mut any = || good_or_spoiled(random, 8, 3);
        let shapes: Vec<Shape> = (0..count).map(|_| any()).collect();
        let lengths = lengths(&shapes);
        let input = match random.once_in(2) {
            true => lengths[0],
            false => random.choose(&lengths),
        };
        let output = random.choose(&lengths);
        let numbers = random.numbers(input, -300, 300);
        let call = row_of(random, shapes, narrow(&numbers), output);
        c.compare(&call);
    }
    c.close(&[0, 6, 7], &[0, 1, 2, 3, 4, 5, 8, 20]);
}

/// 16 before everything else: 64 blocks and more, with the right lengths and with others.
#[test]
fn too_many_blocks() {
    let mut c = Rows::open("rows of 64 blocks and more");
    for count in [63, 64, 65, 66, 100, 126] {
        for (input, output) in [(0, 0), (1, 0), (0, 1), (1, 1)] {
            let shapes: Vec<Shape> = (0..count)
                .map(|_| good(&mut c.comparison.random, 4))
                .collect();
            let right = sum(&shapes);
            let numbers = c.comparison.random.numbers(right + input, -300, 300);
            let output = right + output;
            let call = row_of(&mut c.comparison.random, shapes, narrow(&numbers), output);
            c.compare(&call);
        }
    }
    c.close(&numbers(&["block_row"]), &[0, 8]);
}

//! Calls that are turned down: the number, the place, and the output as it was.

use crate::calls::{block_call, elements, line_call, shapes_in_turn, KINDS, SIZES};
use hoengtila_harness::call::{Call, PATHS};
use hoengtila_harness::compare::Comparison;
use hoengtila_harness::direction::Direction::{self, Forward, Inverse};
use hoengtila_harness::direction::DIRECTIONS;
use hoengtila_harness::header::numbers;
use hoengtila_harness::patterns::{block, clear_outside, is_kept, LAYOUTS};
use hoengtila_harness::random::Random;
use hoengtila_harness::wrong::{right_length, Wrong, NO_KIND, NO_SIZE};

/// Every set of the tests that a line can meet.
#[test]
fn refused_lines() {
    let mut c = Comparison::open("lines, refused for every set of reasons");
    for (bits, path) in (0..16).flat_map(|bits| PATHS.map(|path| (bits, path))) {
        for _ in 0..40 {
            let wrong = Wrong::among(&[1, 3, 6, 7], bits);
            let random = &mut c.random;
            let n = wrong.pick(random, 1, &[4, 8, 16, 32], &NO_SIZE);
            let kind = wrong.pick(random, 3, &[0, 1, 2], &NO_KIND);
            let right = if n <= 64 { n.max(1) } else { 4 };
            let input = wrong.length(random, 6, right);
            let output = wrong.length(random, 7, right);
            let x = random.numbers(input, -32768, 32767);
            let call = line_call(random, path, [n as u32, kind as u32], &x, output);
            c.add(call);
        }
    }
    c.close(&numbers(&["line_forward"]));
}

/// Every set of the tests that a block can meet.
#[test]
fn refused_blocks() {
    let mut c = Comparison::open("blocks, refused for every set of reasons");
    for (bits, direction) in (0..512).flat_map(|bits| DIRECTIONS.map(|d| (bits, d))) {
        for _ in 0..5 {
            let tests = [1, 2, 3, 4, 5, 20, 6, 7, direction.hunt()];
            let call = call_with(&mut c.random, direction, &Wrong::among(&tests, bits));
            c.add(call);
        }
    }
    c.close(&numbers(&["block_inverse", "block_forward"]));
}

fn call_with(random: &mut Random, direction: Direction, wrong: &Wrong) -> Call {
    let sides = wrong.sides(random);
    let shape = wrong.shape(random, sides, 12);
    let right = right_length(&shape);
    let input = wrong.length(random, 6, right);
    let output = wrong.length(random, 7, right);
    let mut numbers = random.numbers(input, -255, 255);
    if direction == Inverse && shape.width > 0 {
        clear_outside(&shape, &mut numbers);
    }
    let bad = |place: &usize| direction == Forward || shape.width > 0 && !is_kept(&shape, *place);
    let hunt = direction.hunt();
    wrong.spoil(
        random,
        hunt,
        &mut numbers,
        bad,
        &[-32768, 32767, -4096, 4096],
    );
    block_call(random, direction, shape, &numbers, output)
}

/// Each place once as the only bad one, with the smallest numbers that are bad.
#[test]
fn one_bad_number_at_each_place() {
    let mut c = Comparison::open("blocks with one bad number, at each place");
    for (shape, direction) in shapes_in_turn(&mut c.random)
        .iter()
        .flat_map(|s| DIRECTIONS.map(|d| (s, d)))
    {
        let [low, high] = direction.ends(shape.depth);
        for place in 0..elements(shape) {
            let mut input = block(&mut c.random, LAYOUTS[0], shape, [low, high]);
            let bad = match direction {
                Forward => [high + 1, low - 1, 32767, -32768],
                Inverse => [1, -1, 256, -32768],
            };
            if direction == Inverse {
                clear_outside(shape, &mut input);
            }
            input[place] = c.random.choose(&bad);
            let call = block_call(&mut c.random, direction, *shape, &input, elements(shape));
            c.add(call);
        }
    }
    c.close(&[0, 8, 9]);
}

/// Every pair of lengths of a line's buffers, from 0 to one too many.
#[test]
fn lengths_of_lines() {
    let mut c = Comparison::open("lines of every length, 0 to one too many");
    for (n, path) in SIZES.iter().flat_map(|n| PATHS.map(|path| (*n, path))) {
        let lengths = 0..=n as usize + 1;
        for (input, output) in lengths
            .clone()
            .flat_map(|a| lengths.clone().map(move |b| (a, b)))
        {
            let kind = c.random.choose(&KINDS);
            let x = c.random.numbers(input, -32768, 32767);
            let call = line_call(&mut c.random, path, [n, kind], &x, output);
            c.add(call);
        }
    }
    c.close(&[0, 6, 7]);
}

/// Each length of one of a block's buffers, from 0 to one too many, the other being right.
#[test]
fn lengths_of_blocks() {
    let mut c = Comparison::open("blocks of every length, 0 to one too many");
    for (shape, direction) in shapes_in_turn(&mut c.random)
        .iter()
        .flat_map(|s| DIRECTIONS.map(|d| (s, d)))
    {
        let right = elements(shape);
        for length in 0..=right + 1 {
            for (input, output) in [(length, right), (right, length), (length, length)] {
                let x = vec![0; input];
                let call = block_call(&mut c.random, direction, *shape, &x, output);
                c.add(call);
            }
        }
    }
    c.close(&[0, 6, 7]);
}

//! "Numbers on both sides": what document 01 itself says that calls give, in its own numbers and not the model's.

use hoengtila_harness::call::{Call, Outcome, Path, What};
use hoengtila_harness::compare::Comparison;
use hoengtila_harness::library::{Answer, Shape};
use hoengtila_harness::widths::shape_of;

fn shape(width: u32, height: u32, depth: u32) -> Shape {
    shape_of([width, height, 1, 1, depth])
}

/// What the library makes of a call whose output holds sevens.
fn run(c: &mut Comparison, what: What, input: &[i16]) -> Outcome {
    c.outcome(&Call::new(what, input.to_vec(), vec![7; input.len()]))
}

fn refused(number: u32, place: u32, numbers: usize) -> Outcome {
    let answer = Answer {
        number,
        place,
        rails: 0,
    };
    Outcome {
        answer,
        output: vec![7; numbers],
    }
}

/// Zeros but for some numbers.
fn zeros_but(count: usize, numbers: &[(usize, i16)]) -> Vec<i16> {
    let mut all = vec![0; count];
    for (place, number) in numbers {
        all[*place] = *number;
    }
    all
}

fn rails(c: &mut Comparison, input: &[i16]) -> u32 {
    let Outcome { answer, .. } = run(c, What::Inverse(shape(4, 4, 10)), input);
    assert_eq!((answer.number, answer.place), (0, 0));
    answer.rails
}

/// Items 1 and 2, and the same of kind 0.
fn lines(c: &mut Comparison) {
    for (kind, sums) in [
        (1, [242, 74, 36, 16]),
        (2, [242, -74, 36, -16]),
        (0, [256, 0, 0, 0]),
    ] {
        for path in [Path::Forward, Path::ForwardProduct] {
            let line = What::Line { path, n: 4, kind };
            assert_eq!(run(c, line, &[1; 4]).output, sums, "kind {kind}");
        }
    }
}

fn weights(c: &mut Comparison) {
    let table = [
        84, 74, 55, 29, 74, 0, -74, -74, 55, -74, -29, 84, 29, -74, 84, -55,
    ];
    for (place, weight) in (0..).zip(table) {
        let call = Call::weight(2, 4, place / 4, place % 4);
        assert_eq!(c.outcome(&call).output, [weight], "item 3");
    }
}

fn forward_blocks(c: &mut Comparison) {
    let forward = What::Forward(shape(4, 4, 8));
    assert_eq!(run(c, forward, &[255; 16]).output[0], 29168, "item 4");
    assert_eq!(run(c, forward, &[-255; 16]).output[0], -29168, "item 4");
    assert_eq!(run(c, forward, &[256; 16]), refused(9, 0, 16), "item 5");
}

fn rail_counts(c: &mut Comparison) {
    for (third, count) in [(21063, 0), (21064, 0), (21066, 1)] {
        let column = zeros_but(16, &[(4, 32767), (8, third)]);
        assert_eq!(rails(c, &column), count, "item 7, with {third}");
    }
    assert_eq!(rails(c, &[32767; 16]), 4, "item 8");
}

/// Item 8, and the same of kind 0 twice.
fn whole_case(c: &mut Comparison) {
    let corner = zeros_but(16, &[(0, 64)]);
    let whole = run(c, What::Inverse(shape(4, 4, 10)), &corner);
    let residuals = [0, 1, 1, 1, 1, 2, 2, 2, 1, 2, 3, 3, 1, 2, 3, 3];
    assert_eq!(whole.output, residuals, "item 8");
    let flat = run(c, What::Inverse(shape_of([4, 4, 0, 0, 10])), &corner);
    assert_eq!(flat.output, [2; 16], "kind 0 twice");
}

/// A 1 alone at a place: number 0, or that of the refusal, of which 8 has the place.
fn one_alone(c: &mut Comparison, shape: Shape, place: usize, number: u32) {
    let count = (shape.width * shape.height) as usize;
    let found = run(c, What::Inverse(shape), &zeros_but(count, &[(place, 1)]));
    if number == 0 {
        assert_eq!(found.answer.number, 0, "{shape:?}, place {place}");
    } else {
        let named = if number == 8 { place as u32 } else { 0 };
        assert_eq!(found, refused(number, named, count), "{shape:?}");
    }
}

/// Item 9; "All 32 columns or rows are kept in a direction of kind 0"; and kept numbers of the shape.
fn kept_parts(c: &mut Comparison) {
    let wide = shape(32, 4, 8);
    one_alone(c, wide, 15, 0);
    one_alone(c, wide, 16, 8);
    for ([horizontal, vertical], place, number) in [
        ([0, 0], 1023, 0),
        ([0, 1], 511, 0),
        ([0, 1], 512, 8),
        ([2, 0], 1007, 0),
        ([2, 0], 1008, 8),
    ] {
        let shape = shape_of([32, 32, horizontal, vertical, 10]);
        one_alone(c, shape, place, number);
    }
    for ([columns, rows], place, number) in [
        ([15, 4], 14, 0),
        ([15, 4], 15, 8),
        ([16, 1], 32, 8),
        ([1, 1], 0, 0),
        ([17, 4], 0, 20),
        ([16, 5], 0, 20),
        ([0, 4], 0, 20),
        ([16, 0], 0, 20),
    ] {
        one_alone(c, wide.keeping(columns, rows), place, number);
    }
}

fn several_reasons(c: &mut Comparison) {
    let shape = Shape {
        horizontal: 0,
        ..shape(5, 4, 7)
    };
    let turned_down = run(c, What::Inverse(shape), &[0; 20]);
    assert_eq!(turned_down, refused(1, 0, 20), "item 10");
}

#[test]
fn numbers_on_both_sides() {
    let mut c = Comparison::open("document 01's own numbers");
    lines(&mut c);
    weights(&mut c);
    forward_blocks(&mut c);
    rail_counts(&mut c);
    whole_case(&mut c);
    kept_parts(&mut c);
    several_reasons(&mut c);
    c.close(&[0, 1, 8, 9, 20]);
}

//! Why a residual is what it is: the four parts at every place, of both calls, with rails and without; that they add up to the
//! residual which the library's own inverse gives; and every set of refusals.

use crate::calls::{elements, shapes_to, sides, KINDS};
use hoengtila_harness::call::{Call, What};
use hoengtila_harness::compare::Comparison;
use hoengtila_harness::header::numbers;
use hoengtila_harness::library::{Parts, Shape};
use hoengtila_harness::long_call::LongCall;
use hoengtila_harness::model::long::{ends, last_shift};
use hoengtila_harness::patterns::{
    block, block_about_the_rails, clear_outside, is_kept, LAYOUTS, SIXTEEN_BITS,
};
use hoengtila_harness::random::Random;
use hoengtila_harness::why_call::WhyCall;
use hoengtila_harness::widths::{narrow, shape_of};
use hoengtila_harness::wrong::{right_length, Wrong};

/// No switch, and the switch as a caller may write it, with the deepest depth of each.
const SWITCHES: [(Option<u32>, u32); 4] = [
    (None, 12),
    (Some(0), 12),
    (Some(1), 16),
    (Some(u32::MAX), 16),
];

fn is_on(extended: Option<u32>) -> bool {
    extended.is_some_and(|switch| switch != 0)
}

/// The ends of what the call takes.
fn ends_of(shape: &Shape, extended: Option<u32>) -> [i64; 2] {
    ends(is_on(extended), shape.depth.into())
}

/// 7 + s: what the parts are put over, as a power of 2.
fn over(shape: &Shape, extended: Option<u32>) -> i64 {
    7 + last_shift(is_on(extended), shape.depth.into())
}

fn why_call(shape: Shape, extended: Option<u32>, c: &[i64], place: usize) -> WhyCall {
    WhyCall {
        shape,
        extended,
        input: narrow(c),
        place: place as u32,
    }
}

/// The residuals that the library's inverse gives, of the same numbers.
fn residuals(
    c: &mut Comparison,
    shape: Shape,
    extended: Option<u32>,
    input: &[i64],
) -> (u32, Vec<i32>) {
    let held = vec![0; elements(&shape)];
    let outcome = match extended {
        None => c.other(&Call::new(What::Inverse(shape), narrow(input), held)),
        Some(extended) => c.other(&LongCall {
            shape,
            extended,
            input: narrow(input),
            held,
        }),
    };
    assert_eq!(outcome.answer.number, 0);
    (outcome.answer.rails, outcome.output)
}

fn sum(parts: &Parts) -> i128 {
    [
        parts.exact,
        parts.middle_roundings,
        parts.clippings,
        parts.last_rounding,
    ]
    .map(i128::from)
    .iter()
    .sum()
}

/// "Put over 2^(27-d) the four add up to the residual exactly": at some places, the corners among them. How many parts of clipping
/// were not 0.
fn compare_places(c: &mut Comparison, shape: Shape, extended: Option<u32>, input: &[i64]) -> usize {
    let (rails, residuals) = residuals(c, shape, extended, input);
    let all = elements(&shape);
    let mut places: Vec<usize> = (0..6).map(|_| c.random.below(all)).collect();
    places.extend([0, shape.width as usize - 1, all - 1]);
    let mut clipped = 0;
    for place in places {
        let parts = c.outcome(&why_call(shape, extended, input, place));
        let whole = i128::from(residuals[place]) << over(&shape, extended);
        assert_eq!(sum(&parts), whole, "{shape:?} at {place}: {parts:?}");
        assert!(rails > 0 || parts.clippings == 0);
        clipped += usize::from(parts.clippings != 0);
    }
    clipped
}

#[test]
fn parts_of_residuals() {
    let mut c = Comparison::open("parts of a residual");
    let mut clipped = 0;
    for (extended, deepest) in SWITCHES {
        for (k, shape) in shapes_to(&mut c.random, deepest).into_iter().enumerate() {
            let layout = LAYOUTS[k % LAYOUTS.len()];
            let ends = ends_of(&shape, extended);
            let mut input = block(&mut c.random, layout, &shape, ends);
            clear_outside(&shape, &mut input);
            clipped += compare_places(&mut c, shape, extended, &input);
        }
    }
    assert!(clipped > 500);
    c.close(&[0]);
}

/// Coefficients whose middle values stand about an end of the range, and small ones, of which none is clipped.
#[test]
fn parts_about_the_rails() {
    let mut c = Comparison::open("parts of a residual about the rails");
    let (mut clipped, mut fair) = (0, 0);
    for (k, shape) in shapes_to(&mut c.random, 12).into_iter().enumerate() {
        let extended = [None, Some(0)][k % 2];
        let input = block_about_the_rails(&mut c.random, &shape);
        clipped += compare_places(&mut c, shape, extended, &input);
        let mut small = c.random.numbers(elements(&shape), -99, 99);
        clear_outside(&shape, &mut small);
        fair += usize::from(compare_places(&mut c, shape, extended, &small) == 0);
    }
    assert!(clipped > 100 && fair > 100);
    c.close(&[0]);
}

/// All places of a block of each size, and the first that is none.
#[test]
fn parts_at_every_place() {
    let mut c = Comparison::open("parts of a residual at every place");
    for (k, [w, h]) in sides().enumerate() {
        let (extended, _) = SWITCHES[k % 4];
        let shape = shape_of([w, h, KINDS[k % 3], KINDS[k / 3 % 3], 8 + k as u32 % 5]);
        let ends = ends_of(&shape, extended);
        let mut input = block(&mut c.random, LAYOUTS[0], &shape, ends);
        clear_outside(&shape, &mut input);
        for place in 0..=elements(&shape) {
            c.outcome(&why_call(shape, extended, &input, place));
        }
    }
    c.close(&[0, 15]);
}

/// With the switch off, numbers of 16 bits have the same parts by either call.
#[test]
fn parts_with_the_switch_off() {
    let mut c = Comparison::open("parts of a residual, the switch off beside 16 bits");
    for shape in shapes_to(&mut c.random, 12) {
        let mut input = block(&mut c.random, LAYOUTS[0], &shape, SIXTEEN_BITS);
        if !c.random.once_in(4) {
            clear_outside(&shape, &mut input);
        }
        let place = c.random.below(elements(&shape) + 1);
        let short = c.outcome(&why_call(shape, None, &input, place));
        assert_eq!(short, c.outcome(&why_call(shape, Some(0), &input, place)));
    }
    c.close(&[0, 8, 15]);
}

/// Every set of the tests that a question can meet: those of the inverse without 7, then 27 of the long numbers and 15.
#[test]
fn refused_questions() {
    let mut c = Comparison::open("parts of a residual, refused for every set of reasons");
    for (bits, switch) in (0..1024).flat_map(|bits| SWITCHES.map(|switch| (bits, switch))) {
        let wrong = Wrong::among(&[1, 2, 3, 4, 5, 20, 6, 8, 9, 7], bits);
        let call = call_with(&mut c.random, switch, &wrong);
        let parts = c.outcome(&call);
        assert!(parts.number == 0 || sum(&parts) == 0);
    }
    c.close(&numbers(&["block_why", "block_why_long"]));
}

/// 9 of the other table is 27 here, and 7 is 15.
fn call_with(
    random: &mut Random,
    (extended, deepest): (Option<u32>, u32),
    wrong: &Wrong,
) -> WhyCall {
    let sides = wrong.sides(random);
    let shape = wrong.shape(random, sides, deepest);
    let right = right_length(&shape);
    let mut numbers = wrong.coefficients(random, &shape, &[1, -1]);
    if shape.width > 0 && extended.is_some() {
        let [low, high] = ends_of(&shape, extended);
        let beyond = [low - 1, high + 1, i32::MIN.into(), i32::MAX.into()];
        let inside = |place: &usize| is_kept(&shape, *place);
        wrong.spoil(random, 9, &mut numbers, inside, &beyond);
    }
    let inside = random.between(0, right - 1);
    let beyond = [right, right + 1, 2 * right, 65_536, u32::MAX.into()];
    let place = wrong.pick(random, 7, &[inside, 0, right - 1], &beyond);
    why_call(shape, extended, &numbers, place as usize)
}

//! Blocks of long numbers: every depth of either switch with every layout of numbers, middle values about the ends of the
//! range, every set of refusals, and the switch off beside the other inverse.

use crate::calls::{elements, held, shapes_to, KINDS};
use hoengtila_harness::call::{Call, What};
use hoengtila_harness::compare::Comparison;
use hoengtila_harness::header::numbers;
use hoengtila_harness::library::Shape;
use hoengtila_harness::long_call::LongCall;
use hoengtila_harness::model::long::ends;
use hoengtila_harness::patterns::{block, clear_outside, is_kept, LAYOUTS, SIXTEEN_BITS};
use hoengtila_harness::random::Random;
use hoengtila_harness::widths::{narrow, shape_of};
use hoengtila_harness::wrong::{right_length, Wrong};

/// The switch as a caller may write it, and its deepest depth.
const SWITCHES: [(u32, u32); 4] = [(0, 12), (1, 16), (2, 16), (u32::MAX, 16)];

fn long_call(random: &mut Random, shape: Shape, extended: u32, c: &[i64], out: usize) -> LongCall {
    LongCall {
        shape,
        extended,
        input: narrow(c),
        held: held(random, out),
    }
}

fn ends_of(shape: &Shape, extended: u32) -> [i64; 2] {
    ends(extended != 0, shape.depth.into())
}

#[test]
fn long_blocks() {
    let mut c = Comparison::open("blocks of long numbers");
    let mut rails = 0;
    for (extended, deepest) in SWITCHES {
        for (k, shape) in shapes_to(&mut c.random, deepest).iter().enumerate() {
            let layout = LAYOUTS[k % LAYOUTS.len()];
            for ends in [ends_of(shape, extended), SIXTEEN_BITS] {
                let mut input = block(&mut c.random, layout, shape, ends);
                clear_outside(shape, &mut input);
                let call = long_call(&mut c.random, *shape, extended, &input, elements(shape));
                rails += c.outcome(&call).answer.rails;
            }
        }
    }
    assert!(rails > 1000);
    c.close(&[0]);
}

/// One column whose first two coefficients bring middle values to an end of the range, next to it and past it.
#[test]
fn long_blocks_about_the_ends() {
    let mut c = Comparison::open("blocks of long numbers about the ends of the range");
    let (mut rails, mut unaltered) = (0, 0);
    for round in 0..6000 {
        let (extended, deepest) = SWITCHES[round % 2];
        let depth = 8 + c.random.below((deepest - 7) as usize) as u32;
        let shape = shape_of([4, 4, c.random.choose(&KINDS), 1, depth]);
        let [low, high] = ends_of(&shape, extended);
        let mut input = vec![0; 16];
        let x = c.random.below(4);
        input[x + 4] = c.random.choose(&[low, high]);
        // 74 and 84 of DST-VII: some value of row 2 to 4 is then about an end
        let near = (high - high * 74 / 128) * 128 / c.random.choose(&[29, 55, 74, 84]);
        input[x + 8] = c.random.choose(&[-1, 1]) * (near + c.random.between(-4, 4)).clamp(0, high);
        let call = long_call(&mut c.random, shape, extended, &input, 16);
        let altered = c.outcome(&call).answer.rails;
        rails += altered;
        unaltered += usize::from(altered == 0);
    }
    assert!(rails > 100 && unaltered > 100);
    c.close(&[0]);
}

/// "With the switch off", numbers of 16 bits give what the other inverse gives.
#[test]
fn long_blocks_with_the_switch_off() {
    let mut c = Comparison::open("blocks of long numbers, beside the other inverse");
    for (k, shape) in shapes_to(&mut c.random, 12).iter().enumerate() {
        let layout = LAYOUTS[k % LAYOUTS.len()];
        let mut input = block(&mut c.random, layout, shape, SIXTEEN_BITS);
        if k % 3 != 0 {
            clear_outside(shape, &mut input);
        }
        let call = long_call(&mut c.random, *shape, 0, &input, elements(shape));
        let other = Call::new(What::Inverse(*shape), narrow(&input), call.held.clone());
        assert_eq!(c.outcome(&call), c.other(&other));
    }
    c.close(&[0, 8]);
}

/// Every set of the tests that a block of long numbers can meet.
#[test]
fn refused_long_blocks() {
    let mut c = Comparison::open("blocks of long numbers, refused for every set of reasons");
    for (bits, switch) in (0..1024).flat_map(|bits| SWITCHES.map(|switch| (bits, switch))) {
        let wrong = Wrong::among(&[1, 2, 3, 4, 5, 20, 6, 7, 8, 9], bits);
        let call = call_with(&mut c.random, switch, &wrong);
        c.outcome(&call);
    }
    c.close(&numbers(&["block_inverse_long"]));
}

/// The last test, 9 of the other table, is 27 here.
fn call_with(random: &mut Random, (extended, deepest): (u32, u32), wrong: &Wrong) -> LongCall {
    let sides = wrong.sides(random);
    let shape = wrong.shape(random, sides, deepest);
    let right = right_length(&shape);
    let output = wrong.length(random, 7, right);
    let mut numbers = wrong.coefficients(random, &shape, &[1, -1, i32::MIN.into()]);
    if shape.width > 0 {
        let [low, high] = ends_of(&shape, extended);
        let beyond = [low - 1, high + 1, i32::MIN.into(), i32::MAX.into()];
        let inside = |place: &usize| is_kept(&shape, *place);
        wrong.spoil(random, 9, &mut numbers, inside, &beyond);
    }
    long_call(random, shape, extended, &numbers, output)
}

/// Each place once with the least number that is beyond the range, at either end.
#[test]
fn one_number_beyond_the_range_at_each_place() {
    let mut c = Comparison::open("blocks of long numbers, one of them beyond the range");
    for (extended, deepest) in &SWITCHES[..2] {
        for shape in shapes_to(&mut c.random, *deepest).iter().step_by(7) {
            let [low, high] = ends_of(shape, *extended);
            for place in 0..elements(shape) {
                let mut input = block(&mut c.random, LAYOUTS[0], shape, [low, high]);
                clear_outside(shape, &mut input);
                input[place] = c.random.choose(&[low - 1, high + 1]);
                let call = long_call(&mut c.random, *shape, *extended, &input, elements(shape));
                c.outcome(&call);
            }
        }
    }
    c.close(&[8, 27]);
}

//! Blocks one sample wide or high, and the blocks of the inverse by the same call: every thin shape, both areas with numbers behind
//! that stay, the other inverse beside it, and every set of refusals.

use crate::calls::{elements, shapes, KINDS, SIZES};
use hoengtila_harness::call::{Call, What};
use hoengtila_harness::compare::Comparison;
use hoengtila_harness::header::numbers;
use hoengtila_harness::library::Shape;
use hoengtila_harness::patterns::{
    block, block_about_the_rails, clear_outside, keeping_any, line, LAYOUTS, PATTERNS, SIXTEEN_BITS,
};
use hoengtila_harness::random::Random;
use hoengtila_harness::thin_call::ThinCall;
use hoengtila_harness::widths::{narrow, shape_of};
use hoengtila_harness::wrong::{right_length, Wrong};

/// Each side of 1 with each other side that it may have.
const THIN: [[u32; 2]; 6] = [[1, 4], [1, 8], [1, 16], [4, 1], [8, 1], [16, 1]];

/// A call with random numbers in both areas, which are so much longer than the block.
fn call(random: &mut Random, shape: Shape, c: &[i64], longer: [usize; 2]) -> ThinCall {
    call_of(random, shape, c, longer.map(|more| elements(&shape) + more))
}

fn call_of(random: &mut Random, shape: Shape, c: &[i64], lengths: [usize; 2]) -> ThinCall {
    let [first, second] = lengths.map(|n| (0..n).map(|_| random.bits() as i32).collect());
    ThinCall {
        shape,
        input: narrow(c),
        first,
        second,
    }
}

/// How much longer than the block an area is: not at all, or some.
fn longer(random: &mut Random) -> [usize; 2] {
    [0, 1].map(|_| random.choose(&[0, 0, 1, 5, 100]))
}

/// Every thin shape with every pair of kinds and every depth.
fn thin_shapes() -> Vec<Shape> {
    let mut all = vec![];
    for [w, h] in THIN {
        for (x, y) in KINDS.iter().flat_map(|x| KINDS.map(|y| (*x, y))) {
            all.extend((8..=12).map(|d| shape_of([w, h, x, y, d])));
        }
    }
    all
}

/// The kind of the line that is worked, and how many points it has.
fn line_of(shape: &Shape) -> (u32, usize) {
    match shape.width {
        1 => (shape.vertical, shape.height as usize),
        n => (shape.horizontal, n as usize),
    }
}

/// Compared with the model; then that the second area stayed, that the kind of the side of 1 says nothing, and that a line on its side
/// is the same line.
fn compare_thin(c: &mut Comparison, shape: Shape, input: &[i64]) {
    let longer = longer(&mut c.random);
    let call = call(&mut c.random, shape, input, longer);
    let found = c.outcome(&call);
    assert_eq!(
        (found.told.number, found.told.rails, found.told.area),
        (0, 0, 1)
    );
    assert_eq!(found.second, call.second);
    let n = input.len();
    assert_eq!(found.first[n..], call.first[n..]);
    let other = with_another_kind(shape);
    for shape in [other, turned(other)] {
        let same = ThinCall {
            shape,
            ..call.clone()
        };
        assert_eq!(c.outcome(&same), found);
    }
}

/// The side of 1 has another kind.
fn with_another_kind(mut shape: Shape) -> Shape {
    let kind = match shape.width {
        1 => &mut shape.horizontal,
        _ => &mut shape.vertical,
    };
    *kind = (*kind + 1) % 3;
    shape
}

/// Columns and rows change places.
fn turned(shape: Shape) -> Shape {
    Shape {
        width: shape.height,
        height: shape.width,
        horizontal: shape.vertical,
        vertical: shape.horizontal,
        depth: shape.depth,
        columns: shape.rows,
        rows: shape.columns,
    }
}

#[test]
fn thin_blocks() {
    let mut c = Comparison::open("blocks one sample wide or high");
    for most in thin_shapes() {
        for shape in [most, keeping_any(&mut c.random, &most)] {
            for pattern in PATTERNS {
                let (kind, n) = line_of(&shape);
                let mut input = line(&mut c.random, pattern, kind, n, SIXTEEN_BITS);
                clear_outside(&shape, &mut input);
                compare_thin(&mut c, shape, &input);
            }
        }
    }
    c.close(&[0]);
}

/// One coefficient alone, at every place, about the numbers at which its residuals change.
#[test]
fn thin_blocks_about_half_a_level() {
    let mut c = Comparison::open("blocks one sample wide or high, about half a level");
    for shape in thin_shapes() {
        for place in 0..elements(&shape) {
            let weight = c.random.between(1, 90);
            let half = (1 << (20 - shape.depth)) / weight;
            let number = half * c.random.choose(&[1, -1, 3, -3]) + c.random.between(-1, 1);
            let mut input = vec![0; elements(&shape)];
            input[place] = number.clamp(-32768, 32767);
            compare_thin(&mut c, shape, &input);
        }
    }
    c.close(&[0]);
}

/// Two stages: the residuals and the rail count of the inverse, and the middle values in the first area, 0 in columns not kept.
fn compare_two(c: &mut Comparison, shape: Shape, input: &[i64]) -> u32 {
    let longer = longer(&mut c.random);
    let call = call(&mut c.random, shape, input, longer);
    let found = c.outcome(&call);
    let n = input.len();
    let held = call.second[..n].to_vec();
    let single = c.other(&Call::new(What::Inverse(shape), call.input.clone(), held));
    let answer = single.answer;
    assert_eq!(
        [found.told.number, found.told.place],
        [answer.number, answer.place]
    );
    assert_eq!(found.told.rails, answer.rails);
    assert_eq!(found.second[..n], single.output);
    assert_eq!(found.second[n..], call.second[n..]);
    assert_eq!(found.first[n..], call.first[n..]);
    if answer.number == 0 {
        let kept = |place: usize| place % (shape.width as usize) < shape.columns as usize;
        assert!((0..n).all(|place| kept(place) || found.first[place] == 0));
    }
    found.told.rails
}

#[test]
fn two_stages() {
    let mut c = Comparison::open("two stages over lent areas");
    let mut rails = 0;
    for (k, most) in shapes().into_iter().enumerate() {
        for shape in [most, keeping_any(&mut c.random, &most)] {
            let layout = LAYOUTS[k % LAYOUTS.len()];
            let mut input = block(&mut c.random, layout, &shape, SIXTEEN_BITS);
            if !c.random.once_in(9) {
                clear_outside(&shape, &mut input);
            }
            compare_two(&mut c, shape, &input);
            let about = block_about_the_rails(&mut c.random, &shape);
            rails += compare_two(&mut c, shape, &about);
        }
    }
    assert!(rails > 1000);
    c.close(&[0, 8]);
}

/// Every set of the tests that the call can meet, on shapes with a side of 1 and on others; both areas stay as they were.
#[test]
fn refused_thin_blocks() {
    let mut c = Comparison::open("blocks over lent areas, refused for every set of reasons");
    for (bits, thin) in (0..512).flat_map(|bits| [false, true, true].map(|thin| (bits, thin))) {
        for _ in 0..4 {
            let wrong = Wrong::among(&[1, 2, 3, 4, 5, 20, 6, 7, 8], bits);
            let call = call_with(&mut c.random, thin, &wrong);
            let found = c.outcome(&call);
            let stays = found.first == call.first && found.second == call.second;
            assert!(found.told.area != 0 || stays);
            assert_eq!(found.told.area == 0, found.told.number != 0);
        }
    }
    c.close(&numbers(&["block_inverse_thin"]));
}

/// Sides of which the first, the second or neither is refused.
fn sides(random: &mut Random, thin: bool, wrong: &Wrong) -> [u32; 2] {
    let [mut w, mut h] = match thin {
        true => random.choose(&THIN),
        false => [random.choose(&SIZES), random.choose(&SIZES)],
    };
    if wrong.applies[1] {
        w = random.choose(&[0, 2, 3, 5, 12, 64, 65_536, u32::MAX]);
    }
    if wrong.applies[2] {
        h = random.choose(&[0, 2, 3, 5, 12, 64, 65_536, u32::MAX]);
    }
    // a side of 1 beside one that is none, and beside 32 and 1
    if wrong.applies[1] && wrong.applies[2] && random.once_in(2) {
        [w, h] = random.choose(&[[1, 32], [32, 1], [1, 1], [1, 64], [64, 1], [1, 2], [2, 1]]);
    }
    [w, h]
}

/// 7 of the other table is 19 here: an area that is too short, or both.
fn call_with(random: &mut Random, thin: bool, wrong: &Wrong) -> ThinCall {
    let sides = sides(random, thin, wrong);
    let shape = wrong.shape(random, sides, 12);
    let right = right_length(&shape);
    let numbers = wrong.coefficients(random, &shape, &[1, -1, 32767, -32768]);
    let spared = random.below(3);
    let lengths = [0, 1].map(|k| {
        let short = wrong.applies[7] && k != spared;
        let right = right as usize;
        match short {
            true => random.choose(&[0, right / 2, right - 1]),
            false => right + random.choose(&[0, 0, 1, 7]),
        }
    });
    call_of(random, shape, &numbers, lengths)
}

/// Every pair of sides from 0 to 33, and that the sides of a refused call are told in their order.
#[test]
fn every_pair_of_sides() {
    let mut c = Comparison::open("blocks over lent areas, every pair of sides");
    for (w, h) in (0..=33).flat_map(|w| (0..=33).map(move |h| (w, h))) {
        let shape = shape_of([w, h, 1, 2, 9]);
        let input = vec![0; elements(&shape)];
        let call = call(&mut c.random, shape, &input, [0, 0]);
        let number = c.outcome(&call).told.number;
        match [w, h] {
            [1, 32] | [1, 1] => assert_eq!(number, 1),
            [32, 1] => assert_eq!(number, 2),
            [1, 4 | 8 | 16] | [4 | 8 | 16, 1] => assert_eq!(number, 0),
            _ => (),
        }
    }
    c.close(&[0, 1, 2]);
}

/// Every pair of lengths of the areas of a thin block, from 0 to one too many, and each length of its input.
#[test]
fn lengths_of_areas() {
    let mut c = Comparison::open("blocks over lent areas of every length");
    for [w, h] in THIN.into_iter().chain([[4, 4]]) {
        let shape = shape_of([w, h, 0, 1, 12]);
        let n = elements(&shape);
        let lengths = (0..=n + 1).flat_map(|a| (0..=n + 1).map(move |b| [a, b]));
        for lengths in lengths {
            let input = c.random.choose(&[n, n, n, n - 1, n + 1, 0]);
            let numbers = c.random.numbers(input, -32768, 32767);
            let call = call_of(&mut c.random, shape, &numbers, lengths);
            c.outcome(&call);
        }
    }
    c.close(&[0, 6, 19]);
}

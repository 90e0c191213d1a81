//! Transform blocks: every pair of sides with every kind, depth and switch, any part of it read, what is not read full of any
//! numbers; LFNST with every index, set and flag; middle values about the ends of the range, the other calls beside it, and every set of
//! refusals.

use crate::calls::{elements, held, KINDS};
use hoengtila_harness::call::{Call, Outcome, What};
use hoengtila_harness::compare::Comparison;
use hoengtila_harness::header::numbers;
use hoengtila_harness::lfnst::LowFrequency;
use hoengtila_harness::library::{Shape, TransformBlock};
use hoengtila_harness::long_call::LongCall;
use hoengtila_harness::model::long::ends;
use hoengtila_harness::patterns::{
    block, block_about, clear_outside, is_kept, keeping_any, Ends, LAYOUTS,
};
use hoengtila_harness::random::Random;
use hoengtila_harness::thin_call::ThinCall;
use hoengtila_harness::transform_call::{BlockOf, Shaped, TransformCall};
use hoengtila_harness::widths::{narrow, shape_of};
use hoengtila_harness::wrong::{right_length, Wrong, NO_KIND};

const SIDES: [u32; 7] = [1, 2, 4, 8, 16, 32, 64];

/// The switch as a caller may write it: off, and on.
const SWITCHES: [u32; 4] = [0, 1, 2, u32::MAX];

/// Every pair of sides, not both 1.
fn pairs() -> Vec<[u32; 2]> {
    let all = SIDES.iter().flat_map(|w| SIDES.map(|h| [*w, h]));
    all.filter(|pair| *pair != [1, 1]).collect()
}

/// The kinds that a side may have.
fn kinds(n: u32) -> &'static [u32] {
    match n {
        2 | 64 => &KINDS[..1],
        _ => &KINDS,
    }
}

/// Every pair of kinds that these sides may have.
fn kinds_of([w, h]: [u32; 2]) -> Vec<[u32; 2]> {
    let all = kinds(w)
        .iter()
        .flat_map(|x| kinds(h).iter().map(|y| [*x, *y]));
    all.collect()
}

/// A block of any kinds, of which any part is read.
fn any_block(random: &mut Random, [w, h]: [u32; 2], depth: u32, extended: u32) -> TransformBlock {
    let [x, y] = random.choose(&kinds_of([w, h]));
    let most = shape_of([w, h, x, y, depth]);
    TransformBlock::of(keeping_any(random, &most), extended)
}

/// Both ends of what is read and of middle values.
fn ends_of(block: &TransformBlock) -> Ends {
    ends(block.extended != 0, block.depth.into())
}

/// The shape that patterns are made for: the kind of a side of 1 has no weights.
fn pattern_shape(block: &TransformBlock) -> Shape {
    let kind = |kind, n| if n == 1 { 0 } else { kind };
    Shape {
        horizontal: kind(block.horizontal, block.width),
        vertical: kind(block.vertical, block.height),
        ..block.shape()
    }
}

/// Any numbers of 32 bits in every place that is not read.
fn spoil_unread(random: &mut Random, block: &TransformBlock, numbers: &mut [i64]) {
    let [low, high] = ends_of(block);
    for (place, number) in numbers.iter_mut().enumerate() {
        if !is_kept(&block.shape(), place) {
            let any = i64::from(random.bits() as i32);
            *number = random.choose(&[any, any, 1, low - 1, high + 1, i32::MIN.into()]);
        }
    }
}

fn call(block: TransformBlock, numbers: &[i64]) -> TransformCall {
    TransformCall {
        block,
        numbers: narrow(numbers),
    }
}

/// Compared with the model; then that the answer does not depend on what is not read.
fn compare(c: &mut Comparison, block: TransformBlock, numbers: &[i64]) -> Outcome {
    let (mut spoilt, mut cleared) = (numbers.to_vec(), numbers.to_vec());
    spoil_unread(&mut c.random, &block, &mut spoilt);
    clear_outside(&block.shape(), &mut cleared);
    let found = c.outcome(&call(block, &spoilt));
    assert_eq!(found.answer.number, 0);
    assert_eq!(c.other(&call(block, &cleared)), found);
    found
}

#[test]
fn transform_blocks() {
    let mut c = Comparison::open("transform blocks");
    let (mut rails, mut k) = (0, 0);
    for [w, h] in pairs() {
        for [x, y] in kinds_of([w, h]) {
            for (depth, on) in (8..=16).flat_map(|d| [(d, false), (d, true)]) {
                let extended = if on {
                    c.random.choose(&SWITCHES[1..])
                } else {
                    0
                };
                let most = shape_of([w, h, x, y, depth]);
                for shape in [most, keeping_any(&mut c.random, &most)] {
                    let block_of = TransformBlock::of(shape, extended);
                    let (layout, ends) = (LAYOUTS[k % LAYOUTS.len()], ends_of(&block_of));
                    let shape = pattern_shape(&block_of);
                    let numbers = block(&mut c.random, layout, &shape, ends);
                    rails += compare(&mut c, block_of, &numbers).answer.rails;
                    k += 1;
                }
            }
        }
    }
    assert!(rails > 1000);
    c.close(&[0]);
}

/// Every pair of sides that LFNST takes, 4 to 64, with every index, set and flag.
fn blocks_with_lfnst() -> Vec<TransformBlock> {
    let sides = pairs().into_iter().filter(|[w, h]| *w.min(h) >= 4);
    let lows = (1..=2).flat_map(|i| (0..4).flat_map(move |s| [false, true].map(|t| (i, s, t))));
    let block = |[w, h]: [u32; 2], (index, set, transposed)| {
        TransformBlock::of(shape_of([w, h, 0, 0, 8]).keeping(4, 4), 0).lfnst(index, set, transposed)
    };
    let of = |sides| lows.clone().map(move |low| block(sides, low));
    sides.flat_map(of).collect()
}

/// With every depth and switch, and 4 columns and rows or fewer; numbers of every layout, and the ends with the signs of a column of
/// the matrix, so that the stage clips.
#[test]
fn transform_blocks_with_lfnst() {
    let mut c = Comparison::open("transform blocks with LFNST");
    let (mut rails, mut k) = (0, 0);
    for block_of in blocks_with_lfnst() {
        for (depth, extended) in (8..=16).flat_map(|d| [(d, 0), (d, 1)]) {
            let [columns, rows] = [0, 1].map(|_| {
                let any = c.random.between(1, 4) as u32;
                c.random.choose(&[4, 4, any])
            });
            let block_of = TransformBlock {
                depth,
                extended,
                ..block_of.reading(columns, rows)
            };
            let (shape, ends) = (block_of.shape(), ends_of(&block_of));
            let numbers = match k % 3 {
                0 => lfnst_extremes(&mut c.random, &block_of, ends),
                _ => block(&mut c.random, LAYOUTS[k / 3 % LAYOUTS.len()], &shape, ends),
            };
            rails += compare(&mut c, block_of, &numbers).answer.rails;
            k += 1;
        }
    }
    assert!(rails > 1000);
    c.close(&[0]);
}

/// The ends of the range with the signs of a value's weights: what is read makes the largest sum that there is.
fn lfnst_extremes(random: &mut Random, block: &TransformBlock, [low, high]: Ends) -> Vec<i64> {
    let stage = LowFrequency {
        width: block.width as usize,
        height: block.height as usize,
        index: block.lfnst as usize,
        set: block.set as usize,
        transposed: block.transposed == 1,
        reach: 15,
    };
    let value = random.below(stage.values(|_, _| 0).len());
    let all = random.choose(&[1, -1]);
    let mut numbers = vec![0; elements(&block.shape())];
    for (x, y) in (0..4).flat_map(|x| (0..4).map(move |y| (x, y))) {
        let one = stage.values(|column, row| if (column, row) == (x, y) { 128 } else { 0 });
        let weight = one.values().nth(value).unwrap() * all;
        numbers[x + y * block.width as usize] = match weight.signum() {
            1 => high,
            -1 => low,
            _ => 0,
        };
    }
    numbers
}

/// One coefficient alone, at every place of the corner: with 4 columns and rows, and with no more than it needs.
#[test]
fn transform_blocks_with_lfnst_of_one_coefficient() {
    let mut c = Comparison::open("transform blocks with LFNST, of one coefficient");
    for block_of in blocks_with_lfnst() {
        for (x, y) in (0..4).flat_map(|x| (0..4).map(move |y| (x, y))) {
            let [columns, rows] = c.random.choose(&[[4, 4], [x + 1, y + 1]]);
            let block_of = TransformBlock {
                extended: c.random.choose(&SWITCHES),
                ..block_of.reading(columns, rows)
            };
            let [low, high] = ends_of(&block_of);
            let any = c.random.between(low, high);
            let mut numbers = vec![0; elements(&block_of.shape())];
            numbers[(x + y * block_of.width) as usize] = c.random.choose(&[1, -1, low, high, any]);
            compare(&mut c, block_of, &numbers);
        }
    }
    c.close(&[0]);
}

/// Every block that H.266 allows, by sides, kinds and LFNST, is accepted: sides of 2 to 64, 1 by 16 to 1 by 64 and these turned; kinds
/// other than 0 at sides of 4 to 32 and without LFNST.
#[test]
fn transform_blocks_of_h266() {
    let mut c = Comparison::open("transform blocks, all that H.266 has");
    let thin = |[w, h]: &[u32; 2]| w.min(h) > &1 || w.max(h) >= &16;
    let plain = pairs().into_iter().filter(thin).flat_map(|[w, h]| {
        let kinds = |n: u32| {
            if (4..=32).contains(&n) {
                &KINDS[..]
            } else {
                &KINDS[..1]
            }
        };
        let of = move |x| kinds(h).iter().map(move |y| shape_of([w, h, x, *y, 10]));
        kinds(w).iter().flat_map(move |x| of(*x))
    });
    let plain = plain.map(|shape| TransformBlock::of(shape, 0));
    let all: Vec<TransformBlock> = plain.chain(blocks_with_lfnst()).collect();
    assert_eq!(all.len(), 14 * 14 + 14 + 25 * 16);
    for block_of in all {
        let (shape, ends) = (pattern_shape(&block_of), ends_of(&block_of));
        let layout = c.random.choose(&LAYOUTS);
        let numbers = block(&mut c.random, layout, &shape, ends);
        compare(&mut c, block_of, &numbers);
    }
    c.close(&[0]);
}

/// Each number of LFNST that there is not, one side or kind that it does not take, and a column or row too many.
#[test]
fn refused_lfnst() {
    let mut c = Comparison::open("transform blocks, refused for LFNST");
    let none = [0, 5, 255, 65_536, u32::MAX];
    for block_of in blocks_with_lfnst() {
        let (any, off) = (
            c.random.choose(&none),
            c.random.choose(&[0, block_of.lfnst]),
        );
        let [x, y] = c.random.choose(&[[1, 0], [0, 1], [2, 2], [0, 2]]);
        let [width, height] = c
            .random
            .choose(&[[2, 8], [8, 2], [2, 2], [1, 16], [32, 1], [64, 2]]);
        let [columns, rows] = c.random.choose(&[[5, 4], [4, 5], [1, 8], [32, 32]]);
        let mut refused = |wanted, block: TransformBlock| {
            let count = (block.width * block.height) as usize;
            let numbers: Vec<i32> = (0..count).map(|_| c.random.bits() as i32).collect();
            let call = TransformCall { block, numbers };
            let found = c.outcome(&call);
            assert_eq!(found.answer.number, wanted, "{block:?}");
            assert_eq!(found.output, call.numbers);
        };
        let [low, set, transposed] = [3, 4, 2].map(|least| any.max(least));
        refused(
            31,
            TransformBlock {
                lfnst: low,
                ..block_of
            },
        );
        refused(
            31,
            TransformBlock {
                lfnst: off,
                set,
                ..block_of
            },
        );
        refused(
            31,
            TransformBlock {
                lfnst: off,
                transposed,
                ..block_of
            },
        );
        let kinds = TransformBlock {
            horizontal: x,
            vertical: y,
            ..block_of
        };
        let no_line = x != 0 && block_of.width == 64 || y != 0 && block_of.height == 64;
        refused(if no_line { 30 } else { 31 }, kinds);
        let sides = TransformBlock {
            width,
            height,
            ..block_of
        };
        refused(31, sides.reading(width.min(4), height.min(4)));
        refused(20, block_of.reading(columns, rows));
        refused(
            20,
            TransformBlock {
                set,
                ..block_of.reading(columns, rows)
            },
        );
    }
    c.close(&[20, 30, 31]);
}

/// Every number of columns and of rows that can be read of each pair of sides.
#[test]
fn transform_blocks_of_every_part() {
    let mut c = Comparison::open("transform blocks of which every part is read");
    for [w, h] in pairs() {
        let most = shape_of([w, h, 0, 0, 8]);
        for (columns, rows) in (1..=most.columns).flat_map(|n| (1..=most.rows).map(move |k| (n, k)))
        {
            // of large parts some: a row and a column of all numbers, and every other one in turn
            if columns > 4 && rows > 4 && (columns + rows) % 7 != 0 {
                continue;
            }
            let (depth, extended) = (c.random.between(8, 16) as u32, c.random.choose(&SWITCHES));
            let shape = shape_of([w, h, 0, 0, depth]).keeping(columns, rows);
            let block_of = TransformBlock::of(shape, extended);
            let layout = c.random.choose(&LAYOUTS);
            let numbers = block(&mut c.random, layout, &shape, ends_of(&block_of));
            compare(&mut c, block_of, &numbers);
        }
    }
    c.close(&[0]);
}

/// Columns whose sums are about an end of the range.
#[test]
fn transform_blocks_about_the_ends() {
    let mut c = Comparison::open("transform blocks about the ends of the range");
    let (mut rails, mut unaltered) = (0, 0);
    for [w, h] in pairs().into_iter().filter(|pair| !pair.contains(&1)) {
        for (depth, extended) in (8..=16).flat_map(|d| SWITCHES.map(|e| (d, e))) {
            let block = any_block(&mut c.random, [w, h], depth, extended);
            let numbers = block_about(&mut c.random, &block.shape(), ends_of(&block));
            let altered = compare(&mut c, block, &numbers).answer.rails;
            rails += altered;
            unaltered += usize::from(altered == 0);
        }
    }
    assert!(rails > 1000 && unaltered > 100);
    c.close(&[0]);
}

/// One coefficient alone, at every place that can be read of some blocks.
#[test]
fn transform_blocks_of_one_coefficient() {
    let mut c = Comparison::open("transform blocks of one coefficient");
    for [w, h] in pairs() {
        let most = shape_of([w, h, 0, 0, 10]);
        for (x, y) in (0..most.columns).flat_map(|x| (0..most.rows).map(move |y| (x, y))) {
            // each place of a line, and of large blocks a part
            if x * y > 0 && (x + 3 * y) % 11 != 0 {
                continue;
            }
            let extended = c.random.choose(&SWITCHES);
            let shape = most.keeping(x + 1, y + 1);
            let block = TransformBlock::of(shape, extended);
            let [low, high] = ends_of(&block);
            let any = c.random.between(low, high);
            let mut numbers = vec![0; elements(&shape)];
            numbers[(x + y * w) as usize] = c.random.choose(&[1, -1, low, high, any, any]);
            compare(&mut c, block, &numbers);
        }
    }
    c.close(&[0]);
}

/// Where the other calls take the same numbers, their residuals and rail counts.
#[test]
fn transform_blocks_beside_the_other_calls() {
    let mut c = Comparison::open("transform blocks, beside the other calls");
    for round in 0..4000 {
        let sides = c.random.choose(&pairs());
        let extended = SWITCHES[round % 2];
        let depth = c.random.between(8, if extended == 0 { 12 } else { 16 }) as u32;
        let block_of = any_block(&mut c.random, sides, depth, extended);
        let (shape, layout) = (pattern_shape(&block_of), c.random.choose(&LAYOUTS));
        let mut input = block(&mut c.random, layout, &shape, ends_of(&block_of));
        clear_outside(&shape, &mut input);
        let found = c.outcome(&call(block_of, &input));
        beside(&mut c, block_of, &input, &found);
    }
    c.close(&[0]);
}

/// Long numbers take two stages of 4 to 32; with the switch off the other inverse takes them too, and thin blocks those and lines of 4 to 16.
fn beside(c: &mut Comparison, block: TransformBlock, input: &[i64], found: &Outcome) {
    let (shape, extended) = (block.shape(), block.extended);
    let held = held(&mut c.random, input.len());
    let long = c.other(&LongCall {
        shape,
        extended,
        input: narrow(input),
        held: held.clone(),
    });
    let sized = [shape.width, shape.height].map(|n| (4..=32).contains(&n));
    assert_eq!(long.answer.number == 0, sized == [true, true]);
    if long.answer.number == 0 {
        assert_eq!(long, *found);
    }
    if extended != 0 {
        return;
    }
    let single = c.other(&Call::new(What::Inverse(shape), narrow(input), held));
    if single.answer.number == 0 {
        assert_eq!(single, *found);
    }
    let areas = vec![7; input.len()];
    let thin = c.other(&ThinCall {
        shape,
        input: narrow(input),
        first: areas.clone(),
        second: areas,
    });
    match thin.told.area {
        0 => (),
        1 => assert_eq!((thin.told.rails, thin.first), (0, found.output.clone())),
        _ => assert_eq!(
            (thin.told.rails, thin.second),
            (found.answer.rails, found.output.clone())
        ),
    }
}

/// Every set of the tests that a call can meet; all numbers stay as they were.
#[test]
fn refused_transform_blocks() {
    let mut c = Comparison::open("transform blocks, refused for every set of reasons");
    for (bits, extended) in (0..1024).flat_map(|bits| SWITCHES.map(|extended| (bits, extended))) {
        for _ in 0..4 {
            let wrong = Wrong::among(&[1, 2, 3, 4, 30, 5, 20, 31, 6, 27], bits);
            let call = call_with(&mut c.random, extended, &wrong);
            let found = c.outcome(&call);
            assert!(found.answer.number == 0 || found.output == call.numbers);
            assert!(found.answer.number == 27 || found.answer.place == 0);
        }
    }
    c.close(&numbers(&["transform_block_inverse"]));
}

/// Sides of which the first, the second or neither is refused; for 30 one of them has a kind other than 0 and none that it could have.
fn sides(random: &mut Random, wrong: &Wrong) -> ([u32; 2], [u32; 2]) {
    let [mut w, mut h] = random.choose(&pairs());
    let [mut x, mut y] = random.choose(&kinds_of([w, h]));
    if wrong.applies[30] {
        let (n, kind) = (random.choose(&[2, 64]), random.choose(&[1, 2]));
        match random.below(2) {
            0 => (w, x) = (n, kind),
            _ => (h, y) = (n, kind),
        }
    }
    let none = [0, 3, 5, 12, 33, 63, 65, 128, 65_536, u32::MAX];
    if wrong.applies[1] {
        w = random.choose(&none);
    }
    if wrong.applies[2] {
        h = random.choose(&none);
        if !wrong.applies[1] && random.once_in(3) {
            [w, h] = [1, 1];
        }
    }
    if wrong.applies[3] {
        x = random.choose(&NO_KIND) as u32;
    }
    if wrong.applies[4] {
        y = random.choose(&NO_KIND) as u32;
    }
    ([w, h], [x, y])
}

/// LFNST where the block takes it, or none; for 31 one of its three numbers is too large, or the block takes none.
fn with_lfnst(random: &mut Random, wrong: &Wrong, block: TransformBlock) -> TransformBlock {
    let [index, set, transposed] = [3, 4, 2].map(|n| random.below(n) as u32);
    let low = TransformBlock {
        set,
        transposed,
        ..block
    };
    if wrong.applies[31] {
        let none = random.choose(&[4, 7, 65_536, u32::MAX]);
        return match random.below(4) {
            0 => TransformBlock { lfnst: none, ..low },
            1 => TransformBlock {
                lfnst: index,
                set: none,
                ..low
            },
            2 => TransformBlock {
                lfnst: index,
                transposed: none,
                ..low
            },
            _ => TransformBlock {
                lfnst: index,
                ..low
            },
        };
    }
    let takes = block.width.min(block.height) >= 4 && [block.horizontal, block.vertical] == [0, 0];
    let corner = block.columns.max(block.rows) <= 4 || wrong.applies[20];
    match takes && corner {
        true => TransformBlock {
            lfnst: index,
            ..low
        },
        false => low,
    }
}

fn call_with(random: &mut Random, extended: u32, wrong: &Wrong) -> TransformCall {
    let ([w, h], [x, y]) = sides(random, wrong);
    let depths: Vec<i64> = (8..=16).collect();
    let depth = wrong.pick(random, 5, &depths, &[0, 7, 17, 255, 65_544, 4_294_967_295]);
    let most = shape_of([w, h, x, y, depth as u32]);
    let [columns, rows] = wrong.kept(random, [most.columns.into(), most.rows.into()]);
    let block = TransformBlock::of(most.keeping(columns as u32, rows as u32), extended);
    let block = with_lfnst(random, wrong, block);
    let count = wrong.length(random, 6, right_length(&most));
    let [low, high] = ends_of(&block);
    let mut numbers = random.numbers(count, low, high);
    if w > 0 {
        spoil_unread(random, &block, &mut numbers);
        let beyond = [low - 1, high + 1, i32::MIN.into(), i32::MAX.into()];
        let inside = |place: &usize| is_kept(&block.shape(), *place);
        wrong.spoil(random, 27, &mut numbers, inside, &beyond);
    }
    call(block, &numbers)
}

/// Each place once with the least number that is beyond the range, at either end: 27 with that place where it is read, and no refusal
/// where it is not.
#[test]
fn one_number_beyond_the_range() {
    let mut c = Comparison::open("transform blocks, one number of them beyond the range");
    for [w, h] in pairs() {
        for (extended, depth) in [(0, 8), (0, 16), (1, 9), (1, 13), (1, 16)] {
            let block = any_block(&mut c.random, [w, h], depth, extended);
            let (shape, [low, high]) = (block.shape(), ends_of(&block));
            let step = 1 + elements(&shape) / 40;
            for place in (0..elements(&shape)).step_by(step) {
                let mut numbers = c.random.numbers(elements(&shape), low, high);
                numbers[place] = c.random.choose(&[low - 1, high + 1]);
                let found = c.outcome(&call(block, &numbers)).answer;
                let wanted = match is_kept(&shape, place) {
                    true => [27, place as u32],
                    false => [0, 0],
                };
                assert_eq!([found.number, found.place], wanted);
            }
        }
    }
    c.close(&[0, 27]);
}

/// Of several numbers beyond the range the first, row by row, and of those that are read.
#[test]
fn the_first_number_beyond_the_range() {
    let mut c = Comparison::open("transform blocks, several numbers of them beyond the range");
    for round in 0..6000 {
        let sides = c.random.choose(&pairs());
        let depth = c.random.between(8, 16) as u32;
        let block = any_block(&mut c.random, sides, depth, SWITCHES[round % 4]);
        let [low, high] = ends_of(&block);
        let mut numbers = c.random.numbers(elements(&block.shape()), low, high);
        for _ in 0..c.random.between(1, 6) {
            let place = c.random.below(numbers.len());
            numbers[place] = c.random.choose(&[low - 1, high + 1, i32::MIN.into()]);
        }
        c.outcome(&call(block, &numbers));
    }
    c.close(&[0, 27]);
}

/// Every pair of sides from 0 to 65 of kind 0, and every pair of kinds from 0 to 3 with every pair of sides.
#[test]
fn every_pair_of_sides_and_kinds() {
    let mut c = Comparison::open("transform blocks, every pair of sides and of kinds");
    for (w, h) in (0..=65).flat_map(|w| (0..=65).map(move |h| (w, h))) {
        let shape = shape_of([w, h, 0, 0, 9]);
        let numbers = vec![0; elements(&shape)];
        let number = c
            .outcome(&call(TransformBlock::of(shape, 0), &numbers))
            .answer
            .number;
        let takes = [w, h].map(|n| SIDES.contains(&n));
        let wanted = match takes {
            [false, _] => 1,
            [_, false] => 2,
            _ if [w, h] == [1, 1] => 2,
            _ => 0,
        };
        assert_eq!(number, wanted, "{w} by {h}");
    }
    for [w, h] in pairs() {
        for (x, y) in (0..4).flat_map(|x| (0..4).map(move |y| (x, y))) {
            let shape = shape_of([w, h, x, y, 16]);
            let numbers = c.random.numbers(elements(&shape), -32768, 32767);
            c.outcome(&call(TransformBlock::of(shape, 0), &numbers));
        }
    }
    c.close(&[0, 1, 2, 3, 4, 30]);
}

/// Every length from 0 to one too many of small blocks, and those about the right one of the others.
#[test]
fn lengths_of_numbers() {
    let mut c = Comparison::open("transform blocks of every length");
    for [w, h] in pairs() {
        let n = (w * h) as usize;
        let first = if n <= 64 { 0 } else { n - 3 };
        for length in [0, 1, n / 2, 2 * n].into_iter().chain(first..=n + 2) {
            let block = any_block(&mut c.random, [w, h], 10, length as u32 % 2);
            let numbers = c.random.numbers(length, -32768, 32767);
            let call = call(block, &numbers);
            let found = c.outcome(&call);
            assert_eq!(found.answer.number, if length == n { 0 } else { 6 });
            assert!(length == n || found.output == call.numbers);
        }
    }
    c.close(&[0, 6]);
}

/// The function that fills a block, on those that are taken and on any numbers.
#[test]
fn filled_transform_blocks() {
    let mut c = Comparison::open("transform blocks, filled");
    let filled = |c: &mut Comparison, numbers| {
        let block = c.outcome(&BlockOf(numbers));
        [block.extended, block.columns, block.rows]
    };
    assert_eq!(filled(&mut c, [64, 64, 0, 0, 10]), [0, 32, 32]);
    assert_eq!(filled(&mut c, [32, 32, 1, 0, 10]), [0, 16, 32]);
    assert_eq!(filled(&mut c, [1, 16, 2, 1, 16]), [0, 1, 16]);
    let sizes = [&SIDES[..], &[0, 3, 17, 33, 65, u32::MAX]].concat();
    for (w, h) in sizes.iter().flat_map(|w| sizes.iter().map(move |h| (w, h))) {
        for (x, y) in (0..4).flat_map(|x| (0..4).map(move |y| (x, y))) {
            let depth = c.random.choose(&[0, 8, 10, 16, 17, u32::MAX]);
            c.outcome(&BlockOf([*w, *h, x, y, depth]));
        }
    }
    c.close(&[0]);
}

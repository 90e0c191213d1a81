//! Prints the file `crates/block_cases/stdout`: the lines of the program `block_cases`, with what the model gives.
//! The cases stand here as in the program's source and in its order; its head says what a line holds.

use hoengtila_harness::direction::Direction::{self, Forward, Inverse};
use hoengtila_harness::model::{forward_4x4, inverse_4x4, Answer, Shape};

/// What every buffer has room for.
const ROOM: usize = 1024;

/// What an output holds before a call: these two by turns.
const MARKS: [i64; 2] = [1234, -4321];

const SIDES: [i64; 4] = [4, 8, 16, 32];

/// Every pair of kinds.
const PAIRS: [[i64; 2]; 9] = [
    [0, 0],
    [0, 1],
    [0, 2],
    [1, 0],
    [1, 1],
    [1, 2],
    [2, 0],
    [2, 1],
    [2, 2],
];

/// The two numbers by turns in each of the first columns and rows, and 0 elsewhere.
fn filled(width: i64, [columns, rows]: [i64; 2], turns: [i64; 2]) -> Vec<i64> {
    let (width, columns, rows) = (width as usize, columns as usize, rows as usize);
    let number = |place| {
        let (x, y) = (place % width, place / width);
        if x < columns && y < rows {
            turns[(x + y) % 2]
        } else {
            0
        }
    };
    (0..ROOM).map(number).collect()
}

/// Width, height, both kinds, depth, kept columns and rows.
type Numbers = [i64; 7];

/// Calls on the first `input` numbers of the block, with `output` marks for the output, and prints the line.
fn line(
    direction: Direction,
    numbers: Numbers,
    what: &str,
    block: &[i64],
    [input, output]: [usize; 2],
) {
    let shape = Shape::of(numbers);
    let before: Vec<i64> = (0..output).map(|k| MARKS[k % 2]).collect();
    let mut after = before.clone();
    let answer = direction.by_model(&shape, &block[..input], &mut after);
    print!("{what}: {}", direction.name());
    numbers.iter().for_each(|n| print!(" {n}"));
    print!(" {input} {output}");
    print!(" {} {} {}", answer.number, answer.place, answer.rails);
    let changed = (0..output).filter(|&k| before[k] != after[k]).count();
    print!(" changes {changed}");
    print_numbers(&after);
    println!();
}

fn print_numbers(numbers: &[i64]) {
    let sum: i64 = numbers.iter().sum();
    let placed: i64 = (1..).zip(numbers).map(|(place, n)| place * n).sum();
    print!(" {sum} {placed}");
    if numbers.len() == 16 {
        numbers.iter().for_each(|n| print!(" {n}"));
    }
}

/// A call of a block of which at most two numbers are not 0: its shape, the lengths of input and output, and the
/// places of the first number and of the second, which is the one that stands where both are the same.
type Row = (Numbers, [usize; 2], [usize; 2]);

const ITEM_7: &[Row] = &[([4, 4, 1, 1, 10, 4, 4], [16, 16], [4, 8])];

const ITEM_8: &[Row] = &[([4, 4, 1, 1, 10, 4, 4], [16, 16], [0, 1])];

const ITEM_9: &[Row] = &[([32, 4, 1, 1, 8, 16, 4], [128, 128], [15, 16])];

const ITEM_10: &[Row] = &[([5, 4, 0, 0, 7, 5, 4], [20, 20], [0, 0])];

/// A first coefficient alone, of kind 0 twice.
const FLAT: &[Row] = &[([4, 4, 0, 0, 10, 4, 4], [16, 16], [0, 1])];

/// 1 to 5, 20, 6 and 7: one thing is wrong in each.
const ALONE: &[Row] = &[
    ([5, 4, 1, 1, 8, 5, 4], [20, 20], [0, 0]),
    ([0, 4, 1, 1, 8, 0, 4], [0, 0], [0, 0]),
    ([4294967295, 4, 1, 1, 8, 16, 4], [16, 16], [0, 0]),
    ([4, 2, 1, 1, 8, 4, 2], [8, 8], [0, 0]),
    ([4, 64, 1, 1, 8, 4, 16], [256, 256], [0, 0]),
    ([4, 4, 4, 1, 8, 4, 4], [16, 16], [0, 0]),
    ([4, 4, 3, 1, 8, 4, 4], [16, 16], [0, 0]),
    ([4, 4, 1, 4, 8, 4, 4], [16, 16], [0, 0]),
    ([4, 4, 1, 3, 8, 4, 4], [16, 16], [0, 0]),
    ([4, 4, 1, 1, 7, 4, 4], [16, 16], [0, 0]),
    ([4, 4, 1, 1, 13, 4, 4], [16, 16], [0, 0]),
    ([4, 4, 1, 1, 8, 0, 4], [16, 16], [0, 0]),
    ([4, 4, 1, 1, 8, 4, 0], [16, 16], [0, 0]),
    ([4, 4, 1, 1, 8, 5, 4], [16, 16], [0, 0]),
    ([4, 4, 1, 1, 8, 4, 5], [16, 16], [0, 0]),
    ([4, 4, 1, 1, 8, 4294967295, 4], [16, 16], [0, 0]),
    ([32, 4, 1, 1, 8, 17, 4], [128, 128], [0, 0]),
    ([4, 32, 1, 2, 8, 4, 17], [128, 128], [0, 0]),
    ([32, 8, 0, 1, 8, 33, 8], [256, 256], [0, 0]),
    ([8, 32, 0, 0, 8, 8, 33], [256, 256], [0, 0]),
    ([4, 4, 1, 1, 8, 4, 4], [15, 16], [0, 0]),
    ([4, 4, 1, 1, 8, 4, 4], [17, 16], [0, 0]),
    ([4, 4, 1, 1, 8, 4, 4], [16, 15], [0, 0]),
    ([4, 4, 1, 1, 8, 4, 4], [16, 17], [0, 0]),
];

/// Everything is wrong, then all but the width, and so on.
const ORDER: &[Row] = &[
    ([5, 5, 4, 3, 13, 17, 0], [17, 18], [16, 16]),
    ([32, 5, 4, 3, 13, 17, 0], [17, 18], [16, 16]),
    ([32, 4, 4, 3, 13, 17, 0], [17, 18], [16, 16]),
    ([32, 4, 1, 3, 13, 17, 0], [17, 18], [16, 16]),
    ([32, 4, 1, 2, 13, 17, 0], [17, 18], [16, 16]),
    ([32, 4, 1, 2, 12, 17, 0], [17, 18], [16, 16]),
    ([32, 4, 1, 2, 12, 16, 4], [17, 18], [16, 16]),
    ([32, 4, 1, 2, 12, 16, 4], [128, 18], [16, 16]),
    ([32, 4, 1, 2, 12, 16, 4], [128, 128], [16, 16]),
];

/// The places of 8.
const OUTSIDE: &[Row] = &[
    ([32, 4, 2, 1, 9, 16, 4], [128, 128], [31, 31]),
    ([32, 4, 2, 1, 9, 16, 4], [128, 128], [117, 50]),
    ([32, 4, 2, 1, 9, 16, 4], [128, 128], [111, 0]),
    ([8, 32, 2, 1, 9, 8, 16], [256, 256], [128, 128]),
    ([8, 32, 2, 1, 9, 8, 16], [256, 256], [255, 130]),
    ([8, 32, 2, 1, 9, 8, 16], [256, 256], [127, 0]),
    ([32, 32, 1, 2, 10, 16, 16], [1024, 1024], [512, 496]),
    ([32, 32, 1, 2, 10, 16, 16], [1024, 1024], [1023, 495]),
    ([32, 32, 1, 2, 10, 16, 16], [1024, 1024], [495, 0]),
    ([32, 32, 0, 2, 10, 32, 16], [1024, 1024], [1023, 512]),
    ([32, 32, 0, 2, 10, 32, 16], [1024, 1024], [511, 0]),
    ([32, 32, 1, 0, 10, 16, 32], [1024, 1024], [1008, 31]),
    ([32, 32, 1, 0, 10, 16, 32], [1024, 1024], [1007, 0]),
    ([32, 32, 0, 0, 10, 32, 32], [1024, 1024], [1023, 512]),
    ([8, 8, 1, 2, 9, 3, 5], [64, 64], [3, 3]),
    ([8, 8, 1, 2, 9, 3, 5], [64, 64], [63, 40]),
    ([8, 8, 1, 2, 9, 3, 5], [64, 64], [34, 0]),
    ([32, 32, 1, 2, 10, 4, 16], [1024, 1024], [4, 4]),
    ([32, 32, 1, 2, 10, 4, 16], [1024, 1024], [483, 0]),
    ([32, 32, 0, 0, 10, 31, 1], [1024, 1024], [32, 31]),
    ([32, 32, 0, 0, 10, 1, 31], [1024, 1024], [960, 0]),
    ([16, 4, 2, 0, 8, 1, 1], [64, 64], [16, 1]),
    ([16, 4, 2, 0, 8, 1, 1], [64, 64], [0, 0]),
];

/// The places of 9.
const SMALL: &[Row] = &[([4, 8, 1, 2, 8, 4, 8], [32, 32], [30, 7])];

const LARGE: &[Row] = &[([32, 32, 2, 2, 12, 16, 16], [1024, 1024], [1023, 1000])];

fn rows(direction: Direction, number: i64, other: i64, table: &[Row]) {
    for &(numbers, lengths, [place, next]) in table {
        let mut block = vec![0; ROOM];
        block[place] = number;
        block[next] = other;
        let what = format!("at {place} {number} {next} {other}");
        line(direction, numbers, &what, &block, lengths);
    }
}

fn items() {
    for n in [21063, 21064, 21066] {
        rows(Inverse, 32767, n, ITEM_7);
    }
    rows(Inverse, 64, 0, ITEM_8);
    rows(Inverse, 64, 0, FLAT);
    rows(Inverse, 1000, 0, ITEM_9);
    rows(Inverse, 0, 1000, ITEM_9);
    rows(Inverse, 0, 0, ITEM_10);
    rows(Forward, 0, 0, ITEM_10);
}

fn refusals(direction: Direction) {
    rows(direction, 0, 0, ALONE);
    rows(direction, 4096, 4096, ORDER);
}

fn outside() {
    rows(Inverse, 1, -1, OUTSIDE);
    rows(Inverse, -32768, 32767, OUTSIDE);
}

fn too_large() {
    for (number, other) in [(-256, 256), (256, -255), (-255, -32768), (255, -255)] {
        rows(Forward, number, other, SMALL);
    }
    for (number, other) in [(4096, -4096), (-4096, 4095), (-4095, 4095)] {
        rows(Forward, number, other, LARGE);
    }
}

/// All high, all low, and by turns, in every place that counts.
fn blocks(direction: Direction, numbers: Numbers, [low, high]: [i64; 2]) {
    let [w, h, .., columns, rows] = numbers;
    let elements = (w * h) as usize;
    let counts = match direction {
        Inverse => [columns, rows],
        Forward => [w, h],
    };
    let every = [
        ("high", [high, high]),
        ("low", [low, low]),
        ("by turns", [high, low]),
    ];
    for (what, turns) in every {
        let block = filled(w, counts, turns);
        line(direction, numbers, what, &block, [elements, elements]);
    }
}

/// Every width, height and pair of kinds, with so many columns and rows less than the most, but never none.
fn shapes(direction: Direction, depth: i64, ends: [i64; 2], less: [i64; 2]) {
    for [w, h] in SIDES.into_iter().flat_map(|w| SIDES.map(|h| [w, h])) {
        for [x, y] in PAIRS {
            let most = Shape::new(w, h, x, y, depth);
            let columns = (most.columns - less[0]).max(1);
            let rows = (most.rows - less[1]).max(1);
            blocks(direction, [w, h, x, y, depth, columns, rows], ends);
        }
    }
}

/// The two numbers by turns in four lines of four, but for the last line.
fn lines([even, odd]: [i64; 2]) -> [[i64; 4]; 4] {
    [
        [even, odd, even, odd],
        [odd, even, odd, even],
        [even, odd, even, odd],
        [odd, odd, even, even],
    ]
}

/// A block by value, and the same lent, with zeros in its output.
fn by_value(direction: Direction, turns: [i64; 2], [horizontal, vertical, depth]: [i64; 3]) {
    let block = lines(turns);
    let small = match direction {
        Inverse => inverse_4x4(block, horizontal, vertical, depth),
        Forward => forward_4x4(block, horizontal, vertical, depth),
    };
    let mut lent = [0; 16];
    let shape = Shape::new(4, 4, horizontal, vertical, depth);
    let answer = direction.by_model(&shape, &block.concat(), &mut lent);
    let part = |answer: Answer, numbers: &[i64]| {
        let mut all = vec![
            horizontal,
            vertical,
            depth,
            answer.number,
            answer.place,
            answer.rails,
        ];
        all.extend(numbers);
        let words: Vec<String> = all.iter().map(i64::to_string).collect();
        words.join(" ")
    };
    println!(
        "by value: {} {} lent {}",
        direction.name(),
        part(small.answer, &small.block.concat()),
        part(answer, &lent)
    );
}

/// Every pair of kinds at two depths, and one refusal each of 3, 4 and 5.
fn all_by_value() {
    let taken = [8, 12]
        .into_iter()
        .flat_map(|d| PAIRS.map(|[h, v]| [h, v, d]));
    for numbers in taken.chain([[4, 3, 7], [1, 3, 7], [1, 2, 13]]) {
        for turns in [[32767, -32768], [-32768, -32768], [64, -3]] {
            by_value(Inverse, turns, numbers);
        }
        for turns in [[255, -255], [4095, -4095], [-256, 255]] {
            by_value(Forward, turns, numbers);
        }
    }
}

fn main() {
    items();
    refusals(Inverse);
    outside();
    refusals(Forward);
    too_large();
    let ends = [-32768, 32767];
    blocks(Inverse, [4, 4, 1, 1, 10, 4, 4], ends);
    for (depth, less) in [(8, [0, 0]), (12, [0, 0]), (10, [1, 3]), (9, [12, 0])] {
        shapes(Inverse, depth, ends, less);
    }
    blocks(Forward, [4, 4, 1, 1, 8, 4, 4], [-256, 256]);
    let all = (8..=12).map(|depth| (depth, [0, 0]));
    for (depth, less) in all.chain([(10, [3, 1]), (12, [0, 12])]) {
        let largest = (1 << depth) - 1;
        shapes(Forward, depth, [-largest, largest], less);
    }
    all_by_value();
}

//! Prints a file of theorems, one for each case: the definitions that contracts cite give what the
//! model gives. `tests/definitions` has the checker prove them.
//!
//! Where the definitions and the model differ, a theorem is false and the checker refuses it.

use hoengtila_harness::direction::Direction::{self, Forward, Inverse};
use hoengtila_harness::model::block::middle;
use hoengtila_harness::model::weights::weight;
use hoengtila_harness::model::{self, Answer, Lfnst, Shape};
use hoengtila_harness::patterns::{self, is_kept, Ends, SIXTEEN_BITS};
use hoengtila_harness::random::{seed, Random, SEED_VARIABLE};
use hoengtila_harness::wrong::{Wrong, KINDS, NO_DEPTH, NO_KIND, NO_SIZE, ORDER, SIZES};

/// What the file needs of the definitions' own files.
const HEAD: &str = "\
use mathlib.Core.Path.{◌≡◌, refl}
use mathlib.Core.Bool.{true, false}
use mathlib.Core.List.{List, [], ◌∷◌}
use lib.IntN.{ℤ, pos, negsuc}
use Rattle.algebra.specs.Sum.{sum, sumℕ}
use Rattle.algebra.specs.Lists.{tabulate, block}
use Rattle.algebra.specs.First.{first_at}
use Rattle.meaning.specs.Weights.{first, fold, S, C, cosines, turn, dct2, weight}
use Rattle.meaning.specs.Line.{forward_sum, inverse_sum, forward_line, inverse_line}
use Rattle.meaning.specs.Shape.{is_size, is_kind, is_depth, is_long_depth, most_kept, keeps}
use Rattle.meaning.specs.Plan.{short_range, reach}
use Rattle.meaning.specs.Answer.{forward_line_outcome, inverse_line_outcome}
use Rattle.meaning.specs.Inverse.{column_sum, middle, middle_at, rails, row_sum, residual, inverse_block, inverse_outcome}
use Rattle.meaning.specs.Long.{long_outcome}
use Rattle.meaning.specs.Forward.{row_value, column_value, coefficient, forward_block, forward_outcome}
use Rattle.transform_block.specs.TransformBlock.{is_block_side, is_on, is_thin, has_low, is_corner, takes_low, is_low, side_sum, side_residual, side_block, read_at, low_numbers, low_side, transform_outcome}
use Rattle.lfnst.specs.LowFrequency.{order, input, inputs, is_wide, low_sum, low_value, is_written, row_by_row, standing, low_at}
use Rattle.lfnst_tables.specs.Lfnst.{entry}
use Rattle.lfnst_tables.specs.Lfnst4 as four
use Rattle.lfnst_tables.specs.Lfnst8 as eight
";

/// The definitions that the checker opens only where a proof names them.
const WEIGHTS: &str = "first fold S C cosines turn dct2 weight tabulate block";
const MIDDLE: &str = "short_range";
const LINE: &str = "first fold S C cosines turn dct2 weight sum tabulate is_size is_kind \
    forward_sum inverse_sum forward_line inverse_line";
const BLOCK: &str =
    "first fold S C cosines turn dct2 weight sum sumℕ tabulate block first_at is_size is_kind is_depth is_long_depth most_kept keeps \
    short_range reach forward_sum inverse_sum column_sum middle_at rails row_sum residual inverse_block \
    row_value column_value coefficient forward_block";

/// Beside those of a block.
const TRANSFORM: &str = "is_block_side is_on is_thin has_low is_corner takes_low is_low side_sum side_residual side_block read_at low_numbers \
    low_side order input inputs is_wide low_sum low_value is_written row_by_row standing low_at entry";

// ---- writing terms

fn integer(z: i64) -> String {
    if z >= 0 {
        format!("pos {z}")
    } else {
        format!("negsuc {}", -z - 1)
    }
}

fn list(numbers: &[i64]) -> String {
    let items: String = numbers.iter().map(|z| integer(*z) + " ∷ ").collect();
    format!("({items}[])")
}

fn shape_term(shape: &Shape) -> String {
    let [width, height, horizontal, vertical, depth, columns, rows] = shape.numbers();
    format!(
        "(record {{ width = {width}; height = {height}; horizontal = {horizontal}; vertical = {vertical}; depth = {depth}; \
         columns = {columns}; rows = {rows} }})"
    )
}

fn transform_term(extended: i64, lfnst: &Lfnst, shape: &Shape) -> String {
    let [width, height, horizontal, vertical, depth, columns, rows] = shape.numbers();
    format!(
        "(record {{ width = {width}; height = {height}; horizontal = {horizontal}; vertical = {vertical}; depth = {depth}; \
         extended = {extended}; columns = {columns}; rows = {rows}; lfnst = {}; set = {}; transposed = {} }})",
        lfnst.index, lfnst.set, lfnst.transposed
    )
}

fn outcome_term(answer: &Answer, output: &[i64]) -> String {
    format!(
        "(record {{ number = {}; place = {}; rails = {} }}, {})",
        answer.number,
        answer.place,
        answer.rails,
        list(output)
    )
}

// ---- the file of theorems

struct Theorems {
    text: String,
    count: usize,
    random: Random,
    /// how many cases have each number, and how many have a rail count above 0
    met: [usize; 32],
    railed: usize,
}

impl Theorems {
    fn new(seed: u64) -> Theorems {
        Theorems {
            text: String::new(),
            count: 0,
            random: Random::new(seed),
            met: [0; 32],
            railed: 0,
        }
    }

    /// One theorem: both sides compute to the same.
    fn state(&mut self, unfolding: &str, left: &str, right: &str) {
        self.count += 1;
        let name = format!("case{}", self.count);
        self.text +=
            &format!("\n{name} : {left} ≡ {right}\nunfolding {unfolding}\n{name} = refl\n");
    }

    /// One theorem of a call: its answer and what its output holds then.
    fn state_outcome(&mut self, unfolding: &str, call: &str, answer: &Answer, output: &[i64]) {
        self.met[answer.number as usize] += 1;
        self.railed += usize::from(answer.rails > 0);
        self.state(unfolding, call, &outcome_term(answer, output));
    }

    /// The cases of one kind, under a line that says how many there are.
    fn section(&mut self, title: &str, cases: impl Fn(&mut Theorems)) {
        let before = (self.count, std::mem::take(&mut self.text));
        cases(self);
        let count = self.count - before.0;
        self.text = format!("{}\n-- {count} {title}\n{}", before.1, self.text);
    }

    /// How often each refusal was met. An answer that no case has would be compared by nothing.
    fn met_line(&self) -> String {
        assert!(self.met[0] > 0 && self.railed > 0);
        let numbers = [&ORDER[..], &[27, 30, 31]].concat();
        assert!(numbers.iter().all(|number| self.met[*number] > 0));
        let count = |number: &usize| format!(" {}", self.met[*number]);
        let counts: String = numbers.iter().map(count).collect();
        format!(
            "-- refused with {numbers:?}:{counts}; rail count above 0: {}",
            self.railed
        )
    }
}

// ---- one case of each kind

/// Every weight of a kind and size, row by row; of 64 points those of the 32 inputs that are read.
fn weights_case(t: &mut Theorems, kind: i64, n: i64) {
    let (points, inputs) = (n as usize, n.min(32));
    let rows =
        (0..inputs as usize).flat_map(|i| (0..points).map(move |j| weight(kind, points, i, j)));
    let left = format!("block {n} {inputs} (λ j i. weight {kind} {n} i j)");
    t.state(WEIGHTS, &left, &list(&rows.collect::<Vec<i64>>()));
}

/// The middle value of a sum e.
fn middle_case(t: &mut Theorems, e: i64) {
    let left = format!("middle short_range ({})", integer(e));
    t.state(MIDDLE, &left, &integer(middle(e)));
}

/// A line's outcome, its output holding `held` before the call.
fn line_case(t: &mut Theorems, direction: Direction, n: i64, kind: i64, x: &[i64], held: &[i64]) {
    let mut y = held.to_vec();
    let answer = match direction {
        Forward => model::forward_line(n, kind, x, &mut y),
        Inverse => model::inverse_line(n, kind, x, &mut y),
    };
    let call = format!("{}_line_outcome {n} {kind}", direction.name());
    let left = format!("{call} {} {}", list(x), list(held));
    t.state_outcome(LINE, &left, &answer, &y);
}

/// A block's outcome, its output holding `held` before the call.
fn block_case(t: &mut Theorems, direction: Direction, shape: &Shape, input: &[i64], held: &[i64]) {
    let mut output = held.to_vec();
    let answer = direction.by_model(shape, input, &mut output);
    let call = format!("{}_outcome {}", direction.name(), shape_term(shape));
    let left = format!("{call} {} {}", list(input), list(held));
    t.state_outcome(BLOCK, &left, &answer, &output);
}

/// The outcome of a block of long numbers.
fn long_case(t: &mut Theorems, extended: bool, shape: &Shape, input: &[i64], held: &[i64]) {
    let mut output = held.to_vec();
    let answer = model::inverse_long(shape, extended, input, &mut output);
    let call = format!("long_outcome {extended} {}", shape_term(shape));
    let left = format!("{call} {} {}", list(input), list(held));
    t.state_outcome(BLOCK, &left, &answer, &output);
}

/// The matrices of a set and an index, of 16 columns and of 48, where there are any.
fn matrices(lfnst: &Lfnst) -> String {
    match (lfnst.index, lfnst.set) {
        (1..=2, 0..=3) => {
            let k = 2 * lfnst.set + lfnst.index - 1;
            format!(" four.of16 four.of-{k} eight.of48 eight.of-{k}")
        }
        _ => String::new(),
    }
}

/// The outcome of a transform block.
fn transform_case(t: &mut Theorems, extended: i64, shape: &Shape, numbers: &[i64]) {
    low_case(t, extended, &Lfnst::default(), shape, numbers);
}

/// The same with LFNST.
fn low_case(t: &mut Theorems, extended: i64, lfnst: &Lfnst, shape: &Shape, numbers: &[i64]) {
    let mut output = numbers.to_vec();
    let answer = model::inverse_transform(shape, extended != 0, lfnst, &mut output);
    let call = format!(
        "transform_outcome {}",
        transform_term(extended, lfnst, shape)
    );
    let left = format!("{call} {}", list(numbers));
    let unfolding = format!("{BLOCK} {TRANSFORM}{}", matrices(lfnst));
    t.state_outcome(&unfolding, &left, &answer, &output);
}

// ---- random numbers that calls take

/// `count` numbers from `low` to `high`: small ones, any, or the ends mostly.
fn numbers(random: &mut Random, count: usize, [low, high]: Ends) -> Vec<i64> {
    match random.below(3) {
        0 => random.numbers(count, -9, 9),
        1 => random.numbers(count, low, high),
        _ => extremes(random, count, [low, high]),
    }
}

/// Both ends of a range and little else.
fn extremes(random: &mut Random, count: usize, [low, high]: Ends) -> Vec<i64> {
    let any = random.between(low, high);
    (0..count)
        .map(|_| random.choose(&[low, low, high, high, any]))
        .collect()
}

/// What an output may hold before a call.
fn held(random: &mut Random, count: usize) -> Vec<i64> {
    random.numbers(count, -99, 99)
}

/// The k-th shape of its sides: kinds and depths take turns, and every other one keeps less than it can.
fn shape_in_turn(k: usize, width: i64, height: i64) -> Shape {
    let k = k as i64;
    let most = Shape::new(width, height, k % 3, k / 3 % 3, 8 + k % 5);
    if k % 2 == 0 {
        return most;
    }
    most.keeping(1 + k * 5 % most.columns, 1 + k * 3 % most.rows)
}

fn clear_outside(shape: &Shape, coefficients: &mut [i64]) {
    patterns::clear_outside(&(*shape).into(), coefficients);
}

fn accepted_block(t: &mut Theorems, direction: Direction, shape: &Shape) {
    let elements = shape.elements() as usize;
    let mut input = numbers(&mut t.random, elements, direction.ends(shape.depth as u32));
    if let Inverse = direction {
        clear_outside(shape, &mut input);
    }
    let held = held(&mut t.random, elements);
    block_case(t, direction, shape, &input, &held);
}

// ---- random calls that are refused

fn refused_line(t: &mut Theorems, direction: Direction, number: usize) {
    let random = &mut t.random;
    let wrong = Wrong::first(random, number);
    let n = wrong.pick(random, 1, &SIZES, &NO_SIZE);
    let kind = wrong.pick(random, 3, &KINDS, &NO_KIND);
    let length = if n <= 64 { n.max(1) } else { 4 };
    let input = wrong.length(random, 6, length);
    let output = wrong.length(random, 7, length);
    let x = numbers(random, input, SIXTEEN_BITS);
    let held = held(random, output);
    line_case(t, direction, n, kind, &x, &held);
}

fn refused_block(t: &mut Theorems, direction: Direction, number: usize) {
    let random = &mut t.random;
    let wrong = Wrong::first(random, number);
    // 8 needs a side with places outside the kept part, unless less is kept
    let width = wrong.pick(random, 1, &[if number == 8 { 32 } else { 8 }, 4], &NO_SIZE);
    let tall = number == 8 && width < 32;
    let height = wrong.pick(random, 2, &[if tall { 32 } else { 4 }], &NO_SIZE);
    let most = Shape::new(
        width,
        height,
        wrong.pick(random, 3, &KINDS, &NO_KIND),
        wrong.pick(random, 4, &KINDS, &NO_KIND),
        wrong.pick(random, 5, &[8, 9, 10, 11, 12], &NO_DEPTH),
    );
    let [columns, rows] = wrong.kept(random, [most.columns, most.rows]);
    let shape = most.keeping(columns, rows);
    let elements = if width.max(height) <= 64 {
        shape.elements().max(1)
    } else {
        16
    };
    let input = wrong.length(random, 6, elements);
    let output = wrong.length(random, 7, elements);
    // any 16-bit numbers: some are too large for a forward, and some outside the kept part are not 0
    let [low, high] = SIXTEEN_BITS;
    let x = random.numbers(input, low, high);
    let held = held(random, output);
    block_case(t, direction, &shape, &x, &held);
}

/// One bad number alone among good ones, at a random place: 8 or 9 with that place.
fn lone_bad_number(t: &mut Theorems, direction: Direction, shape: &Shape) {
    let elements = shape.elements() as usize;
    let [low, high] = direction.ends(shape.depth as u32);
    let mut input = numbers(&mut t.random, elements, [low, high]);
    let place = match direction {
        Forward => t.random.below(elements),
        Inverse => {
            clear_outside(shape, &mut input);
            let outside = |place: &usize| !is_kept(&(*shape).into(), *place);
            let places: Vec<usize> = (0..elements).filter(outside).collect();
            t.random.choose(&places)
        }
    };
    input[place] = match direction {
        Forward => t.random.choose(&[high + 1, low - 1, 32767, -32768]),
        Inverse => t.random.choose(&[1, -1, 256, -32768]),
    };
    let held = held(&mut t.random, elements);
    block_case(t, direction, shape, &input, &held);
}

// ---- all cases, kind by kind

fn weights(t: &mut Theorems) {
    for n in SIZES {
        for kind in KINDS {
            weights_case(t, kind, n);
        }
    }
    weights_case(t, 0, 2);
    weights_case(t, 0, 64);
}

fn middles(t: &mut Theorems) {
    // both sides of a rounding, and the sums at which a middle value reaches a rail or is clipped
    for edge in [
        0,
        128,
        -128,
        32767 * 128,
        32768 * 128,
        -32767 * 128,
        -32768 * 128,
    ] {
        for e in [edge - 65, edge - 64, edge + 63, edge + 64] {
            middle_case(t, e);
        }
    }
    for _ in 0..20 {
        let e = t.random.between(-60_882_944, 60_882_944);
        middle_case(t, e);
    }
}

fn lines(t: &mut Theorems, direction: Direction) {
    for (n, count) in [(4, 12), (8, 8), (16, 6), (32, 6)] {
        for k in 0..count {
            let x = numbers(&mut t.random, n, SIXTEEN_BITS);
            let held = held(&mut t.random, n);
            line_case(t, direction, n as i64, k % 3, &x, &held);
        }
    }
}

fn refused_lines(t: &mut Theorems) {
    for number in [1, 3, 6, 7] {
        for _ in 0..3 {
            refused_line(t, Forward, number);
            refused_line(t, Inverse, number);
        }
    }
}

/// Many small blocks, then one of each shape.
fn blocks(t: &mut Theorems, direction: Direction) {
    for (width, height, count) in [(4, 4, 20), (4, 8, 8), (8, 4, 8), (8, 8, 4)] {
        for k in 0..count {
            accepted_block(t, direction, &shape_in_turn(k, width, height));
        }
    }
    for width in SIZES {
        for height in SIZES {
            let k = t.random.below(20);
            accepted_block(t, direction, &shape_in_turn(k, width, height));
        }
    }
}

/// Coefficients so large that middle values reach the rails.
fn railed_blocks(t: &mut Theorems) {
    for (k, (width, height)) in [(4, 4), (4, 8), (8, 4), (8, 8), (16, 4), (4, 32)]
        .into_iter()
        .enumerate()
    {
        for turn in 0..3 {
            let shape = shape_in_turn(k + turn, width, height);
            let elements = shape.elements() as usize;
            let mut input = extremes(&mut t.random, elements, SIXTEEN_BITS);
            clear_outside(&shape, &mut input);
            block_case(t, Inverse, &shape, &input, &vec![0; elements]);
        }
    }
}

/// "Numbers on both sides", 7: one short of the rail, at it, and clipped.
fn at_the_rail(t: &mut Theorems) {
    for third in [21063, 21064, 21066] {
        let mut column = [0; 16];
        column[4] = 32767;
        column[8] = third;
        block_case(t, Inverse, &Shape::new(4, 4, 1, 1, 10), &column, &[0; 16]);
    }
}

fn refused_blocks(t: &mut Theorems, direction: Direction) {
    for number in [1, 2, 3, 4, 5, 20, 6, 7, direction.hunt()] {
        for _ in 0..3 {
            refused_block(t, direction, number);
        }
    }
    // each has places outside its kept part: the first keeps the most, the others less
    for (k, width, height) in [(4, 32, 4), (1, 32, 4), (3, 4, 32), (5, 32, 8)] {
        lone_bad_number(t, direction, &shape_in_turn(k, width, height));
    }
}

/// Every depth of either switch; then 5, 8 and 27, and 8 before 27.
fn long_blocks(t: &mut Theorems) {
    for extended in [false, true] {
        let deepest = model::long::deepest(extended);
        for depth in 8..=deepest {
            let ends = model::long::ends(extended, depth);
            for (k, (width, height)) in [(4, 4), (4, 8), (8, 4)].into_iter().enumerate() {
                let mut shape = shape_in_turn(k + depth as usize, width, height);
                shape.depth = depth;
                let elements = shape.elements() as usize;
                let mut input = extremes(&mut t.random, elements, ends);
                clear_outside(&shape, &mut input);
                let held = held(&mut t.random, elements);
                long_case(t, extended, &shape, &input, &held);
                let place = t.random.below(elements);
                input[place] = t.random.choose(&[ends[0] - 1, ends[1] + 1]);
                long_case(t, extended, &shape, &input, &held);
            }
        }
        let too_deep = Shape::new(4, 4, 1, 2, deepest + 1);
        long_case(t, extended, &too_deep, &[0; 16], &[7; 16]);
    }
    let shape = Shape::new(4, 4, 1, 1, 16).keeping(4, 3);
    let mut both = [0; 16];
    (both[2], both[13]) = (1 << 20, 1);
    long_case(t, true, &shape, &both, &[7; 16]);
}

/// Sides of 1, 2 and 64 too, of which these columns and rows are read, with any numbers beyond them.
fn transforms(t: &mut Theorems) {
    let parts = [
        [2, 2, 2, 2],
        [2, 2, 1, 2],
        [4, 2, 3, 2],
        [2, 8, 2, 3],
        [8, 4, 5, 4],
        [64, 4, 2, 3],
        [4, 64, 1, 2],
        [64, 2, 3, 1],
        [1, 16, 1, 16],
        [8, 1, 5, 1],
        [1, 64, 1, 3],
    ];
    for (k, [width, height, columns, rows]) in parts.into_iter().enumerate() {
        for extended in [0, 1] {
            let kind = |n, turn| if n % 62 == 2 { 0 } else { turn % 3 };
            let (turn, depth) = (k as i64 + extended, 8 + (3 * k as i64 + 4 * extended) % 9);
            let kinds = [kind(width, turn), kind(height, turn + 1)];
            let shape = Shape::new(width, height, kinds[0], kinds[1], depth).keeping(columns, rows);
            transform_blocks(t, extended, &shape);
        }
    }
    low_frequencies(t);
    // the one pair of 2 points whose middle value is clipped
    let shape = Shape::new(2, 2, 0, 0, 10);
    transform_case(t, 0, &shape, &[32767, 0, -32768, 0]);
    refused_transforms(t);
}

/// One that is taken, and one with a number beyond the range that is read, the first or the last.
fn transform_blocks(t: &mut Theorems, extended: i64, shape: &Shape) {
    let [low, high] = model::long::ends(extended != 0, shape.depth);
    let mut input = extremes(&mut t.random, shape.elements() as usize, [low, high]);
    for (place, number) in input.iter_mut().enumerate() {
        if !is_kept(&(*shape).into(), place) {
            *number = t.random.choose(&[low - 1, high + 1, 5]);
        }
    }
    transform_case(t, extended, shape, &input);
    let last = shape.columns - 1 + (shape.rows - 1) * shape.width;
    input[t.random.choose(&[0, last]) as usize] = t.random.choose(&[low - 1, high + 1]);
    transform_case(t, extended, shape, &input);
}

/// LFNST at the sizes at which its rule changes, with other numbers beyond what is read; then each refusal of it.
fn low_frequencies(t: &mut Theorems) {
    let sizes = [[4, 4], [8, 8], [4, 8], [8, 4], [8, 16], [16, 8], [4, 16]];
    for (k, [width, height]) in sizes.into_iter().enumerate() {
        for turn in 0..2 {
            let lfnst = Lfnst {
                index: 1 + (k as i64 + turn) % 2,
                set: (k as i64 + 2 * turn) % 4,
                transposed: (k as i64 / 2 + turn) % 2,
            };
            let (depth, part) = (
                8 + (2 * k as i64 + 5 * turn) % 9,
                [[4, 4], [3, 4]][turn as usize],
            );
            let shape = Shape::new(width, height, 0, 0, depth).keeping(part[0], part[1]);
            let [low, high] = model::long::ends(turn != 0, depth);
            let mut input = extremes(&mut t.random, shape.elements() as usize, [low, high]);
            for (place, number) in input.iter_mut().enumerate() {
                if !is_kept(&shape.into(), place) {
                    *number = t.random.choose(&[low - 1, high + 1, 5]);
                }
            }
            low_case(t, turn, &lfnst, &shape, &input);
        }
    }
    for [w, h, x, y, columns, rows, index, set, transposed] in [
        [4, 4, 0, 0, 4, 4, 3, 0, 0],
        [4, 8, 0, 0, 4, 4, 2, 4, 1],
        [8, 4, 1, 2, 4, 4, 0, 4, 1],
        [4, 4, 0, 0, 4, 4, 0, 3, 2],
        [2, 4, 0, 0, 2, 4, 1, 3, 1],
        [16, 2, 0, 0, 4, 2, 2, 0, 0],
        [4, 4, 1, 0, 1, 1, 1, 0, 0],
        [4, 4, 0, 2, 1, 1, 2, 0, 0],
        [8, 8, 0, 0, 5, 4, 1, 0, 0],
        [8, 8, 0, 0, 4, 5, 1, 9, 0],
        [8, 8, 0, 0, 5, 5, 0, 3, 1],
    ] {
        let lfnst = Lfnst {
            index,
            set,
            transposed,
        };
        let shape = Shape::new(w, h, x, y, 10).keeping(columns, rows);
        let numbers = t.random.numbers(shape.elements() as usize, -9, 9);
        low_case(t, 0, &lfnst, &shape, &numbers);
    }
}

/// Each refusal of the fields and of the length, and two at once in their order.
fn refused_transforms(t: &mut Theorems) {
    for [w, h, x, y, d, columns, rows, count] in [
        [3, 3, 0, 0, 8, 1, 1, 9],
        [4, 0, 3, 0, 8, 1, 1, 0],
        [1, 1, 0, 0, 8, 1, 1, 1],
        [64, 2, 3, 1, 8, 1, 1, 4],
        [2, 64, 1, 3, 8, 1, 1, 4],
        [2, 4, 1, 1, 17, 1, 1, 8],
        [4, 64, 1, 2, 7, 0, 1, 4],
        [1, 4, 1, 1, 17, 2, 1, 4],
        [1, 4, 2, 1, 16, 2, 4, 3],
        [64, 64, 0, 0, 8, 33, 1, 2],
        [4, 4, 0, 0, 12, 4, 5, 16],
        [2, 2, 0, 0, 8, 2, 2, 5],
        [1, 4, 2, 1, 16, 1, 4, 3],
    ] {
        let shape = Shape::of([w, h, x, y, d, columns, rows]);
        let numbers = t.random.numbers(count as usize, 40_000, 50_000);
        transform_case(t, 0, &shape, &numbers);
    }
}

fn main() {
    let seed = seed();
    let mut t = Theorems::new(seed);
    t.section("tables of weights", weights);
    t.section("middle values", middles);
    t.section("forward lines", |t| lines(t, Forward));
    t.section("inverse lines", |t| lines(t, Inverse));
    t.section("refused lines", refused_lines);
    t.section("forward blocks", |t| blocks(t, Forward));
    t.section("inverse blocks", |t| blocks(t, Inverse));
    t.section("inverse blocks with large coefficients", railed_blocks);
    t.section("inverse blocks about the rail", at_the_rail);
    t.section("refused forward blocks", |t| refused_blocks(t, Forward));
    t.section("refused inverse blocks", |t| refused_blocks(t, Inverse));
    t.section("blocks of long numbers", long_blocks);
    t.section("transform blocks", transforms);
    println!("-- {SEED_VARIABLE}={seed}\n{HEAD}{}", t.text);
    println!("{}", t.met_line());
}

//! Numbers that calls are handed, from random ones to those that are hardest to add up.

use crate::folding;
use crate::library::Shape;
use crate::model::call;
use crate::model::weights::weight;
use crate::random::Random;

/// The least and the largest number that a call takes.
pub type Ends = [i64; 2];

pub const SIXTEEN_BITS: Ends = [-32768, 32767];

/// How the numbers of a line are chosen.
#[derive(Clone, Copy, Debug)]
pub enum Pattern {
    /// any numbers
    Any,
    /// small ones, whose roundings go both ways
    Small,
    /// mostly zeros
    Sparse,
    /// one number among zeros
    Single,
    /// each number one of the two ends
    Ends,
    AllLow,
    AllHigh,
    /// the two ends by turns
    Alternating,
    /// the ends, of one sign where a fast path adds numbers before it multiplies
    Folded,
    /// the ends, with the signs of a row or a column of weights: the largest sums that there are
    Matched,
}
use Pattern::*;

pub const PATTERNS: [Pattern; 10] = [
    Any,
    Small,
    Sparse,
    Single,
    Ends,
    AllLow,
    AllHigh,
    Alternating,
    Folded,
    Matched,
];

/// The numbers of a line of `n` points.
pub fn line(random: &mut Random, pattern: Pattern, kind: u32, n: usize, ends: Ends) -> Vec<i64> {
    let [low, high] = ends;
    match pattern {
        Any => random.numbers(n, low, high),
        Small => random.numbers(n, -9, 9),
        Sparse => (0..n).map(|_| seldom(random, ends)).collect(),
        Single => single(random, n, ends),
        Ends => (0..n).map(|_| random.choose(&ends)).collect(),
        AllLow => vec![low; n],
        AllHigh => vec![high; n],
        Alternating => of_signs(&alternating(random, n), ends),
        Folded => of_signs(&folded(random, n), ends),
        Matched => of_signs(&matched(random, kind, n), ends),
    }
}

fn seldom(random: &mut Random, [low, high]: Ends) -> i64 {
    if random.once_in(8) {
        random.between(low, high)
    } else {
        0
    }
}

/// A number that tells one place from another: the smallest, the largest, or any.
fn telling(random: &mut Random, [low, high]: Ends) -> i64 {
    let any = random.between(low, high);
    random.choose(&[1, -1, low, high, any])
}

fn single(random: &mut Random, n: usize, ends: Ends) -> Vec<i64> {
    let mut numbers = vec![0; n];
    numbers[random.below(n)] = telling(random, ends);
    numbers
}

/// The end of each sign, and 0 where there is none.
fn of_signs(signs: &[i64], [low, high]: Ends) -> Vec<i64> {
    let end = |sign: &i64| match sign.signum() {
        1 => high,
        -1 => low,
        _ => 0,
    };
    signs.iter().map(end).collect()
}

fn alternating(random: &mut Random, n: usize) -> Vec<i64> {
    let first = random.choose(&[1, -1]);
    (0..n)
        .map(|j| if j % 2 == 0 { first } else { -first })
        .collect()
}

/// Signs that make the sums of a fast path as large as they get. DCT-VIII and the other direction have the same sums
/// with the places reversed, every second sign changed, or both.
fn folded(random: &mut Random, n: usize) -> Vec<i64> {
    let mut signs = vec![0; n];
    let sums = sums_or_pairs(random, n);
    let count = if random.once_in(2) { 1 } else { sums.len() };
    let (start, all) = (random.below(sums.len()), random.choose(&[1, -1]));
    for k in 0..count {
        for (place, sign) in &sums[(start + k) % sums.len()] {
            // the first sum that names a place decides its sign
            if signs[*place] == 0 {
                signs[*place] = all * sign;
            }
        }
    }
    if random.once_in(2) {
        signs.reverse();
    }
    if random.once_in(2) {
        signs
            .iter_mut()
            .skip(1)
            .step_by(2)
            .for_each(|sign| *sign = -*sign);
    }
    signs
}

/// Where the weights share nothing, any two places do.
fn sums_or_pairs(random: &mut Random, n: usize) -> Vec<folding::Sum> {
    let sums = folding::sums(n);
    if sums.is_empty() {
        vec![vec![(random.below(n), 1), (random.below(n), 1)]]
    } else {
        sums
    }
}

/// The signs of a row or a column of weights, or their contraries.
fn matched(random: &mut Random, kind: u32, n: usize) -> Vec<i64> {
    let (fixed, row) = (random.below(n), random.once_in(2));
    let all = random.choose(&[1, -1]);
    let at = |j| match row {
        true => weight(kind.into(), n, fixed, j),
        false => weight(kind.into(), n, j, fixed),
    };
    (0..n).map(|j| all * at(j)).collect()
}

/// How the numbers of a block are chosen.
#[derive(Clone, Copy, Debug)]
pub enum Layout {
    /// each row a line of the pattern
    Rows(Pattern),
    /// each column a line of the pattern
    Columns(Pattern),
    /// the two ends by turns in both directions
    Checkered,
    /// the largest sums in both directions
    MatchedTwice,
    /// zeros but for the 4 by 4 corner
    Corner,
    /// one number among zeros
    One,
}
use Layout::*;

pub const LAYOUTS: [Layout; 15] = [
    Rows(Any),
    Rows(Small),
    Rows(Sparse),
    Rows(Single),
    Rows(Ends),
    Rows(AllLow),
    Rows(AllHigh),
    Rows(Alternating),
    Rows(Folded),
    Columns(Alternating),
    Columns(Folded),
    Checkered,
    MatchedTwice,
    Corner,
    One,
];

/// The numbers of a block, row by row.
pub fn block(random: &mut Random, layout: Layout, shape: &Shape, ends: Ends) -> Vec<i64> {
    let [w, h] = [shape.width as usize, shape.height as usize];
    let row = |pattern, random: &mut Random| line(random, pattern, shape.horizontal, w, ends);
    match layout {
        Rows(pattern) => (0..h).flat_map(|_| row(pattern, random)).collect(),
        Columns(pattern) => {
            let column = |_| line(random, pattern, shape.vertical, h, ends);
            let columns: Vec<Vec<i64>> = (0..w).map(column).collect();
            grid(w, h, |x, y| columns[x][y])
        }
        Checkered => {
            let (across, down) = (alternating(random, w), alternating(random, h));
            of_signs(&grid(w, h, |x, y| across[x] * down[y]), ends)
        }
        MatchedTwice => {
            let across = matched(random, shape.horizontal, w);
            let down = matched(random, shape.vertical, h);
            of_signs(&grid(w, h, |x, y| across[x] * down[y]), ends)
        }
        Corner => {
            let corner = line(random, Any, shape.horizontal, 16, ends);
            grid(
                w,
                h,
                |x, y| if x < 4 && y < 4 { corner[x + 4 * y] } else { 0 },
            )
        }
        One => {
            let [columns, rows] = kept(shape);
            let place = (random.below(columns), random.below(rows));
            let number = telling(random, ends);
            grid(w, h, |x, y| if (x, y) == place { number } else { 0 })
        }
    }
}

/// A number for each place of a block, row by row.
fn grid(w: usize, h: usize, at: impl Fn(usize, usize) -> i64) -> Vec<i64> {
    (0..w * h).map(|place| at(place % w, place / w)).collect()
}

/// Whether the inverse takes a number other than 0 at this place.
pub fn is_kept(shape: &Shape, place: usize) -> bool {
    let ([columns, rows], w) = (kept(shape), shape.width as usize);
    place % w < columns && place / w < rows
}

/// How many columns and rows are kept.
fn kept(shape: &Shape) -> [usize; 2] {
    [shape.columns as usize, shape.rows as usize]
}

/// The shape with other kept numbers, each of those that are allowed, the ends often: one, or all.
pub fn keeping_any(random: &mut Random, shape: &Shape) -> Shape {
    let mut any = |kind: u32, n: u32| {
        let most = call::most_kept(kind.into(), n.into());
        let between = random.between(1, most);
        random.choose(&[1, most, between, between]) as u32
    };
    let columns = any(shape.horizontal, shape.width);
    let rows = any(shape.vertical, shape.height);
    shape.keeping(columns, rows)
}

/// Zero in every place that is not kept.
pub fn clear_outside(shape: &Shape, coefficients: &mut [i64]) {
    for (place, coefficient) in coefficients.iter_mut().enumerate() {
        if !is_kept(shape, place) {
            *coefficient = 0;
        }
    }
}

/// Coefficients whose kept columns each have a sum about an end of what a middle value may be.
pub fn block_about_the_rails(random: &mut Random, shape: &Shape) -> Vec<i64> {
    block_about(random, shape, SIXTEEN_BITS)
}

/// The same, where coefficients and middle values have these ends.
pub fn block_about(random: &mut Random, shape: &Shape, ends: Ends) -> Vec<i64> {
    let [w, h] = [shape.width as usize, shape.height as usize];
    let [columns, rows] = kept(shape);
    let column = |_| column_about(random, shape.vertical, h, rows, ends);
    let all: Vec<Vec<i64>> = (0..columns).map(column).collect();
    grid(w, h, |x, y| {
        if x < columns && y < rows {
            all[x][y]
        } else {
            0
        }
    })
}

fn column_about(random: &mut Random, kind: u32, h: usize, rows: usize, ends: Ends) -> Vec<i64> {
    let [low, high] = ends;
    // the least sum whose middle value is the high end, and the largest whose middle value is the low one
    let at_the_rails = [high * 128 - 64, -high * 128 - 65];
    let sum = random.choose(&at_the_rails) + random.between(-200, 200);
    let y = random.below(h);
    let weights: Vec<i64> = (0..rows).map(|i| weight(kind.into(), h, i, y)).collect();
    let total: i64 = weights.iter().map(|w| w.abs()).sum();
    let most = (2 * sum.abs() / total).min(high);
    // random numbers that bring the sum near, and the one with the largest weight for the rest
    let near = |w: &i64| (w * sum).signum() * random.between(0, most);
    let mut column: Vec<i64> = weights.iter().map(near).collect();
    let last = (0..weights.len())
        .max_by_key(|i| weights[*i].abs())
        .expect("a column has rows");
    column[last] = 0;
    let so_far: i64 = column.iter().zip(&weights).map(|(c, w)| c * w).sum();
    column[last] = ((sum - so_far) / weights[last]).clamp(low, high);
    column
}

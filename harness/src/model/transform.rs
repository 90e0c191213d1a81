//! Every transform block of a stream in one call, in place: what a decoder of H.266 does with one (`docs/DECISIONS.md`). It is a shape,
//! whose kept columns and rows are those that are read, the extended-precision switch, and LFNST.

use super::block::nearest;
use super::call::{first_refusal, is_kind, is_size, refusal_at, Answer, Shape};
use super::line::inverse_sums;
use super::long::{ends, reach};
use crate::lfnst::LowFrequency;

/// A block's three numbers of LFNST: any numbers.
#[derive(Clone, Copy, Debug, Default)]
pub struct Lfnst {
    /// "0 none, 1 or 2: the index"
    pub index: i64,
    pub set: i64,
    pub transposed: i64,
}

/// The inverse of a transform block: coefficients, and then residuals in their place.
pub fn inverse_transform(
    shape: &Shape,
    extended: bool,
    lfnst: &Lfnst,
    numbers: &mut [i64],
) -> Answer {
    let refusal = refusal(shape, lfnst, numbers.len())
        .or_else(|| refusal_at(27, beyond(shape, extended, numbers)));
    refusal.unwrap_or_else(|| {
        let columns = match lfnst.index {
            0 => read(shape, numbers),
            _ => low_frequency(shape, extended, lfnst, numbers),
        };
        let (residuals, rails) = match is_thin(shape) {
            true => (one_stage(shape, extended, &columns.concat()), 0),
            false => two_stages(shape, extended, &columns),
        };
        numbers.copy_from_slice(&residuals);
        Answer::accepted(rails)
    })
}

/// "1, 2, 4, 8, 16, 32 or 64"
fn is_side(n: i64) -> bool {
    is_size(n) || [1, 2, 64].contains(&n)
}

/// "a kind other than 0 where the side is 2 or 64"
fn has_no_line(kind: i64, n: i64) -> bool {
    kind != 0 && [2, 64].contains(&n)
}

/// "lfnst above 2, set above 3, transposed above 1 (these three with lfnst 0 too), a side below 4, or a kind other than 0"
fn has_no_lfnst(shape: &Shape, lfnst: &Lfnst) -> bool {
    let sides = [shape.width, shape.height];
    let kinds = [shape.horizontal, shape.vertical];
    lfnst.index > 2
        || lfnst.set > 3
        || lfnst.transposed > 1
        || lfnst.index != 0 && (sides.iter().any(|n| *n < 4) || kinds != [0, 0])
}

/// 1, 2, 3, 4, 30, 5, 20, 31 and 6: the first that applies.
fn refusal(shape: &Shape, lfnst: &Lfnst, count: usize) -> Option<Answer> {
    let [w, h] = [shape.width, shape.height];
    let [x, y] = [shape.horizontal, shape.vertical];
    first_refusal(&[
        (1, !is_side(w)),
        (2, !is_side(h) || [w, h] == [1, 1]),
        (3, !is_kind(x)),
        (4, !is_kind(y)),
        (30, has_no_line(x, w) || has_no_line(y, h)),
        (5, !(8..=16).contains(&shape.depth)),
        (20, !shape.keeps()),
        (20, lfnst.index != 0 && shape.columns.max(shape.rows) > 4),
        (31, has_no_lfnst(shape, lfnst)),
        (6, count as i64 != shape.elements()),
    ])
}

/// 27: the first number, row by row, "that is read and outside -2^R .. 2^R-1".
fn beyond(shape: &Shape, extended: bool, numbers: &[i64]) -> Option<usize> {
    let [low, high] = ends(extended, shape.depth);
    let places = (0..shape.rows).flat_map(|y| (0..shape.columns).map(move |x| x + y * shape.width));
    let mut places = places.map(|place| place as usize);
    places.find(|place| numbers[*place] < low || numbers[*place] > high)
}

/// "the first columns and rows": a column of its rows each.
fn read(shape: &Shape, numbers: &[i64]) -> Vec<Vec<i64>> {
    let at = |x, y| numbers[(x + y * shape.width) as usize];
    let column = |x| (0..shape.rows).map(|y| at(x, y)).collect();
    (0..shape.columns).map(column).collect()
}

/// The low-frequency stage over what is read, all else being 0: as many columns and rows as a block has at most, 0 but for its values.
fn low_frequency(shape: &Shape, extended: bool, lfnst: &Lfnst, numbers: &[i64]) -> Vec<Vec<i64>> {
    let stage = LowFrequency {
        width: shape.width as usize,
        height: shape.height as usize,
        index: lfnst.index as usize,
        set: lfnst.set as usize,
        transposed: lfnst.transposed == 1,
        reach: reach(extended, shape.depth) as u32,
    };
    let coefficients = read(shape, numbers);
    let coefficient = |x: usize, y: usize| {
        let column = coefficients.get(x);
        column
            .and_then(|column| column.get(y))
            .copied()
            .unwrap_or(0)
    };
    let values = stage.values(coefficient);
    let [columns, rows] = [shape.width, shape.height].map(|n| n.min(32) as usize);
    let at = |x, y| values.get(&(x, y)).copied().unwrap_or(0);
    let column = |x| (0..rows).map(|y| at(x, y)).collect();
    (0..columns).map(column).collect()
}

fn is_thin(shape: &Shape) -> bool {
    shape.width == 1 || shape.height == 1
}

/// "a block with a side of 1 has one stage and 6+R-d": the line of the other side.
fn one_stage(shape: &Shape, extended: bool, line: &[i64]) -> Vec<i64> {
    let [kind, n] = match shape.width {
        1 => [shape.vertical, shape.height],
        _ => [shape.horizontal, shape.width],
    };
    let last = 6 + reach(extended, shape.depth) - shape.depth;
    let sums = inverse_sums(kind, n as usize, line).into_iter();
    sums.map(|sum| nearest(sum, last)).collect()
}

/// "columns → (e+64)>>7 and clip to -2^R .. 2^R-1 → rows → last shift, no clip": the residuals, and how many middle values the clip
/// altered.
fn two_stages(shape: &Shape, extended: bool, columns: &[Vec<i64>]) -> (Vec<i64>, i64) {
    let [low, high] = ends(extended, shape.depth);
    let last = 5 + reach(extended, shape.depth) - shape.depth;
    let mut rails = 0;
    let mut rows = vec![vec![]; shape.height as usize];
    for column in columns {
        let sums = inverse_sums(shape.vertical, shape.height as usize, column);
        for (row, sum) in rows.iter_mut().zip(sums) {
            let middle = nearest(sum, 7);
            rails += i64::from(middle < low || middle > high);
            row.push(middle.max(low).min(high));
        }
    }
    let line = |row: &Vec<i64>| inverse_sums(shape.horizontal, shape.width as usize, row);
    let sums = rows.iter().flat_map(line);
    (sums.map(|sum| nearest(sum, last)).collect(), rails)
}

#[cfg(test)]
mod tests {
    use super::*;
    use crate::model::samples::{any_coefficients, any_shape};
    use crate::model::{inverse, inverse_long, inverse_thin};
    use crate::random;

    const NONE: Lfnst = Lfnst {
        index: 0,
        set: 0,
        transposed: 0,
    };

    fn taken(shape: &Shape, extended: bool, c: &[i64]) -> (i64, Vec<i64>) {
        let mut numbers = c.to_vec();
        let answer = inverse_transform(shape, extended, &NONE, &mut numbers);
        assert_eq!([answer.number, answer.place], [0, 0], "{shape:?}");
        (answer.rails, numbers)
    }

    /// 2 by 2 at 10 bits, by hand: columns 64 * (a + c) and 64 * (a - c), halved; then rows alike, by 2^10.
    #[test]
    fn two_by_two() {
        let shape = Shape::new(2, 2, 0, 0, 10);
        // middles 50 20 / -10 40, sums 64 * (70, 30 / 30, -50)
        assert_eq!(
            taken(&shape, false, &[40, 60, 60, -20]),
            (0, vec![4, 2, 2, -3])
        );
        // the one pair whose middle value is clipped: half of 32767 + 32768, rounded up
        assert_eq!(taken(&shape, false, &[32767, 0, -32768, 0]).0, 1);
        assert_eq!(taken(&shape, false, &[32766, 0, -32768, 0]).0, 0);
        assert_eq!(taken(&shape, false, &[-32768, 0, 32767, 0]).0, 0);
        assert_eq!(taken(&shape, false, &[-32768, 0, -32768, 0]).0, 0);
    }

    /// One coefficient in the first place: every residual is the same, at every pair of sides of kind 0.
    #[test]
    fn the_first_coefficient_alone() {
        for (w, h) in [(64, 64), (64, 2), (2, 64), (4, 64), (32, 64)] {
            let shape = Shape::new(w, h, 0, 0, 10);
            let mut c = vec![0; (w * h) as usize];
            c[0] = 1000;
            assert_eq!(taken(&shape, false, &c), (0, vec![31; c.len()]));
            // what stands beyond the first column and row is not looked at
            c[1..].fill(i32::MIN.into());
            let one = shape.keeping(1, 1);
            assert_eq!(taken(&one, false, &c), (0, vec![31; c.len()]));
        }
        let line = Shape::new(1, 64, 2, 0, 10);
        let mut c = vec![0; 64];
        c[0] = 1000;
        assert_eq!(taken(&line, false, &c), (0, vec![31; 64]));
    }

    /// Where the other calls take the numbers, residuals and rail count are theirs.
    #[test]
    fn the_other_calls() {
        let mut random = random::seeded();
        for _ in 0..200 {
            let extended = random.once_in(2);
            let shape = any_shape(&mut random, if extended { 16 } else { 12 });
            let c = any_coefficients(&mut random, &shape, ends(extended, shape.depth));
            let found = taken(&shape, extended, &c);
            let mut out = vec![0; c.len()];
            let answer = inverse_long(&shape, extended, &c, &mut out);
            assert_eq!(found, (answer.rails, out.clone()));
            if !extended {
                let answer = inverse(&shape, &c, &mut out);
                assert_eq!(found, (answer.rails, out));
            }
        }
        for n in [4, 8, 16] {
            let shape = Shape::new(n, 1, random.between(0, 2), 1, random.between(8, 12));
            let c = any_coefficients(&mut random, &shape, ends(false, shape.depth));
            let (mut first, mut second) = (vec![0; 16], vec![0; 16]);
            inverse_thin(&shape, &c, &mut first, &mut second);
            assert_eq!(taken(&shape, false, &c), (0, first[..n as usize].to_vec()));
        }
    }

    #[test]
    fn refusals() {
        let number = |w, h, x, y, d| {
            let shape = Shape::new(w, h, x, y, d);
            inverse_transform(&shape, false, &NONE, &mut []).number
        };
        assert_eq!([number(3, 3, 0, 0, 8), number(4, 0, 0, 0, 8)], [1, 2]);
        assert_eq!([number(1, 1, 0, 0, 8), number(1, 1, 9, 0, 8)], [2, 2]);
        assert_eq!([number(64, 4, 3, 1, 8), number(4, 2, 1, 3, 8)], [3, 4]);
        assert_eq!([number(64, 4, 1, 1, 8), number(4, 2, 0, 2, 17)], [30, 30]);
        assert_eq!([number(1, 4, 1, 1, 7), number(2, 2, 0, 0, 17)], [5, 5]);
        assert_eq!([number(1, 4, 2, 1, 16), number(64, 64, 0, 0, 13)], [6, 6]);
        let shape = Shape::new(4, 4, 1, 1, 8).keeping(2, 2);
        let mut c = vec![99_999; 16];
        for place in [0, 1, 4, 5] {
            let answer = inverse_transform(&shape, false, &NONE, &mut c);
            assert_eq!(answer, Answer::refused(27, place));
            c[place as usize] = 0;
        }
        assert_eq!(inverse_transform(&shape, false, &NONE, &mut c).number, 0);
        assert_eq!(c, [0; 16]);
        let none = shape.keeping(5, 1);
        assert_eq!(inverse_transform(&none, false, &NONE, &mut []).number, 20);
    }
    /// 4 by 4 with one coefficient, by hand: the values are a row of the matrix of set 0 and index 1, times 128 and over 128, row by row.
    #[test]
    fn a_block_with_lfnst() {
        let lfnst = Lfnst { index: 1, ..NONE };
        let shape = Shape::new(4, 4, 0, 0, 10);
        let mut c = vec![0; 16];
        c[0] = 128;
        let mut numbers = c.clone();
        let answer = inverse_transform(&shape, false, &lfnst, &mut numbers);
        assert_eq!([answer.number, answer.rails], [0, 0]);
        let row = [
            108, -44, -15, 1, -44, 19, 7, -1, -11, 6, 2, -1, 0, -1, -1, 0,
        ];
        assert_eq!(taken(&shape, false, &row), (0, numbers.clone()));
        // transposed: column by column; and what is not read counts as 0
        let turned = Lfnst {
            transposed: 1,
            ..lfnst
        };
        let mut spoilt = vec![i32::MAX.into(); 16];
        spoilt[0] = 128;
        inverse_transform(&shape.keeping(1, 1), false, &turned, &mut spoilt);
        let column: Vec<i64> = (0..16).map(|k| row[k / 4 + k % 4 * 4]).collect();
        assert_eq!(taken(&shape, false, &column), (0, spoilt));
    }

    #[test]
    fn refusals_of_lfnst() {
        let number = |w, h, [x, y]: [i64; 2], [index, set, transposed]: [i64; 3]| {
            let shape = Shape::new(w, h, x, y, 8);
            let shape = shape.keeping(shape.columns.min(4), shape.rows.min(4));
            let lfnst = Lfnst {
                index,
                set,
                transposed,
            };
            inverse_transform(&shape, false, &lfnst, &mut []).number
        };
        for low in [[3, 0, 0], [1, 4, 0], [2, 3, 2], [0, 4, 0], [0, 0, 2]] {
            assert_eq!(number(4, 8, [0, 0], low), 31);
        }
        assert_eq!(number(2, 4, [0, 0], [1, 0, 0]), 31);
        assert_eq!(number(4, 2, [0, 0], [1, 0, 0]), 31);
        assert_eq!(number(4, 4, [1, 0], [1, 0, 0]), 31);
        assert_eq!(number(4, 4, [0, 2], [2, 0, 0]), 31);
        assert_eq!(number(4, 4, [0, 2], [0, 3, 1]), 6);
        assert_eq!(number(64, 4, [0, 0], [2, 3, 1]), 6);
        // 20 before 31, and 31 before 6
        let wide = Shape::new(8, 8, 0, 0, 8).keeping(5, 4);
        let lfnst = Lfnst {
            index: 1,
            set: 9,
            transposed: 0,
        };
        assert_eq!(inverse_transform(&wide, false, &lfnst, &mut []).number, 20);
        let low = wide.keeping(4, 4);
        assert_eq!(inverse_transform(&low, false, &lfnst, &mut []).number, 31);
        assert_eq!(inverse_transform(&low, false, &NONE, &mut []).number, 6);
    }
}

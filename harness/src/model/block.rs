//! "Blocks": both directions, with the middle rounding, the clip, the rail count and the hunt.

use super::call::{refusal_at, Answer, Shape};
use super::line::{forward_sums, inverse_sums};

/// Both ends of what a middle value may be.
pub const ENDS: [i64; 2] = [-32768, 32767];

/// The inverse of a block of coefficients: its last shift is "20-d".
pub fn inverse(shape: &Shape, coefficients: &[i64], residuals: &mut [i64]) -> Answer {
    let refusal = shape
        .refusal()
        .or_else(|| shape.length_refusal(coefficients.len(), residuals.len()))
        .or_else(|| refusal_at(8, first_outside(shape, coefficients)));
    refusal.unwrap_or_else(|| stages(shape, ENDS, 20 - shape.depth, coefficients, residuals))
}

/// Both stages of an inverse that is taken, over the range of its middle values and its last shift s.
fn stages(
    shape: &Shape,
    range: [i64; 2],
    s: i64,
    coefficients: &[i64],
    residuals: &mut [i64],
) -> Answer {
    let unclipped = unclipped(shape, coefficients);
    let column = |values: &Vec<i64>| values.iter().map(|m| clipped(*m, range)).collect();
    let middles: Vec<Vec<i64>> = unclipped.iter().map(column).collect();
    let rows = (0..shape.height).flat_map(|y| residual_row(shape, s, &middles, y));
    residuals.copy_from_slice(&rows.collect::<Vec<i64>>());
    Answer::accepted(rail_count(&unclipped, range))
}

/// The forward of a block of residuals.
pub fn forward(shape: &Shape, residuals: &[i64], coefficients: &mut [i64]) -> Answer {
    let refusal = shape
        .refusal()
        .or_else(|| shape.length_refusal(residuals.len(), coefficients.len()))
        .or_else(|| refusal_at(9, first_too_large(shape, residuals)));
    if let Some(refusal) = refusal {
        return refusal;
    }
    let columns = forward_columns(shape, &forward_rows(shape, residuals));
    for (place, coefficient) in coefficients.iter_mut().enumerate() {
        let (x, y) = column_and_row(shape, place);
        // "Coefficients outside the kept rows and columns are written 0."
        *coefficient = if is_kept(shape, x, y) {
            columns[x as usize][y as usize]
        } else {
            0
        };
    }
    Answer::accepted(0)
}

/// "Place x + y*w is column x, row y."
fn column_and_row(shape: &Shape, place: usize) -> (i64, i64) {
    let place = place as i64;
    (place % shape.width, place / shape.width)
}

fn is_kept(shape: &Shape, x: i64, y: i64) -> bool {
    x < shape.columns && y < shape.rows
}

/// 8: "a non-zero coefficient outside the kept part; place of the first, row by row".
pub fn first_outside(shape: &Shape, coefficients: &[i64]) -> Option<usize> {
    (0..coefficients.len()).find(|&place| {
        let (x, y) = column_and_row(shape, place);
        coefficients[place] != 0 && !is_kept(shape, x, y)
    })
}

/// 9: "a residual of size above 2^d-1; place of the first".
fn first_too_large(shape: &Shape, residuals: &[i64]) -> Option<usize> {
    let largest = (1 << shape.depth) - 1;
    residuals.iter().position(|r| r.abs() > largest)
}

/// "a >> n" is the floor of a over 2^n: `div_euclid` by a positive number is that floor.
pub fn floor_shift(a: i64, n: i64) -> i64 {
    a.div_euclid(1 << n)
}

/// (a + 2^(n-1)) >> n
pub fn nearest(a: i64, n: i64) -> i64 {
    floor_shift(a + (1 << (n - 1)), n)
}

/// "(e+64)>>7", before the clip.
fn rounded(e: i64) -> i64 {
    floor_shift(e + 64, 7)
}

/// "The middle value is (e+64)>>7, clipped to -32768..32767."
pub fn middle(e: i64) -> i64 {
    clipped(rounded(e), ENDS)
}

fn clipped(m: i64, [low, high]: [i64; 2]) -> i64 {
    m.clamp(low, high)
}

/// "Each kept column goes through the vertical line over its kept rows, giving h sums e."
pub fn column_sums(shape: &Shape, coefficients: &[i64]) -> Vec<Vec<i64>> {
    let column = |x: i64| {
        let kept = (0..shape.rows).map(|y| coefficients[(x + y * shape.width) as usize]);
        let kept: Vec<i64> = kept.collect();
        inverse_sums(shape.vertical, shape.height as usize, &kept)
    };
    (0..shape.columns).map(column).collect()
}

/// The h middle values of each kept column before the clip.
pub fn unclipped(shape: &Shape, coefficients: &[i64]) -> Vec<Vec<i64>> {
    let column = |sums: Vec<i64>| sums.into_iter().map(rounded).collect();
    let columns = column_sums(shape, coefficients).into_iter();
    columns.map(column).collect()
}

/// "how many middle values of kept columns, over all h rows": document 02, Wish 2, "only where the clip altered it".
fn rail_count(unclipped: &[Vec<i64>], range: [i64; 2]) -> i64 {
    let altered = |m: &&i64| clipped(**m, range) != **m;
    unclipped.iter().flatten().filter(altered).count() as i64
}

/// How many middle values stand at an end of the range though the clip did not alter them: those do not count.
pub fn fair_ends(shape: &Shape, coefficients: &[i64]) -> usize {
    let unclipped = unclipped(shape, coefficients);
    let fair = |m: &&i64| ENDS.contains(m);
    unclipped.iter().flatten().filter(fair).count()
}

/// "Then each row goes through the horizontal line over its kept columns, giving r. The residual is
/// (r + 2^(19-d)) >> (20-d)"; document 02, Wish 14: "s stands for 20-d".
fn residual_row(shape: &Shape, s: i64, middles: &[Vec<i64>], y: i64) -> Vec<i64> {
    let row: Vec<i64> = middles.iter().map(|column| column[y as usize]).collect();
    let sums = inverse_sums(shape.horizontal, shape.width as usize, &row);
    sums.into_iter().map(|r| nearest(r, s)).collect()
}

fn log2(n: i64) -> i64 {
    i64::from(n.trailing_zeros())
}

/// "Rows first: (y + 2^(p-1)) >> p with p = log2(w)+d-9."
fn forward_rows(shape: &Shape, residuals: &[i64]) -> Vec<Vec<i64>> {
    let p = log2(shape.width) + shape.depth - 9;
    let row = |row| {
        let sums = forward_sums(shape.horizontal, row);
        sums.into_iter().map(|y| nearest(y, p)).collect()
    };
    residuals
        .chunks_exact(shape.width as usize)
        .map(row)
        .collect()
}

/// "Then columns: (y + 2^(q-1)) >> q with q = log2(h)+6." Column by column.
fn forward_columns(shape: &Shape, rows: &[Vec<i64>]) -> Vec<Vec<i64>> {
    let q = log2(shape.height) + 6;
    let column = |x: i64| {
        let column: Vec<i64> = rows.iter().map(|row| row[x as usize]).collect();
        let sums = forward_sums(shape.vertical, &column);
        sums.into_iter().map(|y| nearest(y, q)).collect()
    };
    (0..shape.width).map(column).collect()
}

#[cfg(test)]
mod tests {
    use super::*;
    use crate::model::samples::{any_coefficients, any_shape, inside};
    use crate::random::{self, Random};

    /// Every other one keeps the most.
    fn random_shape(random: &mut Random) -> Shape {
        let most = any_shape(random, 12);
        if random.once_in(2) {
            return most;
        }
        most.keeping(
            random.between(1, most.columns),
            random.between(1, most.rows),
        )
    }

    /// Forward: "Nothing is clipped, as nothing leaves 16 bits." Inverse: "a signed 32-bit number".
    #[test]
    fn answers_fit_their_types() {
        let mut random = random::seeded();
        for _ in 0..50 {
            let shape = random_shape(&mut random);
            let largest = (1 << shape.depth) - 1;
            let elements = shape.elements() as usize;
            let residuals: Vec<i64> = (0..elements)
                .map(|_| random.choose(&[-largest, largest]))
                .collect();
            let mut coefficients = vec![0; elements];
            assert_eq!(forward(&shape, &residuals, &mut coefficients).number, 0);
            assert!(coefficients.iter().all(|&c| i16::try_from(c).is_ok()));
            let mut back = vec![0; elements];
            assert_eq!(inverse(&shape, &coefficients, &mut back).number, 0);
            assert!(back.iter().all(|&r| i32::try_from(r).is_ok()));
        }
    }

    /// The hunt is met last, and gives the first bad place row by row.
    #[test]
    fn hunts_come_after_the_lengths() {
        let shape = Shape::new(8, 32, 1, 2, 9);
        let mut block = vec![0; 256];
        block[16 * 8 + 3] = -1;
        block[16 * 8 + 5] = 1;
        let mut out = vec![5; 256];
        assert_eq!(inverse(&shape, &block, &mut out), Answer::refused(8, 131));
        assert_eq!(
            inverse(&shape, &block, &mut out[1..]),
            Answer::refused(7, 0)
        );
        assert_eq!(
            inverse(&shape, &block[1..], &mut out),
            Answer::refused(6, 0)
        );
        block[7] = 512;
        assert_eq!(forward(&shape, &block, &mut out), Answer::refused(9, 7));
        assert_eq!(out, vec![5; 256]);
    }

    #[test]
    fn shapes_are_refused_in_order() {
        let mut numbers = [5, 5, 4, 3, 13];
        let right = [4, 4, 1, 1, 8];
        for k in 0..5 {
            let [w, h, horizontal, vertical, d] = numbers;
            let shape = Shape::new(w, h, horizontal, vertical, d);
            let answer = inverse(&shape, &[0; 3], &mut [0; 3]);
            assert_eq!(answer, Answer::refused(k as i64 + 1, 0));
            numbers[k] = right[k];
        }
    }

    /// "20 for kept numbers out of range, after 5", and before 6.
    #[test]
    fn kept_numbers_out_of_range() {
        let number = |shape: Shape| inverse(&shape, &[0; 3], &mut [0; 3]).number;
        for (kinds, most) in [([1, 2], [16, 16]), ([0, 1], [32, 16]), ([2, 0], [16, 32])] {
            let shape = Shape::new(32, 32, kinds[0], kinds[1], 10);
            assert_eq!([shape.columns, shape.rows], most);
            for [columns, rows] in [[1, 1], most, [most[0], 1], [1, most[1]]] {
                assert_eq!(number(shape.keeping(columns, rows)), 6);
            }
            for [columns, rows] in [[0, 1], [1, 0], [most[0] + 1, 1], [1, most[1] + 1]] {
                assert_eq!(number(shape.keeping(columns, rows)), 20);
            }
        }
        assert_eq!(number(Shape::new(8, 4, 1, 1, 8).keeping(9, 4)), 20);
        assert_eq!(number(Shape::new(8, 4, 1, 1, 8).keeping(8, 5)), 20);
        assert_eq!(number(Shape::new(8, 4, 1, 1, 13).keeping(0, 0)), 5);
    }

    /// What is dropped is what a block that keeps less does not see: its inverse is that of the rest, its forward has zeros
    /// there, and 8 and the rail count follow.
    #[test]
    fn less_kept_is_the_rest_of_more() {
        let mut random = random::seeded();
        for _ in 0..30 {
            let less = random_shape(&mut random);
            let [w, h, horizontal, vertical, depth, ..] = less.numbers();
            let most = Shape::new(w, h, horizontal, vertical, depth);
            let elements = less.elements() as usize;
            let coefficients = any_coefficients(&mut random, &less, [-32768, 32767]);
            let (mut one, mut other) = (vec![0; elements], vec![0; elements]);
            let answer = inverse(&less, &coefficients, &mut one);
            let rails = answer.rails;
            assert_eq!(inverse(&most, &coefficients, &mut other).rails, rails);
            assert_eq!((answer, &one), (Answer::accepted(rails), &other));
            if let Some(place) = first_outside(&less, &vec![1; elements]) {
                let mut outside = coefficients.clone();
                outside[place] = 1;
                let refused = Answer::refused(8, place as i64);
                assert_eq!(inverse(&less, &outside, &mut one), refused);
            }

            let largest = (1 << depth) - 1;
            let residuals = random.numbers(elements, -largest, largest);
            forward(&less, &residuals, &mut one);
            forward(&most, &residuals, &mut other);
            assert_eq!(one, inside(&less, other));
        }
    }
}

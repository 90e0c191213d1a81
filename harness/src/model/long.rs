//! Document 02, Wish 14: "The second edition's long numbers". The inverse of a block whose range and last shift follow the
//! extended-precision switch; `docs/DECISIONS.md` has where the two rules come from.

use super::block::{first_outside, nearest, unclipped};
use super::call::{refusal_at, Answer, Shape};
use super::line::inverse_sums;

/// R: coefficients and middle values are -2^R .. 2^R - 1.
pub fn reach(extended: bool, depth: i64) -> i64 {
    if extended {
        (depth + 6).clamp(15, 20)
    } else {
        15
    }
}

/// s, the last shift.
pub fn last_shift(extended: bool, depth: i64) -> i64 {
    5 + reach(extended, depth) - depth
}

/// "5 accepts 13..16 only with the switch on".
pub fn deepest(extended: bool) -> i64 {
    if extended {
        16
    } else {
        12
    }
}

/// Both ends of the range.
pub fn ends(extended: bool, depth: i64) -> [i64; 2] {
    let end = 1 << reach(extended, depth);
    [-end, end - 1]
}

/// 27: "a coefficient outside the range"; place of the first.
pub fn first_beyond(shape: &Shape, extended: bool, coefficients: &[i64]) -> Option<usize> {
    let [low, high] = ends(extended, shape.depth);
    let beyond = |z: &i64| !(low..=high).contains(z);
    coefficients.iter().position(beyond)
}

/// The inverse of a block of long numbers.
pub fn inverse_long(
    shape: &Shape,
    extended: bool,
    coefficients: &[i64],
    residuals: &mut [i64],
) -> Answer {
    // "27 for a coefficient outside the range, after 8, with its place"
    let refusal = shape
        .refusal_to(deepest(extended))
        .or_else(|| shape.length_refusal(coefficients.len(), residuals.len()))
        .or_else(|| refusal_at(8, first_outside(shape, coefficients)))
        .or_else(|| refusal_at(27, first_beyond(shape, extended, coefficients)));
    refusal.unwrap_or_else(|| worked(shape, extended, coefficients, residuals))
}

/// The clip, the rails and the second stage of a call that is taken: written apart from those of the other inverse, so that the two
/// are held to each other where the switch is off.
fn worked(shape: &Shape, extended: bool, coefficients: &[i64], residuals: &mut [i64]) -> Answer {
    let [low, high] = ends(extended, shape.depth);
    let unclipped = unclipped(shape, coefficients);
    let altered = |m: &&i64| !(low..=high).contains(*m);
    let rails = unclipped.iter().flatten().filter(altered).count();
    for (y, line) in residuals.chunks_exact_mut(shape.width as usize).enumerate() {
        let row: Vec<i64> = unclipped.iter().map(|c| c[y].clamp(low, high)).collect();
        let sums = inverse_sums(shape.horizontal, shape.width as usize, &row);
        for (residual, sum) in line.iter_mut().zip(sums) {
            *residual = nearest(sum, last_shift(extended, shape.depth));
        }
    }
    Answer::accepted(rails as i64)
}

#[cfg(test)]
mod tests {
    use super::*;
    use crate::model::block::inverse;
    use crate::model::samples::{any_coefficients, any_shape};

    /// The rules, depth by depth: R and the last shift.
    #[test]
    fn rules_of_the_switch() {
        let of = |extended, d| (reach(extended, d), last_shift(extended, d));
        assert_eq!([8, 9].map(|d| of(true, d)), [(15, 12), (15, 11)]);
        for d in 10..=14 {
            assert_eq!(of(true, d), (d + 6, 11));
        }
        assert_eq!([15, 16].map(|d| of(true, d)), [(20, 10), (20, 9)]);
        for d in 8..=12 {
            assert_eq!(of(false, d), (15, 20 - d));
        }
    }

    /// With the switch off, numbers of 16 bits give what the other inverse gives.
    #[test]
    fn off_is_the_other_inverse() {
        let mut random = crate::random::seeded();
        for _ in 0..200 {
            let shape = any_shape(&mut random, 12);
            let c = any_coefficients(&mut random, &shape, [-32768, 32767]);
            let (mut one, mut other) = (vec![1; c.len()], vec![2; c.len()]);
            let answer = inverse(&shape, &c, &mut one);
            assert_eq!(inverse_long(&shape, false, &c, &mut other), answer);
            assert_eq!(one, other);
        }
    }

    /// 8 is looked for in the whole block before 27.
    #[test]
    fn outside_comes_before_beyond() {
        let shape = Shape::new(4, 4, 1, 1, 16).keeping(4, 3);
        let mut c = vec![0; 16];
        let mut out = vec![7; 16];
        c[2] = 1 << 20;
        assert_eq!(
            inverse_long(&shape, true, &c, &mut out),
            Answer::refused(27, 2)
        );
        c[13] = 1;
        assert_eq!(
            inverse_long(&shape, true, &c, &mut out),
            Answer::refused(8, 13)
        );
        assert_eq!(
            inverse_long(&shape, false, &c, &mut out),
            Answer::refused(5, 0)
        );
        assert_eq!(out, vec![7; 16]);
    }
}

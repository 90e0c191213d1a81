//! Document 02, Wish 7: "Blocks one sample wide or high", and the blocks of the inverse by the same call. The last shift is H.266's,
//! which for one stage is one less of the 2^6 * sqrt(n) that each stage leaves: `docs/DECISIONS.md` has where it comes from.

use super::block::{column_sums, first_outside, inverse, middle, nearest};
use super::call::{first_refusal, is_size, refusal_at, Answer, Shape};
use super::line::inverse_sums;

/// What a call hands back: `area` says which area starts with the residuals, 0 where the call was refused.
#[derive(Clone, Copy, Debug, PartialEq, Eq)]
pub struct Thin {
    pub answer: Answer,
    pub area: i64,
}

/// The inverse of a block of which one side may be 1, over two lent areas.
pub fn inverse_thin(shape: &Shape, c: &[i64], first: &mut [i64], second: &mut [i64]) -> Thin {
    let lengths = [first.len(), second.len()];
    if let Some(answer) = refusal(shape, c, lengths) {
        return Thin { answer, area: 0 };
    }
    let elements = shape.elements() as usize;
    if shape.width == 1 || shape.height == 1 {
        first[..elements].copy_from_slice(&one_stage(shape, c));
        let answer = Answer::accepted(0);
        return Thin { answer, area: 1 };
    }
    first[..elements].copy_from_slice(&middles(shape, c));
    let answer = inverse(shape, c, &mut second[..elements]);
    Thin { answer, area: 2 }
}

/// "1 and 2 accept 1 where the other side is 4, 8 or 16".
fn is_side(n: i64, other: i64) -> bool {
    is_size(n) || n == 1 && [4, 8, 16].contains(&other)
}

/// 1 to 5 and 20 with such sides, 6, "19 for a work area shorter than w*h, in place of 7", and 8.
fn refusal(shape: &Shape, c: &[i64], lengths: [usize; 2]) -> Option<Answer> {
    let [w, h] = [shape.width, shape.height];
    let of_lengths = || {
        let short = lengths.iter().any(|n| (*n as i64) < shape.elements());
        first_refusal(&[(6, c.len() as i64 != shape.elements()), (19, short)])
    };
    shape
        .refusal_by([is_side(w, h), is_side(h, w)], 12)
        .or_else(of_lengths)
        .or_else(|| refusal_at(8, first_outside(shape, c)))
}

/// "H.266 runs one stage on them, with no middle rounding and no middle clip": the line of the side that is not 1, over what is kept
/// of it, and the last rounding alone.
fn one_stage(shape: &Shape, c: &[i64]) -> Vec<i64> {
    let [kind, n, kept] = if shape.width == 1 {
        [shape.vertical, shape.height, shape.rows]
    } else {
        [shape.horizontal, shape.width, shape.columns]
    };
    let sums = inverse_sums(kind, n as usize, &c[..kept as usize]);
    let residual = |sum| nearest(sum, 21 - shape.depth);
    sums.into_iter().map(residual).collect()
}

/// "the first holds the middle values, 0 in columns not kept": at x + y*w.
fn middles(shape: &Shape, c: &[i64]) -> Vec<i64> {
    let columns = column_sums(shape, c);
    let at = |x: i64, y: i64| columns.get(x as usize).map_or(0, |e| middle(e[y as usize]));
    let row = |y: i64| (0..shape.width).map(move |x| at(x, y));
    (0..shape.height).flat_map(row).collect()
}

#[cfg(test)]
mod tests {
    use super::*;
    use crate::model::weights::weight;
    use crate::random;

    /// 1 by 4, DST-VII, d = 10: 64 in the first place gives 64 * (29, 55, 74, 84), rounded by 2^11.
    #[test]
    fn a_line_of_four() {
        let mut c = [64, 0, 0, 0];
        let (mut first, mut second) = ([7; 6], [8; 5]);
        for (w, h) in [(1, 4), (4, 1)] {
            let shape = Shape::new(w, h, 1, 1, 10);
            let thin = inverse_thin(&shape, &c, &mut first, &mut second);
            assert_eq!((thin.answer, thin.area), (Answer::accepted(0), 1));
            assert_eq!(first, [1, 2, 2, 3, 7, 7]);
            assert_eq!(second, [8; 5]);
        }
        // a floor: -64 * 29 + 1024 is below 0, and its half level goes up
        c[0] = -64;
        inverse_thin(&Shape::new(4, 1, 1, 2, 10), &c, &mut first, &mut second);
        assert_eq!(first[..4], [-1, -2, -2, -3]);
        // the kind of the side of 1 is not used, that of the other is
        let dct = Shape::new(4, 1, 0, 2, 8);
        inverse_thin(&dct, &[128, 0, 0, 0], &mut first, &mut second);
        assert_eq!(first[..4], [1; 4]);
    }

    /// "the last rounding alone, at most half a level": 2^(21-d) times the residual is that far from the exact sum.
    #[test]
    fn at_most_half_a_level() {
        let mut random = random::seeded();
        for _ in 0..200 {
            let n = random.choose(&[4, 8, 16]);
            let kinds = [random.between(0, 2), random.between(0, 2)];
            let shape = Shape::new(1, n, kinds[0], kinds[1], random.between(8, 12));
            let c = random.numbers(n as usize, -32768, 32767);
            let (mut first, mut second) = (vec![0; 16], vec![0; 16]);
            assert_eq!(inverse_thin(&shape, &c, &mut first, &mut second).area, 1);
            for (j, residual) in first[..n as usize].iter().enumerate() {
                let product = |i| weight(kinds[1], n as usize, i, j) * c[i];
                let exact: i64 = (0..n as usize).map(product).sum();
                let half = 1 << (20 - shape.depth);
                assert!((residual * 2 * half - exact).abs() <= half);
            }
        }
    }

    /// "1 by 32 is refused with 1, 32 by 1 with 2, 1 by 1 with 1".
    #[test]
    fn sides_that_are_none() {
        let number = |w, h| {
            let shape = Shape::new(w, h, 1, 1, 10);
            inverse_thin(&shape, &[], &mut [], &mut []).answer.number
        };
        assert_eq!([number(1, 32), number(32, 1), number(1, 1)], [1, 2, 1]);
        assert_eq!(
            [number(1, 5), number(5, 1), number(2, 4), number(4, 2)],
            [1, 1, 1, 2]
        );
        assert_eq!([number(1, 4), number(16, 1), number(32, 4)], [6, 6, 6]);
    }

    /// 19 behind 6 and before 8, for either area.
    #[test]
    fn short_areas() {
        let shape = Shape::new(1, 16, 2, 1, 8).keeping(1, 15);
        let mut c = [0; 16];
        c[15] = 1;
        let number = |c: &[i64], a: usize, b: usize| {
            let (mut first, mut second) = (vec![3; a], vec![4; b]);
            let thin = inverse_thin(&shape, c, &mut first, &mut second);
            assert_eq!((first, second, thin.area), (vec![3; a], vec![4; b], 0));
            (thin.answer.number, thin.answer.place)
        };
        assert_eq!(number(&c[1..], 15, 15), (6, 0));
        assert_eq!(number(&c, 15, 16), (19, 0));
        assert_eq!(number(&c, 16, 15), (19, 0));
        assert_eq!(number(&c, 17, 16), (8, 15));
    }
}

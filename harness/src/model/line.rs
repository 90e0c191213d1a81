//! "Lines": exact sums, with no shift.

use super::call::{first_refusal, is_kind, is_size, Answer};
use super::weights::weight;

/// "Forward: y[i] = sum over j of T[i][j]*x[j]".
pub fn forward_sums(kind: i64, x: &[i64]) -> Vec<i64> {
    let n = x.len();
    let sum = |i| (0..n).map(|j| weight(kind, n, i, j) * x[j]).sum();
    (0..n).map(sum).collect()
}

/// "Inverse: z[j] = sum over i of T[i][j]*x[i]", over the inputs given: a block hands over its kept
/// ones alone, the first of the line's `n`.
pub fn inverse_sums(kind: i64, n: usize, x: &[i64]) -> Vec<i64> {
    let sum = |j| (0..x.len()).map(|i| weight(kind, n, i, j) * x[i]).sum();
    (0..n).map(sum).collect()
}

/// Document 02, Wish 13: "take the exact forward sums and then the exact inverse sums, with nothing rounded".
pub fn round_trip(kind: i64, x: &[i64]) -> Vec<i64> {
    inverse_sums(kind, x.len(), &forward_sums(kind, x))
}

/// "D(j) is the sum over k of the sizes of G(j,k), less 4096*N at k=j before the size is taken; G(j,k) is the product of
/// weight columns j and k."
pub fn stray(kind: i64, n: usize, j: usize) -> i64 {
    let product = |k| -> i64 {
        (0..n)
            .map(|i| weight(kind, n, i, j) * weight(kind, n, i, k))
            .sum()
    };
    let less = |k| if k == j { 4096 * n as i64 } else { 0 };
    (0..n).map(|k| (product(k) - less(k)).abs()).sum()
}

/// The forward line of `n` points from `x` to `y`.
pub fn forward_line(n: i64, kind: i64, x: &[i64], y: &mut [i64]) -> Answer {
    run(n, kind, x, y, || forward_sums(kind, x))
}

/// The inverse line: "All N inputs count, also at 32."
pub fn inverse_line(n: i64, kind: i64, x: &[i64], y: &mut [i64]) -> Answer {
    run(n, kind, x, y, || inverse_sums(kind, x.len(), x))
}

fn run(n: i64, kind: i64, x: &[i64], y: &mut [i64], sums: impl Fn() -> Vec<i64>) -> Answer {
    if let Some(refusal) = refusal(n, kind, x.len(), y.len()) {
        return refusal;
    }
    y.copy_from_slice(&sums());
    Answer::accepted(0)
}

/// "Lines can meet 1, 3, 6, 7."
fn refusal(n: i64, kind: i64, input: usize, output: usize) -> Option<Answer> {
    first_refusal(&[
        (1, !is_size(n)),
        (3, !is_kind(kind)),
        (6, input as i64 != n),
        (7, output as i64 != n),
    ])
}

#[cfg(test)]
mod tests {
    use super::*;
    use crate::model::weights::{DCT_II, DCT_VIII, DST_VII};
    use crate::random;

    /// "for N=4, DST-VII, D(0) is 44"; and a line whose round trip strays as far.
    #[test]
    fn strays_as_far() {
        assert_eq!(stray(DST_VII, 4, 0), 44);
        for kind in [DCT_II, DST_VII, DCT_VIII] {
            for n in [4, 8, 16, 32] {
                for j in 0..n {
                    let column = |k| -> i64 {
                        (0..n)
                            .map(|i| weight(kind, n, i, j) * weight(kind, n, i, k))
                            .sum()
                    };
                    let off = |k| column(k) - if k == j { 4096 * n as i64 } else { 0 };
                    let x: Vec<i64> = (0..n).map(|k| if off(k) < 0 { -7 } else { 7 }).collect();
                    let far = (round_trip(kind, &x)[j] - 4096 * n as i64 * x[j]).abs();
                    assert_eq!(
                        far,
                        7 * stray(kind, n, j),
                        "kind {kind}, {n} points, place {j}"
                    );
                }
            }
        }
    }

    /// The inverse is the forward line's weights the other way about: the sum of y * F(x) is the sum
    /// of x * I(y), whatever x and y are.
    #[test]
    fn forward_and_inverse_are_transposes() {
        let mut random = random::seeded();
        for n in [4, 8, 16, 32] {
            for kind in [DCT_II, DST_VII, DCT_VIII] {
                let x = random.numbers(n, -32768, 32767);
                let y = random.numbers(n, -32768, 32767);
                let dot =
                    |a: &[i64], b: &[i64]| -> i64 { a.iter().zip(b).map(|(p, q)| p * q).sum() };
                let there = dot(&y, &forward_sums(kind, &x));
                assert_eq!(there, dot(&x, &inverse_sums(kind, n, &y)));
            }
        }
    }

    #[test]
    fn a_refused_line_leaves_its_output() {
        let mut y = [7, 8, 9];
        assert_eq!(forward_line(3, 3, &[1; 3], &mut y), Answer::refused(1, 0));
        assert_eq!(forward_line(4, 3, &[1; 3], &mut y), Answer::refused(3, 0));
        assert_eq!(forward_line(4, 2, &[1; 3], &mut y), Answer::refused(6, 0));
        assert_eq!(inverse_line(4, 2, &[1; 4], &mut y), Answer::refused(7, 0));
        assert_eq!(y, [7, 8, 9]);
    }
}

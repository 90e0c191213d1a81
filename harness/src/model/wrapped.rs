//! Document 02, Wish 9, "Sums that wrap on the way".

use super::call::Answer;
use super::line::{forward_line, inverse_line};
use super::weights::weight;

type Line = fn(i64, i64, &[i64], &mut [i64]) -> Answer;

/// "it ends on the same sums as document 01's line".
pub fn forward_wrapped(n: i64, kind: i64, order: &[i64], x: &[i64], y: &mut [i64]) -> Answer {
    run(forward_line, n, kind, order, x, y)
}

pub fn inverse_wrapped(n: i64, kind: i64, order: &[i64], x: &[i64], y: &mut [i64]) -> Answer {
    run(inverse_line, n, kind, order, x, y)
}

/// "Refusals: those of the line, then 21".
fn run(line: Line, n: i64, kind: i64, order: &[i64], x: &[i64], y: &mut [i64]) -> Answer {
    let mut sums = y.to_vec();
    let answer = line(n, kind, x, &mut sums);
    if answer.number != 0 {
        return answer;
    }
    if !is_order(n, order) {
        return Answer::refused(21, 0);
    }
    y.copy_from_slice(&sums);
    answer
}

/// "each of 0..N-1 once".
fn is_order(n: i64, order: &[i64]) -> bool {
    let mut sorted = order.to_vec();
    sorted.sort();
    sorted.into_iter().eq(0..n)
}

/// A vector unit's adder of 32 bits: what it is read as when the start was taken off, and how many of its sums left the signed
/// numbers of 32 bits.
pub fn adder(start: u32, products: impl Iterator<Item = i64>) -> (i64, usize) {
    let start = wrap(start.into());
    let (mut held, mut wraps) = (start, 0);
    for product in products {
        wraps += usize::from(wrap(held + product) != held + product);
        held = wrap(held + product);
    }
    (wrap(held - start), wraps)
}

/// A number modulo 2^32, from -2^31 on.
fn wrap(z: i64) -> i64 {
    (z + (1 << 31)).rem_euclid(1 << 32) - (1 << 31)
}

/// The products of output `k`, in the order given.
pub fn products<'a>(
    forward: bool,
    kind: i64,
    k: usize,
    order: &'a [usize],
    x: &'a [i64],
) -> impl Iterator<Item = i64> + 'a {
    let n = x.len();
    let term = move |i| match forward {
        true => weight(kind, n, k, i),
        false => weight(kind, n, i, k),
    };
    order.iter().map(move |i| term(*i) * x[*i])
}

#[cfg(test)]
mod tests {
    use super::*;
    use crate::random;

    /// The adder ends on the line's sums, whatever it held and in whatever order it is fed; and its sums do wrap.
    #[test]
    fn the_adder_ends_on_the_sums() {
        let mut random = random::seeded();
        let mut wrapped = 0;
        for (n, kind) in [4, 8, 16, 32]
            .into_iter()
            .flat_map(|n| [0, 1, 2].map(|k| (n, k)))
        {
            let x = random.numbers(n, -32768, 32767);
            let backwards: Vec<usize> = (0..n).rev().collect();
            for (forward, line) in [(true, forward_line as Line), (false, inverse_line)] {
                let mut y = vec![0; n];
                line(n as i64, kind, &x, &mut y);
                for start in [0, 1 << 31, (1 << 31) - 1, u32::MAX, random.bits() as u32] {
                    for (k, sum) in y.iter().enumerate() {
                        let fed = products(forward, kind, k, &backwards, &x);
                        let (read, wraps) = adder(start, fed);
                        assert_eq!(read, *sum);
                        wrapped += wraps;
                    }
                }
            }
        }
        assert!(wrapped > 1000);
    }

    #[test]
    fn an_order_has_each_place_once() {
        let x = [1; 4];
        for (order, number) in [
            (vec![2, 0, 3, 1], 0),
            (vec![2, 0, 3, 2], 21),
            (vec![2, 0, 1], 21),
            (vec![0, 1, 2, 3, 3], 21),
            (vec![1, 2, 3, 4], 21),
            (vec![], 21),
        ] {
            let mut y = [7; 4];
            assert_eq!(forward_wrapped(4, 1, &order, &x, &mut y).number, number);
            let wanted = if number == 0 {
                [242, 74, 36, 16]
            } else {
                [7; 4]
            };
            assert_eq!(y, wanted);
            assert_eq!(inverse_wrapped(4, 1, &order, &x, &mut [7; 3]).number, 7);
        }
    }
}

//! Where a fast path may add numbers of a line before it multiplies: rows of weights repeat themselves up to a sign, and
//! whoever uses that adds the inputs that meet the same weight. Such a sum of 16-bit inputs needs more than 16 bits;
//! tests put large numbers of one sign where it would overflow. The lists of steps (`steps`) add the same sums.

/// Places of a line, from 0, with the sign that each is added with.
pub type Sum = Vec<(usize, i64)>;

/// 2n+1 as a product of two, which decides the classes of rows; a prime has no classes.
pub fn factors(n: usize) -> Option<[usize; 2]> {
    match n {
        4 => Some([3, 3]),
        16 => Some([3, 11]),
        32 => Some([5, 13]),
        _ => None,
    }
}

/// Every sum of inputs that the sharing between DST-VII weights allows at `n` points.
pub fn sums(n: usize) -> Vec<Sum> {
    let Some([p, q]) = factors(n) else {
        return vec![];
    };
    let mut all = sharing_sums(n, p, q);
    all.extend(repeating_sums(n, q));
    all.extend(repeating_sums(n, p));
    all
}

/// "Sharing between weights": each of the last places is a signed sum of earlier ones in most rows. One of those, then the last.
pub fn sharing_sums(n: usize, p: usize, q: usize) -> Vec<Sum> {
    let half = (q - 1) / 2;
    let first_of = |k: usize| match p {
        3 => vec![(k, 1), (q - k, 1)],
        _ => vec![(k, -1), (q - k, -1), (q + k, 1), (2 * q - k, 1)],
    };
    let with_last = |k: usize| {
        let last = (n - half + k - 1, 1);
        first_of(k)
            .into_iter()
            .map(move |(g, sign)| vec![(g - 1, sign), last])
    };
    (1..=half).flat_map(with_last).collect()
}

/// Rows that repeat a few values: place b*q + k meets the weight of place k, with the sign of (-1)^b, and b*q - k with
/// the other one.
pub fn repeating_sums(n: usize, q: usize) -> Vec<Sum> {
    (1..=(q - 1) / 2)
        .map(|k| (1..=n).filter_map(|place| repeated(place, q, k)).collect())
        .collect()
}

fn repeated(place: usize, q: usize, k: usize) -> Option<(usize, i64)> {
    let sign = |b: usize| [1, -1][b % 2];
    if place % q == k {
        Some((place - 1, sign(place / q)))
    } else if place % q == q - k {
        Some((place - 1, -sign((place + k) / q)))
    } else {
        None
    }
}

#[cfg(test)]
mod tests {
    use super::*;
    use crate::model::weights::dst_vii;

    /// In rows that one of the factors divides, the places of a sum meet one weight up to their signs.
    #[test]
    fn repeated_places_meet_one_weight() {
        for n in [4, 16, 32] {
            for q in factors(n).unwrap() {
                let other = (2 * n + 1) / q;
                for i in (0..n).filter(|i| (2 * i + 1) % other == 0) {
                    for sum in repeating_sums(n, q) {
                        let weights = sum.iter().map(|(j, sign)| sign * dst_vii(n, i, *j));
                        let weights: Vec<i64> = weights.collect();
                        assert!(
                            weights.iter().all(|w| *w == weights[0]),
                            "{n} points, row {i}"
                        );
                    }
                }
            }
        }
    }

    /// In the other rows each of the last places is the sum that document 01 names.
    #[test]
    fn last_places_are_sums_of_earlier_ones() {
        for n in [4, 16, 32] {
            let [p, q] = factors(n).unwrap();
            let sums = sharing_sums(n, p, q);
            for i in (0..n).filter(|i| (2 * i + 1) % p != 0) {
                for last in n - (q - 1) / 2..n {
                    let earlier = sums.iter().filter(|sum| sum[1] == (last, 1));
                    let sum: i64 = earlier.map(|sum| sum[0].1 * dst_vii(n, i, sum[0].0)).sum();
                    assert_eq!(
                        sum,
                        dst_vii(n, i, last),
                        "{n} points, row {i}, place {last}"
                    );
                }
            }
        }
    }
}

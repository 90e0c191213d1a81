//! "The weights": the first rows, the fold rule, and kinds 1 and 2; and H.266's DCT-II, kind 0.

pub const DCT_II: i64 = 0;
pub const DST_VII: i64 = 1;
pub const DCT_VIII: i64 = 2;

/// "First rows s1..sN of DST-VII": s1 stands first. s11 and s28 of 32 points are H.266's, 46 and 87,
/// where document 01 has 45 and 88.
fn first_row(n: usize) -> &'static [i64] {
    match n {
        4 => &[29, 55, 74, 84],
        8 => &[17, 32, 46, 60, 71, 78, 85, 86],
        16 => &[
            8, 17, 25, 33, 40, 48, 55, 62, 68, 73, 77, 81, 85, 87, 88, 88,
        ],
        32 => &[
            4, 9, 13, 17, 21, 26, 30, 34, 38, 42, 46, 50, 53, 56, 60, 63, 66, 68, 72, 74, 77, 78,
            80, 82, 84, 85, 86, 87, 88, 89, 90, 90,
        ],
        _ => panic!("no line has {n} points"),
    }
}

/// "Fold rule": S[i][j], i and j from 0.
pub fn dst_vii(n: usize, i: usize, j: usize) -> i64 {
    let l = 2 * n + 1;
    let m = (2 * i + 1) * (j + 1) % (2 * l);
    let sign = if m > l { -1 } else { 1 };
    let reduced = m % l;
    match reduced.min(l - reduced) {
        0 => 0,
        index => sign * first_row(n)[index - 1],
    }
}

/// "DCT-VIII: C[i][j] = (-1)^i * S[i][N-1-j]".
pub fn dct_viii(n: usize, i: usize, j: usize) -> i64 {
    let sign = if i % 2 == 1 { -1 } else { 1 };
    sign * dst_vii(n, i, n - 1 - j)
}

/// H.266's numbers of the DCT-II of `n` points: the first weights of its odd rows.
fn odd_rows(n: usize) -> &'static [i64] {
    match n {
        2 => &[64],
        4 => &[83, 36],
        8 => &[89, 75, 50, 18],
        16 => &[90, 87, 80, 70, 57, 43, 25, 9],
        32 => &[
            90, 90, 88, 85, 82, 78, 73, 67, 61, 54, 46, 38, 31, 22, 13, 4,
        ],
        64 => &[
            91, 90, 90, 90, 88, 87, 86, 84, 83, 81, 79, 77, 73, 71, 69, 65, 62, 59, 56, 52, 48, 44,
            41, 37, 33, 28, 24, 20, 15, 11, 7, 2,
        ],
        _ => panic!("no DCT-II has {n} points"),
    }
}

/// DCT-II by its halves: an even row is a row of half the points, and then the same backwards; in an odd row i the
/// weight of column j is the number of the odd multiple i(2j+1) of a quarter turn over n, with the cosine's sign there.
fn dct_ii(n: usize, i: usize, j: usize) -> i64 {
    if n == 1 {
        return 64;
    }
    if i.is_multiple_of(2) {
        return dct_ii(n / 2, i / 2, j.min(n - 1 - j));
    }
    let turn = i * (2 * j + 1) % (4 * n);
    let near = turn.min(4 * n - turn);
    let number = odd_rows(n)[near.min(2 * n - near) / 2];
    if near > n {
        -number
    } else {
        number
    }
}

/// T[i][j] of a kind.
pub fn weight(kind: i64, n: usize, i: usize, j: usize) -> i64 {
    match kind {
        DCT_II => dct_ii(n, i, j),
        DST_VII => dst_vii(n, i, j),
        DCT_VIII => dct_viii(n, i, j),
        _ => panic!("{kind} is no kind"),
    }
}

#[cfg(test)]
mod tests {
    use super::*;

    const SIZES: [usize; 4] = [4, 8, 16, 32];

    fn row_size(kind: i64, n: usize, i: usize) -> i64 {
        (0..n).map(|j| weight(kind, n, i, j).abs()).sum()
    }

    /// "Biggest row sums of sizes: 242, 475, 935, 1858."
    #[test]
    fn biggest_row_sums() {
        for (n, biggest) in SIZES.into_iter().zip([242, 475, 935, 1858]) {
            for kind in [DST_VII, DCT_VIII] {
                let found = (0..n).map(|i| row_size(kind, n, i)).max();
                assert_eq!(found, Some(biggest), "kind {kind}, {n} points");
            }
        }
    }

    /// Row 0 of kind 0 has 64 at every place, and no row is larger.
    #[test]
    fn biggest_row_sums_of_kind_0() {
        for n in SIZES {
            let found = (0..n).map(|i| row_size(DCT_II, n, i)).max();
            assert_eq!(found, Some(64 * n as i64), "{n} points");
        }
    }

    /// "Weight (i, j) of n points: m = i(2j+1)(64/n) modulo 256; above 128 take 256-m; above 64 minus c(128-m). Row 0 is 64", for
    /// the one list c that all sizes share: its place m has the number of the size at which m is odd.
    #[test]
    fn dct_ii_by_one_list() {
        let c = |m: usize| match m {
            0 | 32 => 64,
            64 => 0,
            _ => {
                let n = 64 >> m.trailing_zeros();
                odd_rows(n)[(m * n / 64) / 2]
            }
        };
        for n in [2, 4, 8, 16, 32, 64] {
            for (i, j) in (0..n).flat_map(|i| (0..n).map(move |j| (i, j))) {
                let m = i * (2 * j + 1) * (64 / n) % 256;
                let m = m.min(256 - m);
                let wanted = if m > 64 { -c(128 - m) } else { c(m) };
                assert_eq!(dct_ii(n, i, j), wanted, "{n} points, row {i}, column {j}");
            }
        }
    }

    /// "Sums of sizes down a column over what is kept: 128, 247, 479, 940, 1862, 2595".
    #[test]
    fn sizes_down_a_column() {
        for (n, most) in [
            (2, 128),
            (4, 247),
            (8, 479),
            (16, 940),
            (32, 1862),
            (64, 2595),
        ] {
            let size = |j| (0..n.min(32)).map(|i| dct_ii(n, i, j).abs()).sum();
            let found: Option<i64> = (0..n).map(size).max();
            assert_eq!(found, Some(most), "{n} points");
        }
    }

    /// "64 64 64 64 / 83 36 -36 -83 / 64 -64 -64 64 / 36 -83 83 -36"
    #[test]
    fn dct_ii_of_4_points() {
        let wanted = [
            [64, 64, 64, 64],
            [83, 36, -36, -83],
            [64, -64, -64, 64],
            [36, -83, 83, -36],
        ];
        for (i, row) in wanted.iter().enumerate() {
            for (j, weight) in row.iter().enumerate() {
                assert_eq!(dct_ii(4, i, j), *weight, "row {i}, column {j}");
            }
        }
    }

    /// "Every S follows from its first row": row 0 of the fold rule gives that row back.
    #[test]
    fn the_fold_rule_gives_the_first_row() {
        for n in SIZES {
            let row: Vec<i64> = (0..n).map(|j| dst_vii(n, 0, j)).collect();
            assert_eq!(row, first_row(n));
        }
    }

    /// s of index `n`, counted from 1.
    fn s(points: usize, n: usize) -> i64 {
        first_row(points)[n - 1]
    }

    /// "Sharing between weights": the table of first rows has the sums that document 01 names.
    #[test]
    fn sharing() {
        assert_eq!(s(4, 1) + s(4, 2), s(4, 4));
        for k in 1..=5 {
            assert_eq!(s(16, k) + s(16, 11 - k), s(16, 11 + k));
        }
        for j in 1..=6 {
            let left = s(32, j) + s(32, j + 26) + s(32, 13 - j);
            assert_eq!(left, s(32, j + 13) + s(32, 26 - j));
        }
    }
}

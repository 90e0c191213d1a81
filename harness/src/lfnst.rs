//! LFNST: the low-frequency stage that H.266 runs over the corner of a block before columns and rows. Written from facts of a decoder in
//! use (`docs/DECISIONS.md`), with the matrices as they stand in `crates/lfnst_tables/matrices.txt`.

use std::collections::BTreeMap;
use std::sync::OnceLock;

const MATRICES: &str = include_str!("../../crates/lfnst_tables/matrices.txt");

/// A block, and how its corner is to be worked.
#[derive(Clone, Copy, Debug)]
pub struct LowFrequency {
    pub width: usize,
    pub height: usize,
    /// 1 or 2.
    pub index: usize,
    /// 0 to 3.
    pub set: usize,
    pub transposed: bool,
    /// R: values are -2^R .. 2^R - 1.
    pub reach: u32,
}

impl LowFrequency {
    /// "48 of them .. where both sides are 8 or more, else 16".
    fn outputs(&self) -> usize {
        if self.width.min(self.height) >= 8 {
            48
        } else {
            16
        }
    }

    /// "8 for blocks of 4 by 4 and of 8 by 8, else 16".
    fn inputs(&self) -> usize {
        match (self.width, self.height) {
            (4, 4) | (8, 8) => 8,
            _ => 16,
        }
    }

    /// Sixteen rows, a row for each input.
    fn matrix(&self) -> Vec<Vec<i64>> {
        matrix(self.outputs(), self.set, self.index)
    }

    /// What the stage leaves, by column and row; everything else is 0. `coefficient` is asked for those of the corner.
    pub fn values(
        &self,
        coefficient: impl Fn(usize, usize) -> i64,
    ) -> BTreeMap<(usize, usize), i64> {
        let read: Vec<i64> = corner()
            .take(self.inputs())
            .map(|(column, row)| coefficient(column, row))
            .collect();
        let matrix = self.matrix();
        let end = 1i64 << self.reach;
        let value = |j: usize| {
            let sum: i64 = read.iter().zip(&matrix).map(|(u, row)| u * row[j]).sum();
            ((sum + 64) >> 7).clamp(-end, end - 1)
        };
        let turned = |(x, y)| if self.transposed { (y, x) } else { (x, y) };
        let places = places(self.outputs()).into_iter().map(turned);
        places.zip((0..self.outputs()).map(value)).collect()
    }
}

fn matrix(outputs: usize, set: usize, index: usize) -> Vec<Vec<i64>> {
    let first = 16 * (2 * set + index - 1) + if outputs == 48 { 128 } else { 0 };
    rows()[first..first + 16].to_vec()
}

/// Every row of every matrix, read once.
fn rows() -> &'static [Vec<i64>] {
    static ROWS: OnceLock<Vec<Vec<i64>>> = OnceLock::new();
    ROWS.get_or_init(|| {
        let lines = MATRICES.lines().filter(|line| !line.starts_with('#'));
        let numbers = |line: &str| line.split(' ').map(|n| n.parse().unwrap()).collect();
        lines.map(numbers).collect()
    })
}

/// Column and row of each coefficient that is read: diagonal by diagonal, each from its lowest row up.
fn corner() -> impl Iterator<Item = (usize, usize)> {
    (0..7)
        .flat_map(|sum| (0..4).filter_map(move |x| (x <= sum && sum - x < 4).then(|| (x, sum - x))))
}

/// Column and row of each value, row by row: "the first 4 by 4 (16), or .. the first 8 by 8 without its last 4 by 4 (48)".
fn places(outputs: usize) -> Vec<(usize, usize)> {
    let side = if outputs == 48 { 8 } else { 4 };
    let all = (0..side).flat_map(|y| (0..side).map(move |x| (x, y)));
    all.filter(|(x, y)| x.min(y) < &4).collect()
}

#[cfg(test)]
mod tests {
    use super::*;

    fn block(width: usize, height: usize) -> LowFrequency {
        LowFrequency {
            width,
            height,
            index: 1,
            set: 0,
            transposed: false,
            reach: 15,
        }
    }

    /// 128 at one place of the corner, so that the values are a row of the matrix.
    fn one(at: (usize, usize)) -> impl Fn(usize, usize) -> i64 {
        move |column, row| if (column, row) == at { 128 } else { 0 }
    }

    #[test]
    fn matrices_are_whole_and_light() {
        for (outputs, largest) in [(16, 470), (48, 436)] {
            let mut most = 0;
            for (set, index) in (0..4).flat_map(|set| [(set, 1), (set, 2)]) {
                let m = matrix(outputs, set, index);
                assert_eq!(m.len(), 16);
                assert!(m.iter().all(|row| row.len() == outputs));
                let column = |j: usize| m.iter().map(|row| row[j].abs()).sum::<i64>();
                most = most.max((0..outputs).map(column).max().unwrap());
            }
            assert_eq!(most, largest);
        }
    }

    #[test]
    fn the_corner_is_read_in_its_order() {
        let order = "00 01 10 02 11 20 03 12 21 30 13 22 31 23 32 33";
        let read: Vec<String> = corner().map(|(x, y)| format!("{x}{y}")).collect();
        assert_eq!(read.join(" "), order);
    }

    #[test]
    fn sizes_decide_inputs_and_values() {
        // u(7), u(8): read by all, and not by blocks of 4 by 4 and 8 by 8
        for (width, height, values, more) in [
            (4, 4, 16, false),
            (8, 8, 48, false),
            (4, 8, 16, true),
            (8, 4, 16, true),
            (4, 16, 16, true),
            (8, 16, 48, true),
            (64, 64, 48, true),
        ] {
            let seventh = block(width, height).values(one((1, 2)));
            let eighth = block(width, height).values(one((2, 1)));
            assert_eq!(seventh.len(), values);
            assert!(seventh.values().any(|&v| v != 0));
            assert_eq!(eighth.values().any(|&v| v != 0), more);
        }
    }

    #[test]
    fn values_stand_at_their_places() {
        let plain = block(8, 16).values(one((0, 0)));
        let row = &matrix(48, 0, 1)[0];
        assert_eq!(plain[&(1, 0)], row[1]);
        assert_eq!(plain[&(0, 1)], row[8]);
        assert_eq!(plain[&(7, 3)], row[31]);
        assert_eq!(plain[&(0, 4)], row[32]);
        assert_eq!(plain[&(3, 7)], row[47]);
        assert!(!plain.contains_key(&(4, 4)));
        let turned = LowFrequency {
            transposed: true,
            ..block(8, 16)
        };
        for ((x, y), v) in turned.values(one((0, 0))) {
            assert_eq!(plain[&(y, x)], v);
        }
        assert_eq!(
            block(4, 4).values(one((0, 0)))[&(0, 1)],
            matrix(16, 0, 1)[0][4]
        );
    }

    #[test]
    fn values_stay_in_their_range() {
        for reach in [15, 20] {
            let all = LowFrequency {
                reach,
                ..block(4, 8)
            };
            let signs = matrix(16, 0, 1);
            let place = |x, y| corner().position(|at| at == (x, y)).unwrap();
            let end = 1i64 << reach;
            let most = all.values(|x, y| {
                if signs[place(x, y)][0] < 0 {
                    -end
                } else {
                    end - 1
                }
            });
            assert_eq!(most[&(0, 0)], end - 1);
            let least = all.values(|x, y| {
                if signs[place(x, y)][0] < 0 {
                    end - 1
                } else {
                    -end
                }
            });
            assert_eq!(least[&(0, 0)], -end);
        }
    }
}

//! Calls that are to be refused: which tests apply, and numbers that make them apply.

use crate::library::Shape;
use crate::patterns::{clear_outside, is_kept};
use crate::random::Random;
use crate::widths::shape_of;

/// Numbers that no size, kind or depth is; a caller can hand over any of 32 bits.
pub const NO_SIZE: [i64; 8] = [0, 1, 2, 5, 24, 64, 65_536, 4_294_967_295];
pub const NO_KIND: [i64; 4] = [3, 4, 256, 4_294_967_295];
pub const NO_DEPTH: [i64; 6] = [0, 7, 13, 255, 65_544, 4_294_967_295];

pub const SIZES: [i64; 4] = [4, 8, 16, 32];
pub const KINDS: [i64; 3] = [0, 1, 2];

/// The table of numbers, in the order in which it is gone through: "20 .. after 5".
pub const ORDER: [usize; 10] = [1, 2, 3, 4, 5, 20, 6, 7, 8, 9];

/// Which tests of the table of numbers apply to a call.
pub struct Wrong {
    pub applies: [bool; 32],
}

impl Wrong {
    /// `number` applies, none before it does, each one after it or not.
    pub fn first(random: &mut Random, number: usize) -> Wrong {
        let mut applies = [false; 32];
        for k in ORDER.into_iter().skip_while(|k| *k != number) {
            applies[k] = k == number || random.once_in(2);
        }
        Wrong { applies }
    }

    /// Those of the tests whose bits are set: bit 0 is the first test.
    pub fn among(tests: &[usize], bits: u32) -> Wrong {
        let mut applies = [false; 32];
        for (k, test) in tests.iter().enumerate() {
            applies[*test] = bits >> k & 1 == 1;
        }
        Wrong { applies }
    }

    /// A number for test `k`: one of `wrong` where it applies, else one of `right`.
    pub fn pick(&self, random: &mut Random, k: usize, right: &[i64], wrong: &[i64]) -> i64 {
        random.choose(if self.applies[k] { wrong } else { right })
    }

    /// A length for test `k`, where `right` is the right one.
    pub fn length(&self, random: &mut Random, k: usize, right: i64) -> usize {
        self.pick(random, k, &[right], &[0, right - 1, right + 1, 2 * right]) as usize
    }

    /// Kept columns and rows, where these are the most of each: for 20 one of the two is wrong, or both.
    pub fn kept(&self, random: &mut Random, most: [i64; 2]) -> [i64; 2] {
        let spared = random.below(3);
        [0, 1].map(|direction| {
            let most = most[direction].max(1);
            let any = random.between(1, most);
            if self.applies[20] && direction != spared {
                random.choose(&[0, most + 1, 33, 64, 256 + any, 4_294_967_295])
            } else {
                random.choose(&[1, most, most, any])
            }
        })
    }

    /// Sides of which the first, the second, both or neither is a size.
    pub fn sides(&self, random: &mut Random) -> [u32; 2] {
        [1, 2].map(|k| self.pick(random, k, &SIZES, &NO_SIZE) as u32)
    }

    /// A shape with these sides; its call takes depths from 8 to `deepest`.
    pub fn shape(&self, random: &mut Random, [w, h]: [u32; 2], deepest: u32) -> Shape {
        let [horizontal, vertical] = [3, 4].map(|k| self.pick(random, k, &KINDS, &NO_KIND) as u32);
        let depths: Vec<i64> = (8..=deepest.into()).collect();
        let no_depths = NO_DEPTH.iter().filter(|d| !depths.contains(d));
        let no_depths: Vec<i64> = no_depths.copied().chain([i64::from(deepest) + 1]).collect();
        let depth = self.pick(random, 5, &depths, &no_depths) as u32;
        let most = shape_of([w, h, horizontal, vertical, depth]);
        let [columns, rows] = self.kept(random, [most.columns.into(), most.rows.into()]);
        most.keeping(columns as u32, rows as u32)
    }

    /// Small coefficients, but for some of these outside the kept part where 8 applies.
    pub fn coefficients(&self, random: &mut Random, shape: &Shape, bad: &[i64]) -> Vec<i64> {
        let input = self.length(random, 6, right_length(shape));
        let mut numbers = random.numbers(input, -255, 255);
        if shape.width > 0 {
            clear_outside(shape, &mut numbers);
            self.spoil(random, 8, &mut numbers, |k| !is_kept(shape, *k), bad);
        }
        numbers
    }

    /// Some of these numbers at such places, for test `k`, where there are any.
    pub fn spoil(
        &self,
        random: &mut Random,
        k: usize,
        numbers: &mut [i64],
        fit: impl Fn(&usize) -> bool,
        bad: &[i64],
    ) {
        let places: Vec<usize> = (0..numbers.len()).filter(fit).collect();
        let count = if self.applies[k] {
            places.len().min(3)
        } else {
            0
        };
        for _ in 0..count {
            numbers[random.choose(&places)] = random.choose(bad);
        }
    }
}

/// The length that a shape asks for, where the peer has room for twice as many numbers, or another.
pub fn right_length(shape: &Shape) -> i64 {
    match u64::from(shape.width) * u64::from(shape.height) {
        elements @ 1..=4096 => elements as i64,
        _ => 16,
    }
}

//! The two directions of a line and of a block, and what they differ in.

use crate::model::{self, Answer, Shape};
use crate::patterns::{Ends, SIXTEEN_BITS};

#[derive(Clone, Copy, Debug, PartialEq, Eq)]
pub enum Direction {
    Forward,
    Inverse,
}
use Direction::{Forward, Inverse};

pub const DIRECTIONS: [Direction; 2] = [Forward, Inverse];

impl Direction {
    pub fn name(self) -> &'static str {
        match self {
            Forward => "forward",
            Inverse => "inverse",
        }
    }

    /// The least and the largest number that a block of depth `d` takes.
    pub fn ends(self, d: u32) -> Ends {
        match self {
            Forward => [1 - (1 << d), (1 << d) - 1],
            Inverse => SIXTEEN_BITS,
        }
    }

    /// The number of the hunt's refusal.
    pub fn hunt(self) -> usize {
        match self {
            Forward => 9,
            Inverse => 8,
        }
    }

    /// What the model makes of a block.
    pub fn by_model(self, shape: &Shape, input: &[i64], output: &mut [i64]) -> Answer {
        match self {
            Forward => model::forward(shape, input, output),
            Inverse => model::inverse(shape, input, output),
        }
    }
}

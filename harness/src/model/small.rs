//! "Small blocks by value": a 4 by 4 block as four lines of four.

use super::block;
use super::call::{Answer, Shape};

/// What a call by value hands back.
#[derive(Clone, Copy, Debug, PartialEq, Eq)]
pub struct Small {
    pub answer: Answer,
    pub block: [[i64; 4]; 4],
}

pub fn inverse_4x4(block: [[i64; 4]; 4], horizontal: i64, vertical: i64, depth: i64) -> Small {
    run(block, horizontal, vertical, depth, block::inverse)
}

pub fn forward_4x4(block: [[i64; 4]; 4], horizontal: i64, vertical: i64, depth: i64) -> Small {
    run(block, horizontal, vertical, depth, block::forward)
}

/// "It gives the same numbers as the lent form, and refuses with 3, 4, 5 and 9 only, handing back
/// sixteen zeros": the lent form on right lengths meets no other, and leaves the zeros it is lent.
fn run(
    block: [[i64; 4]; 4],
    horizontal: i64,
    vertical: i64,
    depth: i64,
    lent: impl Fn(&Shape, &[i64], &mut [i64]) -> Answer,
) -> Small {
    let shape = Shape::new(4, 4, horizontal, vertical, depth);
    let mut out = [0; 16];
    let answer = lent(&shape, &block.concat(), &mut out);
    let mut lines = [[0; 4]; 4];
    for (line, numbers) in lines.iter_mut().zip(out.chunks_exact(4)) {
        line.copy_from_slice(numbers);
    }
    Small {
        answer,
        block: lines,
    }
}

#[cfg(test)]
mod tests {
    use super::*;

    #[test]
    fn refused_blocks_are_zeros() {
        let block = [[256; 4]; 4];
        let zeros = |number| Small {
            answer: Answer::refused(number, 0),
            block: [[0; 4]; 4],
        };
        assert_eq!(forward_4x4(block, 3, 0, 7), zeros(3));
        assert_eq!(forward_4x4(block, 2, 3, 7), zeros(4));
        assert_eq!(inverse_4x4(block, 2, 1, 7), zeros(5));
        assert_eq!(forward_4x4(block, 2, 1, 8), zeros(9));
    }
}

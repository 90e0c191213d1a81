//! A call on a transform block as a value, and the one that fills such a block.

use crate::call::Outcome;
use crate::library::{Shape, TransformBlock};
use crate::model;
use crate::model::Lfnst;
use crate::peer::{Replies, Request};
use crate::subject::{Answered, Asked};
use crate::widths::{block_numbers, narrow, shape_of, wide};
use std::io;

/// The block, and its numbers before.
#[derive(Clone, Debug)]
pub struct TransformCall {
    pub block: TransformBlock,
    pub numbers: Vec<i32>,
}

impl Asked for TransformCall {
    type Outcome = Outcome;

    fn by_model(&self) -> Outcome {
        let (shape, extended) = (self.block.shape().into(), self.block.extended != 0);
        let mut numbers = wide(&self.numbers);
        let answer = model::inverse_transform(&shape, extended, &self.block.low(), &mut numbers);
        Outcome {
            answer: answer.into(),
            output: narrow(&numbers),
        }
    }

    #[cfg(hoengtila_linked)]
    fn by_library(&self) -> Outcome {
        let mut output = self.numbers.clone();
        let answer = crate::library::transform_block_inverse(self.block, &mut output);
        Outcome { answer, output }
    }

    fn request(&self) -> Request {
        Request::of(2000)
            .numbers(&block_numbers(&self.block))
            .lengths(&[self.numbers.len()])
            .numbers(&self.numbers)
    }

    fn reply(&self, replies: &mut Replies) -> io::Result<Outcome> {
        Outcome::read(replies, self.numbers.len())
    }
}

/// Width, height, both kinds and depth, of which a transform block is filled.
#[derive(Clone, Copy, Debug)]
pub struct BlockOf(pub [u32; 5]);

impl Answered for TransformBlock {
    /// Nothing is refused.
    fn number(&self) -> u32 {
        0
    }

    fn count(&self) -> usize {
        block_numbers(self).len()
    }
}

impl Asked for BlockOf {
    type Outcome = TransformBlock;

    fn by_model(&self) -> TransformBlock {
        TransformBlock::of(shape_of(self.0), 0)
    }

    #[cfg(hoengtila_linked)]
    fn by_library(&self) -> TransformBlock {
        let [width, height, horizontal, vertical, depth] = self.0;
        TransformBlock::new(width, height, horizontal, vertical, depth)
    }

    fn request(&self) -> Request {
        Request::of(2001).numbers(&self.0)
    }

    fn reply(&self, replies: &mut Replies) -> io::Result<TransformBlock> {
        let [width, height, horizontal, vertical, depth, extended, columns, rows, lfnst, set, transposed] =
            replies.told()?;
        Ok(TransformBlock {
            width,
            height,
            horizontal,
            vertical,
            depth,
            extended,
            columns,
            rows,
            lfnst,
            set,
            transposed,
        })
    }
}

/// Between a transform block and a shape.
pub trait Shaped {
    /// Of a shape, whose kept columns and rows are read, with the switch as C has it and no LFNST.
    fn of(shape: Shape, extended: u32) -> Self;

    /// Its three numbers of LFNST.
    fn low(&self) -> Lfnst;

    /// All of it but the switch and LFNST.
    fn shape(&self) -> Shape;
}

impl Shaped for TransformBlock {
    fn of(shape: Shape, extended: u32) -> TransformBlock {
        TransformBlock {
            width: shape.width,
            height: shape.height,
            horizontal: shape.horizontal,
            vertical: shape.vertical,
            depth: shape.depth,
            extended,
            columns: shape.columns,
            rows: shape.rows,
            ..TransformBlock::default()
        }
    }

    fn low(&self) -> Lfnst {
        Lfnst {
            index: self.lfnst.into(),
            set: self.set.into(),
            transposed: self.transposed.into(),
        }
    }

    fn shape(&self) -> Shape {
        Shape {
            width: self.width,
            height: self.height,
            horizontal: self.horizontal,
            vertical: self.vertical,
            depth: self.depth,
            columns: self.columns,
            rows: self.rows,
        }
    }
}

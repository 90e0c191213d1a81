//! A row of blocks as a value.

use crate::library::{Answer, Shape};
use crate::model;
use crate::peer::{Replies, Request};
use crate::subject::{Answered, Asked};
use crate::widths::{narrow, number, wide};
use std::io;

/// The shapes of the blocks, what the answers hold before, the numbers of all blocks, and what the output holds before.
#[derive(Clone, Debug)]
pub struct RowCall {
    pub shapes: Vec<Shape>,
    pub answers: Vec<Answer>,
    pub input: Vec<i16>,
    pub held: Vec<i32>,
}

/// The number of the whole call, and what the answers and the output hold then.
#[derive(Clone, Debug, PartialEq, Eq)]
pub struct RowOutcome {
    pub number: u32,
    pub answers: Vec<Answer>,
    pub output: Vec<i32>,
}

impl Answered for RowOutcome {
    fn number(&self) -> u32 {
        self.number
    }

    fn count(&self) -> usize {
        self.output.len()
    }
}

impl Asked for RowCall {
    type Outcome = RowOutcome;

    fn by_model(&self) -> RowOutcome {
        let shapes: Vec<model::Shape> = self.shapes.iter().map(|s| (*s).into()).collect();
        let mut answers: Vec<model::Answer> = self.answers.iter().map(|a| (*a).into()).collect();
        let mut output = wide(&self.held);
        let told = model::block_row(&shapes, &mut answers, &wide(&self.input), &mut output);
        RowOutcome {
            number: number(told),
            answers: answers.into_iter().map(Answer::from).collect(),
            output: narrow(&output),
        }
    }

    #[cfg(hoengtila_linked)]
    fn by_library(&self) -> RowOutcome {
        let (mut answers, mut output) = (self.answers.clone(), self.held.clone());
        let number =
            crate::library::blocks_inverse(&self.shapes, &mut answers, &self.input, &mut output);
        RowOutcome {
            number,
            answers,
            output,
        }
    }

    fn request(&self) -> Request {
        let answers = self.answers.iter();
        let answers: Vec<u32> = answers.flat_map(|a| [a.number, a.place, a.rails]).collect();
        let lengths = [
            self.shapes.len(),
            self.answers.len(),
            self.input.len(),
            self.held.len(),
        ];
        let request = Request::of(500).lengths(&lengths);
        let request = self.shapes.iter().fold(request, Request::shape);
        request
            .numbers(&answers)
            .numbers(&self.input)
            .numbers(&self.held)
    }

    fn reply(&self, replies: &mut Replies) -> io::Result<RowOutcome> {
        let [number] = replies.told()?;
        let answers = self.answers.iter().map(|_| replies.answer());
        Ok(RowOutcome {
            number,
            answers: answers.collect::<io::Result<_>>()?,
            output: replies.numbers(self.held.len())?,
        })
    }
}

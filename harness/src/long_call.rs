//! A call on long numbers as a value.

use crate::call::Outcome;
use crate::library::Shape;
use crate::model;
use crate::peer::{Replies, Request};
use crate::subject::Asked;
use crate::widths::{narrow, wide};
use std::io;

#[derive(Clone, Debug)]
pub struct LongCall {
    pub shape: Shape,
    /// The switch as C has it: off where it is 0.
    pub extended: u32,
    pub input: Vec<i32>,
    pub held: Vec<i32>,
}

impl Asked for LongCall {
    type Outcome = Outcome;

    fn by_model(&self) -> Outcome {
        let (shape, extended) = (self.shape.into(), self.extended != 0);
        let mut output = wide(&self.held);
        let answer = model::inverse_long(&shape, extended, &wide(&self.input), &mut output);
        Outcome {
            answer: answer.into(),
            output: narrow(&output),
        }
    }

    #[cfg(hoengtila_linked)]
    fn by_library(&self) -> Outcome {
        let mut output = self.held.clone();
        let (shape, extended) = (self.shape, self.extended != 0);
        let answer = crate::library::block_inverse_long(shape, extended, &self.input, &mut output);
        Outcome { answer, output }
    }

    fn request(&self) -> Request {
        Request::of(1400)
            .shape(&self.shape)
            .numbers(&[self.extended])
            .lengths(&[self.input.len(), self.held.len()])
            .numbers(&self.input)
            .numbers(&self.held)
    }

    fn reply(&self, replies: &mut Replies) -> io::Result<Outcome> {
        Outcome::read(replies, self.held.len())
    }
}

//! A call over two lent areas as a value.

use crate::library::{Shape, Thin};
use crate::model;
use crate::peer::{Replies, Request};
use crate::subject::{Answered, Asked};
use crate::widths::{narrow, wide};
use std::io;

/// The coefficients, and what both areas hold before.
#[derive(Clone, Debug)]
pub struct ThinCall {
    pub shape: Shape,
    pub input: Vec<i16>,
    pub first: Vec<i32>,
    pub second: Vec<i32>,
}

/// What is handed back, and what both areas hold then.
#[derive(Clone, Debug, PartialEq, Eq)]
pub struct ThinOutcome {
    pub told: Thin,
    pub first: Vec<i32>,
    pub second: Vec<i32>,
}

impl Answered for ThinOutcome {
    fn number(&self) -> u32 {
        self.told.number
    }

    fn count(&self) -> usize {
        self.first.len() + self.second.len()
    }
}

impl Asked for ThinCall {
    type Outcome = ThinOutcome;

    fn by_model(&self) -> ThinOutcome {
        let (shape, input) = (self.shape.into(), wide(&self.input));
        let (mut first, mut second) = (wide(&self.first), wide(&self.second));
        let thin = model::inverse_thin(&shape, &input, &mut first, &mut second);
        ThinOutcome {
            told: thin.into(),
            first: narrow(&first),
            second: narrow(&second),
        }
    }

    #[cfg(hoengtila_linked)]
    fn by_library(&self) -> ThinOutcome {
        let (mut first, mut second) = (self.first.clone(), self.second.clone());
        let told =
            crate::library::block_inverse_thin(self.shape, &self.input, &mut first, &mut second);
        ThinOutcome {
            told,
            first,
            second,
        }
    }

    fn request(&self) -> Request {
        Request::of(700)
            .shape(&self.shape)
            .lengths(&[self.input.len(), self.first.len(), self.second.len()])
            .numbers(&self.input)
            .numbers(&self.first)
            .numbers(&self.second)
    }

    fn reply(&self, replies: &mut Replies) -> io::Result<ThinOutcome> {
        let [number, place, rails, area] = replies.told()?;
        Ok(ThinOutcome {
            told: Thin {
                number,
                place,
                rails,
                area,
            },
            first: replies.numbers(self.first.len())?,
            second: replies.numbers(self.second.len())?,
        })
    }
}

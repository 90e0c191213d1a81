//! Clearing totals and adding a block, as values, and their subject.

use hoengtila_harness::library::{Answer, Shape};
use hoengtila_harness::model::report::{add, Totals, NUMBERS};
use hoengtila_harness::peer::{Replies, Request};
use hoengtila_harness::subject::{Answered, Asked, Subject};
use hoengtila_harness::widths::wide;
use std::io;

/// The library through `peer/report.c`, whose command line this variable gives.
pub fn subject() -> Subject {
    Subject::through("HOENGTILA_REPORT")
}

/// What a call hands back, which is nothing where totals are cleared, and the totals then.
#[derive(Clone, Debug, PartialEq, Eq)]
pub struct Outcome {
    pub answer: Answer,
    pub totals: Totals,
}

impl Outcome {
    fn read(answer: Answer, replies: &mut Replies) -> io::Result<Outcome> {
        let totals = replies.told()?;
        Ok(Outcome { answer, totals })
    }
}

impl Answered for Outcome {
    fn number(&self) -> u32 {
        self.answer.number
    }

    fn count(&self) -> usize {
        NUMBERS
    }
}

#[derive(Clone, Debug)]
pub struct ClearCall {
    pub totals: Totals,
}

impl Asked for ClearCall {
    type Outcome = Outcome;

    fn by_model(&self) -> Outcome {
        Outcome {
            answer: Answer::default(),
            totals: [0; NUMBERS],
        }
    }

    #[cfg(hoengtila_linked)]
    fn by_library(&self) -> Outcome {
        let mut totals = self.totals;
        hoengtila_harness::library::report_clear(&mut totals);
        let answer = Answer::default();
        Outcome { answer, totals }
    }

    fn request(&self) -> Request {
        Request::of(0).numbers(&self.totals)
    }

    fn reply(&self, replies: &mut Replies) -> io::Result<Outcome> {
        Outcome::read(Answer::default(), replies)
    }
}

#[derive(Clone, Debug)]
pub struct AddCall {
    pub totals: Totals,
    pub shape: Shape,
    pub residuals: Vec<i16>,
}

impl Asked for AddCall {
    type Outcome = Outcome;

    fn by_model(&self) -> Outcome {
        let mut totals = self.totals;
        let answer = add(&mut totals, &self.shape.into(), &wide(&self.residuals)).into();
        Outcome { answer, totals }
    }

    #[cfg(hoengtila_linked)]
    fn by_library(&self) -> Outcome {
        let mut totals = self.totals;
        let answer =
            hoengtila_harness::library::report_add(&mut totals, self.shape, &self.residuals);
        Outcome { answer, totals }
    }

    fn request(&self) -> Request {
        Request::of(1)
            .numbers(&self.totals)
            .shape(&self.shape)
            .lengths(&[self.residuals.len()])
            .numbers(&self.residuals)
    }

    fn reply(&self, replies: &mut Replies) -> io::Result<Outcome> {
        let answer = replies.answer()?;
        Outcome::read(answer, replies)
    }
}

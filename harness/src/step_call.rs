//! Calls on lists of steps as values: a run of any list, the list of n points, and the line by it.

use crate::library::{Listed, StepCount};
use crate::model;
use crate::peer::{Replies, Request};
use crate::steps::{make, LISTED};
use crate::subject::{Answered, Asked};
use crate::widths::{narrow, wide};
use std::io;

#[derive(Clone, Debug)]
pub struct RunCall {
    pub inputs: u32,
    pub cells: u32,
    pub steps: Vec<i32>,
    pub outs: Vec<i32>,
    pub x: Vec<i16>,
    pub held: Vec<i32>,
}

/// What the two buffers hold before.
#[derive(Clone, Debug)]
pub struct ListCall {
    pub n: u32,
    pub steps: Vec<i32>,
    pub outs: Vec<i32>,
}

#[derive(Clone, Debug)]
pub struct ForwardCall {
    pub n: u32,
    pub x: Vec<i16>,
    pub held: Vec<i32>,
}

/// Of a run, or of a line by its list: what it hands back, and what its output holds then.
#[derive(Clone, Debug, PartialEq, Eq)]
pub struct RunOutcome {
    pub told: StepCount,
    pub output: Vec<i32>,
}

/// What is told of a list, and what the two buffers hold then.
#[derive(Clone, Debug, PartialEq, Eq)]
pub struct ListOutcome {
    pub told: Listed,
    pub steps: Vec<i32>,
    pub outs: Vec<i32>,
}

impl RunOutcome {
    fn of(told: model::steps::StepCount, output: &[i64]) -> RunOutcome {
        RunOutcome {
            told: told.into(),
            output: narrow(output),
        }
    }

    fn read(replies: &mut Replies, length: usize) -> io::Result<RunOutcome> {
        let [number, count] = replies.told()?;
        Ok(RunOutcome {
            told: StepCount { number, count },
            output: replies.numbers(length)?,
        })
    }
}

impl Answered for ListOutcome {
    fn number(&self) -> u32 {
        self.told.number
    }

    fn count(&self) -> usize {
        self.steps.len() + self.outs.len()
    }
}

impl Answered for RunOutcome {
    fn number(&self) -> u32 {
        self.told.number
    }

    fn count(&self) -> usize {
        self.output.len()
    }
}

impl Asked for RunCall {
    type Outcome = RunOutcome;

    fn by_model(&self) -> RunOutcome {
        let (inputs, cells) = (self.inputs.into(), self.cells.into());
        let (steps, outs) = (wide(&self.steps), wide(&self.outs));
        let (x, mut y) = (wide(&self.x), wide(&self.held));
        let told = model::steps::run(inputs, cells, &steps, &outs, &x, &mut y);
        RunOutcome::of(told, &y)
    }

    #[cfg(hoengtila_linked)]
    fn by_library(&self) -> RunOutcome {
        let (inputs, cells, mut output) = (self.inputs, self.cells, self.held.clone());
        let told =
            crate::library::steps_run(inputs, cells, &self.steps, &self.outs, &self.x, &mut output);
        RunOutcome { told, output }
    }

    fn request(&self) -> Request {
        let lengths = [
            self.steps.len(),
            self.outs.len(),
            self.x.len(),
            self.held.len(),
        ];
        Request::of(600)
            .numbers(&[self.inputs, self.cells])
            .lengths(&lengths)
            .numbers(&self.steps)
            .numbers(&self.outs)
            .numbers(&self.x)
            .numbers(&self.held)
    }

    fn reply(&self, replies: &mut Replies) -> io::Result<RunOutcome> {
        RunOutcome::read(replies, self.held.len())
    }
}

impl Asked for ListCall {
    type Outcome = ListOutcome;

    /// The header: 1 where n has no list, 7 where a buffer has another length than the list's.
    fn by_model(&self) -> ListOutcome {
        let untouched = |told: Listed| ListOutcome {
            told,
            steps: self.steps.clone(),
            outs: self.outs.clone(),
        };
        if !has_list(self.n) {
            return untouched(Listed {
                number: 1,
                inputs: 0,
                cells: 0,
                steps: 0,
                outs: 0,
            });
        }
        let list = make(self.n as usize);
        let (steps, outs) = (list.numbers(), list.out_numbers());
        let fits = self.steps.len() == steps.len() && self.outs.len() == outs.len();
        let told = Listed {
            number: if fits { 0 } else { 7 },
            inputs: list.inputs as u32,
            cells: list.cells as u32,
            steps: list.steps.len() as u32,
            outs: list.outs.len() as u32,
        };
        if fits {
            ListOutcome { told, steps, outs }
        } else {
            untouched(told)
        }
    }

    #[cfg(hoengtila_linked)]
    fn by_library(&self) -> ListOutcome {
        let (mut steps, mut outs) = (self.steps.clone(), self.outs.clone());
        let told = crate::library::steps_list(self.n, &mut steps, &mut outs);
        ListOutcome { told, steps, outs }
    }

    fn request(&self) -> Request {
        Request::of(601)
            .numbers(&[self.n])
            .lengths(&[self.steps.len(), self.outs.len()])
            .numbers(&self.steps)
            .numbers(&self.outs)
    }

    fn reply(&self, replies: &mut Replies) -> io::Result<ListOutcome> {
        let [number, inputs, cells, steps, outs] = replies.told()?;
        Ok(ListOutcome {
            told: Listed {
                number,
                inputs,
                cells,
                steps,
                outs,
            },
            steps: replies.numbers(self.steps.len())?,
            outs: replies.numbers(self.outs.len())?,
        })
    }
}

impl Asked for ForwardCall {
    type Outcome = RunOutcome;

    /// "a run equals the full product": the line by its definition, and the multiplying steps of the list.
    fn by_model(&self) -> RunOutcome {
        let mut y = wide(&self.held);
        let number = match has_list(self.n) {
            true => model::forward_line(self.n.into(), 1, &wide(&self.x), &mut y).number,
            false => 1,
        };
        let count = match number {
            0 => make(self.n as usize).multiplying() as i64,
            _ => 0,
        };
        RunOutcome::of(model::steps::StepCount { number, count }, &y)
    }

    #[cfg(hoengtila_linked)]
    fn by_library(&self) -> RunOutcome {
        let mut output = self.held.clone();
        let told = crate::library::steps_forward(self.n, &self.x, &mut output);
        RunOutcome { told, output }
    }

    fn request(&self) -> Request {
        Request::of(602)
            .numbers(&[self.n])
            .lengths(&[self.x.len(), self.held.len()])
            .numbers(&self.x)
            .numbers(&self.held)
    }

    fn reply(&self, replies: &mut Replies) -> io::Result<RunOutcome> {
        RunOutcome::read(replies, self.held.len())
    }
}

fn has_list(n: u32) -> bool {
    LISTED.contains(&(n as usize))
}

//! A call of a line or a block as a value, and of the functions that take numbers alone.

use crate::library::{Answer, Shape};
use crate::model;
use crate::peer::{Replies, Request};
use crate::subject::{Answered, Asked};
use crate::widths::{narrow, number, shape_numbers, shape_of, wide};
use std::io;

/// Which function of the header, with its numbers.
#[derive(Clone, Copy, Debug, PartialEq, Eq)]
pub enum What {
    /// Width, height, both kinds and depth, of which a shape is filled.
    ShapeOf([u32; 5]),
    Weight {
        kind: u32,
        n: u32,
        i: u32,
        j: u32,
    },
    Line {
        path: Path,
        n: u32,
        kind: u32,
    },
    /// A line whose sums wrap on the way; its order stands in the call.
    Wrapped {
        forward: bool,
        n: u32,
        kind: u32,
        start: u32,
    },
    /// D of a place.
    Stray {
        kind: u32,
        n: u32,
        j: u32,
    },
    Inverse(Shape),
    Forward(Shape),
}

/// The four line functions, in the header's order.
#[derive(Clone, Copy, Debug, PartialEq, Eq)]
pub enum Path {
    Forward,
    Inverse,
    ForwardProduct,
    InverseProduct,
}

pub const PATHS: [Path; 4] = [
    Path::Forward,
    Path::Inverse,
    Path::ForwardProduct,
    Path::InverseProduct,
];

/// A call: the numbers it is handed, and what its output holds before.
#[derive(Clone, Debug)]
pub struct Call {
    pub what: What,
    /// The order of a wrapped line's products; of other calls empty.
    pub order: Vec<u32>,
    pub input: Vec<i16>,
    /// A forward block's output is of 16 bits, so each of its numbers has to fit those.
    pub held: Vec<i32>,
}

impl Call {
    pub fn new(what: What, input: Vec<i16>, held: Vec<i32>) -> Call {
        Call {
            what,
            order: vec![],
            input,
            held,
        }
    }

    /// A call that is handed numbers alone.
    pub fn of(what: What) -> Call {
        Call::new(what, vec![], vec![])
    }

    pub fn weight(kind: u32, n: u32, i: u32, j: u32) -> Call {
        Call::of(What::Weight { kind, n, i, j })
    }

    pub fn stray(kind: u32, n: u32, j: u32) -> Call {
        Call::of(What::Stray { kind, n, j })
    }

    fn held_shorts(&self) -> Vec<i16> {
        narrow(&wide(&self.held))
    }
}

/// What a call hands back, and what its output holds then. A weight, or a D, is an output of one number, a shape one of seven.
#[derive(Clone, Debug, PartialEq, Eq)]
pub struct Outcome {
    pub answer: Answer,
    pub output: Vec<i32>,
}

impl Outcome {
    /// Of a call that hands back no answer.
    fn of_numbers(output: Vec<i32>) -> Outcome {
        let answer = Answer::default();
        Outcome { answer, output }
    }

    fn of_shape(shape: &Shape) -> Outcome {
        Outcome::of_numbers(shape_numbers(shape).map(|n| n as i32).to_vec())
    }

    /// An answer, and an output of so many numbers of 32 bits.
    pub fn read(replies: &mut Replies, count: usize) -> io::Result<Outcome> {
        Ok(Outcome {
            answer: replies.answer()?,
            output: replies.numbers(count)?,
        })
    }
}

impl Answered for Outcome {
    fn number(&self) -> u32 {
        self.answer.number
    }

    fn count(&self) -> usize {
        self.output.len()
    }
}

impl Asked for Call {
    type Outcome = Outcome;

    fn by_model(&self) -> Outcome {
        let (input, mut output) = (wide(&self.input), wide(&self.held));
        let answer = match self.what {
            What::ShapeOf(numbers) => return Outcome::of_shape(&shape_of(numbers)),
            What::Weight { kind, n, i, j } => {
                return Outcome::of_numbers(vec![model_weight(kind, n, i, j)])
            }
            What::Stray { kind, n, j } => {
                return Outcome::of_numbers(vec![model_stray(kind, n, j)])
            }
            What::Line { path, n, kind } => {
                model_line(path)(n.into(), kind.into(), &input, &mut output)
            }
            What::Wrapped {
                forward, n, kind, ..
            } => {
                let line = if forward {
                    model::forward_wrapped
                } else {
                    model::inverse_wrapped
                };
                line(
                    n.into(),
                    kind.into(),
                    &wide(&self.order),
                    &input,
                    &mut output,
                )
            }
            What::Inverse(shape) => model::inverse(&shape.into(), &input, &mut output),
            What::Forward(shape) => model::forward(&shape.into(), &input, &mut output),
        };
        Outcome {
            answer: answer.into(),
            output: narrow(&output),
        }
    }

    #[cfg(hoengtila_linked)]
    fn by_library(&self) -> Outcome {
        use crate::library;
        let (input, mut output) = (&self.input, self.held.clone());
        let answer = match self.what {
            What::ShapeOf([w, h, x, y, d]) => return Outcome::of_shape(&Shape::new(w, h, x, y, d)),
            What::Weight { kind, n, i, j } => {
                return Outcome::of_numbers(vec![library::weight(kind, n, i, j)])
            }
            What::Stray { kind, n, j } => {
                return Outcome::of_numbers(vec![library::stray(kind, n, j) as i32])
            }
            What::Line { path, n, kind } => linked_line(path)(n, kind, input, &mut output),
            What::Wrapped {
                forward,
                n,
                kind,
                start,
            } => {
                let line = if forward {
                    library::line_forward_wrapped
                } else {
                    library::line_inverse_wrapped
                };
                line(n, kind, start, &self.order, input, &mut output)
            }
            What::Inverse(shape) => library::block_inverse(shape, input, &mut output),
            What::Forward(shape) => {
                let mut short = self.held_shorts();
                let answer = library::block_forward(shape, input, &mut short);
                output = short.into_iter().map(i32::from).collect();
                answer
            }
        };
        Outcome { answer, output }
    }

    fn request(&self) -> Request {
        let request = Request::of(name(&self.what));
        let lengths = [self.input.len(), self.held.len()];
        let request = match self.what {
            What::ShapeOf(numbers) => return request.numbers(&numbers),
            What::Weight { kind, n, i, j } => return request.numbers(&[kind, n, i, j]),
            What::Stray { kind, n, j } => return request.numbers(&[kind, n, j]),
            What::Line { n, kind, .. } => request.numbers(&[n, kind]).lengths(&lengths),
            What::Wrapped { n, kind, start, .. } => request
                .numbers(&[n, kind, start])
                .lengths(&[self.order.len()])
                .lengths(&lengths)
                .numbers(&self.order),
            What::Inverse(shape) | What::Forward(shape) => request.shape(&shape).lengths(&lengths),
        };
        let request = request.numbers(&self.input);
        match self.what {
            What::Forward(_) => request.numbers(&self.held_shorts()),
            _ => request.numbers(&self.held),
        }
    }

    fn reply(&self, replies: &mut Replies) -> io::Result<Outcome> {
        match self.what {
            What::Weight { .. } | What::Stray { .. } => {
                Ok(Outcome::of_numbers(replies.numbers(1)?))
            }
            What::ShapeOf(_) => Ok(Outcome::of_numbers(replies.numbers(7)?)),
            What::Forward(_) => {
                let answer = replies.answer()?;
                let output: Vec<i16> = replies.numbers(self.held.len())?;
                let output = output.into_iter().map(i32::from).collect();
                Ok(Outcome { answer, output })
            }
            _ => Outcome::read(replies, self.held.len()),
        }
    }
}

/// The call's name in `peer/peer.c`.
fn name(what: &What) -> u32 {
    match what {
        What::Weight { .. } => 0,
        What::Line { path, .. } => match path {
            Path::Forward => 1,
            Path::Inverse => 2,
            Path::ForwardProduct => 3,
            Path::InverseProduct => 4,
        },
        What::Inverse(_) => 5,
        What::Forward(_) => 6,
        What::ShapeOf(_) => 7,
        What::Wrapped { forward: true, .. } => 900,
        What::Wrapped { forward: false, .. } => 901,
        What::Stray { .. } => 1300,
    }
}

fn model_line(path: Path) -> fn(i64, i64, &[i64], &mut [i64]) -> model::Answer {
    match path {
        Path::Forward | Path::ForwardProduct => model::forward_line,
        Path::Inverse | Path::InverseProduct => model::inverse_line,
    }
}

#[cfg(hoengtila_linked)]
fn linked_line(path: Path) -> fn(u32, u32, &[i16], &mut [i32]) -> Answer {
    use crate::library;
    match path {
        Path::Forward => library::line_forward,
        Path::Inverse => library::line_inverse,
        Path::ForwardProduct => library::line_forward_product,
        Path::InverseProduct => library::line_inverse_product,
    }
}

/// The header: "The weight of row i in column j at n points; 0 outside."
fn model_weight(kind: u32, n: u32, i: u32, j: u32) -> i32 {
    if !has_lines(kind, n) || i >= n || j >= n {
        return 0;
    }
    let [i, j] = [i, j].map(|k| k as usize);
    number(model::weights::weight(kind.into(), n as usize, i, j))
}

/// The header: "0 outside".
fn model_stray(kind: u32, n: u32, j: u32) -> i32 {
    if !has_lines(kind, n) || j >= n {
        return 0;
    }
    number(model::line::stray(kind.into(), n as usize, j as usize))
}

fn has_lines(kind: u32, n: u32) -> bool {
    model::call::is_kind(kind.into()) && model::call::is_size(n.into())
}

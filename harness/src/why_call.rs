//! A question after the parts of a residual as a value.

use crate::library::{Parts, Shape};
use crate::model;
use crate::peer::{Replies, Request};
use crate::subject::{Answered, Asked};
use crate::widths::{narrow, wide};
use std::io;

#[derive(Clone, Debug)]
pub struct WhyCall {
    pub shape: Shape,
    /// The switch of a call on long numbers, off where it is 0; none where the coefficients are of 16 bits.
    pub extended: Option<u32>,
    /// Of 16 bits where there is no switch.
    pub input: Vec<i32>,
    pub place: u32,
}

impl WhyCall {
    fn shorts(&self) -> Vec<i16> {
        narrow(&wide(&self.input))
    }
}

impl Answered for Parts {
    fn number(&self) -> u32 {
        self.number
    }

    fn count(&self) -> usize {
        4
    }
}

impl Asked for WhyCall {
    type Outcome = Parts;

    fn by_model(&self) -> Parts {
        let (shape, input, place) = (self.shape.into(), wide(&self.input), self.place.into());
        match self.extended {
            None => model::why(&shape, &input, place).into(),
            Some(switch) => model::why_long(&shape, switch != 0, &input, place).into(),
        }
    }

    #[cfg(hoengtila_linked)]
    fn by_library(&self) -> Parts {
        use crate::library;
        match self.extended {
            None => library::block_why(self.shape, &self.shorts(), self.place),
            Some(switch) => {
                library::block_why_long(self.shape, switch != 0, &self.input, self.place)
            }
        }
    }

    fn request(&self) -> Request {
        let (length, place) = ([self.input.len()], [self.place]);
        match self.extended {
            None => Request::of(400)
                .shape(&self.shape)
                .lengths(&length)
                .numbers(&place)
                .numbers(&self.shorts()),
            Some(switch) => Request::of(401)
                .shape(&self.shape)
                .numbers(&[switch])
                .lengths(&length)
                .numbers(&place)
                .numbers(&self.input),
        }
    }

    fn reply(&self, replies: &mut Replies) -> io::Result<Parts> {
        let [number, place] = replies.told()?;
        let [exact, middle_roundings, clippings, last_rounding] = replies.told()?;
        Ok(Parts {
            number,
            place,
            exact,
            middle_roundings,
            clippings,
            last_rounding,
        })
    }
}

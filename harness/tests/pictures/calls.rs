//! Writing and reading a picture, as values, and their subject.

use hoengtila_harness::library::{Picture, Written};
use hoengtila_harness::model::{read_picture, write_picture};
use hoengtila_harness::peer::{Replies, Request};
use hoengtila_harness::subject::{Answered, Asked, Subject};
use hoengtila_harness::widths::{narrow, number, wide};
use std::io;

/// The library through `peer/picture.c`, whose command line this variable gives.
pub fn subject() -> Subject {
    Subject::through("HOENGTILA_PICTURES")
}

#[derive(Clone, Debug)]
pub struct WriteCall {
    pub width: u32,
    pub height: u32,
    pub residuals: Vec<i32>,
    pub held: Vec<u8>,
}

/// What is handed back, and what the output holds then.
#[derive(Clone, Debug, PartialEq, Eq)]
pub struct WriteOutcome {
    pub told: Written,
    pub output: Vec<u8>,
}

impl WriteOutcome {
    pub fn picture(&self) -> &[u8] {
        &self.output[..self.told.bytes as usize]
    }
}

impl Answered for WriteOutcome {
    fn number(&self) -> u32 {
        self.told.number
    }

    fn count(&self) -> usize {
        self.output.len()
    }
}

impl Asked for WriteCall {
    type Outcome = WriteOutcome;

    fn by_model(&self) -> WriteOutcome {
        let (width, height) = (self.width.into(), self.height.into());
        let mut output = self.held.clone();
        let written = write_picture(width, height, &wide(&self.residuals), &mut output);
        let told = Written {
            number: number(written.number),
            bytes: written.bytes as u32,
        };
        WriteOutcome { told, output }
    }

    #[cfg(hoengtila_linked)]
    fn by_library(&self) -> WriteOutcome {
        let (width, height, mut output) = (self.width, self.height, self.held.clone());
        let told =
            hoengtila_harness::library::picture_write(width, height, &self.residuals, &mut output);
        WriteOutcome { told, output }
    }

    fn request(&self) -> Request {
        Request::of(0)
            .numbers(&[self.width, self.height])
            .lengths(&[self.residuals.len(), self.held.len()])
            .numbers(&self.residuals)
            .numbers(&self.held)
    }

    fn reply(&self, replies: &mut Replies) -> io::Result<WriteOutcome> {
        let [number, bytes] = replies.told()?;
        Ok(WriteOutcome {
            told: Written { number, bytes },
            output: replies.numbers(self.held.len())?,
        })
    }
}

#[derive(Clone, Debug)]
pub struct ReadCall {
    pub file: Vec<u8>,
    pub held: Vec<i32>,
}

/// What is handed back, and what the output holds then.
#[derive(Clone, Debug, PartialEq, Eq)]
pub struct ReadOutcome {
    pub told: Picture,
    pub output: Vec<i32>,
}

impl ReadOutcome {
    /// That the picture is taken, with these sides.
    pub fn is_taken(&self, width: u32, height: u32) -> bool {
        let number = 0;
        self.told
            == Picture {
                number,
                width,
                height,
            }
    }
}

impl Answered for ReadOutcome {
    fn number(&self) -> u32 {
        self.told.number
    }

    fn count(&self) -> usize {
        self.output.len()
    }
}

impl Asked for ReadCall {
    type Outcome = ReadOutcome;

    fn by_model(&self) -> ReadOutcome {
        let mut output = wide(&self.held);
        let picture = read_picture(&self.file, &mut output);
        ReadOutcome {
            told: Picture {
                number: number(picture.number),
                width: number(picture.width),
                height: number(picture.height),
            },
            output: narrow(&output),
        }
    }

    #[cfg(hoengtila_linked)]
    fn by_library(&self) -> ReadOutcome {
        let mut output = self.held.clone();
        let told = hoengtila_harness::library::picture_read(&self.file, &mut output);
        ReadOutcome { told, output }
    }

    fn request(&self) -> Request {
        Request::of(1)
            .lengths(&[self.file.len(), self.held.len()])
            .numbers(&self.file)
            .numbers(&self.held)
    }

    fn reply(&self, replies: &mut Replies) -> io::Result<ReadOutcome> {
        let [number, width, height] = replies.told()?;
        Ok(ReadOutcome {
            told: Picture {
                number,
                width,
                height,
            },
            output: replies.numbers(self.held.len())?,
        })
    }
}

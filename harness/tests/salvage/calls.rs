//! Saving what can be saved, as a value, and its subject.

use hoengtila_harness::library::Saved;
use hoengtila_harness::model::salvage::salvage;
use hoengtila_harness::peer::{Peer, Replies, Request};
use hoengtila_harness::subject::{Answered, Asked, Subject};
use hoengtila_harness::widths::number;
use std::io;

/// The environment variable that gives the command line of `peer/salvage.c`.
const VARIABLE: &str = "HOENGTILA_SALVAGE";

pub fn subject() -> Subject {
    Subject::through(VARIABLE)
}

/// The peer alone, for whoever asks how long a call takes.
pub fn peer() -> Peer {
    Peer::start(&std::env::var(VARIABLE).expect(VARIABLE))
}

/// A file, and what the output and the list hold before the call.
#[derive(Clone, Debug)]
pub struct Call {
    pub file: Vec<u8>,
    pub out: Vec<u8>,
    pub list: Vec<u32>,
}

impl Call {
    /// A call with room enough.
    pub fn of(file: &[u8]) -> Call {
        Call {
            file: file.to_vec(),
            out: vec![0xEE; file.len() + 5],
            list: vec![0xEEEE_EEEE; 2051],
        }
    }

    /// What the peer makes of it, and the microseconds of a processor that it took.
    pub fn timed(&self, replies: &mut Replies) -> io::Result<(Outcome, u32)> {
        let [number, bytes, stretches, took] = replies.told()?;
        let outcome = Outcome {
            told: Saved {
                number,
                bytes,
                stretches,
            },
            out: replies.numbers(self.out.len())?,
            list: replies.numbers(self.list.len())?,
        };
        Ok((outcome, took))
    }
}

/// What is handed back, and what the output and the list hold then.
#[derive(Clone, Debug, PartialEq, Eq)]
pub struct Outcome {
    pub told: Saved,
    pub out: Vec<u8>,
    pub list: Vec<u32>,
}

impl Outcome {
    /// The new file.
    pub fn saved(&self) -> &[u8] {
        &self.out[..self.told.bytes as usize]
    }

    /// The dropped stretches, offset and length.
    pub fn dropped(&self) -> Vec<(usize, usize)> {
        let places = self.list.chunks_exact(2).take(self.told.stretches as usize);
        places.map(|p| (p[0] as usize, p[1] as usize)).collect()
    }
}

impl Answered for Outcome {
    fn number(&self) -> u32 {
        self.told.number
    }

    fn count(&self) -> usize {
        self.out.len() + self.list.len()
    }
}

impl Asked for Call {
    type Outcome = Outcome;

    fn by_model(&self) -> Outcome {
        let (mut out, mut list) = (self.out.clone(), self.list.clone());
        let saved = salvage(&self.file, &mut out, &mut list);
        let told = Saved {
            number: number(saved.number),
            bytes: saved.bytes as u32,
            stretches: saved.stretches as u32,
        };
        Outcome { told, out, list }
    }

    #[cfg(hoengtila_linked)]
    fn by_library(&self) -> Outcome {
        let (mut out, mut list) = (self.out.clone(), self.list.clone());
        let told = hoengtila_harness::library::salvage(&self.file, &mut out, &mut list);
        Outcome { told, out, list }
    }

    fn request(&self) -> Request {
        Request::default()
            .lengths(&[self.file.len(), self.out.len(), self.list.len()])
            .numbers(&self.file)
            .numbers(&self.out)
            .numbers(&self.list)
    }

    fn reply(&self, replies: &mut Replies) -> io::Result<Outcome> {
        Ok(self.timed(replies)?.0)
    }
}

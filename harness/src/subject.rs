//! What a test runs its calls on: the library where the build links it, or a peer that the environment names.

use crate::peer::{Peer, Replies, Request};
use std::fmt::Debug;
use std::io;

/// A call as a value, for the linked library, a peer or the model.
pub trait Asked: Debug {
    type Outcome: Answered;

    fn by_model(&self) -> Self::Outcome;

    #[cfg(hoengtila_linked)]
    fn by_library(&self) -> Self::Outcome;

    /// What its peer is sent: the call's name there, its numbers and lengths, and its buffers.
    fn request(&self) -> Request;

    fn reply(&self, replies: &mut Replies) -> io::Result<Self::Outcome>;
}

/// What a call hands back, and what its outputs hold then.
pub trait Answered: Debug + PartialEq {
    /// 0, or the number of the refusal.
    fn number(&self) -> u32;

    /// How many numbers beside it are compared.
    fn count(&self) -> usize;
}

pub enum Subject {
    #[cfg(hoengtila_linked)]
    Linked,
    /// Where the build links the library too, what comes through the peer has to be what it gives linked.
    Peer(Peer),
    /// The model in the library's place, for whoever works on the tests themselves: it tests no library.
    Model,
}

/// The environment variable that gives the command line of `peer/peer.c`.
const PEER_VARIABLE: &str = "HOENGTILA_PEER";

/// The "command line" that asks for the model in the library's place.
const MODEL: &str = "model";

impl Subject {
    /// The peer that the environment names, else the linked library. Fails where there is neither.
    pub fn open() -> Subject {
        Subject::peer(PEER_VARIABLE)
            .or_else(linked)
            .expect("no library is linked and no peer is named")
    }

    /// The peer whose command line this variable gives. Fails where it gives none.
    pub fn through(variable: &str) -> Subject {
        Subject::peer(variable).expect(variable)
    }

    fn peer(variable: &str) -> Option<Subject> {
        match std::env::var(variable).ok()?.as_str() {
            MODEL => Some(Subject::Model),
            command_line => Some(Subject::Peer(Peer::start(command_line))),
        }
    }

    /// How a report names it.
    pub fn name(&self) -> &'static str {
        match self {
            #[cfg(hoengtila_linked)]
            Subject::Linked => "library, linked",
            Subject::Peer(_) if cfg!(hoengtila_linked) => "library, through its peer and linked",
            Subject::Peer(_) => "library, through its peer",
            Subject::Model => "MODEL ALONE, NO LIBRARY",
        }
    }

    /// The outcomes of many calls, in their order.
    pub fn run<C: Asked>(&mut self, calls: &[C]) -> Vec<C::Outcome> {
        match self {
            Subject::Peer(peer) => {
                let outcomes = peer.run(calls);
                let pairs = calls.iter().zip(&outcomes);
                pairs.for_each(|(call, outcome)| check_linked(call, outcome));
                outcomes
            }
            _ => calls.iter().map(|call| self.ask(call)).collect(),
        }
    }

    pub fn ask<C: Asked>(&mut self, call: &C) -> C::Outcome {
        match self {
            #[cfg(hoengtila_linked)]
            Subject::Linked => call.by_library(),
            Subject::Peer(peer) => {
                let outcome = peer.ask(call);
                check_linked(call, &outcome);
                outcome
            }
            Subject::Model => call.by_model(),
        }
    }
}

#[cfg(not(hoengtila_linked))]
fn linked() -> Option<Subject> {
    None
}

#[cfg(hoengtila_linked)]
fn linked() -> Option<Subject> {
    Some(Subject::Linked)
}

#[cfg(not(hoengtila_linked))]
fn check_linked<C: Asked>(_: &C, _: &C::Outcome) {}

#[cfg(hoengtila_linked)]
fn check_linked<C: Asked>(call: &C, outcome: &C::Outcome) {
    assert_eq!(
        call.by_library(),
        *outcome,
        "linked and through the peer: {call:?}"
    );
}

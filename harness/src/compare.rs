//! Runs calls on the library and on the model and compares what comes back, number by number.

use crate::call::Call;
use crate::random::{seed, Random, SEED_VARIABLE};
use crate::subject::{Answered, Asked, Subject};
use std::collections::BTreeMap;
use std::time::Instant;

/// So many calls go to the library at once: enough to keep a pipe busy.
const AT_ONCE: usize = 64;

/// What one test compares, with the count of it.
pub struct Comparison {
    pub random: Random,
    subject: Subject,
    title: &'static str,
    waiting: Vec<Call>,
    calls: usize,
    numbers: usize,
    /// how often each number was handed back
    met: BTreeMap<u32, usize>,
    started: Instant,
}

impl Comparison {
    /// Fails where there is no library to compare with.
    pub fn open(title: &'static str) -> Comparison {
        Comparison::of(Subject::open(), title)
    }

    pub fn of(subject: Subject, title: &'static str) -> Comparison {
        Comparison {
            random: Random::new(seed()),
            subject,
            title,
            waiting: vec![],
            calls: 0,
            numbers: 0,
            met: BTreeMap::new(),
            started: Instant::now(),
        }
    }

    /// Has a line or a block compared, at the latest when this is closed: there are so many of them that they go many at once.
    pub fn add(&mut self, call: Call) {
        self.waiting.push(call);
        if self.waiting.len() == AT_ONCE {
            self.compare_waiting();
        }
    }

    /// What the library makes of a call, compared with the model at once.
    pub fn outcome<C: Asked>(&mut self, call: &C) -> C::Outcome {
        let outcome = self.subject.ask(call);
        self.compare(call, &outcome);
        outcome
    }

    /// What the library makes of a call that is not compared here.
    pub fn other<C: Asked>(&mut self, call: &C) -> C::Outcome {
        self.subject.ask(call)
    }

    fn compare_waiting(&mut self) {
        let calls = std::mem::take(&mut self.waiting);
        for (call, outcome) in calls.iter().zip(self.subject.run(&calls)) {
            self.compare(call, &outcome);
        }
    }

    fn compare<C: Asked>(&mut self, call: &C, found: &C::Outcome) {
        let wanted = call.by_model();
        assert!(
            wanted == *found,
            "{}: {call:?}: {found:?} and not {wanted:?}\n{SEED_VARIABLE}={}",
            self.title,
            seed()
        );
        self.calls += 1;
        self.numbers += found.count();
        *self.met.entry(found.number()).or_default() += 1;
    }

    /// Compares what is left, says how much there was, and that these numbers were met and no others.
    pub fn close(mut self, numbers: &[u32]) {
        self.compare_waiting();
        eprintln!(
            "compared: {}: {} numbers in {} calls, {:.1} s ({}, {SEED_VARIABLE}={})",
            self.title,
            self.numbers,
            self.calls,
            self.started.elapsed().as_secs_f64(),
            self.subject.name(),
            seed()
        );
        let met: Vec<u32> = self.met.into_keys().collect();
        assert_eq!(met, numbers, "the numbers that were met");
    }
}

#[cfg(test)]
mod tests {
    use super::*;
    use crate::call::{Outcome, What};
    use crate::widths::shape_of;
    use std::panic::{catch_unwind, AssertUnwindSafe};

    /// A comparison that overlooked a part of the outcome would pass whatever the library did there.
    #[test]
    fn every_part_of_an_outcome_counts() {
        let what = What::Inverse(shape_of([4, 4, 1, 1, 10]));
        let call = Call::new(what, vec![32767; 16], vec![7; 16]);
        let agrees = |found: &Outcome| {
            let mut c = Comparison::of(Subject::Model, "a block that is clipped");
            catch_unwind(AssertUnwindSafe(|| c.compare(&call, found))).is_ok()
        };
        assert!(agrees(&call.by_model()));
        let changes: [fn(&mut Outcome); 5] = [
            |o| o.answer.number = 8,
            |o| o.answer.place = 3,
            |o| o.answer.rails = 0,
            |o| o.output[2] += 1,
            |o| o.output.truncate(2),
        ];
        for change in changes {
            let mut other = call.by_model();
            change(&mut other);
            assert!(!agrees(&other));
        }
    }
}

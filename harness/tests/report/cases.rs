//! The library against the model: any totals, any shape, any residuals.

use crate::calls::{subject, AddCall, ClearCall, Outcome};
use hoengtila_harness::compare::Comparison;
use hoengtila_harness::header::{each_set, numbers};
use hoengtila_harness::library::Shape;
use hoengtila_harness::model::report::{Totals, GIVEN, LIMIT, NUMBERS};
use hoengtila_harness::random::Random;
use hoengtila_harness::subject::Answered;
use hoengtila_harness::widths::shape_of;

/// Mostly a shape that is taken; sometimes one with a number that is refused.
fn any_shape(random: &mut Random) -> Shape {
    let size = |random: &mut Random| match random.below(40) {
        0 => random.choose(&[0, 5, 64, u32::MAX]),
        _ => random.choose(&[4, 8, 16, 32, 4, 8]),
    };
    let kind = |random: &mut Random| match random.below(40) {
        0 => random.choose(&[3, u32::MAX]),
        _ => random.choose(&[0, 1, 2]),
    };
    let depth = random.choose(&[8, 9, 10, 11, 12, 12]);
    let depth = if random.once_in(40) {
        random.choose(&[0, 7, 13, u32::MAX])
    } else {
        depth
    };
    let [width, height] = [size(random), size(random)];
    let [horizontal, vertical] = [kind(random), kind(random)];
    let kept = |random: &mut Random, most: u32| match random.below(60) {
        0 => random.choose(&[0, most.wrapping_add(1), u32::MAX]),
        1..=19 => random.between(1, i64::from(most.max(1))) as u32,
        _ => most,
    };
    let most = shape_of([width, height, horizontal, vertical, depth]);
    let columns = kept(random, most.columns);
    most.keeping(columns, kept(random, most.rows))
}

/// Residuals of such a shape, mostly as many as it takes and of a size that is taken.
fn any_residuals(random: &mut Random, shape: &Shape) -> Vec<i16> {
    let length = if random.once_in(40) {
        random.below(1100)
    } else {
        shape.width.min(64) as usize * shape.height.min(64) as usize
    };
    let high = (1 << shape.depth.clamp(8, 12)) - 1;
    let high = random.choose(&[1, 30, high, high]);
    let wide = random.once_in(40);
    let number = |random: &mut Random| match wide && random.once_in(30) {
        true => random.between(-32768, 32767) as i16,
        false if random.once_in(3) => random.choose(&[-high, high]) as i16,
        false => random.between(-high, high) as i16,
    };
    (0..length).map(|_| number(random)).collect()
}

/// Totals that no run gives.
fn any_totals(random: &mut Random) -> Totals {
    let mut totals = [0; NUMBERS];
    for total in &mut totals {
        let bits = random.bits();
        *total = random.choose(&[0, 1, u64::MAX, u64::MAX - 1, bits]);
    }
    totals[GIVEN] = random.choose(&[0, LIMIT - 1, LIMIT, LIMIT + 1, u64::MAX]);
    totals
}

/// A block added to these totals, which are cleared too.
fn added(c: &mut Comparison, totals: Totals) -> Outcome {
    let shape = any_shape(&mut c.random);
    let residuals = any_residuals(&mut c.random, &shape);
    c.outcome(&ClearCall { totals });
    c.outcome(&AddCall {
        totals,
        shape,
        residuals,
    })
}

#[test]
fn every_call_is_the_models() {
    let mut c = Comparison::of(subject(), "report: blocks, taken and refused");
    let mut totals = [0; NUMBERS];
    let (mut taken, mut refused) = (0, 0);
    for _ in 0..4000 {
        if c.random.once_in(10) {
            let any = any_totals(&mut c.random);
            added(&mut c, any);
        }
        let outcome = added(&mut c, totals);
        taken += u64::from(outcome.number() == 0);
        refused += u64::from(outcome.number() != 0);
        totals = outcome.totals;
    }
    c.close(&numbers(&["report_add"]));
    assert!(taken > 1000 && refused > 100);
    println!("report: {taken} blocks taken and {refused} refused, each with all totals as the model has them");
}

/// Every set of refusals, of a block of 8 by 4.
#[test]
fn orders() {
    let title = "report: every set of refusals, in the header's order";
    let mut c = Comparison::of(subject(), title);
    each_set("report_add", |set| {
        let mut totals = [0; NUMBERS];
        totals[GIVEN] = set.pick(22, LIMIT, 0);
        let shape = Shape {
            width: set.pick(1, 5, 8),
            height: set.pick(2, 5, 4),
            horizontal: set.pick(3, 3, 1),
            vertical: set.pick(4, 3, 2),
            depth: set.pick(5, 13, 10),
            columns: 8,
            rows: set.pick(20, 5, 4),
        };
        let mut residuals = vec![0; set.pick(6, 31, 32)];
        residuals[5] = set.pick(9, 1024, 1023);
        let call = AddCall {
            totals,
            shape,
            residuals,
        };
        c.outcome(&call).number()
    });
    c.close(&numbers(&["report_add"]));
}

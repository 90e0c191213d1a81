//! Lists of steps: the three that are stored, any list that runs, and every refusal.

use crate::calls::{held, shorts};
use hoengtila_harness::compare::Comparison;
use hoengtila_harness::header::numbers;
use hoengtila_harness::model;
use hoengtila_harness::model::steps::StepList;
use hoengtila_harness::patterns::SIXTEEN_BITS;
use hoengtila_harness::random::Random;
use hoengtila_harness::step_call::{ForwardCall, ListCall, RunCall};
use hoengtila_harness::steps::{make, LISTED};

/// Inputs that are hard for n points: both ends, each row's largest sums, single inputs, and random ones.
fn inputs(random: &mut Random, n: usize) -> Vec<Vec<i16>> {
    let mut all = vec![vec![-32768; n], vec![32767; n], vec![0; n]];
    for i in 0..n {
        let [low, high] = SIXTEEN_BITS;
        for ends in [[low, high], [high, low]] {
            let weight = |j: usize| model::weights::weight(1, n, i, j);
            let number = |j: usize| ends[usize::from(weight(j) > 0)] as i16;
            all.push((0..n).map(number).collect());
        }
        let mut single = vec![0; n];
        single[i] = random.choose(&[-32768, 32767, 1, -1]);
        all.push(single);
    }
    all.extend((0..200).map(|_| shorts(random, n)));
    all
}

fn run_of(list: &StepList, x: Vec<i16>, held: Vec<i32>) -> RunCall {
    RunCall {
        inputs: list.inputs as u32,
        cells: list.cells as u32,
        steps: list.numbers(),
        outs: list.out_numbers(),
        x,
        held,
    }
}

/// A run of each stored list, and the line by its list: both are the model's forward line, and take no more multiplying
/// steps than document 02 allows.
#[test]
fn stored_lists_run() {
    let mut c = Comparison::open("lists of steps, runs of the three that are stored");
    for (n, most) in LISTED.into_iter().zip([8, 127, 620]) {
        let list = make(n);
        assert!(list.multiplying() <= most && list.steps.len() <= 2048 && list.cells <= 2048);
        for x in inputs(&mut c.random, n) {
            let before = held(&mut c.random, n);
            let run = c.outcome(&run_of(&list, x.clone(), before.clone()));
            let line = c.outcome(&ForwardCall {
                n: n as u32,
                x,
                held: before,
            });
            assert_eq!(run, line);
            assert_eq!(run.told.count, list.multiplying() as u32);
        }
    }
    c.close(&[0]);
}

/// The lists as they are handed out, into buffers of every near length; and lines of lengths that they refuse.
#[test]
fn stored_lists_handed_out() {
    let mut c = Comparison::open("lists of steps, handed out and refused");
    let points = (0..=40).chain([64, 1 << 16, u32::MAX]);
    for n in points {
        let points = n as usize;
        let (steps, outs) = match LISTED.contains(&points) {
            true => (make(points).numbers().len(), points),
            false => (72, 4),
        };
        let near = [(0, 0), (1, 0), (0, 1), (1, 1), (2, 1), (1, 2)];
        for (steps, outs) in near.map(|(a, b)| (steps + a - 1, outs + b - 1)) {
            let (steps, outs) = (held(&mut c.random, steps), held(&mut c.random, outs));
            c.outcome(&ListCall { n, steps, outs });
        }
        for (input, output) in [(0, 0), (1, 1), (2, 1), (1, 2), (0, 1)] {
            let long = |more: usize| (n.min(100) as usize + more).saturating_sub(1);
            let x = shorts(&mut c.random, long(input));
            let held = held(&mut c.random, long(output));
            c.outcome(&ForwardCall { n, x, held });
        }
    }
    c.close(&numbers(&["steps_list", "steps_forward"]));
}

/// A list whose every step reads cells that were written, so that it is refused for 29 alone; it has yet to be filled.
fn any_list(random: &mut Random) -> RunCall {
    let cells = random.choose(&[1, 2, 3, 7, 40, 2047, 2048]);
    let inputs = random.below((cells as usize).min(33) + 1);
    let mut written: Vec<i32> = (0..inputs as i32).collect();
    let mut steps = vec![];
    for _ in 0..random.below(60) {
        if written.is_empty() {
            break;
        }
        let step = any_step(random, cells, &written);
        steps.extend(step);
        if !written.contains(&step[1]) {
            written.push(step[1]);
        }
    }
    let outs = match written.len() {
        0 => vec![],
        _ => (0..random.below(20))
            .map(|_| random.choose(&written))
            .collect(),
    };
    // a part of a step at the end is no step
    let part = random.below(4);
    steps.extend(held(random, part));
    RunCall {
        inputs: inputs as u32,
        cells,
        steps,
        outs,
        x: vec![],
        held: vec![],
    }
}

/// A step that writes any cell, and reads some that were written.
fn any_step(random: &mut Random, cells: u32, written: &[i32]) -> [i32; 4] {
    let to = random.below(cells as usize) as i32;
    let operation = random.choose(&[0, 0, 1, 1, 2, 3, 3, -1, 4, i32::MIN, i32::MAX]);
    let a = random.choose(written);
    let last = match operation {
        0 | 1 => random.choose(written),
        2 => random.between(i32::MIN.into(), i32::MAX.into()) as i32,
        _ => constant(random),
    };
    [operation, to, a, last]
}

fn constant(random: &mut Random) -> i32 {
    match random.below(4) {
        0 => random.choose(&[0, 1, -1, i32::MIN, i32::MAX]),
        1 => random.between(-100_000, 100_000) as i32,
        _ => random.between(-90, 90) as i32,
    }
}

/// Inputs, and an output of the list's length.
fn fill(random: &mut Random, list: &mut RunCall, inputs: u32) {
    list.x = shorts(random, inputs as usize);
    list.held = held(random, list.outs.len());
}

#[test]
fn any_lists() {
    let mut c = Comparison::open("lists of steps, any that reads what it wrote");
    for _ in 0..6000 {
        let mut call = any_list(&mut c.random);
        let inputs = call.inputs;
        fill(&mut c.random, &mut call, inputs);
        c.outcome(&call);
    }
    c.close(&[0, 29]);
}

/// Some numbers changed: cells that are none or not written, operations that are none.
fn spoil(random: &mut Random, list: &mut RunCall) {
    let cells = list.cells as i32;
    for _ in 0..random.below(4) {
        let bad = random.choose(&[-1, cells, cells - 1, 0, i32::MIN, i32::MAX, 2048, 5]);
        match random.below(3) {
            0 if !list.outs.is_empty() => {
                let k = random.below(list.outs.len());
                list.outs[k] = bad;
            }
            _ if !list.steps.is_empty() => {
                let k = random.below(list.steps.len());
                list.steps[k] = bad;
            }
            _ => {}
        }
    }
}

#[test]
fn spoiled_lists() {
    let mut c = Comparison::open("lists of steps, spoiled");
    for _ in 0..12000 {
        let random = &mut c.random;
        let mut list = any_list(random);
        if !random.once_in(3) {
            // few cells, so that most numbers change something
            list.cells = list.cells.min(64);
        }
        spoil(random, &mut list);
        if random.once_in(20) {
            let cells = list.cells;
            list.inputs = random.choose(&[0, 1, cells, cells + 1, u32::MAX]);
        }
        let inputs = if list.inputs > 100 { 3 } else { list.inputs };
        fill(random, &mut list, inputs);
        if random.once_in(15) {
            list.x.push(1);
        }
        if random.once_in(15) {
            list.held.push(1);
        }
        c.outcome(&list);
    }
    c.close(&[0, 6, 7, 17, 28, 29]);
}

/// 18 before everything else: one step or cell too many, a part of a step, and every other reason beside it.
#[test]
fn too_long() {
    let mut c = Comparison::open("lists of steps, at 2,048 steps and cells");
    for numbers in [8188, 8191, 8192, 8193, 8195, 8196, 8199, 8200] {
        for cells in [4, 2047, 2048, 2049, 4096, u32::MAX] {
            for (inputs, x, outs, y) in [(4, 4, 4, 4), (4, 3, 4, 4), (4, 4, 4, 5), (5, 5, 4, 4)] {
                let random = &mut c.random;
                let mut steps = vec![];
                while steps.len() < numbers {
                    steps.extend([random.choose(&[0, 1, 2, 3]), 3, 1, 2]);
                }
                steps.truncate(numbers);
                let (x, held) = (shorts(random, x), held(random, y));
                let call = RunCall {
                    inputs,
                    cells,
                    steps,
                    outs: (0..outs).collect(),
                    x,
                    held,
                };
                c.outcome(&call);
            }
        }
    }
    c.close(&[0, 6, 7, 18, 28]);
}

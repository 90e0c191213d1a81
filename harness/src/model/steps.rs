//! Document 02, Wish 6: "The butterfly as a list of steps", and its runner.
//!
//! A list comes as numbers, four to a step: the operation (0 adds, 1 subtracts, 2 negates, any other multiplies), the cell
//! written, the cell read, the second cell read or the constant. Fewer than four numbers at the end are no step.

/// One step: the cell that is written, then the cells that are read, or the cell and the constant.
#[derive(Clone, Copy, Debug, PartialEq, Eq)]
pub enum Step {
    Add(usize, usize, usize),
    Sub(usize, usize, usize),
    Neg(usize, usize),
    Mul(usize, usize, i32),
}

#[derive(Clone, Debug, PartialEq, Eq)]
pub struct StepList {
    pub inputs: usize,
    pub cells: usize,
    pub steps: Vec<Step>,
    pub outs: Vec<usize>,
}

impl StepList {
    /// The numbers of the steps; a step that negates has 0 for its fourth.
    pub fn numbers(&self) -> Vec<i32> {
        let cell = |k: usize| i32::try_from(k).expect("a cell's number is small");
        let four = |step: &Step| match *step {
            Step::Add(to, a, b) => [0, cell(to), cell(a), cell(b)],
            Step::Sub(to, a, b) => [1, cell(to), cell(a), cell(b)],
            Step::Neg(to, a) => [2, cell(to), cell(a), 0],
            Step::Mul(to, a, constant) => [3, cell(to), cell(a), constant],
        };
        self.steps.iter().flat_map(four).collect()
    }

    pub fn out_numbers(&self) -> Vec<i32> {
        self.outs.iter().map(|k| *k as i32).collect()
    }

    /// "the number in the list"
    pub fn multiplying(&self) -> usize {
        let multiplies = |step: &&Step| matches!(step, Step::Mul(..));
        self.steps.iter().filter(multiplies).count()
    }
}

/// What a run hands back beside its output: a number, and how many multiplying steps it took.
#[derive(Clone, Copy, Debug, PartialEq, Eq)]
pub struct StepCount {
    pub number: i64,
    pub count: i64,
}

/// "more than 2,048 steps or cells"
const MOST: i64 = 2048;

/// Runs a list on x. "Refusals, output untouched and count 0".
pub fn run(
    inputs: i64,
    cells: i64,
    steps: &[i64],
    outs: &[i64],
    x: &[i64],
    y: &mut [i64],
) -> StepCount {
    match outputs(inputs, cells, steps, outs, x, y.len()) {
        Ok((values, count)) => {
            y.copy_from_slice(&values);
            StepCount { number: 0, count }
        }
        Err(number) => StepCount { number, count: 0 },
    }
}

type Refused = i64;

fn outputs(
    inputs: i64,
    cells: i64,
    steps: &[i64],
    outs: &[i64],
    x: &[i64],
    room: usize,
) -> Result<(Vec<i64>, i64), Refused> {
    if steps.len() as i64 / 4 > MOST || cells > MOST {
        return Err(18);
    }
    if x.len() as i64 != inputs {
        return Err(6);
    }
    if room != outs.len() {
        return Err(7);
    }
    // "more inputs than cells is 28, before any step"
    if inputs > cells {
        return Err(28);
    }
    // "The inputs stand in the first cells": the others are not yet written
    let mut held: Vec<Option<i64>> = x.iter().map(|z| Some(*z)).collect();
    held.resize(cells as usize, None);
    let mut count = 0;
    for step in steps.chunks_exact(4) {
        take(step, &mut held)?;
        count += i64::from(!(0..=2).contains(&step[0]));
    }
    // "After the last step, 28 and 17 likewise at the first output cell that meets one"
    let values: Result<Vec<i64>, Refused> =
        outs.iter().map(|o| read(&held, cell(&held, *o)?)).collect();
    Ok((values?, count))
}

/// "in this order: 28 for a cell outside the list's number; 17 for reading a cell not yet written; 29 for a result
/// outside 32 bits"
fn take(step: &[i64], held: &mut [Option<i64>]) -> Result<(), Refused> {
    let (operation, to, a) = (step[0], cell(held, step[1]), cell(held, step[2]));
    let second = (operation == 0 || operation == 1).then(|| cell(held, step[3]));
    let (to, a, second) = (to?, a?, second.transpose()?);
    let first = read(held, a)?;
    let result = match operation {
        0 => first + read(held, second.expect("an addition reads two cells"))?,
        1 => first - read(held, second.expect("a subtraction reads two cells"))?,
        2 => -first,
        _ => first * step[3],
    };
    if i32::try_from(result).is_err() {
        return Err(29);
    }
    held[to] = Some(result);
    Ok(())
}

fn cell(held: &[Option<i64>], number: i64) -> Result<usize, Refused> {
    let inside = usize::try_from(number).ok().filter(|k| *k < held.len());
    inside.ok_or(28)
}

fn read(held: &[Option<i64>], cell: usize) -> Result<i64, Refused> {
    held[cell].ok_or(17)
}

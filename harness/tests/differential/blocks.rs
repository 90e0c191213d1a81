//! Blocks that are taken: every shape with every layout of numbers, and middle values about the rails.

use crate::calls::{block_call, elements, shapes};
use hoengtila_harness::compare::Comparison;
use hoengtila_harness::direction::Direction::{self, Forward, Inverse};
use hoengtila_harness::model::fair_ends;
use hoengtila_harness::patterns::{
    block, block_about_the_rails, clear_outside, keeping_any, LAYOUTS,
};

/// How often every shape meets every layout: some ten million numbers in each direction.
const ROUNDS: usize = 10;

/// Every shape with every layout of numbers: all that can be kept in even rounds, any part of it in the others.
fn blocks(title: &'static str, direction: Direction) {
    let mut c = Comparison::open(title);
    for (round, most) in (0..ROUNDS).flat_map(|round| shapes().into_iter().map(move |s| (round, s)))
    {
        for layout in LAYOUTS {
            let shape = match round % 2 {
                0 => most,
                _ => keeping_any(&mut c.random, &most),
            };
            let ends = direction.ends(shape.depth);
            let mut input = block(&mut c.random, layout, &shape, ends);
            if direction == Inverse {
                clear_outside(&shape, &mut input);
            }
            let call = block_call(&mut c.random, direction, shape, &input, elements(&shape));
            c.add(call);
        }
    }
    c.close(&[0]);
}

#[test]
fn inverse_blocks() {
    blocks("inverse blocks", Inverse);
}

#[test]
fn forward_blocks() {
    blocks("forward blocks", Forward);
}

/// Middle values next to the rail, at it, and clipped to it.
#[test]
fn inverse_blocks_about_the_rails() {
    let mut c = Comparison::open("inverse blocks about the rails");
    let (mut rails, mut unrailed, mut fair) = (0, 0, 0);
    for (k, most) in shapes().iter().cycle().take(720 * 5).enumerate() {
        let shape = &match k % 3 {
            0 => keeping_any(&mut c.random, most),
            _ => *most,
        };
        let input = block_about_the_rails(&mut c.random, shape);
        let call = block_call(&mut c.random, Inverse, *shape, &input, elements(shape));
        let altered = c.outcome(&call).answer.rails;
        let ends = fair_ends(&(*shape).into(), &input);
        rails += altered;
        unrailed += usize::from(altered == 0);
        fair += usize::from(altered == 0 && ends > 0);
    }
    c.close(&[0]);
    // altered values, and blocks with none though a value stands at an end
    assert!(rails > 1000 && unrailed > 10 && fair > 10);
    eprintln!("{rails} values clipped; {unrailed} blocks with none, {fair} of them with a value at an end");
}

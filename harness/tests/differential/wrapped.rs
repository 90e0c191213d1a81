//! Lines whose sums wrap on the way: any order, any start, and every refusal.

use crate::calls::{wrapped_call, KINDS, SIZES};
use hoengtila_harness::call::{Call, What};
use hoengtila_harness::compare::Comparison;
use hoengtila_harness::direction::{Direction, DIRECTIONS};
use hoengtila_harness::header::numbers;
use hoengtila_harness::model::wrapped::{adder, products};
use hoengtila_harness::patterns::{line, PATTERNS, SIXTEEN_BITS};
use hoengtila_harness::random::Random;
use hoengtila_harness::wrong::{Wrong, NO_KIND, NO_SIZE};

/// Starts from which the largest sums leave 32 bits at either end, and others.
const STARTS: [u32; 8] = [
    0,
    1,
    u32::MAX,
    1 << 31,
    (1 << 31) - 1,
    (1 << 31) + 40_000_000,
    (1 << 31) - 40_000_000,
    0xC000_0000,
];

fn start(random: &mut Random) -> u32 {
    if random.once_in(2) {
        random.choose(&STARTS)
    } else {
        random.bits() as u32
    }
}

/// As they stand, backwards, or shuffled.
fn order(random: &mut Random, n: u32) -> Vec<u32> {
    let mut order: Vec<u32> = (0..n).collect();
    match random.below(4) {
        0 => {}
        1 => order.reverse(),
        _ => {
            for k in (1..order.len()).rev() {
                order.swap(k, random.below(k + 1));
            }
        }
    }
    order
}

/// How many of a call's additions wrap.
fn wraps(call: &Call) -> usize {
    let What::Wrapped {
        forward,
        kind,
        start,
        ..
    } = call.what
    else {
        return 0;
    };
    let order: Vec<usize> = call.order.iter().map(|k| *k as usize).collect();
    let x: Vec<i64> = call.input.iter().map(|z| (*z).into()).collect();
    let of = |k| adder(start, products(forward, kind.into(), k, &order, &x)).1;
    (0..x.len()).map(of).sum()
}

/// Numbers that are hard to add up, in any order and from any start: some of the sums wrap in each size, kind and direction.
#[test]
fn wrapped_lines() {
    let mut c = Comparison::open("lines whose sums wrap, in any order");
    let (mut calls, mut wrapped, mut additions) = (0, 0, 0);
    for (n, kind) in SIZES.into_iter().flat_map(|n| KINDS.map(|k| (n, k))) {
        for direction in DIRECTIONS {
            let before = wrapped;
            for pattern in PATTERNS.iter().cycle().take(400) {
                let random = &mut c.random;
                let x = line(random, *pattern, kind, n as usize, SIXTEEN_BITS);
                let (start, order) = (start(random), order(random, n));
                let numbers = [n, kind, start];
                let call = wrapped_call(random, direction, numbers, &order, &x, n as usize);
                let times = wraps(&call);
                calls += 1;
                wrapped += usize::from(times > 0);
                additions += times;
                c.add(call);
            }
            assert!(wrapped > before, "{n} points, kind {kind}, {direction:?}");
        }
    }
    eprintln!("wrapped: {additions} additions in {wrapped} of {calls} calls");
    c.close(&[0]);
}

/// Every set of the tests that such a line can meet: 21 after the others.
#[test]
fn refused_wrapped_lines() {
    let mut c = Comparison::open("lines whose sums wrap, refused for every set of reasons");
    for (bits, bad) in (0..16).flat_map(|bits| [false, true].map(|bad| (bits, bad))) {
        for _ in 0..80 {
            let wrong = Wrong::among(&[1, 3, 6, 7], bits);
            let call = refused(&mut c.random, &wrong, bad);
            c.add(call);
        }
    }
    c.close(&numbers(&["line_forward_wrapped"]));
}

fn refused(random: &mut Random, wrong: &Wrong, bad: bool) -> Call {
    let n = wrong.pick(random, 1, &SIZES.map(i64::from), &NO_SIZE);
    let kind = wrong.pick(random, 3, &[0, 1, 2], &NO_KIND);
    let right = if n <= 64 { n.max(1) } else { 4 };
    let input = wrong.length(random, 6, right);
    let output = wrong.length(random, 7, right);
    let x = random.numbers(input, -32768, 32767);
    let mut order = order(random, right as u32);
    if bad {
        spoil(random, &mut order);
    }
    let direction: Direction = random.choose(&DIRECTIONS);
    let numbers = [n as u32, kind as u32, start(random)];
    wrapped_call(random, direction, numbers, &order, &x, output)
}

/// An order that is none: a number twice, one outside, or another length.
fn spoil(random: &mut Random, order: &mut Vec<u32>) {
    let (n, k) = (order.len() as u32, random.below(order.len()));
    match random.below(6) {
        0 => order[k] = order[(k + 1) % order.len()],
        1 => order[k] = random.choose(&[n, n + 1, 1 << 16, u32::MAX]),
        2 => order.push(k as u32),
        3 => order.push(n),
        4 => order.retain(|i| *i != n - 1),
        _ => order.clear(),
    }
}

/// Each pair of places of an order that holds one number for another, and each number left out.
#[test]
fn orders_that_are_none() {
    let mut c = Comparison::open("lines whose sums wrap, with orders that are none");
    for (n, direction) in SIZES.into_iter().flat_map(|n| DIRECTIONS.map(|d| (n, d))) {
        let places = || (0..n as usize).flat_map(|a| (0..n as usize).map(move |b| (a, b)));
        for (a, b) in places() {
            let random = &mut c.random;
            let mut order = order(random, n);
            if a == b {
                order.remove(a);
            } else {
                order[a] = order[b];
            }
            let x = random.numbers(n as usize, -32768, 32767);
            let numbers = [n, random.choose(&KINDS), start(random)];
            let call = wrapped_call(random, direction, numbers, &order, &x, n as usize);
            c.add(call);
        }
    }
    c.close(&[21]);
}

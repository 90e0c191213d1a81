//! Lines that are taken: all four functions, on numbers that are hard to add up.

use crate::calls::{line_call, KINDS, SIZES};
use hoengtila_harness::call::{Path, PATHS};
use hoengtila_harness::compare::Comparison;
use hoengtila_harness::patterns::{line, PATTERNS, SIXTEEN_BITS};

#[test]
fn lines() {
    let mut c = Comparison::open("lines, fast and full");
    for _ in 0..300 {
        for (n, kind) in SIZES.into_iter().flat_map(|n| KINDS.map(|k| (n, k))) {
            for pattern in PATTERNS {
                let x = line(&mut c.random, pattern, kind, n as usize, SIXTEEN_BITS);
                for path in PATHS {
                    let call = line_call(&mut c.random, path, [n, kind], &x, n as usize);
                    c.add(call);
                }
            }
        }
    }
    c.close(&[0]);
}

/// One number among zeros, at each place.
#[test]
fn lines_of_one_number() {
    let mut c = Comparison::open("lines of one number, at each place");
    for (n, kind) in SIZES.into_iter().flat_map(|n| KINDS.map(|k| (n, k))) {
        for place in 0..n as usize {
            for number in [1, -1, 32767, -32768, 256, -255] {
                let mut x = vec![0; n as usize];
                x[place] = number;
                for path in PATHS {
                    let call = line_call(&mut c.random, path, [n, kind], &x, n as usize);
                    c.add(call);
                }
            }
        }
    }
    c.close(&[0]);
}

fn dot(a: &[i64], b: &[i32]) -> i64 {
    a.iter().zip(b).map(|(p, q)| p * i64::from(*q)).sum()
}

/// The sum of y * forward(x) is the sum of x * inverse(y), whatever x and y are, by either path.
#[test]
fn forward_and_inverse_are_transposes() {
    let mut c = Comparison::open("lines, forward beside inverse");
    let pairs = [
        (Path::Forward, Path::Inverse),
        (Path::ForwardProduct, Path::InverseProduct),
    ];
    for (n, kind) in SIZES.into_iter().flat_map(|n| KINDS.map(|k| (n, k))) {
        for pattern in PATTERNS.iter().cycle().take(100) {
            let mut numbers = || line(&mut c.random, *pattern, kind, n as usize, SIXTEEN_BITS);
            let (x, y) = (numbers(), numbers());
            for (there, back) in pairs {
                let there = line_call(&mut c.random, there, [n, kind], &x, n as usize);
                let back = line_call(&mut c.random, back, [n, kind], &y, n as usize);
                let there = dot(&y, &c.outcome(&there).output);
                assert_eq!(there, dot(&x, &c.outcome(&back).output), "{n} points");
            }
        }
    }
    c.close(&[0]);
}

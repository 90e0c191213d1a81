//! Weights: each one the model's, 0 outside, and near the real sine or cosine.

use crate::calls::{KINDS, SIZES};
use hoengtila_harness::call::Call;
use hoengtila_harness::compare::Comparison;

#[test]
fn weights() {
    let mut c = Comparison::open("weights, inside and outside");
    let any = [0, 1, 3, 4, 7, 8, 15, 16, 31, 32, 33, 64, 65_536, u32::MAX];
    for kind in [0, 1, 2, 3, 257, u32::MAX] {
        for n in any {
            for i in 0..n.min(40) + 2 {
                for j in 0..n.min(40) + 2 {
                    c.add(Call::weight(kind, n, i, j));
                }
                for far in any {
                    c.add(Call::weight(kind, n, i, far));
                    c.add(Call::weight(kind, n, far, i));
                }
            }
        }
    }
    c.close(&[0]);
}

/// The sine or cosine that a weight stands for, scaled as H.266 scales its tables.
fn real_weight(kind: u32, n: u32, i: u32, j: u32) -> f64 {
    let (n, i, j) = (f64::from(n), f64::from(i), f64::from(j));
    if kind == 0 {
        let basis = (std::f64::consts::PI * i * (2.0 * j + 1.0) / (2.0 * n)).cos();
        return 64.0 * if i == 0.0 { 1.0 } else { 2.0_f64.sqrt() } * basis;
    }
    let turn = std::f64::consts::PI * (2.0 * i + 1.0) / (2.0 * n + 1.0);
    let basis = match kind {
        1 => (turn * (j + 1.0)).sin(),
        _ => (turn * (2.0 * j + 1.0) / 2.0).cos(),
    };
    64.0 * n.sqrt() * (4.0 / (2.0 * n + 1.0)).sqrt() * basis
}

#[test]
fn weights_are_near_the_real_ones() {
    let mut c = Comparison::open("weights, beside the real sine or cosine");
    let mut farthest: f64 = 0.0;
    for kind in KINDS {
        for n in SIZES {
            for (i, j) in (0..n).flat_map(|i| (0..n).map(move |j| (i, j))) {
                let weight = c.outcome(&Call::weight(kind, n, i, j)).output[0];
                let distance = (f64::from(weight) - real_weight(kind, n, i, j)).abs();
                assert!(distance < 1.5, "kind {kind}, {n} points, ({i}, {j})");
                farthest = farthest.max(distance);
            }
        }
    }
    c.close(&[0]);
    eprintln!("no weight is farther than {farthest:.3} from the real one");
}

//! How far a round trip can stray: every D the model's, 0 outside; and the bound on round trips of the model's own lines.

use crate::calls::{KINDS, SIZES};
use hoengtila_harness::call::Call;
use hoengtila_harness::compare::Comparison;
use hoengtila_harness::model::line::round_trip;

#[test]
fn strays() {
    let mut c = Comparison::open("strays, inside and outside");
    let any = [0, 1, 3, 4, 7, 8, 15, 16, 31, 32, 33, 64, 65_536, u32::MAX];
    for kind in [0, 1, 2, 3, 257, u32::MAX] {
        for n in any {
            for j in (0..n.min(40) + 2).chain(any) {
                c.add(Call::stray(kind, n, j));
            }
        }
    }
    c.close(&[0]);
}

/// "Result j differs from 4096*N*x[j] by at most M*D(j)", on lines of numbers of every size up to 2^30.
#[test]
fn round_trips_stay_within() {
    let mut c = Comparison::open("round trips, beside their bound");
    for kind in KINDS {
        for n in SIZES {
            let d: Vec<i64> = (0..n)
                .map(|j| c.outcome(&Call::stray(kind, n, j)).output[0].into())
                .collect();
            for turn in 0..200 {
                let most = 1i64 << (turn % 31);
                let x: Vec<i64> = (0..n).map(|_| c.random.between(-most, most)).collect();
                let back = round_trip(kind.into(), &x);
                for (j, ((back, x), d)) in back.iter().zip(&x).zip(&d).enumerate() {
                    let off = (back - 4096 * i64::from(n) * x).abs();
                    assert!(off <= most * d, "kind {kind}, {n} points, place {j}");
                }
            }
        }
    }
    c.close(&[0]);
}

//! The function that fills a shape's kept numbers, on shapes that are taken and on any numbers.

use crate::calls::{KINDS, SIZES};
use hoengtila_harness::call::{Call, Outcome, What};
use hoengtila_harness::compare::Comparison;
use hoengtila_harness::wrong::{NO_DEPTH, NO_KIND, NO_SIZE};

fn fill(c: &mut Comparison, numbers: [u32; 5]) -> Outcome {
    c.outcome(&Call::of(What::ShapeOf(numbers)))
}

#[test]
fn filled_shapes() {
    let mut comparison = Comparison::open("shapes, filled");
    let c = &mut comparison;
    let filled = |numbers: &Outcome| numbers.output[5..].to_vec();
    assert_eq!(filled(&fill(c, [32, 32, 1, 0, 10])), [16, 32]);
    assert_eq!(filled(&fill(c, [8, 16, 0, 2, 10])), [8, 16]);
    assert_eq!(filled(&fill(c, [0, 0, 0, 0, 0])), [0, 0]);

    let with = |right: &[i64], wrong: &[i64]| [right, wrong].concat();
    let sizes = with(&SIZES.map(i64::from), &NO_SIZE);
    let kinds = with(&KINDS.map(i64::from), &NO_KIND);
    let depths = with(&[8, 9, 10, 11, 12], &NO_DEPTH);
    for (width, height) in sizes.iter().flat_map(|w| sizes.iter().map(move |h| (w, h))) {
        for (x, y) in kinds.iter().flat_map(|x| kinds.iter().map(move |y| (x, y))) {
            let depth = c.random.choose(&depths);
            let numbers = [*width, *height, *x, *y, depth].map(|n| n as u32);
            c.add(Call::of(What::ShapeOf(numbers)));
        }
    }
    comparison.close(&[0]);
}

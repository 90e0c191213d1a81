//! "Numbers on both sides": the ten items and the whole case, one test for each item.

use super::block::middle;
use super::weights::{dct_viii, DCT_II, DCT_VIII, DST_VII};
use super::*;

/// The shape of most items: 4x4, kind 1 twice.
fn small_shape(depth: i64) -> Shape {
    Shape::new(4, 4, DST_VII, DST_VII, depth)
}

fn forward_line_of_ones(kind: i64) -> [i64; 4] {
    let mut y = [0; 4];
    assert_eq!(forward_line(4, kind, &[1; 4], &mut y), Answer::accepted(0));
    y
}

/// The rail count of an accepted 4x4 inverse at d=10, kind 1 twice.
fn rails(coefficients: &[i64; 16]) -> i64 {
    let answer = inverse(&small_shape(10), coefficients, &mut [0; 16]);
    assert_eq!((answer.number, answer.place), (0, 0));
    answer.rails
}

#[test]
fn item_1() {
    assert_eq!(forward_line_of_ones(DST_VII), [242, 74, 36, 16]);
}

#[test]
fn item_2() {
    assert_eq!(forward_line_of_ones(DCT_VIII), [242, -74, 36, -16]);
}

#[test]
fn item_3() {
    let wanted = [
        [84, 74, 55, 29],
        [74, 0, -74, -74],
        [55, -74, -29, 84],
        [29, -74, 84, -55],
    ];
    for (i, row) in wanted.iter().enumerate() {
        for (j, weight) in row.iter().enumerate() {
            assert_eq!(dct_viii(4, i, j), *weight, "row {i}, column {j}");
        }
    }
}

#[test]
fn item_4() {
    for (residual, first) in [(255, 29168), (-255, -29168)] {
        let mut coefficients = [0; 16];
        let answer = forward(&small_shape(8), &[residual; 16], &mut coefficients);
        assert_eq!(answer, Answer::accepted(0));
        assert_eq!(coefficients[0], first);
    }
}

#[test]
fn item_5() {
    let mut coefficients = [3; 16];
    let answer = forward(&small_shape(8), &[256; 16], &mut coefficients);
    assert_eq!(answer, Answer::refused(9, 0));
    assert_eq!(coefficients, [3; 16]);
}

#[test]
fn item_6() {
    assert_eq!([63, 64, -64, -65].map(middle), [0, 1, 0, -1]);
}

#[test]
fn item_7() {
    for (third, count) in [(21063, 0), (21064, 0), (21066, 1)] {
        let mut coefficients = [0; 16];
        coefficients[4] = 32767;
        coefficients[8] = third;
        assert_eq!(rails(&coefficients), count, "with {third}");
    }
}

#[test]
fn item_8() {
    let mut file = vec![1, 0, 5, 4, 4, 1, 1, 0x0A, 2, 0, 0x20, 0, 0x40];
    file.extend([0; 30]);
    assert_eq!(run_file(&file), "I 4 4 0 0 1 1 1 1 2 2 2 1 2 3 3 1 2 3 3\n");
    assert_eq!(rails(&[32767; 16]), 4);
}

#[test]
fn item_9() {
    let shape = Shape::new(32, 4, DST_VII, DST_VII, 8);
    let alone = |place: usize| {
        let mut coefficients = [0; 128];
        coefficients[place] = 1;
        inverse(&shape, &coefficients, &mut [0; 128])
    };
    assert_eq!(alone(15).number, 0);
    assert_eq!(alone(16), Answer::refused(8, 16));
}

#[test]
fn item_10() {
    let shape = Shape::new(5, 4, 0, 1, 7);
    assert_eq!(
        inverse(&shape, &[0; 20], &mut [0; 20]),
        Answer::refused(1, 0)
    );
    assert_eq!(
        forward(&shape, &[0; 20], &mut [0; 20]),
        Answer::refused(1, 0)
    );
}

#[test]
fn items_of_kind_0() {
    assert_eq!(forward_line_of_ones(DCT_II), [256, 0, 0, 0]);

    let mut coefficients = [0; 16];
    coefficients[0] = 64;
    let mut residuals = [0; 16];
    let shape = Shape::new(4, 4, DCT_II, DCT_II, 10);
    let answer = inverse(&shape, &coefficients, &mut residuals);
    assert_eq!(answer, Answer::accepted(0));
    assert_eq!(residuals, [2; 16]);
}

/// All 32 columns or rows are kept in a direction of kind 0, and 16 in one of another kind.
#[test]
fn kept_of_each_direction() {
    let alone = |horizontal, vertical, place: usize| {
        let mut coefficients = [0; 1024];
        coefficients[place] = 1;
        let shape = Shape::new(32, 32, horizontal, vertical, 10);
        inverse(&shape, &coefficients, &mut [0; 1024])
    };
    assert_eq!(alone(DCT_II, DCT_II, 1023).number, 0);
    assert_eq!(alone(DCT_II, DST_VII, 511).number, 0);
    assert_eq!(alone(DCT_II, DST_VII, 512), Answer::refused(8, 512));
    assert_eq!(alone(DCT_VIII, DCT_II, 1007).number, 0);
    assert_eq!(alone(DCT_VIII, DCT_II, 1008), Answer::refused(8, 1008));
}

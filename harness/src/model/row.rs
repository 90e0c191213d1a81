//! Document 02, Wish 5: "A row of blocks in one call."

use super::block::inverse;
use super::call::{is_size, Answer, Shape};

/// "up to 64 blocks"
const MOST: usize = 64;

/// The inverse of each block, "made one by one in order": an answer for each, or the number of the whole call's refusal,
/// "with no answer per block and the output untouched".
pub fn block_row(
    shapes: &[Shape],
    answers: &mut [Answer],
    coefficients: &[i64],
    residuals: &mut [i64],
) -> i64 {
    let sum: usize = shapes.iter().map(span).sum();
    if shapes.len() > MOST {
        return 16;
    }
    if coefficients.len() != sum {
        return 6;
    }
    if residuals.len() != sum {
        return 7;
    }
    let (mut input, mut output) = (coefficients, residuals);
    for (shape, answer) in shapes.iter().zip(answers) {
        let (own, rest) = input.split_at(span(shape));
        let (own_output, rest_of_output) = output.split_at_mut(span(shape));
        *answer = inverse(shape, own, own_output);
        (input, output) = (rest, rest_of_output);
    }
    0
}

/// "A shape that fails 1 or 2 adds nothing to that sum"; one that another number refuses adds its w*h.
pub fn span(shape: &Shape) -> usize {
    if is_size(shape.width) && is_size(shape.height) {
        shape.elements() as usize
    } else {
        0
    }
}

#[cfg(test)]
mod tests {
    use super::*;

    /// A good block, two that 3 and 20 refuse and keep their stretch, one that 1 refuses and has none, and a good one: as
    /// the calls one by one.
    #[test]
    fn refused_blocks_keep_their_stretch() {
        let good = Shape::new(4, 4, 1, 2, 10);
        let shapes = [
            good,
            Shape::new(8, 4, 5, 1, 10),
            Shape::new(4, 8, 1, 1, 10).keeping(4, 9),
            Shape::new(5, 4, 1, 1, 10),
            good,
        ];
        let mut input = vec![0; 96];
        (input[0], input[80]) = (64, 64);
        let mut output = vec![7; 96];
        let mut answers = [Answer::refused(99, 99); 6];
        assert_eq!(block_row(&shapes, &mut answers, &input, &mut output), 0);
        let mut alone = vec![0; 16];
        let answer = inverse(&good, &input[..16], &mut alone);
        assert_eq!(answer.number, 0);
        assert_eq!(output, [&alone[..], &[7; 64][..], &alone[..]].concat());
        let refused = |number| Answer::refused(number, 0);
        let wanted = [
            answer,
            refused(3),
            refused(20),
            refused(1),
            answer,
            Answer::refused(99, 99),
        ];
        assert_eq!(answers, wanted);
    }

    #[test]
    fn the_whole_call_is_refused_in_order() {
        let mut answers = [Answer::refused(99, 99); 65];
        let mut output = vec![7; 17];
        let shapes = vec![Shape::new(4, 4, 1, 1, 8); 65];
        for (count, input, number) in [(65, 3, 16), (1, 3, 6), (1, 16, 7), (0, 0, 7)] {
            let found = block_row(&shapes[..count], &mut answers, &vec![0; input], &mut output);
            assert_eq!(found, number);
        }
        assert_eq!(answers, [Answer::refused(99, 99); 65]);
        assert_eq!(output, [7; 17]);
    }
}

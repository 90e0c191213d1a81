//! Transform blocks as a decoder has them, in place, as examples/c/transform.c has them: of 64 by 64 with one coefficient; of 4 by 2,
//! with other numbers in the places that are not read; of 1 by 16, with a coefficient that is refused; and of 8 by 8 with LFNST, of
//! index 1 and set 2.

use hoengtila::{transform_block_inverse, TransformBlock};

fn print_inverse(block: TransformBlock, numbers: &mut [i32], shown: usize) {
    let answer = transform_block_inverse(block, numbers);
    let (number, place, elements) = (answer.number, answer.place, numbers.len());
    let residuals: String = numbers[..shown].iter().map(|r| format!(" {r}")).collect();
    println!("number {number}, place {place}, the first {shown} of {elements}:{residuals}");
}

fn main() {
    let mut large = vec![0; 64 * 64];
    large[0] = 1000;
    print_inverse(
        TransformBlock::new(64, 64, 0, 0, 10).reading(1, 1),
        &mut large,
        8,
    );

    let mut small = [300, -120, 77777, 77777, 45, 60, 77777, 77777];
    print_inverse(
        TransformBlock::new(4, 2, 1, 0, 10).reading(2, 2),
        &mut small,
        8,
    );

    let mut line = [500, 0, 0, 40000, 0, 0, 0, 0, 0, 0, 0, 0, 0, 0, 0, 0];
    print_inverse(TransformBlock::new(1, 16, 0, 0, 10), &mut line, 4);

    let mut corner = [0; 8 * 8];
    corner[..3].copy_from_slice(&[700, -90, 77777]);
    corner[8] = 250;
    let block = TransformBlock {
        lfnst: 1,
        set: 2,
        ..TransformBlock::new(8, 8, 0, 0, 10).reading(2, 2)
    };
    print_inverse(block, &mut corner, 8);
}

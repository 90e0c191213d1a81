//! The inverse of a 4 by 4 block, as examples/c/inverse.c has it: prints the line that the block file program prints for it.

use hoengtila::{block_inverse, Shape};

fn main() {
    let shape = Shape::new(4, 4, 1, 1, 10);
    let mut coefficients = [0; 16];
    coefficients[0] = 64;
    let mut residuals = [0; 16];
    let answer = block_inverse(shape, &coefficients, &mut residuals);
    assert_eq!(answer.number, 0, "refused, place {}", answer.place);
    let numbers: String = residuals.iter().map(|r| format!(" {r}")).collect();
    println!(
        "I {} {} {}{numbers}",
        shape.width, shape.height, answer.rails
    );
}

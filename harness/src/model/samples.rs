//! What the model's own tests are made of: any shape, and coefficients that it takes.

use super::block::first_outside;
use super::call::Shape;
use crate::random::Random;

/// One that keeps the most, of a depth from 8 to `deepest`.
pub fn any_shape(random: &mut Random, deepest: i64) -> Shape {
    let sides = [4, 8, 16, 32];
    let [w, h] = [random.choose(&sides), random.choose(&sides)];
    let kinds = [random.between(0, 2), random.between(0, 2)];
    Shape::new(w, h, kinds[0], kinds[1], random.between(8, deepest))
}

/// Numbers from `low` to `high` in every place that is kept, and 0 in the others.
pub fn any_coefficients(random: &mut Random, shape: &Shape, [low, high]: [i64; 2]) -> Vec<i64> {
    inside(shape, random.numbers(shape.elements() as usize, low, high))
}

/// The numbers with 0 in every place that is not kept.
pub fn inside(shape: &Shape, mut numbers: Vec<i64>) -> Vec<i64> {
    while let Some(place) = first_outside(shape, &numbers) {
        numbers[place] = 0;
    }
    numbers
}

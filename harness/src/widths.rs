//! Between the library's numbers, of 16 and 32 bits, and the model's, of 64.

use crate::library::{Answer, Parts, Shape, StepCount, Thin, TransformBlock};
use crate::model;
use std::any::type_name;

pub fn wide<T: Copy + Into<i64>>(numbers: &[T]) -> Vec<i64> {
    numbers.iter().map(|z| (*z).into()).collect()
}

/// Fewer bits have to hold each number: document 01 says that they do, and the model, on 64, would show it.
pub fn narrow<T: TryFrom<i64>>(numbers: &[i64]) -> Vec<T> {
    numbers.iter().map(|z| number(*z)).collect()
}

pub fn number<T: TryFrom<i64>>(z: i64) -> T {
    T::try_from(z).unwrap_or_else(|_| panic!("{z} leaves {}", type_name::<T>()))
}

/// In the header's order.
pub fn shape_numbers(shape: &Shape) -> [u32; 7] {
    [
        shape.width,
        shape.height,
        shape.horizontal,
        shape.vertical,
        shape.depth,
        shape.columns,
        shape.rows,
    ]
}

/// In the header's order.
pub fn block_numbers(block: &TransformBlock) -> [u32; 11] {
    [
        block.width,
        block.height,
        block.horizontal,
        block.vertical,
        block.depth,
        block.extended,
        block.columns,
        block.rows,
        block.lfnst,
        block.set,
        block.transposed,
    ]
}

/// A shape that keeps the most, by the model: tests that reach the library through a peer cannot call it here.
pub fn shape_of(numbers: [u32; 5]) -> Shape {
    let [width, height, horizontal, vertical, depth] = numbers.map(i64::from);
    model::Shape::new(width, height, horizontal, vertical, depth).into()
}

impl From<Shape> for model::Shape {
    fn from(shape: Shape) -> model::Shape {
        model::Shape::of(shape_numbers(&shape).map(i64::from))
    }
}

impl From<model::Shape> for Shape {
    fn from(shape: model::Shape) -> Shape {
        let [width, height, horizontal, vertical, depth, columns, rows] =
            shape.numbers().map(number);
        Shape {
            width,
            height,
            horizontal,
            vertical,
            depth,
            columns,
            rows,
        }
    }
}

impl From<Answer> for model::Answer {
    fn from(answer: Answer) -> model::Answer {
        model::Answer {
            number: answer.number.into(),
            place: answer.place.into(),
            rails: answer.rails.into(),
        }
    }
}

impl From<model::Answer> for Answer {
    fn from(answer: model::Answer) -> Answer {
        Answer {
            number: number(answer.number),
            place: number(answer.place),
            rails: number(answer.rails),
        }
    }
}

impl From<model::thin::Thin> for Thin {
    fn from(thin: model::thin::Thin) -> Thin {
        Thin {
            number: number(thin.answer.number),
            place: number(thin.answer.place),
            rails: number(thin.answer.rails),
            area: number(thin.area),
        }
    }
}

impl From<model::steps::StepCount> for StepCount {
    fn from(told: model::steps::StepCount) -> StepCount {
        StepCount {
            number: number(told.number),
            count: number(told.count),
        }
    }
}

impl From<model::why::Parts> for Parts {
    fn from(parts: model::why::Parts) -> Parts {
        let part = |z: i128| i64::try_from(z).expect("a part of the model leaves 64 bits");
        Parts {
            number: number(parts.number),
            place: number(parts.place),
            exact: part(parts.exact),
            middle_roundings: part(parts.middle_roundings),
            clippings: part(parts.clippings),
            last_rounding: part(parts.last_rounding),
        }
    }
}

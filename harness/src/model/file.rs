//! "The block file and its program": the reader, one field at a time, and the text that a file prints.

use super::block::{forward, inverse};
use super::call::{Answer, Shape};

pub const TAG_SHAPE: u8 = 1;
pub const TAG_COEFFICIENTS: u8 = 2;
pub const TAG_RESIDUALS: u8 = 3;
/// Wish 8: "a new tag 04, length 2"
pub const TAG_KEPT: u8 = 4;

/// 14 is for a file above this many bytes.
pub const LARGEST_FILE: usize = 65_536;

/// "a one-byte tag, a two-byte length of the body"
const HEADER: usize = 3;

/// The reader's place in the file and the shape it holds, if any.
#[derive(Clone, Copy, Debug, PartialEq, Eq)]
pub struct Cursor {
    pub at: usize,
    pub shape: Option<Shape>,
}

/// What the reader hands back: a number, itself at its next place, and the body.
#[derive(Clone, Copy, Debug, PartialEq, Eq)]
pub struct Advance<'a> {
    pub number: i64,
    pub next: Cursor,
    pub body: &'a [u8],
}

struct Field<'a> {
    tag: u8,
    body: &'a [u8],
}

impl Cursor {
    pub fn new() -> Cursor {
        Cursor { at: 0, shape: None }
    }

    /// "The reader moves a place through the file one field at a time". Order: 14, then the field's own.
    pub fn advance(self, file: &[u8]) -> Advance<'_> {
        if file.len() > LARGEST_FILE {
            return self.stay(file, 14);
        }
        // "A place past the end counts as the end", and its number is 0
        if self.at >= file.len() {
            return self.stay(file, 0);
        }
        match self.field(file) {
            Ok((field, shape)) => Advance {
                number: 0,
                next: Cursor {
                    at: self.at + HEADER + field.body.len(),
                    shape,
                },
                body: field.body,
            },
            Err(number) => self.stay(file, number),
        }
    }

    /// "its place and shape stay and it hands back the empty start of the file"
    fn stay(self, file: &[u8], number: i64) -> Advance<'_> {
        Advance {
            number,
            next: self,
            body: &file[..0],
        }
    }

    /// "a held shape that 1 to 5 would refuse counts as none", and 20 "counts with 1 to 5"
    fn held(self) -> Option<Shape> {
        self.shape.filter(|shape| shape.refusal().is_none())
    }

    /// The field at the place and the shape that holds after it, or the number of its refusal.
    fn field(self, file: &[u8]) -> Result<(Field<'_>, Option<Shape>), i64> {
        let field = self.read(&file[self.at..])?;
        let shape = match (field.tag, self.shape) {
            (TAG_SHAPE, _) => shape_in(field.body),
            (TAG_KEPT, Some(held)) => held.keeping(field.body[0].into(), field.body[1].into()),
            (_, held) => return Ok((field, held)),
        };
        match shape.refusal() {
            Some(refusal) => Err(refusal.number),
            None => Ok((field, Some(shape))),
        }
    }

    /// "header present (10), tag (11), 12, 13, data length not 2*w*h (6), body present (10)"
    fn read(self, rest: &[u8]) -> Result<Field<'_>, i64> {
        let [tag, high, low, after @ ..] = rest else {
            return Err(10);
        };
        let length = usize::from(*high) * 256 + usize::from(*low);
        match *tag {
            TAG_SHAPE if length != 5 => return Err(12),
            TAG_SHAPE => (),
            TAG_KEPT if length != 2 => return Err(12),
            TAG_KEPT => drop(self.held().ok_or(13)?),
            TAG_COEFFICIENTS | TAG_RESIDUALS => {
                let shape = self.held().ok_or(13)?;
                if length as i64 != 2 * shape.elements() {
                    return Err(6);
                }
            }
            _ => return Err(11),
        }
        let body = after.get(..length).ok_or(10)?;
        Ok(Field { tag: *tag, body })
    }
}

/// The fields of a file in order, each with the cursor before it: up to the end, or to the first that is refused, with that one.
pub fn fields(file: &[u8]) -> impl Iterator<Item = (Cursor, Advance<'_>)> {
    let mut next = Some(Cursor::new());
    std::iter::from_fn(move || {
        let cursor = next?;
        let advance = cursor.advance(file);
        next = (advance.number == 0).then_some(advance.next);
        let is_end = advance.number == 0 && advance.body.is_empty();
        (!is_end).then_some((cursor, advance))
    })
}

/// A block that is named by its count among the data fields, the first being 1.
#[derive(Clone, Debug, PartialEq, Eq)]
pub enum Picked {
    /// The reader stopped before it, with this number at this offset.
    Refused(i64, usize),
    /// The file has fewer.
    Missing,
    Block {
        tag: u8,
        at: usize,
        shape: Shape,
        numbers: Vec<i64>,
    },
}

/// "A support engineer names a block": field by field, up to the one that is meant.
pub fn picked(file: &[u8], n: usize) -> Picked {
    let mut met = 0;
    for (cursor, advance) in fields(file) {
        if advance.number != 0 {
            return Picked::Refused(advance.number, cursor.at);
        }
        let tag = file[cursor.at];
        if [TAG_COEFFICIENTS, TAG_RESIDUALS].contains(&tag) {
            met += 1;
            if met == n {
                return Picked::Block {
                    tag,
                    at: cursor.at,
                    shape: cursor.shape.expect("data follows a shape"),
                    numbers: numbers_of(advance.body),
                };
            }
        }
    }
    Picked::Missing
}

impl Default for Cursor {
    fn default() -> Cursor {
        Cursor::new()
    }
}

/// "width, height, horizontal kind, vertical kind, d", of a body of five bytes.
fn shape_in(body: &[u8]) -> Shape {
    let number = |k: usize| i64::from(body[k]);
    Shape::new(number(0), number(1), number(2), number(3), number(4))
}

/// "High byte first throughout; data numbers are two's complement."
pub fn numbers_of(body: &[u8]) -> Vec<i64> {
    let number = |pair: &[u8]| {
        let unsigned = i64::from(pair[0]) * 256 + i64::from(pair[1]);
        if unsigned < 32768 {
            unsigned
        } else {
            unsigned - 65536
        }
    };
    body.chunks_exact(2).map(number).collect()
}

/// What the program prints of a file.
pub fn run_file(file: &[u8]) -> String {
    let mut text = String::new();
    for (cursor, advance) in fields(file) {
        match printed(advance, file, cursor.at) {
            Ok(line) => text.push_str(&line),
            // "The first refusal ends the run; lines printed before it stand."
            Err(number) => return text + &format!("R {number} {}\n", cursor.at),
        }
    }
    text
}

/// What the field at a place prints, or the number of its refusal.
fn printed(advance: Advance<'_>, file: &[u8], at: usize) -> Result<String, i64> {
    if advance.number != 0 {
        return Err(advance.number);
    }
    match (file[at], advance.next.shape) {
        (TAG_COEFFICIENTS, Some(shape)) => inverse_line_of(&shape, advance.body),
        (TAG_RESIDUALS, Some(shape)) => forward_line_of(&shape, advance.body),
        _ => Ok(String::new()),
    }
}

/// "An inverse prints "I w h railcount" and the residuals".
fn inverse_line_of(shape: &Shape, body: &[u8]) -> Result<String, i64> {
    let (answer, residuals) = run(shape, body, inverse)?;
    let front = format!("I {} {} {}", shape.width, shape.height, answer.rails);
    Ok(line_of(front, &residuals))
}

/// "a forward prints "F w h" and the coefficients".
fn forward_line_of(shape: &Shape, body: &[u8]) -> Result<String, i64> {
    let (_, coefficients) = run(shape, body, forward)?;
    let front = format!("F {} {}", shape.width, shape.height);
    Ok(line_of(front, &coefficients))
}

/// "8 and 9 are met when the block is run, not by the reader."
fn run(
    shape: &Shape,
    body: &[u8],
    direction: impl Fn(&Shape, &[i64], &mut [i64]) -> Answer,
) -> Result<(Answer, Vec<i64>), i64> {
    let mut out = vec![0; shape.elements() as usize];
    let answer = direction(shape, &numbers_of(body), &mut out);
    match answer.number {
        0 => Ok((answer, out)),
        number => Err(number),
    }
}

/// "one space between, one line each"
fn line_of(front: String, numbers: &[i64]) -> String {
    let numbers: String = numbers.iter().map(|z| format!(" {z}")).collect();
    format!("{front}{numbers}\n")
}

#[cfg(test)]
mod tests {
    use super::*;

    const SHAPE: [u8; 8] = [1, 0, 5, 4, 4, 1, 1, 10];

    fn data(tag: u8, number: i16) -> Vec<u8> {
        let mut field = vec![tag, 0, 32];
        for _ in 0..16 {
            field.extend(number.to_be_bytes());
        }
        field
    }

    #[test]
    fn refusals_of_a_first_field() {
        let cases: [(&[u8], &str); 10] = [
            (&[], ""),
            (&[9], "R 10 0\n"),
            (&[9, 0, 0], "R 11 0\n"),
            (&[0, 0, 0], "R 11 0\n"),
            (&[1, 0, 6], "R 12 0\n"),
            (&[1, 0, 5, 5, 4, 1, 1], "R 10 0\n"),
            (&[1, 0, 5, 5, 4, 1, 1, 7], "R 1 0\n"),
            (&[1, 0, 5, 4, 4, 1, 1, 13], "R 5 0\n"),
            (&[2, 0, 1], "R 13 0\n"),
            (&[3, 0, 32], "R 13 0\n"),
        ];
        for (file, text) in cases {
            assert_eq!(run_file(file), text, "{file:?}");
        }
    }

    #[test]
    fn refusals_of_data() {
        let after_shape = |field: &[u8]| run_file(&[&SHAPE, field].concat());
        assert_eq!(after_shape(&[2, 0, 31]), "R 6 8\n");
        assert_eq!(after_shape(&[3, 0, 32, 0]), "R 10 8\n");
        assert_eq!(after_shape(&[3, 0]), "R 10 8\n");
        assert_eq!(after_shape(&data(3, 1024)), "R 9 8\n");
        let forward = data(3, -1);
        let text = after_shape(&[&forward[..], &data(3, i16::MIN)].concat());
        let lines: Vec<&str> = text.lines().collect();
        assert!(lines[0].starts_with("F 4 4 -"), "{text}");
        assert_eq!(lines[1..], ["R 9 43"]);
    }

    #[test]
    fn a_shape_holds_until_the_next_and_a_coefficient_outside_is_refused() {
        let mut wide = vec![2, 1, 0];
        wide.extend([0; 256]);
        wide[3 + 2 * 16 + 1] = 1;
        let file = [&SHAPE[..], &data(2, 0), &[1, 0, 5, 32, 4, 2, 1, 8], &wide].concat();
        let line = format!("I 4 4 0{}\n", " 0".repeat(16));
        assert_eq!(run_file(&file), line + "R 8 51\n");
    }

    #[test]
    fn refusals_of_kept_numbers() {
        let first: [(&[u8], &str); 5] = [
            (&[4], "R 10 0\n"),
            (&[4, 0, 3], "R 12 0\n"),
            (&[4, 1, 2, 1, 1], "R 12 0\n"),
            (&[4, 0, 2], "R 13 0\n"),
            (&[4, 0, 2, 1, 1], "R 13 0\n"),
        ];
        for (file, text) in first {
            assert_eq!(run_file(file), text, "{file:?}");
        }
        let after_shape: [(&[u8], &str); 6] = [
            (&[4, 0, 5, 0], "R 12 8\n"),
            (&[4, 0, 2, 0], "R 10 8\n"),
            (&[4, 0, 2, 0, 1], "R 20 8\n"),
            (&[4, 0, 2, 5, 1], "R 20 8\n"),
            (&[4, 0, 2, 4, 5], "R 20 8\n"),
            (&[4, 0, 2, 1, 1, 4, 0, 2, 4, 4], ""),
        ];
        for (field, text) in after_shape {
            assert_eq!(run_file(&[&SHAPE, field].concat()), text, "{field:?}");
        }
    }

    /// "holds until the next tag 01 or 04"
    #[test]
    fn kept_numbers_hold_until_the_next_field_that_gives_some() {
        let mut outside = data(2, 0);
        outside[3 + 2 * 5 + 1] = 64; // column 1, row 1
        let after = |fields: &[&[u8]]| run_file(&[&[&SHAPE[..]], fields].concat().concat());
        assert_eq!(after(&[&[4, 0, 2, 1, 4], &outside]), "R 8 13\n");
        assert_eq!(after(&[&[4, 0, 2, 4, 1], &outside]), "R 8 13\n");
        let text = after(&[&[4, 0, 2, 1, 1], &[4, 0, 2, 2, 2], &outside]);
        assert!(text.starts_with("I 4 4 0 "), "{text}");
        assert_eq!(after(&[&[4, 0, 2, 1, 1], &SHAPE, &outside]), text);
        assert_eq!(after(&[&outside]), text);
    }

    #[test]
    fn the_largest_file_is_read_and_a_larger_one_refused() {
        let mut file = vec![0; LARGEST_FILE + 1];
        assert_eq!(run_file(&file), "R 14 0\n");
        file.pop();
        assert_eq!(run_file(&file), "R 11 0\n");
        file[..8].copy_from_slice(&SHAPE);
        assert_eq!(run_file(&file), "R 11 8\n");
    }

    #[test]
    fn a_cursor_stays_at_the_end_and_at_a_refused_field() {
        let stays = |cursor: Cursor, file: &[u8], number| {
            let advance = cursor.advance(file);
            assert_eq!((advance.number, advance.next), (number, cursor));
            assert_eq!(
                (advance.body.as_ptr(), advance.body.len()),
                (file.as_ptr(), 0)
            );
        };
        stays(Cursor { at: 8, shape: None }, &SHAPE, 0);
        stays(
            Cursor {
                at: 900,
                shape: None,
            },
            &SHAPE,
            0,
        );
        stays(Cursor { at: 1, shape: None }, &SHAPE, 11);
        stays(
            Cursor {
                at: 900,
                shape: None,
            },
            &[0; LARGEST_FILE + 1],
            14,
        );
        let four = Shape::new(4, 4, 1, 1, 8);
        for refused in [Shape::new(4, 4, 1, 3, 8), four.keeping(4, 0)] {
            let shape = Some(refused);
            stays(Cursor { at: 0, shape }, &data(2, 0), 13);
            stays(Cursor { at: 0, shape }, &[4, 0, 2, 1, 1], 13);
        }
        let shape = Some(four);
        stays(Cursor { at: 0, shape }, &[4, 0, 2, 1, 5], 20);
    }

    #[test]
    fn a_body_is_the_stretch_of_the_file() {
        let file = [&SHAPE[..], &data(2, 5)].concat();
        let first = Cursor::new().advance(&file);
        assert_eq!(first.body.as_ptr(), file[3..].as_ptr());
        assert_eq!(first.next.at, 8);
        let second = first.next.advance(&file);
        assert_eq!(second.body.as_ptr(), file[11..].as_ptr());
        assert_eq!(second.next.shape, Some(Shape::new(4, 4, 1, 1, 10)));
        assert_eq!(second.next.at, file.len());
    }
}

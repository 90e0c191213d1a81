//! The reader from any cursor, held to the model: at a field, inside one, at the end and far past it, with shapes that are
//! taken and that are refused, on whole files, on damaged ones and on one that is too long.
//!
//! HOENGTILA_CURSOR is the command line of the program `cursor_cases`. `tests/cursor` at the root of the repository gives it.

use hoengtila_harness::files::stored;
use hoengtila_harness::model::{Cursor, Shape};
use hoengtila_harness::program::written_on;
use hoengtila_harness::random::{self, Random};

const CASES: usize = 3000;

/// The numbers of a shape; a cursor that holds none has zeros, which 1 refuses.
fn numbers(shape: Option<Shape>) -> [i64; 7] {
    shape.map_or([0; 7], |shape| shape.numbers())
}

/// The program's input: a place, a shape and a file.
fn input(cursor: Cursor, file: &[u8]) -> Vec<u8> {
    let mut bytes = (cursor.at as u64).to_be_bytes().to_vec();
    for number in numbers(cursor.shape) {
        bytes.extend((number as u32).to_be_bytes());
    }
    [&bytes, file].concat()
}

fn line(cursor: Cursor) -> String {
    let shape = numbers(cursor.shape).map(|n| format!("{n} ")).concat();
    format!("{} {shape}\n", cursor.at)
}

/// What the model's reader gives: a new cursor; the number, the tag of a field that was read, and the next cursor; the body.
fn wanted(cursor: Cursor, file: &[u8]) -> Vec<u8> {
    let advance = cursor.advance(file);
    let read = advance.next.at != cursor.at;
    let tag = if read { file[cursor.at] } else { 0 };
    let text = format!(
        "{}{} {tag} {}",
        line(Cursor::new()),
        advance.number,
        line(advance.next)
    );
    [text.as_bytes(), advance.body].concat()
}

/// The places of a file's fields, as far as it is whole.
fn places(file: &[u8]) -> Vec<usize> {
    let mut cursor = Cursor::new();
    let mut places = vec![];
    loop {
        places.push(cursor.at);
        let next = cursor.advance(file).next;
        if next.at == cursor.at {
            return places;
        }
        cursor = next;
    }
}

fn place(random: &mut Random, file: &[u8]) -> usize {
    match random.below(6) {
        0..=2 => random.choose(&places(file)),
        3 => random.below(file.len() + 1),
        4 => file.len() + random.choose(&[0, 1, 2, 3, 65_536]),
        _ => random.choose(&[65_535, 65_536, 65_537, usize::MAX - 3, usize::MAX]),
    }
}

/// The shape that a file's own fields give, another that is taken, one that 1 to 5 or 20 refuse, or none.
fn shape(random: &mut Random, file: &[u8]) -> Option<Shape> {
    let sides = [4, 8, 16, 32];
    let (width, height) = (random.choose(&sides), random.choose(&sides));
    let kinds = [random.between(0, 2), random.between(0, 2)];
    let depth = random.between(8, 12);
    let most = Shape::new(width, height, kinds[0], kinds[1], depth);
    let mut kept = [
        random.between(1, most.columns),
        random.between(1, most.rows),
    ];
    let mut numbers = [width, height, kinds[0], kinds[1], depth];
    match random.below(6) {
        0 | 1 => return Cursor::new().advance(file).next.shape,
        2 => return None,
        3 => numbers[random.below(5)] = random.choose(&[0, 3, 5, 7, 13, 64, 256, 0xFFFF_FFFF]),
        4 => kept[random.below(2)] = random.choose(&[0, 17, 33, 256, 257, 0xFFFF_FFFF]),
        _ => (),
    }
    let [width, height, horizontal, vertical, depth] = numbers;
    Some(Shape::new(width, height, horizontal, vertical, depth).keeping(kept[0], kept[1]))
}

/// A stored file, now and then with a byte changed or an end cut off.
fn file(random: &mut Random, files: &[Vec<u8>]) -> Vec<u8> {
    let mut file = files[random.below(files.len())].clone();
    if !file.is_empty() && random.once_in(3) {
        let at = random.below(file.len());
        file[at] = random.below(256) as u8;
    }
    if random.once_in(5) {
        file.truncate(random.below(file.len() + 1));
    }
    file
}

#[test]
fn steps_from_any_cursor() {
    let command_line =
        std::env::var("HOENGTILA_CURSOR").expect("HOENGTILA_CURSOR names the program");
    let mut random = random::seeded();
    let files: Vec<Vec<u8>> = stored().into_iter().map(|case| case.file).collect();
    let mut met = [0; 21];
    for k in 0..CASES {
        let file = file(&mut random, &files);
        let at = place(&mut random, &file);
        let shape = shape(&mut random, &file);
        let cursor = Cursor { at, shape };
        met[cursor.advance(&file).number as usize] += 1;
        assert_eq!(
            written_on(&command_line, &input(cursor, &file)),
            wanted(cursor, &file),
            "case {k}: {cursor:?}, {} bytes: {file:02x?}",
            file.len()
        );
    }
    // every number that the reader has, 14 at places other than the start among them
    for number in [0, 1, 2, 3, 4, 5, 20, 6, 10, 11, 12, 13, 14] {
        assert!(met[number] > 0, "{number} was not met");
    }
    println!("cursor: {CASES} advances from cursors of any kind are the model's");
}

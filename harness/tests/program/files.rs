//! Whole and damaged files on standard input, held to the model.

use crate::command::check;
use hoengtila_harness::files::{data, kept, shape, stored};
use hoengtila_harness::model::call::most_kept;
use hoengtila_harness::model::file::{LARGEST_FILE, TAG_COEFFICIENTS, TAG_RESIDUALS};
use hoengtila_harness::random::{self, Random};

const FILES: usize = 200;
const SIZES: [u8; 4] = [4, 8, 16, 32];

/// What the blocks of a file are made for: sides, kinds, depth and kept numbers that all are allowed.
#[derive(Clone, Copy)]
struct Group {
    sides: [u8; 2],
    kinds: [u8; 2],
    depth: u8,
    kept: [u8; 2],
}

impl Group {
    /// One that keeps the most.
    fn new(sides: [u8; 2], kinds: [u8; 2], depth: u8) -> Group {
        let most = |k: usize| most_kept(kinds[k].into(), sides[k].into()) as u8;
        Group {
            sides,
            kinds,
            depth,
            kept: [most(0), most(1)],
        }
    }

    fn shape(&self) -> Vec<u8> {
        shape(
            self.sides[0],
            self.sides[1],
            self.kinds[0],
            self.kinds[1],
            self.depth,
        )
    }

    fn is_kept(&self, place: usize) -> bool {
        let width = usize::from(self.sides[0]);
        let [columns, rows] = self.kept.map(usize::from);
        place % width < columns && place / width < rows
    }

    /// Any kept numbers that are allowed, with the field that gives them.
    fn keep_any(&mut self, random: &mut Random) -> Vec<u8> {
        let most = Group::new(self.sides, self.kinds, self.depth).kept;
        self.kept = most.map(|most| random.between(1, most.into()) as u8);
        kept(self.kept[0], self.kept[1])
    }

    /// A block's numbers, in range more often than not, its outside 0 for an inverse but once in a while.
    fn numbers(&self, random: &mut Random, tag: u8) -> Vec<i16> {
        let most = if tag == TAG_RESIDUALS {
            (1 << self.depth) - 1
        } else {
            32767
        };
        let high = random.choose(&[0, 3, most, most]);
        let number = |place: usize| {
            if tag == TAG_RESIDUALS || self.is_kept(place) || random.once_in(4000) {
                random.between(-high, high) as i16
            } else {
                0
            }
        };
        let elements = usize::from(self.sides[0]) * usize::from(self.sides[1]);
        (0..elements).map(number).collect()
    }
}

/// A shape and a few blocks of it, now and then after other kept numbers.
fn group(random: &mut Random) -> Vec<u8> {
    let sides = [random.choose(&[4, 4, 8, 16]), random.choose(&[4, 4, 8, 32])];
    let kinds = [random.between(0, 2) as u8, random.between(0, 2) as u8];
    let mut group = Group::new(sides, kinds, random.between(8, 12) as u8);
    let mut bytes = group.shape();
    for _ in 0..random.between(0, 4) {
        if random.once_in(3) {
            bytes.extend(group.keep_any(random));
        } else {
            let tag = random.choose(&[TAG_COEFFICIENTS, TAG_RESIDUALS]);
            bytes.extend(data(tag, &group.numbers(random, tag)));
        }
    }
    bytes
}

/// Bytes changed, lost, put in or cut off at the end; now and then none.
fn damage(random: &mut Random, mut file: Vec<u8>) -> Vec<u8> {
    for _ in 0..random.between(0, 2) {
        let at = random.below(file.len() + 1);
        match random.below(4) {
            0 if at < file.len() => file[at] = random.below(256) as u8,
            1 if at < file.len() => drop(file.remove(at)),
            2 => file.insert(at, random.below(256) as u8),
            _ => file.truncate(at),
        }
    }
    file
}

#[test]
fn random_files() {
    let mut random = random::seeded();
    for k in 0..FILES {
        let groups = random.between(0, 4);
        let whole: Vec<u8> = (0..groups).flat_map(|_| group(&mut random)).collect();
        check(&damage(&mut random, whole), &format!("random file {k}"));
    }
}

/// A file for each pair of kinds and each depth: every width and height, both directions, all that can be kept and less.
#[test]
fn every_shape() {
    let mut random = random::seeded();
    let pairs = [0, 1, 2]
        .into_iter()
        .flat_map(|x| [0, 1, 2].map(|y| [x, y]));
    for (depth, kinds) in (8..=12).flat_map(|d| pairs.clone().map(move |kinds| (d, kinds))) {
        let mut files = [vec![], vec![]];
        for sides in SIZES.into_iter().flat_map(|w| SIZES.map(|h| [w, h])) {
            let mut group = Group::new(sides, kinds, depth);
            for (k, file) in files.iter_mut().enumerate() {
                file.extend(group.shape());
                if k == 1 {
                    file.extend(group.keep_any(&mut random));
                }
                for tag in [TAG_COEFFICIENTS, TAG_RESIDUALS] {
                    let mut numbers = group.numbers(&mut random, tag);
                    clear_outside(&mut numbers, tag, &group);
                    file.extend(data(tag, &numbers));
                }
            }
        }
        for file in files {
            check(&file, &format!("kinds {kinds:?}, depth {depth}"));
        }
    }
}

/// So that 8 does not end the run.
fn clear_outside(numbers: &mut [i16], tag: u8, group: &Group) {
    for (place, number) in numbers.iter_mut().enumerate() {
        if tag == TAG_COEFFICIENTS && !group.is_kept(place) {
            *number = 0;
        }
    }
}

/// Every refusal, at the first field that can meet it and later; the longest file; every cut of a file.
#[test]
fn stored_files() {
    for case in stored() {
        check(&case.file, &case.name);
    }
}

/// A file of so many bytes that runs to its end, its last field a block.
fn long(bytes: usize) -> Vec<u8> {
    let (four, one) = (shape(4, 4, 1, 1, 10), data(TAG_COEFFICIENTS, &[64; 16]));
    // 35 is 3 modulo 8, and 3 * 3 is 1
    let blocks = 3 * (bytes % 8) % 8 + 8;
    let shapes = (bytes - blocks * one.len()) / four.len();
    let file = [four.repeat(shapes), one.repeat(blocks)].concat();
    assert_eq!(file.len(), bytes);
    file
}

/// About the sizes of buffers, and about the largest file.
#[test]
fn sizes() {
    for bytes in [4095, 4096, 4097, 4300, 4301, 8193, 32_769] {
        check(&long(bytes), "a file to its end");
    }
    for bytes in LARGEST_FILE - 2..=LARGEST_FILE + 3 {
        check(&long(bytes), "about the largest file");
    }
    for bytes in [70_000, 131_072, 131_073, 1_000_000] {
        check(&long(bytes), "above the largest file");
    }
}

/// The longest answer that was found: blocks of 32 by 32, of which every residual has many digits.
#[test]
fn a_long_answer() {
    let mut file = shape(32, 32, 1, 2, 12);
    let one = data(TAG_RESIDUALS, &[-4095; 1024]);
    while file.len() + one.len() <= LARGEST_FILE {
        file.extend(&one);
    }
    check(&file, "a long answer");
}

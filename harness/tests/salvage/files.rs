//! Block files, whole and broken.

use hoengtila_harness::files::{data, kept, shape};
use hoengtila_harness::model::file::{TAG_COEFFICIENTS, TAG_RESIDUALS};
use hoengtila_harness::random::Random;

/// A shape, now and then with kept numbers, and some blocks of it; small numbers look like tags and lengths.
fn group(random: &mut Random) -> Vec<u8> {
    let sides = [4, 4, 4, 8, 8, 16, 32];
    let (w, h) = (random.choose(&sides), random.choose(&sides));
    let kinds = [random.choose(&[0, 1, 2]), random.choose(&[0, 1, 2])];
    let mut bytes = shape(w, h, kinds[0], kinds[1], random.choose(&[8, 10, 12]));
    for _ in 0..random.between(0, 3) {
        if random.once_in(3) {
            bytes.extend(kept(
                random.between(1, w.min(16).into()) as u8,
                random.between(1, h.min(16).into()) as u8,
            ));
        }
        let high = random.choose(&[0, 5, 300, 32767]);
        let numbers = random.numbers(usize::from(w) * usize::from(h), -high, high);
        let numbers: Vec<i16> = numbers.iter().map(|n| *n as i16).collect();
        let tag = random.choose(&[TAG_COEFFICIENTS, TAG_RESIDUALS]);
        bytes.extend(data(tag, &numbers));
    }
    bytes
}

pub fn whole(random: &mut Random) -> Vec<u8> {
    let groups = random.between(0, 6);
    (0..groups).flat_map(|_| group(random)).collect()
}

/// A stretch of a file, of a few bytes or of any length.
fn stretch(random: &mut Random, file: &[u8]) -> std::ops::Range<usize> {
    let start = random.below(file.len() + 1);
    let most = if random.once_in(4) { file.len() } else { 12 };
    start..file.len().min(start + random.below(most + 1))
}

/// One damage: an end cut off, a byte changed, a stretch doubled, missing, or put in.
pub fn damage(random: &mut Random, file: &mut Vec<u8>) {
    let range = stretch(random, file);
    match random.below(6) {
        0 => file.truncate(range.start),
        1 => drop(file.drain(..range.start)),
        2 if range.start < file.len() => file[range.start] ^= 1 << random.below(8),
        3 => {
            let doubled = file[range.clone()].to_vec();
            file.splice(range.end..range.end, doubled);
        }
        4 => drop(file.drain(range)),
        _ => {
            let fields = [1, 2, 3, 4, 0, 5, 32, 9];
            let stray: Vec<u8> = (0..random.between(1, 9))
                .map(|_| random.choose(&fields))
                .collect();
            file.splice(range.start..range.start, stray);
        }
    }
}

/// `count` blocks of 4 by 4, a stray byte before each.
pub fn stray_bytes(count: usize) -> Vec<u8> {
    let block = [shape(4, 4, 1, 1, 10), data(TAG_COEFFICIENTS, &[1; 16])].concat();
    [&[9], &block[..]].concat().repeat(count)
}

/// Files of 65,536 bytes on which the search has the most to do: nothing in them goes on, though much begins to.
pub fn worst() -> Vec<(&'static str, Vec<u8>)> {
    let filled = |part: Vec<u8>| -> Vec<u8> {
        let all = [9].into_iter().chain(part.into_iter().cycle());
        all.take(65_536).collect()
    };
    let four = shape(4, 4, 1, 1, 10);
    let with_kept = [four.clone(), kept(4, 4)].concat();
    let nearly = [four.clone(), kept(4, 4), vec![2, 0, 31]].concat();
    // the bytes behind the last block are a stretch too
    let stretches = |count: usize| [stray_bytes(count - 1), vec![9; 65_580 - 44 * count]].concat();
    vec![
        ("zeros", filled(vec![0])),
        ("tags", filled(vec![1])),
        ("lengths", filled(vec![1, 0, 5])),
        ("shapes", filled(four)),
        ("shapes and kept numbers", filled(with_kept)),
        ("blocks but for a length", filled(nearly)),
        ("1,024 stretches", stretches(1024)),
        ("1,025 stretches", stretches(1025)),
    ]
}

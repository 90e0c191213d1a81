//! The library against the model: blocks, headers in many spellings, damaged files, and every refusal.

use crate::calls::{subject, ReadCall, WriteCall};
use hoengtila_harness::compare::Comparison;
use hoengtila_harness::header::{each_set, numbers as numbers_of};
use hoengtila_harness::random::Random;
use hoengtila_harness::subject::Answered;
use hoengtila_harness::widths::narrow;

pub const SIZES: [u32; 4] = [4, 8, 16, 32];

fn bytes(random: &mut Random, count: usize) -> Vec<u8> {
    (0..count).map(|_| random.below(256) as u8).collect()
}

fn numbers(random: &mut Random, count: usize, low: i64, high: i64) -> Vec<i32> {
    narrow(&random.numbers(count, low, high))
}

/// A block: any residuals in range, or those at its ends.
pub fn block(random: &mut Random, count: usize) -> Vec<i32> {
    if random.once_in(4) {
        let end = |_| random.choose(&[-32768, -32767, -1, 0, 1, 255, 256, 32766, 32767]);
        (0..count).map(end).collect()
    } else {
        numbers(random, count, -32768, 32767)
    }
}

/// Every size, written and read back.
#[test]
fn blocks_come_back() {
    let mut c = Comparison::of(subject(), "pictures: written and read back");
    for (width, height) in SIZES.iter().flat_map(|w| SIZES.map(|h| (*w, h))) {
        for _ in 0..40 {
            let count = (width * height) as usize;
            let residuals = block(&mut c.random, count);
            let room = 15 + 2 * count + c.random.below(20);
            let held = bytes(&mut c.random, room);
            let written = c.outcome(&WriteCall {
                width,
                height,
                residuals: residuals.clone(),
                held,
            });
            let file = written.picture().to_vec();
            let held = numbers(&mut c.random, count, i32::MIN.into(), i32::MAX.into());
            let read = c.outcome(&ReadCall { file, held });
            assert!(read.is_taken(width, height));
            assert_eq!(read.output, residuals);
        }
    }
    c.close(&[0]);
}

fn any_side(random: &mut Random) -> u32 {
    if random.once_in(4) {
        random.choose(&[0, 1, 2, 5, 24, 31, 64, 65_536, u32::MAX])
    } else {
        random.choose(&SIZES)
    }
}

/// The right length more often than not, or one near it.
fn near(random: &mut Random, right: i64) -> usize {
    match random.below(4) {
        0 => random.choose(&[0, right - 1, right + 1, right * 2]).max(0) as usize,
        _ => right as usize,
    }
}

/// Any mixture of wrong sides, lengths, residuals and outputs.
#[test]
fn refused_writings() {
    let mut c = Comparison::of(subject(), "pictures: writings, refused and not");
    for _ in 0..20_000 {
        let random = &mut c.random;
        let (width, height) = (any_side(random), any_side(random));
        let right = match u64::from(width) * u64::from(height) {
            elements @ 1..=1024 => elements as i64,
            _ => 16,
        };
        let count = near(random, right);
        let mut residuals = block(random, count);
        if random.once_in(3) && count > 0 {
            let at = random.below(count);
            residuals[at] = random.choose(&[-32769, 32768, i32::MIN, i32::MAX, 65_536]);
        }
        let digits = |n: u32| if n < 10 { 1 } else { 2 };
        let room = near(random, 11 + digits(width) + digits(height) + 2 * right);
        let held = bytes(random, room);
        c.outcome(&WriteCall {
            width,
            height,
            residuals,
            held,
        });
    }
    c.close(&numbers_of(&["picture_write"]));
}

/// White space or comments, as the format allows them in a header.
fn gap(random: &mut Random) -> Vec<u8> {
    let mut gap = vec![];
    for _ in 0..random.between(1, 3) {
        if random.once_in(4) {
            gap.push(b'#');
            let count = random.below(6);
            gap.extend((0..count).map(|_| random.choose(b"# 0125Pa\t\x00\xff")));
            gap.push(random.choose(b"\n\r"));
        } else {
            gap.push(random.choose(b" \t\n\r"));
        }
    }
    gap
}

/// A number, now and then with zeros before it.
fn spelt(random: &mut Random, n: u32) -> Vec<u8> {
    let zeros = if random.once_in(5) {
        random.below(4)
    } else {
        0
    };
    format!("{}{n}", "0".repeat(zeros)).into_bytes()
}

/// The header of a graymap in any spelling.
pub fn header(random: &mut Random, width: u32, height: u32) -> Vec<u8> {
    let mut header = b"P5".to_vec();
    for n in [width, height, 65535] {
        header.extend(gap(random));
        header.extend(spelt(random, n));
    }
    if random.once_in(4) {
        header.extend(b"# behind it\n");
    } else {
        header.push(random.choose(b" \t\n\r"));
    }
    header
}

/// Headers in any spelling, of all sizes, with the right number of samples.
#[test]
fn headers_in_any_spelling() {
    let mut c = Comparison::of(subject(), "pictures: headers in any spelling");
    for _ in 0..10_000 {
        let random = &mut c.random;
        let (width, height) = (random.choose(&SIZES), random.choose(&SIZES));
        let count = (width * height) as usize;
        let mut file = header(random, width, height);
        file.extend(bytes(random, 2 * count));
        let held = numbers(random, count, -9, 9);
        let read = c.outcome(&ReadCall { file, held });
        assert!(read.is_taken(width, height));
    }
    c.close(&[0]);
}

/// A byte of a header changed, put in or lost; samples too few or too many; outputs of other lengths.
#[test]
fn damaged_files() {
    let mut c = Comparison::of(subject(), "pictures: damaged files");
    for _ in 0..40_000 {
        let random = &mut c.random;
        let (width, height) = (random.choose(&[4, 8]), random.choose(&[4, 8]));
        let count = (width * height) as usize;
        let mut file = header(random, width, height);
        for _ in 0..random.below(3) {
            let at = random.below(file.len());
            let byte = random.choose(b"P5#0123456789 \n\r\t\x0b\x0c+-x\x00\xff");
            match random.below(3) {
                0 => file[at] = byte,
                1 => file.insert(at, byte),
                _ => drop(file.remove(at)),
            }
        }
        let samples = match random.below(6) {
            0 => random.below(2 * count + 4),
            _ => 2 * count,
        };
        file.extend(bytes(random, samples));
        let length = match random.below(6) {
            0 => random.below(2 * count),
            _ => count,
        };
        let held = numbers(random, length, i32::MIN.into(), i32::MAX.into());
        c.outcome(&ReadCall { file, held });
    }
    c.close(&numbers_of(&["picture_read"]));
}

/// Every front of a header, from the empty file on: none is a picture, with no sample behind it.
#[test]
fn headers_cut_short() {
    let mut c = Comparison::of(subject(), "pictures: headers cut short");
    for (width, height) in SIZES.iter().flat_map(|w| SIZES.map(|h| (*w, h))) {
        let whole = header(&mut c.random, width, height);
        for end in 0..=whole.len() {
            let file = whole[..end].to_vec();
            let held = numbers(&mut c.random, 16, -9, 9);
            c.outcome(&ReadCall { file, held });
        }
    }
    c.close(&[24, 25]);
}

/// Numbers of 12 digits and more: with zeros in front they are what they spell, and those that are 4 or 65535 modulo 2^32 or 2^64 are
/// not.
#[test]
fn numbers_of_many_digits() {
    let mut c = Comparison::of(subject(), "pictures: numbers of 12 digits and more");
    for (number, [side, maximum]) in [
        (0, ["000000000004", "000000065535"]),
        (24, ["429496729604", "429496795135"]),
        (24, ["18446744073709551620", "18446744073709617151"]),
    ] {
        for place in 0..3 {
            let mut words = ["4", "4", "65535"];
            words[place] = [side, side, maximum][place];
            let mut file = format!("P5\n{}\n", words.join(" ")).into_bytes();
            file.extend([0; 32]);
            let held = vec![7; 16];
            assert_eq!(c.outcome(&ReadCall { file, held }).number(), number);
        }
    }
    c.close(&[0, 24]);
}

/// Every set of refusals, of a block of 4 by 4.
#[test]
fn orders() {
    let mut c = Comparison::of(
        subject(),
        "pictures: every set of refusals, in the header's order",
    );
    each_set("picture_write", |set| {
        let mut residuals = vec![0; set.pick(6, 15, 16)];
        residuals[3] = set.pick(23, 32768, 32767);
        let call = WriteCall {
            width: set.pick(1, 5, 4),
            height: set.pick(2, 5, 4),
            residuals,
            held: vec![9; set.pick(7, 44, 45)],
        };
        c.outcome(&call).number()
    });
    each_set("picture_read", |set| {
        let mut file = b"P5\n4 4\n65535\n".to_vec();
        file[1] = set.pick(24, b'2', b'5');
        file.extend(vec![0; set.pick(25, 31, 32)]);
        let held = vec![9; set.pick(7, 15, 16)];
        c.outcome(&ReadCall { file, held }).number()
    });
    c.close(&[0, 1, 2, 6, 7, 23, 24, 25]);
}

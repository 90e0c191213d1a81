//! "A report in whole numbers" (document 02, Wish 10): totals over blocks that are run forward and back, and the table that the
//! program prints of them.

use super::block::{forward, inverse};
use super::call::{Answer, Shape};
use super::file::{fields, numbers_of, TAG_RESIDUALS};

/// Four for each size and pair of kinds, then how many blocks were refused, then how many were given.
pub const NUMBERS: usize = 578;
pub const REFUSED: usize = 576;
pub const GIVEN: usize = 577;
/// "up to 65,536 blocks".
pub const LIMIT: u64 = 65_536;

const SIZES: [i64; 4] = [4, 8, 16, 32];

pub type Totals = [u64; NUMBERS];

/// Every width, height and pair of kinds, in the order of their totals.
fn classes() -> Vec<[i64; 4]> {
    let mut all = Vec::new();
    for width in SIZES {
        for height in SIZES {
            for horizontal in 0..3 {
                for vertical in 0..3 {
                    all.push([width, height, horizontal, vertical]);
                }
            }
        }
    }
    all
}

/// Where the four totals of an accepted shape start.
fn place(shape: &Shape) -> usize {
    let wanted = [shape.width, shape.height, shape.horizontal, shape.vertical];
    let class = classes().iter().position(|class| *class == wanted);
    4 * class.expect("an accepted shape")
}

/// One block more.
pub fn add(totals: &mut Totals, shape: &Shape, residuals: &[i64]) -> Answer {
    if totals[GIVEN] >= LIMIT {
        return Answer::refused(22, 0);
    }
    totals[GIVEN] += 1;
    // an output as long as the input, so that 7 cannot apply where 6 does not
    let mut coefficients = vec![0; residuals.len()];
    let refusal = forward(shape, residuals, &mut coefficients);
    if refusal.number != 0 {
        totals[REFUSED] = totals[REFUSED].wrapping_add(1);
        return refusal;
    }
    let mut returned = vec![0; residuals.len()];
    let answer = inverse(shape, &coefficients, &mut returned);
    assert_eq!(
        answer.number, 0,
        "the forward leaves nothing outside the kept part"
    );
    let differences: Vec<u64> = residuals
        .iter()
        .zip(&returned)
        .map(|(a, b)| a.abs_diff(*b))
        .collect();
    let at = place(shape);
    totals[at] = totals[at].wrapping_add(1);
    totals[at + 1] = totals[at + 1].wrapping_add(answer.rails as u64);
    totals[at + 2] = totals[at + 2].max(*differences.iter().max().expect("a block"));
    let squares: u64 = differences.iter().map(|d| d * d).sum();
    totals[at + 3] = totals[at + 3].wrapping_add(squares);
    answer
}

/// The residual blocks of a block file, up to the field that is refused, or to the block that is one too many: its number and its
/// offset.
pub fn add_file(totals: &mut Totals, file: &[u8]) -> Option<(i64, usize)> {
    for (cursor, advance) in fields(file) {
        if advance.number != 0 {
            return Some((advance.number, cursor.at));
        }
        if file[cursor.at] == TAG_RESIDUALS {
            let shape = cursor.shape.expect("data follows a shape");
            if add(totals, &shape, &numbers_of(advance.body)).number == 22 {
                return Some((22, cursor.at));
            }
        }
    }
    None
}

/// A sum over a count to three places, the nearest, halves up.
fn mean(sum: u64, count: u64) -> String {
    let (sum, count) = (u128::from(sum), u128::from(count));
    let thousandths = (2000 * sum + count) / (2 * count);
    format!("{}.{:03}", thousandths / 1000, thousandths % 1000)
}

/// What the program prints.
pub fn table(totals: &Totals) -> String {
    let mut text = format!(
        "{:>5}{:>8}{:>12}{:>10}{:>8}{:>10}{:>9}{:>17}\n",
        "width", "height", "horizontal", "vertical", "blocks", "rails", "largest", "mean square"
    );
    for (class, [width, height, horizontal, vertical]) in classes().into_iter().enumerate() {
        let [blocks, rails, largest, squares] = [0, 1, 2, 3].map(|k| totals[4 * class + k]);
        if blocks != 0 {
            let mean = mean(squares, blocks * (width * height) as u64);
            text += &format!("{width:>5}{height:>8}{horizontal:>12}{vertical:>10}{blocks:>8}{rails:>10}{largest:>9}{mean:>17}\n");
        }
    }
    text + &format!("{} of {} blocks refused\n", totals[REFUSED], totals[GIVEN])
}

//! Document 02, Wish 4: "Why is this residual what it is?" The four parts of one residual, put over 2^(7+s), where s is the last
//! shift: each is worked out by what it is called, and that they add up is for a test to find.

use super::block::{first_outside, floor_shift, nearest, ENDS};
use super::call::{first_refusal, refusal_at, Answer, Shape};
use super::long::{deepest, ends, first_beyond, last_shift};
use super::weights::weight;

/// What a call hands back: "Refusals, all four parts 0".
#[derive(Clone, Copy, Debug, PartialEq, Eq)]
pub struct Parts {
    pub number: i64,
    pub place: i64,
    pub exact: i128,
    pub middle_roundings: i128,
    pub clippings: i128,
    pub last_rounding: i128,
}

impl Parts {
    fn refused(answer: Answer) -> Parts {
        Parts {
            number: answer.number,
            place: answer.place,
            exact: 0,
            middle_roundings: 0,
            clippings: 0,
            last_rounding: 0,
        }
    }

    pub fn sum(&self) -> i128 {
        self.exact + self.middle_roundings + self.clippings + self.last_rounding
    }
}

/// The parts of a residual of a block of coefficients.
pub fn why(shape: &Shape, coefficients: &[i64], place: i64) -> Parts {
    let beyond = || None;
    match refusal(shape, 12, coefficients, beyond, place) {
        Some(refusal) => Parts::refused(refusal),
        None => parts(shape, ENDS, 20 - shape.depth, coefficients, place),
    }
}

/// "in demand 3 and in Wish 4, s stands for 20-d": the same of a block of long numbers.
pub fn why_long(shape: &Shape, extended: bool, coefficients: &[i64], place: i64) -> Parts {
    let beyond = || first_beyond(shape, extended, coefficients);
    match refusal(shape, deepest(extended), coefficients, beyond, place) {
        Some(refusal) => Parts::refused(refusal),
        None => {
            let range = ends(extended, shape.depth);
            let s = last_shift(extended, shape.depth);
            parts(shape, range, s, coefficients, place)
        }
    }
}

/// "those of the inverse without 7, then 15 for a place not below w*h"; 27 "after 8, with its place".
fn refusal(
    shape: &Shape,
    deepest: i64,
    c: &[i64],
    beyond: impl Fn() -> Option<usize>,
    place: i64,
) -> Option<Answer> {
    shape
        .refusal_to(deepest)
        .or_else(|| first_refusal(&[(6, c.len() as i64 != shape.elements())]))
        .or_else(|| refusal_at(8, first_outside(shape, c)))
        .or_else(|| refusal_at(27, beyond()))
        .or_else(|| first_refusal(&[(15, place >= shape.elements())]))
}

/// The parts at a place of a block that is taken, by its range, its last shift s and its kept part.
fn parts(shape: &Shape, [low, high]: [i64; 2], s: i64, c: &[i64], place: i64) -> Parts {
    let [w, h] = [shape.width, shape.height];
    let [x, y] = [place % w, place / w];
    let across = |i: i64| weight(shape.horizontal, w as usize, i as usize, x as usize);
    let down = |k: i64| weight(shape.vertical, h as usize, k as usize, y as usize);
    // the exact sum of kept column i in row y, and the middle value there, before and after the clip
    let e = |i: i64| -> i64 {
        let product = |k: i64| down(k) * c[(i + k * w) as usize];
        (0..shape.rows).map(product).sum()
    };
    let before = |i: i64| floor_shift(e(i) + 64, 7);
    let after = |i: i64| before(i).clamp(low, high);
    // "carried through the horizontal weights"
    let carried = |added: &dyn Fn(i64) -> i64| -> i128 {
        let product = |i: i64| i128::from(across(i)) * i128::from(added(i));
        (0..shape.columns).map(product).sum()
    };
    let r = carried(&after) as i64;
    // a middle value stands for 128 times as much, and a residual for 2^s times a middle value
    Parts {
        number: 0,
        place: 0,
        exact: exact(shape, c, [x, y]),
        middle_roundings: carried(&|i| 128 * before(i) - e(i)),
        clippings: carried(&|i| 128 * (after(i) - before(i))),
        last_rounding: i128::from(nearest(r, s) * (1 << s) - r) * 128,
    }
}

/// "the exact double sum": of all kept coefficients, each by both its weights, with nothing between.
fn exact(shape: &Shape, c: &[i64], [x, y]: [i64; 2]) -> i128 {
    let [w, h] = [shape.width as usize, shape.height as usize];
    let mut sum = 0;
    for k in 0..shape.rows as usize {
        for i in 0..shape.columns as usize {
            let across = weight(shape.horizontal, w, i, x as usize);
            let down = weight(shape.vertical, h, k, y as usize);
            sum += i128::from(across) * i128::from(down) * i128::from(c[i + k * w]);
        }
    }
    sum
}

/// What `blocks why` prints: the parts, their sum, what they are put over, and the residual; each but the last two as a fraction of a
/// level too.
pub fn text(parts: &Parts, depth: i64) -> String {
    let power = 27 - depth;
    let named = [
        ("exact", parts.exact),
        ("middle roundings", parts.middle_roundings),
        ("clippings", parts.clippings),
        ("last rounding", parts.last_rounding),
        ("sum", parts.sum()),
    ];
    let line = |(name, z): &(&str, i128)| format!("{name:16}{z:14}{}\n", level(*z, power));
    let lines: String = named.iter().map(line).collect();
    let over = 1i128 << power;
    let residual = parts.sum() / over;
    format!(
        "{lines}{:16}{over:14}\n{:16}{residual:14}\n",
        "divisor", "residual"
    )
}

/// z over a power of 2 in decimals, with as many as it takes: a 2^k-th is 5^k of the 10^k-ths.
fn level(z: i128, power: i64) -> String {
    let (over, sign) = (1i128 << power, if z < 0 { "-" } else { "" });
    let whole = format!("{sign}{}", z.abs() / over);
    let digits = z.abs() % over * 5i128.pow(power as u32);
    let behind = format!(".{digits:0width$}", width = power as usize);
    format!(
        "{whole:>10}{}",
        behind.trim_end_matches('0').trim_end_matches('.')
    )
}

#[cfg(test)]
mod tests {
    use super::*;
    use crate::model::samples::{any_coefficients, any_shape};
    use crate::model::{inverse, inverse_long};
    use crate::random;

    /// "Put over 2^(27-d) the four add up to the residual exactly", and over 2^(7+s) for the long numbers. What clipping added is 0
    /// where nothing was clipped.
    #[test]
    fn the_parts_add_up() {
        let mut random = random::seeded();
        let mut clipped = 0;
        for turn in 0..120 {
            let shape = any_shape(&mut random, 12);
            let most = random.choose(&[20, 900, 32767]);
            let c = any_coefficients(&mut random, &shape, [-most - 1, most]);
            let mut residuals = vec![0; c.len()];
            let answer = inverse(&shape, &c, &mut residuals);
            for _ in 0..20 {
                let place = random.below(c.len());
                let parts = why(&shape, &c, place as i64);
                let over = 1i128 << (27 - shape.depth);
                assert_eq!(parts.sum(), i128::from(residuals[place]) * over);
                assert!(answer.rails > 0 || parts.clippings == 0);
                clipped += usize::from(parts.clippings != 0);
                assert_eq!(why_long(&shape, false, &c, place as i64), parts, "{turn}");
            }
        }
        assert!(clipped > 100);
        for _ in 0..120 {
            let shape = any_shape(&mut random, 16);
            let c = any_coefficients(&mut random, &shape, ends(true, shape.depth));
            let mut residuals = vec![0; c.len()];
            inverse_long(&shape, true, &c, &mut residuals);
            let s = last_shift(true, shape.depth);
            for _ in 0..20 {
                let place = random.below(c.len());
                let parts = why_long(&shape, true, &c, place as i64);
                assert_eq!(parts.sum(), i128::from(residuals[place]) << (7 + s));
            }
        }
    }

    /// The whole case of document 01: 64 in the corner of 4 by 4, both kinds DST-VII, d = 10. Column sum 64 * 29 in the first row,
    /// 64 * 55 in the second: 1,856 and 3,520, of which the middle roundings make 15 * 128 and 28 * 128.
    #[test]
    fn the_whole_case() {
        let shape = Shape::new(4, 4, 1, 1, 10);
        let mut c = vec![0; 16];
        c[0] = 64;
        let first = why(&shape, &c, 0);
        assert_eq!(first.exact, 64 * 29 * 29);
        assert_eq!(first.middle_roundings, (15 * 128 - 1856) * 29);
        assert_eq!([first.clippings, first.sum()], [0, 0]);
        let fifth = why(&shape, &c, 5);
        assert_eq!(fifth.exact, 64 * 55 * 55);
        assert_eq!(fifth.middle_roundings, (28 * 128 - 3520) * 55);
        assert_eq!([fifth.clippings, fifth.sum()], [0, 2 << 17]);
    }

    /// What the clip took: one column, whose middle value of the last row would be 84 / 128 more.
    #[test]
    fn what_the_clip_took() {
        let shape = Shape::new(4, 4, 1, 1, 8);
        let c = vec![32767; 16];
        let sum = 32767 * (84 - 74 + 55 - 29);
        let parts = why(&shape, &c, 12);
        assert_eq!(parts.clippings, 0);
        assert_eq!(parts.exact, sum * (29 + 74 + 84 + 55));
        let top = why(&shape, &c, 0);
        let e = 32767 * (29 + 74 + 84 + 55);
        let before = (e + 64) >> 7;
        assert_eq!(top.clippings, 128 * (32767 - before) * (29 + 74 + 84 + 55));
    }

    #[test]
    fn levels_in_decimals() {
        let is = |z, power, text| assert_eq!(level(z, power), format!("{text:>10}"));
        is(0, 15, "0");
        is(-1 << 19, 19, "-1");
        is(3 << 17, 17, "3");
        assert_eq!(level(193_600, 17), "         1.47705078125");
        assert_eq!(level(-1, 19), "        -0.0000019073486328125");
        assert_eq!(level(-3 << 16, 17), "        -1.5");
    }

    #[test]
    fn refusals_in_their_order() {
        let shape = Shape::new(32, 4, 1, 1, 16);
        let mut c = vec![0; 128];
        let number = |d, c: &[i64], place| {
            let parts = why_long(&Shape { depth: d, ..shape }, true, c, place);
            assert_eq!(parts.sum(), 0);
            (parts.number, parts.place)
        };
        assert_eq!(number(17, &c[1..], 128), (5, 0));
        assert_eq!(number(16, &c[1..], 128), (6, 0));
        c[3] = 1 << 20;
        c[17] = 1;
        assert_eq!(number(16, &c, 128), (8, 17));
        c[17] = 0;
        assert_eq!(number(16, &c, 128), (27, 3));
        c[3] = 0;
        assert_eq!(number(16, &c, 128), (15, 0));
        assert_eq!(number(16, &c, 127), (0, 0));
    }
}

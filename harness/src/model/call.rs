//! "Numbers handed back when a call is turned down": what a call hands back, and the tests that calls share.

/// A block's shape: any numbers, as a caller may hand over any.
#[derive(Clone, Copy, Debug, PartialEq, Eq)]
pub struct Shape {
    pub width: i64,
    pub height: i64,
    pub horizontal: i64,
    pub vertical: i64,
    pub depth: i64,
    pub columns: i64,
    pub rows: i64,
}

impl Shape {
    /// "Kept columns are the first min(w,16), kept rows the first min(h,16)": what is kept where nobody says otherwise.
    pub fn new(width: i64, height: i64, horizontal: i64, vertical: i64, depth: i64) -> Shape {
        Shape {
            width,
            height,
            horizontal,
            vertical,
            depth,
            columns: most_kept(horizontal, width),
            rows: most_kept(vertical, height),
        }
    }

    /// The shape of these seven, from the width to the kept rows.
    pub fn of(numbers: [i64; 7]) -> Shape {
        let [width, height, horizontal, vertical, depth, columns, rows] = numbers;
        Shape::new(width, height, horizontal, vertical, depth).keeping(columns, rows)
    }

    pub fn numbers(&self) -> [i64; 7] {
        [
            self.width,
            self.height,
            self.horizontal,
            self.vertical,
            self.depth,
            self.columns,
            self.rows,
        ]
    }

    /// The same with other kept numbers.
    pub fn keeping(self, columns: i64, rows: i64) -> Shape {
        Shape {
            columns,
            rows,
            ..self
        }
    }

    /// How many numbers a block has.
    pub fn elements(&self) -> i64 {
        self.width * self.height
    }

    /// "at least 1 and at most what document 01 keeps, or at most what Wish 1 keeps for kind 0"
    pub fn keeps(&self) -> bool {
        (1..=most_kept(self.horizontal, self.width)).contains(&self.columns)
            && (1..=most_kept(self.vertical, self.height)).contains(&self.rows)
    }

    /// 1 to 5, then 20: the first that applies.
    pub fn refusal(&self) -> Option<Answer> {
        self.refusal_to(12)
    }

    /// The same with another deepest depth.
    pub fn refusal_to(&self, deepest: i64) -> Option<Answer> {
        self.refusal_by([is_size(self.width), is_size(self.height)], deepest)
    }

    /// The same, with whether the call takes the width and the height.
    pub fn refusal_by(&self, takes: [bool; 2], deepest: i64) -> Option<Answer> {
        first_refusal(&[
            (1, !takes[0]),
            (2, !takes[1]),
            (3, !is_kind(self.horizontal)),
            (4, !is_kind(self.vertical)),
            (5, !(8..=deepest).contains(&self.depth)),
            (20, !self.keeps()),
        ])
    }

    /// 6 and 7: a length that is not w*h.
    pub fn length_refusal(&self, input: usize, output: usize) -> Option<Answer> {
        first_refusal(&[
            (6, input as i64 != self.elements()),
            (7, output as i64 != self.elements()),
        ])
    }
}

/// What a call hands back beside its output.
#[derive(Clone, Copy, Debug, PartialEq, Eq)]
pub struct Answer {
    pub number: i64,
    pub place: i64,
    pub rails: i64,
}

impl Answer {
    /// "An accepted call hands back number 0 and place 0."
    pub fn accepted(rails: i64) -> Answer {
        Answer {
            number: 0,
            place: 0,
            rails,
        }
    }

    /// "rail count 0".
    pub fn refused(number: i64, place: i64) -> Answer {
        Answer {
            number,
            place,
            rails: 0,
        }
    }
}

/// "Checked in this order; the first that applies is given", with place 0.
pub fn first_refusal(tests: &[(i64, bool)]) -> Option<Answer> {
    let (number, _) = tests.iter().find(|(_, applies)| *applies)?;
    Some(Answer::refused(*number, 0))
}

/// A refusal for a number at a place, where there is such a place.
pub fn refusal_at(number: i64, place: Option<usize>) -> Option<Answer> {
    place.map(|place| Answer::refused(number, place as i64))
}

pub fn is_size(n: i64) -> bool {
    [4, 8, 16, 32].contains(&n)
}

/// "1 (DST-VII) or 2 (DCT-VIII)"; "3 and 4 accept 0".
pub fn is_kind(kind: i64) -> bool {
    kind == 0 || kind == 1 || kind == 2
}

/// What can be kept in a direction: 16 at most, but "All 32 columns or rows are kept in a direction of kind 0".
pub fn most_kept(kind: i64, n: i64) -> i64 {
    n.min(if kind == 0 { 32 } else { 16 })
}

//! The lists of steps of the forward DST-VII (document 02, Wish 6), made by folding, and written down as they are stored: as
//! definitions (`crates/steps/specs/Lists.antt`), as data (`crates/step_lists/src/stored.rt`) and as the command prints them
//! (`crates/blocks_steps/stdout`).
//!
//! With L = 2N+1 = p*q the rows fall into three classes. Rows whose 2i+1 neither p nor q divides are folded over their first
//! N-h places, h = (q-1)/2; those that p divides over the first h, those that only q divides over the first (p-1)/2. Inputs are
//! added first and multiplied once; among the rows of the first class the products at the places that q divides are shared.

use crate::folding::{factors, repeating_sums, sharing_sums, Sum};
use crate::model::steps::{Step, StepList};
use crate::model::weights::dst_vii;
use std::collections::HashMap;

/// The points that have a list.
pub const LISTED: [usize; 3] = [4, 16, 32];

struct Maker {
    n: usize,
    p: usize,
    q: usize,
    cells: usize,
    steps: Vec<Step>,
}

/// The list of n points.
pub fn make(n: usize) -> StepList {
    let [p, q] = factors(n).expect("n has a list");
    let (cells, steps) = (n, vec![]);
    Maker {
        n,
        p,
        q,
        cells,
        steps,
    }
    .list()
}

impl Maker {
    /// The weight of row i at a place, from 1.
    fn weight(&self, i: usize, place: usize) -> i64 {
        dst_vii(self.n, i, place - 1)
    }

    fn fresh(&mut self) -> usize {
        self.cells += 1;
        self.cells - 1
    }

    fn signed(&mut self, sign: i64, to: usize, a: usize, b: usize) {
        self.steps.push(if sign > 0 {
            Step::Add(to, a, b)
        } else {
            Step::Sub(to, a, b)
        });
    }

    fn multiply(&mut self, to: usize, a: usize, constant: i64) {
        let constant = i32::try_from(constant).expect("a weight is small");
        self.steps.push(Step::Mul(to, a, constant));
    }

    fn class(&self, i: usize) -> usize {
        match 2 * i + 1 {
            u if u % self.p == 0 => 2,
            u if u % self.q == 0 => 3,
            _ => 1,
        }
    }

    fn has_class(&self, class: usize) -> bool {
        (0..self.n).any(|i| self.class(i) == class)
    }

    /// The folded inputs of a class whose rows repeat with period q.
    fn periodic(&mut self, q: usize) -> Vec<usize> {
        let sums = repeating_sums(self.n, q);
        sums.iter().map(|terms| self.folded(terms)).collect()
    }

    /// The sum of inputs, of which the first is added, in a fresh cell. A place from 0 is the cell of its input.
    fn folded(&mut self, terms: &Sum) -> usize {
        let cell = self.fresh();
        let mut so_far = terms[0].0;
        for (input, sign) in &terms[1..] {
            self.signed(*sign, cell, so_far, *input);
            so_far = cell;
        }
        cell
    }

    /// The folded inputs of the first class, in place: each of the last h inputs is added into the first n-h.
    fn leading(&mut self) {
        for sum in sharing_sums(self.n, self.p, self.q) {
            let ((first, sign), (last, _)) = (sum[0], sum[1]);
            self.signed(sign, first, first, last);
        }
    }

    /// The first n-h places, from 1: those that q divides, or the others.
    fn first_places(&self, divided: bool) -> Vec<usize> {
        let last = self.n - (self.q - 1) / 2;
        let wanted = |g: &usize| g.is_multiple_of(self.q) == divided;
        (1..=last).filter(wanted).collect()
    }

    /// The weights of a row of the first class at the places that q divides: a sign, and the pattern with the first positive.
    fn pattern(&self, i: usize) -> (i64, Vec<i64>) {
        let places = self.first_places(true).into_iter();
        let weights: Vec<i64> = places.map(|g| self.weight(i, g)).collect();
        let sign = weights[0].signum();
        (sign, weights.into_iter().map(|w| sign * w).collect())
    }

    /// One cell for each pattern, its products shared among the patterns.
    fn shared(&mut self) -> HashMap<Vec<i64>, usize> {
        let places = self.first_places(true);
        let mut products: HashMap<(usize, i64), usize> = HashMap::new();
        let mut patterns = HashMap::new();
        for i in (0..self.n)
            .filter(|i| self.class(*i) == 1)
            .collect::<Vec<_>>()
        {
            let pattern = self.pattern(i).1;
            if patterns.contains_key(&pattern) {
                continue;
            }
            let mut so_far = None;
            for (g, w) in places.iter().zip(&pattern) {
                let product = self.product(&mut products, *g, w.abs());
                so_far = Some(match so_far {
                    None => product,
                    Some(sum) => {
                        let cell = self.fresh();
                        self.signed(*w, cell, sum, product);
                        cell
                    }
                });
            }
            patterns.insert(pattern, so_far.expect("q divides a place"));
        }
        patterns
    }

    fn product(&mut self, made: &mut HashMap<(usize, i64), usize>, g: usize, w: i64) -> usize {
        *made.entry((g, w)).or_insert_with(|| {
            let cell = self.fresh();
            self.multiply(cell, g - 1, w);
            cell
        })
    }

    /// An output: the products of its row's first weights with its class's folded inputs, and the shared sum.
    fn output(
        &mut self,
        terms: &[(usize, i64)],
        sum: Option<(i64, usize)>,
        scratch: usize,
        out: usize,
    ) {
        self.multiply(out, terms[0].0, terms[0].1);
        for (cell, w) in &terms[1..] {
            self.multiply(scratch, *cell, *w);
            self.steps.push(Step::Add(out, out, scratch));
        }
        if let Some((sign, cell)) = sum {
            self.signed(sign, out, out, cell);
        }
    }

    /// The folded inputs that a row of the first class multiplies by itself, with its weights.
    fn own_terms(&self, i: usize) -> Vec<(usize, i64)> {
        let places = self.first_places(false).into_iter();
        places.map(|g| (g - 1, self.weight(i, g))).collect()
    }

    fn list(mut self) -> StepList {
        let second = self.periodic(self.q);
        let third = if self.has_class(3) {
            self.periodic(self.p)
        } else {
            vec![]
        };
        self.leading();
        let patterns = self.shared();
        let scratch = self.fresh();
        let outs: Vec<usize> = (0..self.n).map(|_| self.fresh()).collect();
        for (i, out) in outs.iter().enumerate() {
            let weighted = |(place, cell): (usize, &usize)| (*cell, self.weight(i, place));
            let (terms, sum) = match self.class(i) {
                1 => {
                    let (sign, pattern) = self.pattern(i);
                    (self.own_terms(i), Some((sign, patterns[&pattern])))
                }
                2 => ((1..).zip(&second).map(weighted).collect(), None),
                _ => ((1..).zip(&third).map(weighted).collect(), None),
            };
            self.output(&terms, sum, scratch, *out);
        }
        StepList {
            inputs: self.n,
            cells: self.cells,
            steps: self.steps,
            outs,
        }
    }
}

/// The definitions: `crates/steps/specs/Lists.antt`.
pub fn definitions() -> String {
    let head = "-- Document 02, Wish 6: \"Give such lists for 4, 16 and 32 points\", of the forward DST-VII. Written by tests/step_lists --write.\n\
        use Rattle.std.specs.Prelude.{List, [], ◌∷◌, pos, negsuc}\n\
        use Rattle.steps.specs.Steps.{Step, add, sub, mul, StepList}\n";
    let lists = LISTED.map(|n| definition(n, &make(n)));
    format!("{head}\n{}", lists.join("\n"))
}

fn definition(n: usize, list: &StepList) -> String {
    let words: Vec<String> = list.steps.iter().map(step_word).collect();
    let lines: Vec<String> = words
        .chunks(8)
        .map(|row| format!("    {} ∷", row.join(" ∷ ")))
        .collect();
    let outs: Vec<String> = list.outs.iter().map(|o| format!("{o} ∷ ")).collect();
    format!(
        "unfoldable pub steps{n} : List Step\nsteps{n} =\n{} []\n\nunfoldable pub list{n} : StepList\n\
         list{n} = record {{ inputs = {}; cells = {}; steps = steps{n}; outs = {}[] }}\n",
        lines.join("\n"),
        list.inputs,
        list.cells,
        outs.concat()
    )
}

fn step_word(step: &Step) -> String {
    match step {
        Step::Add(to, a, b) => format!("add {to} {a} {b}"),
        Step::Sub(to, a, b) => format!("sub {to} {a} {b}"),
        Step::Neg(to, a) => format!("neg {to} {a}"),
        Step::Mul(to, a, z) if *z < 0 => format!("mul {to} {a} (negsuc {})", -z - 1),
        Step::Mul(to, a, z) => format!("mul {to} {a} (pos {z})"),
    }
}

/// The data: `crates/step_lists/src/stored.rt`.
pub fn stored() -> String {
    let head = "// The three lists as numbers, four to a step; each number is tied to the definition by its function's contract. Written by\n\
        // tests/step_lists --write. A `const` array is built anew at each use, so each is handed out by value once and lent from there.\n\
        ghost use Rattle.std.specs.Prelude.{◌≡◌, map, pos};\n\
        ghost use Rattle.steps.specs.Lists.{list4, list16, list32};\n\
        ghost use Rattle.steps.specs.Numbers.{encode};\n";
    let lists = LISTED.map(|n| stored_list(n, &make(n)));
    format!("{head}\n{}", lists.join("\n"))
}

fn stored_list(n: usize, list: &StepList) -> String {
    let (steps, outs) = (list.numbers(), list.out_numbers());
    // as `rt fmt` lays them out: a line ends behind the comment, which follows a step's first number
    let lines = list.steps.iter().zip(steps.chunks(4)).map(|(step, four)| {
        let [o, to, a, d] = [four[0], four[1], four[2], four[3]];
        format!("{o}, // {}\n    {to}, {a}, {d}, ", meant(step))
    });
    let steps_const = format!(
        "const STEPS_{n}: [i32; {}] = [\n    {}\n];\n",
        steps.len(),
        lines.collect::<String>().trim_end()
    );
    let words: Vec<String> = outs.iter().map(|o| format!("{o}")).collect();
    let outs_lines = if n == 4 {
        words.join(", ")
    } else {
        format!("\n{}\n", filled(&words))
    };
    let outs_const = format!("const OUTS_{n}: [i32; {}] = [{outs_lines}];\n", outs.len());
    format!(
        "{steps_const}\n{outs_const}\n\
         pub fn steps_{n}() -> [i32; {}]\n    ensures {{ result ≡ encode list{n}.steps }}\n{{\n    STEPS_{n}\n}}\n\n\
         pub fn outs_{n}() -> [i32; {}]\n    ensures {{ result ≡ map pos list{n}.outs }}\n{{\n    OUTS_{n}\n}}\n",
        steps.len(),
        outs.len()
    )
}

/// Numbers in lines of at most 99 letters.
fn filled(words: &[String]) -> String {
    let mut lines = vec!["   ".to_string()];
    for word in words {
        let line = lines.last_mut().unwrap();
        if line.len() + word.len() + 2 > 99 {
            lines.push(format!("    {word},"));
        } else {
            *line += &format!(" {word},");
        }
    }
    lines.join("\n")
}

/// A step as the command prints it.
fn meant(step: &Step) -> String {
    match step {
        Step::Add(to, a, b) => format!("c{to} = c{a} + c{b}"),
        Step::Sub(to, a, b) => format!("c{to} = c{a} - c{b}"),
        Step::Neg(to, a) => format!("c{to} = -c{a}"),
        Step::Mul(to, a, constant) => format!("c{to} = c{a} * {constant}"),
    }
}

/// What the command prints of the list of n points.
pub fn printed(n: usize) -> String {
    let list = make(n);
    let inputs = (0..list.inputs).map(|k| format!("c{k} = x{k}\n"));
    let steps = list.steps.iter().map(|step| meant(step) + "\n");
    let outs = list
        .outs
        .iter()
        .enumerate()
        .map(|(k, o)| format!("y{k} = c{o}\n"));
    let of = |kind: fn(&Step) -> bool| list.steps.iter().filter(|step| kind(step)).count();
    let counts = format!(
        "{} inputs, {} outputs, {} cells, {} steps: {} additions, {} subtractions, {} negations, {} multiplications\n",
        list.inputs,
        list.outs.len(),
        list.cells,
        list.steps.len(),
        of(|step| matches!(step, Step::Add(..))),
        of(|step| matches!(step, Step::Sub(..))),
        of(|step| matches!(step, Step::Neg(..))),
        list.multiplying()
    );
    inputs.chain(steps).chain(outs).chain([counts]).collect()
}

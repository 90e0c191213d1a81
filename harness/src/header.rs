//! What `include/hoengtila.h` says of each function's refusals: "Refusals, in this order: 1, 3, 6, 7." in the comment before it, or
//! "Nothing is refused." `each_set` holds a function to it.

const HEADER: &str = include_str!("../../include/hoengtila.h");
const FORM: &str = "Refusals, in this order: ";

/// Each function that the header declares, without `hoengtila_`, and the comment that stands before it.
fn functions() -> Vec<(String, String)> {
    let (mut found, mut comment, mut open) = (vec![], String::new(), false);
    for line in HEADER.lines() {
        if line.starts_with("/*") {
            (comment, open) = (String::new(), true);
        }
        if open {
            let words = line.trim_start_matches(['/', '*', ' ']);
            comment += &format!("{} ", words.trim_end_matches(['/', '*', ' ']));
            open = !line.ends_with("*/");
        } else if let Some(name) = declared(line) {
            found.push((name.to_string(), comment.clone()));
        }
    }
    found
}

fn declared(line: &str) -> Option<&str> {
    let (kind, rest) = line.split_once(" hoengtila_")?;
    let (name, _) = rest.split_once('(')?;
    (!kind.contains(' ') && line.ends_with(");")).then_some(name)
}

/// The numbers of a comment's order, up to the first word that is none.
fn order_of(comment: &str) -> Option<Vec<u32>> {
    let (_, list) = comment.split_once(FORM)?;
    let (list, _) = list.split_once('.')?;
    let number = |word: &str| word.parse().expect("an order is of numbers");
    Some(list.split(", ").map(number).collect())
}

/// A function's refusals, in the header's order.
pub fn order(function: &str) -> Vec<u32> {
    let all = functions();
    let (_, comment) = all
        .iter()
        .find(|(name, _)| name == function)
        .unwrap_or_else(|| panic!("the header has no {function}"));
    order_of(comment).unwrap_or_else(|| panic!("the header has no order for {function}"))
}

/// 0 and the refusals of these functions, each once and sorted: what a test of every refusal has to meet.
pub fn numbers(functions: &[&str]) -> Vec<u32> {
    let mut all: Vec<u32> = functions.iter().flat_map(|f| order(f)).collect();
    all.push(0);
    all.sort_unstable();
    all.dedup();
    all
}

/// Some of a function's refusals.
pub struct Set {
    numbers: Vec<u32>,
}

impl Set {
    /// One of two, the first where the number is in the set.
    pub fn pick<T>(&self, number: u32, wrong: T, right: T) -> T {
        if self.numbers.contains(&number) {
            wrong
        } else {
            right
        }
    }
}

/// Every set of a function's refusals: a call that meets all of them answers the one that comes first in the header's order, and 0
/// for none. `answer` makes the call and hands back its number.
pub fn each_set(function: &str, mut answer: impl FnMut(&Set) -> u32) {
    let order = order(function);
    for bits in 0..1u32 << order.len() {
        let in_set = |k: &usize| bits >> k & 1 == 1;
        let numbers: Vec<u32> = (0..order.len()).filter(in_set).map(|k| order[k]).collect();
        let first = numbers.first().copied().unwrap_or(0);
        let set = Set { numbers };
        let found = answer(&set);
        assert_eq!(found, first, "{function}, where {:?} apply", set.numbers);
    }
}

#[cfg(test)]
mod tests {
    use super::*;

    #[test]
    fn every_function_says_what_it_refuses() {
        let all = functions();
        assert!(all.len() > 20);
        for (name, comment) in all {
            let orders = comment.matches(FORM).count();
            let none = comment.matches("Nothing is refused.").count();
            assert_eq!(orders + none, 1, "{name}: {comment}");
            let mut order = order_of(&comment).unwrap_or_default();
            let count = order.len();
            order.sort_unstable();
            order.dedup();
            assert_eq!(order.len(), count, "{name}: a number twice");
        }
    }

    #[test]
    fn orders_are_read() {
        assert_eq!(order("line_inverse_product"), [1, 3, 6, 7]);
        assert_eq!(numbers(&["steps_list", "block_row"]), [0, 1, 6, 7, 16]);
    }
}

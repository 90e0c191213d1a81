//! The program behind `blocks why`: whole and damaged block files, every count and many places, held to the model.
//!
//! `HOENGTILA_WHY_PROGRAM` gives its command line; `tests/why` at the root of the repository gives it.

use hoengtila_harness::files::{random_file, whole_case};
use hoengtila_harness::model::file::{picked, Picked, TAG_RESIDUALS};
use hoengtila_harness::model::why::{text, why};
use hoengtila_harness::program::run_on;
use hoengtila_harness::random::{seeded, Random};

const VARIABLE: &str = "HOENGTILA_WHY_PROGRAM";

/// What the program writes, what it says where it writes nothing, and its ending.
type Told = (String, String, String);

fn failed(why: &str) -> Told {
    (String::new(), String::new(), format!("2 {why}"))
}

fn wanted(file: &[u8], n: usize, place: &str) -> Told {
    let said = |line: String| (String::new(), line + "\n", "1".to_string());
    let Ok(number) = place.parse::<i64>() else {
        return failed("the place is no number");
    };
    match picked(file, n) {
        Picked::Refused(number, at) => said(format!("R {number} {at}")),
        Picked::Missing => failed("there is no such block"),
        Picked::Block {
            tag: TAG_RESIDUALS, ..
        } => failed("the block is a forward, which has no such parts"),
        Picked::Block {
            at, shape, numbers, ..
        } => {
            let parts = why(&shape, &numbers, number);
            match parts.number {
                0 => (text(&parts, shape.depth), String::new(), "0".to_string()),
                15 => said(format!("R 15 {at} place {place}")),
                number => said(format!("R {number} {at} place {}", parts.place)),
            }
        }
    }
}

/// A place of the block, or one of those that are none.
fn place(random: &mut Random, file: &[u8], n: usize) -> String {
    let elements = match picked(file, n) {
        Picked::Block { numbers, .. } => numbers.len() as i64,
        _ => 16,
    };
    let inside = random.between(0, elements - 1);
    random
        .choose(&[
            inside,
            inside,
            inside,
            0,
            elements - 1,
            elements,
            99_999,
            123_456_789,
        ])
        .to_string()
}

#[test]
fn the_program_prints_what_the_model_does() {
    let command_line = std::env::var(VARIABLE).expect(VARIABLE);
    let run = |file: &[u8], words: &[&str]| {
        let (out, said, ending) = run_on(&command_line, file, words);
        let out = String::from_utf8(out).expect("it prints text");
        (out, said, ending)
    };
    let mut random = seeded();
    let (mut printed, mut refused, mut others) = (0, 0, 0);
    for _ in 0..150 {
        let file = random_file(&mut random);
        for n in 0..4 {
            let place = place(&mut random, &file, n);
            let outcome = run(&file, &[&n.to_string(), &place]);
            let wanted = wanted(&file, n, &place);
            assert_eq!(outcome, wanted, "block {n}, place {place} of {file:02x?}");
            printed += usize::from(outcome.2 == "0");
            refused += usize::from(outcome.2 == "1");
            others += usize::from(outcome.2.starts_with('2'));
        }
    }
    assert!(printed > 50 && refused > 50 && others > 50);

    let file = whole_case();
    for block in ["x", "", "1x", "-1"] {
        let said = failed("the block is no number");
        assert_eq!(run(&file, &[block, "5"]), said, "{block}");
    }
    for block in ["0", "2", "99999", "100001"] {
        let said = failed("there is no such block");
        assert_eq!(run(&file, &[block, "5"]), said, "{block}");
    }
    for place in ["", "x", "5x", "-1", "+5", " 5"] {
        let said = failed("the place is no number");
        assert_eq!(run(&file, &["1", place]), said, "{place}");
    }
    assert_eq!(
        run(&file, &["01", "05"]),
        wanted(&file, 1, "5"),
        "zeros before them"
    );
    println!("why: the program prints the parts of {printed} residuals and refuses {refused} as the model does");
}

//! The program behind `blocks picture`: whole and damaged block files, and every count, held to the model.

use hoengtila_harness::files::{random_file, whole_case};
use hoengtila_harness::model::file::{picked, Picked, TAG_COEFFICIENTS};
use hoengtila_harness::model::{inverse, write_picture};
use hoengtila_harness::program::{run_on, Outcome};
use hoengtila_harness::random::seeded;

/// The environment variable that gives the program's command line.
const VARIABLE: &str = "HOENGTILA_PICTURE_PROGRAM";

fn failed(why: &str) -> Outcome {
    (vec![], String::new(), format!("2 {why}"))
}

/// What the program writes and says: the picture of the n-th data field, or why there is none.
fn wanted(file: &[u8], n: usize) -> Outcome {
    let refused = |number: i64, at: usize| (vec![], format!("R {number} {at}\n"), "1".to_string());
    let (tag, at, shape, mut residuals) = match picked(file, n) {
        Picked::Refused(number, at) => return refused(number, at),
        Picked::Missing => return failed("there is no such block"),
        Picked::Block {
            tag,
            at,
            shape,
            numbers,
        } => (tag, at, shape, numbers),
    };
    if tag == TAG_COEFFICIENTS {
        let coefficients = residuals.clone();
        let answer = inverse(&shape, &coefficients, &mut residuals);
        if answer.number != 0 {
            return refused(answer.number, at);
        }
    }
    let mut picture = vec![0; 2063];
    let written = write_picture(shape.width, shape.height, &residuals, &mut picture);
    if written.number != 0 {
        return refused(written.number, at);
    }
    picture.truncate(written.bytes);
    (picture, String::new(), "0".to_string())
}

#[test]
fn the_program_writes_what_the_model_does() {
    let command_line = std::env::var(VARIABLE).expect(VARIABLE);
    let mut random = seeded();
    let (mut pictures, mut refused) = (0, 0);
    for _ in 0..200 {
        let file = random_file(&mut random);
        for n in 0..4 {
            let outcome = run_on(&command_line, &file, &[&n.to_string()]);
            assert_eq!(outcome, wanted(&file, n), "block {n} of {file:02x?}");
            pictures += usize::from(!outcome.0.is_empty());
            refused += usize::from(outcome.1.starts_with('R'));
        }
    }
    for (count, why) in [
        ("", "the block is no number"),
        ("x", "the block is no number"),
        ("1x", "the block is no number"),
        ("-1", "the block is no number"),
        ("0", "there is no such block"),
        ("99999", "there is no such block"),
        ("100000", "there is no such block"),
        ("99999999999999999999", "there is no such block"),
    ] {
        let outcome = run_on(&command_line, &whole_case(), &[count]);
        assert_eq!(outcome, failed(why), "{count}");
    }
    let first = run_on(&command_line, &whole_case(), &["01"]);
    assert_eq!(first, wanted(&whole_case(), 1), "a zero before it");
    println!("pictures: the program writes {pictures} pictures and refuses {refused} blocks as the model does");
}

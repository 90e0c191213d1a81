//! The program behind `blocks salvage`: what it writes, and the lines that it says.

use crate::files::{damage, stray_bytes, whole};
use hoengtila_harness::model::salvage::saved_of;
use hoengtila_harness::program::run_on;
use hoengtila_harness::random::seeded;

/// The environment variable that gives the program's command line.
const VARIABLE: &str = "HOENGTILA_SALVAGE_PROGRAM";

#[test]
fn the_program_writes_and_says_what_the_model_does() {
    let command_line = std::env::var(VARIABLE).expect(VARIABLE);
    let mut random = seeded();
    let mut lines = 0;
    let mut files = vec![vec![], vec![9; 65_536], stray_bytes(1024)];
    for _ in 0..300 {
        let mut file = whole(&mut random);
        for _ in 0..random.below(4) {
            damage(&mut random, &mut file);
        }
        files.push(file);
    }
    for file in &files {
        let outcome = run_on(&command_line, file, &[]);
        let (saved, dropped) = saved_of(file);
        assert_eq!(outcome, (saved, dropped, "0".to_string()), "{file:02x?}");
        lines += outcome.1.lines().count();
    }
    for (file, said) in [
        (vec![9; 65_537], "R 14 0\n"),
        (stray_bytes(1025), "R 26 0\n"),
    ] {
        assert_eq!(
            run_on(&command_line, &file, &[]),
            (vec![], said.to_string(), "1".to_string())
        );
    }
    println!(
        "salvage: the program writes {} files and says {lines} lines as the model does",
        files.len()
    );
}

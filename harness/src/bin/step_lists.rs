//! Prints one of the three files that the lists of steps are stored in: `definitions` (crates/steps/specs/Lists.antt), `stored`
//! (crates/step_lists/src/stored.rt) or `printed` (crates/blocks_steps/stdout).

use hoengtila_harness::steps::{definitions, printed, stored, LISTED};

fn main() {
    let text = match std::env::args().nth(1).as_deref() {
        Some("definitions") => definitions(),
        Some("stored") => stored(),
        Some("printed") => LISTED.map(printed).concat(),
        _ => panic!("say which file: definitions, stored or printed"),
    };
    print!("{text}");
}

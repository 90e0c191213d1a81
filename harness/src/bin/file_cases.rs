//! Writes the stored files of the crates `file_cases` and `blocks_report` with the text that they must print, and the examples.
//!
//! `file_cases ROOT`: the repository's folder, or one to compare it with. The text is the model's. The crate's program runs
//! the same files and must print it.

use hoengtila_harness::files::{stored, Case};
use hoengtila_harness::model::file::{picked, Picked};
use hoengtila_harness::model::report::{add_file, table, NUMBERS};
use hoengtila_harness::model::run_file;
use hoengtila_harness::model::salvage::saved_of;
use hoengtila_harness::model::why::{text, why};
use std::path::Path;
use std::{env, fs, io};

/// The cases that the examples show.
const EXAMPLES: [&str; 8] = [
    "whole_case",
    "both_directions",
    "shape_replaced",
    "kept_part",
    "refused_after_lines",
    "waves",
    "broken",
    "saved",
];

/// The cases that a report is made of: blocks of several shapes, and one that 9 refuses.
const REPORTED: [&str; 5] = [
    "both_directions",
    "largest_residuals",
    "shape_replaced",
    "waves",
    "09_first",
];

fn write_report(folder: &Path, cases: &[Case]) -> io::Result<()> {
    let data = folder.join("data");
    fs::create_dir_all(&data)?;
    let mut totals = [0; NUMBERS];
    for name in REPORTED {
        let case = cases.iter().find(|case| case.name == name).expect("a case");
        fs::write(data.join(name), &case.file)?;
        assert_eq!(add_file(&mut totals, &case.file), None);
    }
    fs::write(folder.join("args"), REPORTED.join("\n") + "\n-\n")?;
    fs::write(folder.join("stdout"), table(&totals))
}

fn write_cases(folder: &Path, cases: &[Case]) -> io::Result<()> {
    let data = folder.join("data");
    fs::create_dir_all(&data)?;
    let mut names = String::new();
    let mut text = String::new();
    for case in cases {
        fs::write(data.join(&case.name), &case.file)?;
        names += &format!("{}\n", case.name);
        text += &format!("{}:\n{}", case.name, run_file(&case.file));
    }
    fs::write(folder.join("args"), names)?;
    fs::write(folder.join("stdout"), text)
}

fn write_examples(folder: &Path, cases: &[Case]) -> io::Result<()> {
    fs::create_dir_all(folder)?;
    for case in cases
        .iter()
        .filter(|case| EXAMPLES.contains(&case.name.as_str()))
    {
        fs::write(folder.join(format!("{}.bin", case.name)), &case.file)?;
        fs::write(
            folder.join(format!("{}.txt", case.name)),
            run_file(&case.file),
        )?;
        if case.name == "broken" {
            let dropped = saved_of(&case.file).1;
            fs::write(folder.join("broken_dropped.txt"), dropped)?;
        }
        if case.name == "whole_case" {
            fs::write(folder.join("whole_case_why.txt"), reasons(&case.file, 5))?;
        }
    }
    Ok(())
}

/// What `blocks why` prints of a place of the first block.
fn reasons(file: &[u8], place: i64) -> String {
    match picked(file, 1) {
        Picked::Block { shape, numbers, .. } => text(&why(&shape, &numbers, place), shape.depth),
        _ => String::new(),
    }
}

fn main() -> io::Result<()> {
    let root = env::args().nth(1).expect("file_cases ROOT");
    let cases = stored();
    write_cases(&Path::new(&root).join("crates/file_cases"), &cases)?;
    write_report(&Path::new(&root).join("crates/blocks_report"), &cases)?;
    write_examples(&Path::new(&root).join("examples"), &cases)
}

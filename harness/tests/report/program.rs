//! The program: tens of thousands of random blocks in block files, the table held to the model's.

use hoengtila_harness::files::{data, shape};
use hoengtila_harness::model::file::{LARGEST_FILE, TAG_COEFFICIENTS, TAG_RESIDUALS};
use hoengtila_harness::model::report::{add_file, table, Totals, GIVEN, NUMBERS, REFUSED};
use hoengtila_harness::program::run_on;
use hoengtila_harness::random::{seeded, Random};
use hoengtila_harness::room::Room;
use std::path::{Path, PathBuf};

/// The environment variable that gives the program's command line.
const VARIABLE: &str = "HOENGTILA_REPORT_PROGRAM";

/// What the model makes of a file: the totals then, and the line on standard error.
fn by_model(totals: &mut Totals, name: &Path, file: &[u8]) -> String {
    let line = |(number, at)| format!("R {number} {at} {}\n", name.display());
    add_file(totals, file).map(line).unwrap_or_default()
}

/// A shape and some blocks of it.
fn group(random: &mut Random) -> Vec<u8> {
    let size = |random: &mut Random| random.choose(&[4, 4, 4, 8, 8, 16, 32]);
    let (w, h): (u8, u8) = (size(random), size(random));
    let depth = random.choose(&[8, 10, 12]);
    let mut bytes = shape(
        w,
        h,
        random.choose(&[0, 1, 2]),
        random.choose(&[0, 1, 2]),
        depth,
    );
    let count = usize::from(w) * usize::from(h);
    for _ in 0..random.between(1, 4) {
        let high = random.choose(&[3, 255, 1023, 4095]).min((1 << depth) - 1);
        let number = |_| random.between(-high, high) as i16;
        let mut numbers: Vec<i16> = (0..count).map(number).collect();
        if random.once_in(30) {
            numbers[random.below(count)] = random.choose(&[-1, 1]) << depth; // 9
        }
        let tag = if random.once_in(10) {
            TAG_COEFFICIENTS
        } else {
            TAG_RESIDUALS
        };
        bytes.extend(data(tag, &numbers));
    }
    bytes
}

/// Groups up to a file's length.
fn file(random: &mut Random) -> Vec<u8> {
    let mut bytes = Vec::new();
    loop {
        let more = group(random);
        if bytes.len() + more.len() > LARGEST_FILE {
            return bytes;
        }
        bytes.extend(more);
    }
}

struct Run {
    command_line: String,
    room: Room,
}

impl Run {
    fn new(name: &str) -> Run {
        let command_line = std::env::var(VARIABLE).expect(VARIABLE);
        let room = Room::new(env!("CARGO_TARGET_TMPDIR"), &format!("report-{name}"));
        Run { command_line, room }
    }

    fn put(&self, k: usize, bytes: &[u8]) -> PathBuf {
        self.room.put(&format!("{k}.bin"), bytes)
    }

    /// What is printed, said and told at the end.
    fn found(&self, paths: &[PathBuf]) -> (String, String, String) {
        let names = paths.iter().map(|path| path.to_str().expect("text"));
        let words: Vec<&str> = names.chain(["-"]).collect();
        let (out, said, ending) = run_on(&self.command_line, &[], &words);
        let out = String::from_utf8(out).expect("it prints text");
        (out, said, ending)
    }
}

/// The ending of a report with these lines on standard error.
fn ending(said: &str) -> String {
    String::from(if said.is_empty() { "0" } else { "1" })
}

#[test]
fn the_table_of_many_blocks_is_the_models() {
    let run = Run::new("many");
    let mut random = seeded();
    let (mut totals, mut said, mut paths) = ([0; NUMBERS], String::new(), Vec::new());
    while totals[GIVEN] < 30_000 {
        let mut bytes = file(&mut random);
        if random.once_in(4) {
            bytes.truncate(bytes.len() - 1 - random.below(20));
        }
        let path = run.put(paths.len(), &bytes);
        said += &by_model(&mut totals, &path, &bytes);
        paths.push(path);
    }
    assert!(totals[REFUSED] > 100);
    let wanted = table(&totals);
    let told = ending(&said);
    assert_eq!(run.found(&paths), (wanted.clone(), said, told));
    paths.reverse();
    assert_eq!(run.found(&paths).0, wanted, "in another order");
    println!(
        "report: the table of {} blocks in {} files is the model's, in either order",
        totals[GIVEN],
        paths.len()
    );
}

#[test]
fn one_block_too_many_ends_the_report() {
    let run = Run::new("limit");
    let mut bytes = shape(4, 4, 1, 2, 10);
    let mut k = 0;
    while bytes.len() + 35 <= LARGEST_FILE {
        bytes.extend(data(TAG_RESIDUALS, &[k; 16]));
        k = (k + 1) % 1000;
    }
    let paths: Vec<PathBuf> = (0..36).map(|k| run.put(k, &bytes)).collect();
    let mut totals = [0; NUMBERS];
    let said: String = paths
        .iter()
        .map(|path| by_model(&mut totals, path, &bytes))
        .collect();
    assert_eq!(totals[GIVEN], 65_536);
    assert!(said.starts_with("R 22 "));
    assert_eq!(run.found(&paths), (table(&totals), said, "1".to_string()));
}

#[test]
fn no_files_and_no_blocks() {
    let run = Run::new("none");
    let empty = run.put(0, &[]);
    let wanted = (table(&[0; NUMBERS]), String::new(), "0".to_string());
    assert_eq!(run.found(&[]), wanted);
    assert_eq!(run.found(&[empty.clone(), empty.clone()]), wanted);
    let missing = run.room.path().join("missing");
    assert_eq!(
        run.found(&[empty, missing]),
        (String::new(), String::new(), "unread 2".to_string())
    );
}

//! A program that a test runs, and how it tells that it ended.

use std::io::Write;
use std::process::{Command, Output, Stdio};

/// What it writes, what it says on standard error, and the line that it tells on descriptor 3 as its last.
pub type Outcome = (Vec<u8>, String, String);

/// What it gives with the file on its standard input and some words behind its command line. A shell gives it descriptor 3, which is
/// standard error here.
fn output_of(command_line: &str, file: &[u8], words: &[&str]) -> Output {
    let mut child = Command::new("sh")
        .args(["-c", "exec \"$@\" 3>&2", "sh"])
        .args(command_line.split_whitespace())
        .args(words)
        .stdin(Stdio::piped())
        .stdout(Stdio::piped())
        .stderr(Stdio::piped())
        .spawn()
        .expect("the program starts");
    let mut to = child.stdin.take().expect("a pipe");
    // a program reads all that it takes before it writes, and one that refuses a file may leave some of it unread
    let _ = to.write_all(file);
    drop(to);
    child.wait_with_output().expect("the program ends")
}

/// What it writes, of a program that tells no ending.
pub fn written_on(command_line: &str, file: &[u8]) -> Vec<u8> {
    output_of(command_line, file, &[]).stdout
}

/// The outcome: the line that comes last on standard error is the ending.
pub fn run_on(command_line: &str, file: &[u8], words: &[&str]) -> Outcome {
    let output = output_of(command_line, file, words);
    let said = String::from_utf8_lossy(&output.stderr).into_owned();
    let whole = said.strip_suffix('\n').expect("the ending is a line");
    let before = whole.rfind('\n').map_or(0, |at| at + 1);
    let ending = whole[before..].to_string();
    (output.stdout, whole[..before].to_string(), ending)
}

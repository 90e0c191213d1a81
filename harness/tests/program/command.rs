//! The command that is tested, how it is fed, and what it shows.

use hoengtila_harness::model::run_file;
use std::io::Write;
use std::path::{Path, PathBuf};
use std::process::{Child, Command, Stdio};
use std::thread;
use std::time::Duration;

pub const UNREAD: &str = "the input could not be read";
pub const UNWRITTEN: &str = "the answer could not be written";

/// What a run shows: its text, its words on standard error, and its status.
#[derive(Debug, PartialEq)]
pub struct Shown {
    pub out: String,
    pub err: String,
    pub status: Option<i32>,
}

pub fn program() -> PathBuf {
    PathBuf::from(std::env::var("HOENGTILA_PROGRAM").expect("HOENGTILA_PROGRAM names the command"))
}

/// The command with its operands, all three streams in pipes.
pub fn command(operands: &[&str]) -> Command {
    let mut command = Command::new(program());
    command.args(operands);
    piped(&mut command);
    command
}

/// The command as a shell starts it, after and before some words of the shell.
pub fn in_shell(before: &str, operands: &[&str], after: &str) -> Command {
    let mut command = Command::new("sh");
    command.args(["-c", &format!("{before} exec \"$0\" \"$@\" {after}")]);
    command.arg(program()).args(operands);
    piped(&mut command);
    command
}

fn piped(command: &mut Command) {
    command
        .stdin(Stdio::null())
        .stdout(Stdio::piped())
        .stderr(Stdio::piped());
}

pub fn shown(child: Child) -> Shown {
    let output = child.wait_with_output().expect("the program ends");
    Shown {
        out: String::from_utf8(output.stdout).expect("it prints text"),
        err: String::from_utf8(output.stderr).expect("it says text"),
        status: output.status.code(),
    }
}

pub fn run(mut command: Command) -> Shown {
    shown(command.spawn().expect("the program starts"))
}

/// The run of a file that stands on standard input in pieces, with a pause before each but the first. A thread writes
/// while this one reads: the pipes hold less than either text.
pub fn run_pieces(mut command: Command, pieces: &[&[u8]], pause: Duration) -> Shown {
    command.stdin(Stdio::piped());
    let mut child = command.spawn().expect("the program starts");
    let mut input = child.stdin.take().expect("standard input is a pipe");
    thread::scope(|scope| {
        scope.spawn(move || {
            for (k, piece) in pieces.iter().enumerate() {
                if k > 0 {
                    thread::sleep(pause);
                }
                // a program that needs no more of its input may end before all is written
                if input.write_all(piece).is_err() {
                    return;
                }
            }
        });
        shown(child)
    })
}

pub fn run_whole(file: &[u8]) -> Shown {
    run_pieces(command(&[]), &[file], Duration::ZERO)
}

/// What a file is to show: its text, and status 1 where a refusal ended it.
pub fn expected(file: &[u8]) -> Shown {
    let out = run_file(file);
    let refused = out.lines().last().is_some_and(|line| line.starts_with('R'));
    Shown {
        out,
        err: String::new(),
        status: Some(i32::from(refused)),
    }
}

/// A run that gave no answer, and why.
pub fn failed(why: &str) -> Shown {
    Shown {
        out: String::new(),
        err: format!("{}: {why}\n", name(&program())),
        status: Some(2),
    }
}

pub fn name(path: &Path) -> String {
    let name = path.file_name().expect("the command has a name");
    name.to_string_lossy().into_owned()
}

/// Holds the run of a file on standard input to the model.
pub fn check(file: &[u8], what: &str) {
    let (found, wanted) = (run_whole(file), expected(file));
    assert!(
        found == wanted,
        "{what}: {} bytes, {}\nshows {}\nand not {}\n{file:02x?}",
        file.len(),
        difference(&found, &wanted),
        short(&found),
        short(&wanted)
    );
}

fn difference(found: &Shown, wanted: &Shown) -> String {
    let at = found.out.bytes().zip(wanted.out.bytes());
    let at = at.take_while(|(a, b)| a == b).count();
    format!("alike to byte {at} of the text")
}

fn short(shown: &Shown) -> String {
    let end: String = shown.out.chars().rev().take(60).collect();
    format!(
        "{} bytes that end in {:?}, {:?}, status {:?}",
        shown.out.len(),
        end.chars().rev().collect::<String>(),
        shown.err,
        shown.status
    )
}

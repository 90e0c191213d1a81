//! Standard output that does not take all of the answer: that is said, and is no success.

use crate::command::{command, expected, failed, in_shell, run, Shown, UNWRITTEN};
use hoengtila_harness::files::{data, shape};
use hoengtila_harness::model::file::TAG_RESIDUALS;
use hoengtila_harness::room::Room;
use std::fs::{File, OpenOptions};
use std::io::Read;
use std::os::fd::AsRawFd;
use std::os::unix::fs::OpenOptionsExt;
use std::path::{Path, PathBuf};
use std::process::Stdio;

/// Linux's flag for a pipe that is full at once.
const O_NONBLOCK: i32 = 0o4000;

/// A file with an answer that no pipe holds, in a folder of its own.
fn long_file(name: &str) -> (Room, PathBuf, Vec<u8>) {
    let mut file = shape(32, 32, 1, 1, 12);
    for _ in 0..31 {
        file.extend(data(TAG_RESIDUALS, &[-4095; 1024]));
    }
    let room = Room::new(env!("CARGO_TARGET_TMPDIR"), name);
    let path = room.put("long", &file);
    (room, path, file)
}

/// What the command shows of the file where its answer goes to `output`.
fn run_to(path: &Path, output: Stdio) -> Shown {
    let mut command = command(&[path.to_str().expect("the path is text")]);
    command.stdout(output);
    run(command)
}

#[test]
fn a_full_device() {
    let (_room, path, _) = long_file("full");
    let full = File::create("/dev/full").expect("/dev/full opens");
    assert_eq!(run_to(&path, Stdio::from(full)), failed(UNWRITTEN));
}

/// A pipe that takes a part and then no more.
#[test]
fn a_part_of_the_answer() {
    let (_room, path, file) = long_file("part");
    let (mut reader, writer) = std::io::pipe().expect("a pipe can be made");
    let again = format!("/proc/self/fd/{}", writer.as_raw_fd());
    let mut options = OpenOptions::new();
    let full_at_once = options.write(true).custom_flags(O_NONBLOCK).open(again);
    let full_at_once = full_at_once.expect("a pipe opens again");
    assert_eq!(run_to(&path, Stdio::from(full_at_once)), failed(UNWRITTEN));
    drop(writer);
    let mut came = String::new();
    reader.read_to_string(&mut came).expect("what came is text");
    let whole = expected(&file).out;
    assert!(came.len() < whole.len() && whole.starts_with(&came));
}

#[test]
fn nobody_reads() {
    let (_room, path, _) = long_file("nobody");
    let (reader, writer) = std::io::pipe().expect("a pipe can be made");
    drop(reader);
    assert_eq!(run_to(&path, Stdio::from(writer)), failed(UNWRITTEN));
}

#[test]
fn a_closed_descriptor() {
    let (_room, path, _) = long_file("closed");
    let name = path.to_str().expect("the path is text");
    let closed = in_shell("", &[name], ">&-");
    assert_eq!(run(closed), failed(UNWRITTEN));
}

/// A program needs 1 MB of stack; where it has less, that too is said.
#[test]
#[cfg(target_arch = "x86_64")]
fn a_small_stack() {
    let (_room, path, file) = long_file("stack");
    let name = path.to_str().expect("the path is text");
    let enough = in_shell("ulimit -s 1024;", &[name], "");
    assert_eq!(run(enough), expected(&file));
    let little = run(in_shell("ulimit -s 400;", &[name], ""));
    assert_eq!((little.out.as_str(), little.status), ("", Some(2)));
    assert!(little.err.contains("1 MB of stack"), "{}", little.err);
}

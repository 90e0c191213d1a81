//! Standard input in other ways than one pipe that is full at once.

use crate::command::{check, command, expected, failed, in_shell, run, run_pieces, UNREAD};
use hoengtila_harness::files::stored;
use hoengtila_harness::room::Room;
use std::fs::File;
use std::process::Stdio;
use std::time::Duration;

fn file(name: &str) -> Vec<u8> {
    let case = stored().into_iter().find(|case| case.name == name);
    case.expect("a stored case").file
}

/// A pause is long enough for the program to have read what came before it.
#[test]
fn in_pieces() {
    let whole = file("shape_replaced");
    for size in [1, 13, 100, 500] {
        let pieces: Vec<&[u8]> = whole.chunks(size).collect();
        let pause = Duration::from_millis(if size == 1 { 1 } else { 40 });
        let shown = run_pieces(command(&[]), &pieces, pause);
        assert_eq!(shown, expected(&whole), "pieces of {size} bytes");
    }
    for name in ["longest", "too_long"] {
        let whole = file(name);
        let pieces: Vec<&[u8]> = whole.chunks(9000).collect();
        let shown = run_pieces(command(&[]), &pieces, Duration::from_millis(20));
        assert_eq!(shown, expected(&whole), "{name} in pieces");
    }
}

/// A read of a folder fails, and so does one of a descriptor that is closed.
#[test]
fn that_cannot_be_read() {
    let mut folder = command(&[]);
    folder.stdin(Stdio::from(File::open("/").expect("a folder opens")));
    assert_eq!(run(folder), failed(UNREAD), "a folder");
    let named = run(command(&["/"]));
    assert_eq!(named, failed("/ could not be read"), "a folder by name");
    let closed = in_shell("", &[], "<&-");
    assert_eq!(run(closed), failed(UNREAD), "a closed descriptor");
}

/// By its name, from another folder; by `-`; and with standard input closed, which is not needed then.
#[test]
fn from_a_file() {
    let room = Room::new(env!("CARGO_TARGET_TMPDIR"), "input");
    for name in ["whole_case", "refused_after_lines", "too_long", "empty"] {
        let whole = file(name);
        let path = room.put("a file", &whole);
        let mut here = command(&["a file"]);
        here.current_dir(room.path());
        assert_eq!(run(here), expected(&whole), "{name}, by its name");
        let name_of = path.to_str().expect("the path is text");
        let named = command(&["run", name_of]);
        assert_eq!(run(named), expected(&whole), "{name}, run by its name");
        let closed = in_shell("", &[name_of], "<&-");
        assert_eq!(run(closed), expected(&whole), "{name}, with no input");
        for words in [vec!["-"], vec!["run"], vec!["run", "-"]] {
            let shown = run_pieces(command(&words), &[&whole], Duration::ZERO);
            assert_eq!(shown, expected(&whole), "{name}, by {words:?}");
        }
        check(&whole, name);
    }
}

//! The command's own words, and how it is found.

use crate::command::{command, expected, name, program, run, run_pieces};
use hoengtila_harness::files::stored;
use hoengtila_harness::room::Room;
use std::os::unix::fs::symlink;
use std::process::{Command, Stdio};
use std::time::Duration;

/// A call that the command does not understand prints nothing, says one line that starts with its name, and has status 2.
#[test]
fn that_are_not_understood() {
    let calls: [&[&str]; 9] = [
        &["-x"],
        &["--shape"],
        &["a", "b"],
        &["run", "a", "b"],
        &["-", "-"],
        &["help", "run"],
        &["--version", "1"],
        &["/there/is/no/such/file"],
        &[""],
    ];
    for words in calls {
        let shown = run(command(words));
        assert_eq!(
            (shown.out.as_str(), shown.status),
            ("", Some(2)),
            "{words:?}"
        );
        let lines: Vec<&str> = shown.err.lines().collect();
        let start = format!("{}: ", name(&program()));
        assert!(
            lines.len() == 1 && lines[0].starts_with(&start),
            "{words:?}: {}",
            shown.err
        );
    }
}

#[test]
fn that_ask_for_help() {
    for word in ["help", "--help", "-h"] {
        let shown = run(command(&[word]));
        assert_eq!((shown.err.as_str(), shown.status), ("", Some(0)), "{word}");
        for wanted in ["usage: ", "\n  run [FILE] ", "\n  help ", "Status: 0 "] {
            assert!(shown.out.contains(wanted), "{word}: {wanted}");
        }
    }
}

#[test]
fn that_ask_for_the_version() {
    let shown = run(command(&["--version"]));
    assert_eq!((shown.err.as_str(), shown.status), ("", Some(0)));
    let number = shown.out.trim_end().strip_prefix("hoengtila ");
    let number = number.expect("the name comes first");
    assert_eq!(number.split('.').count(), 3, "{number}");
}

/// Through links, the second beside the first, and from another folder.
#[test]
fn through_a_link() {
    let room = Room::new(env!("CARGO_TARGET_TMPDIR"), "link");
    let folder = room.path();
    symlink(program(), folder.join("first")).expect("a link can be made");
    symlink("first", folder.join("second")).expect("a link can be made");
    let whole = stored().remove(0).file;
    let mut linked = Command::new(folder.join("second"));
    linked.current_dir(folder);
    linked.stdout(Stdio::piped()).stderr(Stdio::piped());
    let shown = run_pieces(linked, &[&whole], Duration::ZERO);
    assert_eq!(shown, expected(&whole));
}

//! The script `rehearse` of the repository, which builds what is due and runs
//! the command.

mod support;

use std::path::PathBuf;
use std::process::{Command, Stdio};
use support::{repository, scratch, Ran};

/// A link to the script in a folder of its own.
fn link() -> PathBuf {
    let link = scratch("x", b"").with_file_name("rehearse");
    let script = repository("rehearse").canonicalize().expect("the script");
    std::os::unix::fs::symlink(script, &link).expect("a link");
    link
}

fn run(words: &[&str]) -> Ran {
    let mut command = Command::new(link());
    command.args(words).stdin(Stdio::null());
    command.current_dir(env!("CARGO_TARGET_TMPDIR"));
    Ran::of(&command.output().expect("the script runs"))
}

/// Where the proof's kit is missing, what is due cannot be built.
fn has_kit() -> bool {
    let found = Command::new("rt").arg("doc").output().is_ok();
    if !found {
        eprintln!("skipped: rt is not on the PATH");
    }
    found
}

#[test]
fn it_rehearses_the_example_through_a_link() {
    if !has_kit() {
        return;
    }
    let expected = repository("rust/roffelaine-cli/tests/days/example.out");
    let expected = std::fs::read_to_string(expected).expect("a file");
    let ran = run(&[]);
    assert_eq!((ran.status, ran.out), (0, expected), "{}", ran.err);
    let ran = run(&["--strict", "--csv"]);
    assert_eq!(ran.status, 1, "{}", ran.err);
    assert!(ran.out.starts_with("line,call,account,"), "{}", ran.out);
}

#[test]
fn it_rehearses_a_file_from_where_it_is_called() {
    if !has_kit() {
        return;
    }
    let day = format!("{}accounts 2\nopen\n", support::LIST);
    let file = scratch("my day.txt", day.as_bytes());
    let ran = run(&[file.to_str().expect("a path"), "--strict"]);
    assert_eq!(ran.status, 0, "{}", ran.err);
    assert_eq!(ran.lines()[0], "30 open ok");
}

#[test]
fn it_says_which_file_it_cannot_read_before_it_builds() {
    let ran = run(&["no-such-day.txt"]);
    assert_eq!((ran.status, ran.out.as_str()), (2, ""));
    assert_eq!(ran.err, "rehearse: cannot read no-such-day.txt\n");
}

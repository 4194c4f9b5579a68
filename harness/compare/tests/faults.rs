//! `compare` says nothing of a right stand-in and sees every wrong one.

use std::process::{Command, Output};

fn compare(args: &[&str]) -> Output {
    Command::new(env!("CARGO_BIN_EXE_compare")).args(args).output().expect("compare starts")
}

#[test]
fn right_is_right_and_wrong_is_wrong() {
    let right = compare(&["--files", "1500", "--seed", "3"]);
    assert_eq!(right.status.code(), Some(0), "{}", String::from_utf8_lossy(&right.stdout));
    if library::LINKED {
        return;
    }
    let large = compare(&["--files", "60", "--cells", "65..128"]);
    assert_eq!(large.status.code(), Some(0), "{}", String::from_utf8_lossy(&large.stdout));
    for fault in &library::FAULTS[1..] {
        let wrong = compare(&["--files", "400", "--seed", "3", "--fault", fault]);
        assert_eq!(wrong.status.code(), Some(1), "{fault} is not seen");
    }
}

#[test]
fn flags_not_understood() {
    assert_eq!(compare(&["--questions", "nothing"]).status.code(), Some(2));
    assert_eq!(compare(&["--no-such-flag", "1"]).status.code(), Some(2));
    assert_eq!(compare(&["--cells", "65..129"]).status.code(), Some(2));
}

/// A run that has no time is counted, and the next file is asked.
#[test]
fn late_runs() {
    let late = compare(&["--files", "3", "--damaged", "0", "--limit", "0"]);
    let told = String::from_utf8_lossy(&late.stdout).into_owned();
    assert_eq!(late.status.code(), Some(3), "{told}");
    assert!(told.contains("runs not ended in time: 3, files [0, 1, 2]"), "{told}");
}

/// A given file is asked as a file, a given text as a text; either may be anything.
#[test]
fn given() {
    let path = concat!(env!("CARGO_MANIFEST_DIR"), "/Cargo.toml");
    for (flag, asked, refused) in [("--file", "1 files", "refused  2"), ("--text", "1 texts", "refused 11")] {
        let told = compare(&[flag, path]);
        let text = String::from_utf8_lossy(&told.stdout).into_owned();
        assert_eq!(told.status.code(), Some(0), "{text}");
        assert!(text.contains(asked) && text.contains(refused), "{text}");
        assert_eq!(compare(&[flag, "no such file"]).status.code(), Some(2));
    }
}

//! The stored cases and lines are those that the writer would write. Without the library it says so and stops.

use std::process::Command;

#[test]
fn as_stored() {
    let folder = concat!(env!("CARGO_MANIFEST_DIR"), "/../../crates/vectors");
    let told = Command::new(env!("CARGO_BIN_EXE_vectors")).args(["--check", folder]).output().expect("the writer starts");
    let status = if library::LINKED { 0 } else { 2 };
    assert_eq!(told.status.code(), Some(status), "{}", String::from_utf8_lossy(&told.stderr));
}

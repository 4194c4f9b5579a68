//! Writes the files of `generator::large` into the folder of case files: cases, else harness/cases, or the one named.

use std::path::{Path, PathBuf};

/// The folder named, or the one of the case files.
fn folder() -> PathBuf {
    let here = if Path::new("cases").is_dir() { "cases" } else { "harness/cases" };
    std::env::args().nth(1).unwrap_or(here.into()).into()
}

/// Writes each file; ends with the first that cannot be written.
fn main() -> std::io::Result<()> {
    let folder = folder();
    for (name, case) in generator::large::all() {
        std::fs::write(folder.join(name + ".case"), case.bytes())?;
    }
    Ok(())
}

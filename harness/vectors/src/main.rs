//! Writes the cases of the program `vectors` and the lines that they must print, as the reference replies; or says where the stored ones differ.

#![forbid(unsafe_code)]

mod case;
mod equating;
mod files;
mod ground;
mod runs;
mod sections;
mod texts;
mod typed;

use std::collections::BTreeMap;
use std::path::{Path, PathBuf};
use std::process::ExitCode;

use sections::Section;

/// The most bytes that the program `vectors` reads: the length of `input` in its `main`.
const MOST_BYTES: usize = 393_216;

const HELP: &str = "\
vectors FOLDER: writes FOLDER/stdin, a row of cases, and FOLDER/stdout, the lines that they must print.

  --check    write nothing; say where the two files differ from what would be written

A case is the question's letter, what it asks besides, two bytes for the file's length (high byte first) and the file:
  f  nothing                                accepted CELLS EVENTS FIRST-VARIABLE-OR-DASH
  m  room in two bytes                      marks 0110
  r  room in two bytes                      reduced HEX
  e  cells a and b and room, a byte each    yes and the list's entries, or no
  y  room in two bytes                      yes, or no
  l  a list after a byte for its length     right, or wrong
  p  nothing                                the lines of the program run
  t  room in two bytes                      typed HEX; the file is a typed text
or, for each letter, refused NUMBER at PLACE. The last line counts the cases. Everything follows from fixed seeds.

Where several lists are right, the line has the one that the library shows, if the reference judges it right: so the library must be linked.
Exit status: 0 written, or as stored; 1 something differs, or a reply is in doubt (nothing is written); 2 bad usage, or no library.";

struct Options {
    check: bool,
    folder: PathBuf,
}

fn options() -> Option<Options> {
    let (flags, rest): (Vec<String>, Vec<String>) = std::env::args().skip(1).partition(|word| word.starts_with("--"));
    let known = flags.iter().all(|flag| flag == "--check");
    match &rest[..] {
        [folder] if known => Some(Options { check: !flags.is_empty(), folder: folder.into() }),
        _ => None,
    }
}

fn main() -> ExitCode {
    let Some(options) = options() else {
        eprintln!("{HELP}");
        return ExitCode::from(2);
    };
    if !library::LINKED {
        eprintln!("no library is linked, and equating shows the library's lists: build with PRISMFLEECE_LIB_DIR");
        return ExitCode::from(2);
    }
    match work(&options) {
        Ok(done) => {
            println!("{done}");
            ExitCode::SUCCESS
        }
        Err(why) => {
            eprintln!("{why}");
            ExitCode::FAILURE
        }
    }
}

/// Writes or checks both files; what was done, in a line.
fn work(options: &Options) -> Result<String, String> {
    let sections = sections::sections()?;
    let rows = rows(&sections)?;
    let stdin: Vec<u8> = rows.iter().flat_map(|row| row.case.clone()).collect();
    let stdout: String = rows.iter().map(|row| row.lines.clone() + "\n").collect::<String>() + &format!("{} cases\n", rows.len());
    if stdin.len() > MOST_BYTES {
        return Err(format!("{} bytes of cases, and the program reads {MOST_BYTES}", stdin.len()));
    }
    let summary = format!("{} cases, {} bytes", rows.len(), stdin.len());
    if options.check {
        same_cases(&options.folder, &stdin, &rows)?;
        same_lines(&options.folder, &stdout)?;
        return Ok(format!("{summary}, as stored"));
    }
    let write = |name: &str, bytes: &[u8]| std::fs::write(options.folder.join(name), bytes).map_err(|why| format!("{name}: {why}"));
    write("stdin", &stdin)?;
    write("stdout", stdout.as_bytes())?;
    Ok(counts(&rows) + &summary)
}

/// A case with what it must print.
struct Row {
    section: &'static str,
    case: Vec<u8>,
    lines: String,
}

/// Every case with its lines; an error for the first one in doubt.
fn rows(sections: &[Section]) -> Result<Vec<Row>, String> {
    let mut rows = Vec::new();
    for (section, cases) in sections {
        for case in cases {
            let lines = case.lines().map_err(|why| format!("case {}, section {section}: {why}", rows.len()))?;
            rows.push(Row { section, case: case.bytes(), lines });
        }
    }
    Ok(rows)
}

/// How often each section has each reply, one line for a section.
fn counts(rows: &[Row]) -> String {
    let mut counts: BTreeMap<&str, BTreeMap<String, usize>> = BTreeMap::new();
    for row in rows {
        let refused = row.lines.starts_with("refused");
        let kind = row.lines.split_whitespace().take(1 + refused as usize).collect::<Vec<_>>().join(" ");
        *counts.entry(row.section).or_default().entry(kind).or_default() += 1;
    }
    let kinds =
        |kinds: &BTreeMap<String, usize>| kinds.iter().map(|(kind, count)| format!(" {kind}: {count}")).collect::<Vec<_>>().join(",");
    counts.iter().map(|(section, of)| format!("{section} {}:{}\n", of.values().sum::<usize>(), kinds(of))).collect()
}

/// Whether the stored cases are these; otherwise which is the first that is not.
fn same_cases(folder: &Path, stdin: &[u8], rows: &[Row]) -> Result<(), String> {
    let stored = std::fs::read(folder.join("stdin")).map_err(|why| format!("stdin: {why}"))?;
    if stored == stdin {
        return Ok(());
    }
    let mut at = 0;
    for (number, row) in rows.iter().enumerate() {
        if stored.get(at..at + row.case.len()) != Some(&row.case) {
            return Err(format!("stdin differs from case {number} on, section {}, byte {at}", row.section));
        }
        at += row.case.len();
    }
    Err(format!("stdin has {} bytes too many", stored.len() - at))
}

/// Whether the stored lines are these; otherwise which is the first that is not.
fn same_lines(folder: &Path, stdout: &str) -> Result<(), String> {
    let stored = std::fs::read_to_string(folder.join("stdout")).map_err(|why| format!("stdout: {why}"))?;
    if stored == stdout {
        return Ok(());
    }
    let differs = stored.lines().zip(stdout.lines()).position(|(one, other)| one != other);
    let line = differs.unwrap_or(stored.lines().count().min(stdout.lines().count()));
    let shown = |text: &str| text.lines().nth(line).unwrap_or("missing").to_string();
    Err(format!("stdout differs in line {}: stored {}, to be {}", line + 1, shown(&stored), shown(stdout)))
}

//! Many case files and typed texts through the library and through the reference, every reply compared.

#![forbid(unsafe_code)]

mod ask;
mod buffers;
mod options;
mod smaller;
mod tally;
mod typed;
mod worker;

use std::io::IsTerminal;
use std::process::ExitCode;
use std::time::{Duration, Instant};

use generator::chance::Chance;
use generator::damage::damaged;
use generator::grown::grown;
use generator::shapes;
use generator::text::{hex, readable};
use reference::casefile::{read, CaseFile, Cell};

use ask::Asking;
use options::Options;
use tally::Tally;
use worker::Worker;

fn main() -> ExitCode {
    let options = match Options::read(std::env::args().skip(1)) {
        Ok(options) => options,
        Err(message) => {
            eprintln!("{message}");
            return ExitCode::from(2);
        }
    };
    if options.fault != "none" && !library::set_fault(&options.fault) {
        eprintln!("--fault: of {:?}, and only without the library", library::FAULTS);
        return ExitCode::from(2);
    }
    if options.serve {
        worker::serve();
        return ExitCode::SUCCESS;
    }
    println!(
        "{}",
        if library::LINKED { "the library against the reference" } else { "no library linked: a stand-in against the reference" }
    );
    let start = Instant::now();
    let mut progress = Progress { last: start, start };
    let mut tally = Tally::default();
    let mut worker = Worker::new(&options);
    for number in options.from..options.from + options.files {
        let trace = |what: &str| options.trace.then(|| eprintln!("{what} {number}"));
        if options.asks_files() {
            trace("file");
            let mut chance = Chance::of(options.seed, number);
            let made = match given(&options, || made(&mut chance, &options)) {
                Ok(made) => made,
                Err(message) => return not_read(message),
            };
            if options.only {
                println!("file {number}: {}\n{}", hex(&made.file), readable(&made.file));
            }
            tally.note(format!("files of shape {}", made.shape));
            compare_file(&options, &mut tally, &mut worker, chance, number, &made);
        }
        if options.asks("text") {
            trace("text");
            let mut chance = typed::chance(&options, number);
            let made = match given(&options, || typed::made(&mut chance, &options)) {
                Ok(made) => made,
                Err(message) => return not_read(message),
            };
            if options.only {
                println!("text {number}: {}", made.file.escape_ascii());
            }
            tally.note(format!("texts of shape {}", made.shape));
            typed::compare_text(&options, &mut tally, &mut worker, chance, number, &made);
        }
        progress.show(number + 1 - options.from, options.files, &tally);
    }
    tally.print(&options, start.elapsed());
    if let Some(first) = &tally.first {
        if let Some(small) = smaller::smaller(&options, &mut worker, first.question, &first.file) {
            println!("made smaller:\n{small}");
        }
    }
    ExitCode::from(tally.status())
}

/// The file or text of the path, if one is given, or else a generated one.
fn given(options: &Options, made: impl FnOnce() -> Made) -> Result<Made, String> {
    match &options.path {
        Some(path) => std::fs::read(path).map(|file| Made { shape: "given", file }).map_err(|why| format!("{path}: {why}")),
        None => Ok(made()),
    }
}

fn not_read(message: String) -> ExitCode {
    eprintln!("{message}");
    ExitCode::from(2)
}

/// A file or text for comparing and the name of its shape.
pub struct Made {
    pub shape: &'static str,
    pub file: Vec<u8>,
}

/// A generated file: grown to some number of cells, or as it comes, whole or damaged.
fn made(chance: &mut Chance, options: &Options) -> Made {
    if let Some(cells) = &options.cells {
        let cells = chance.between(*cells.start(), *cells.end());
        let (shape, case) = grown(chance.clone(), cells);
        return Made { shape, file: case.bytes() };
    }
    if chance.percent(options.damaged.unwrap_or(15)) {
        return Made { shape: "damaged", file: damaged(chance.clone()) };
    }
    let (shape, case) = shapes::any(chance.clone());
    Made { shape, file: case.bytes() }
}

/// Asks all questions about a file; marks and reducing also about the file with atoms in place of its variables.
pub fn compare_file(options: &Options, tally: &mut Tally, worker: &mut Worker, mut chance: Chance, number: u64, made: &Made) {
    let (file, shape) = (&made.file[..], made.shape);
    let before = made.file.clone();
    let grounded = read(file).ok().filter(|case| case.first_var.is_some()).map(|case| without_vars(case, &mut chance));
    let mut asking = Asking { options, tally, worker, chance: Chance::new(chance.word()), number, shape, file };
    if options.asks("equate") {
        asking.equate();
    }
    let right = if options.asks("run") { asking.run() } else { None };
    if options.asks("check") {
        asking.check(right);
    }
    asking.ground_questions();
    if let Some(bytes) = grounded {
        Asking { options, tally, worker, chance, number, shape, file: &bytes }.ground_questions();
    }
    if made.file != before {
        tally.differs(number, "run", &before, "the file itself is touched".into());
    }
}

/// The file with an atom in place of each variable.
fn without_vars(mut case: CaseFile, chance: &mut Chance) -> Vec<u8> {
    for cell in &mut case.cells {
        if *cell == Cell::Var {
            *cell = Cell::Atom(chance.below(3) as u16);
        }
    }
    case.bytes()
}

struct Progress {
    start: Instant,
    last: Instant,
}

impl Progress {
    /// A line every two seconds; on a terminal always the same one.
    fn show(&mut self, done: u64, files: u64, tally: &Tally) {
        if self.last.elapsed() < Duration::from_secs(2) {
            return;
        }
        self.last = Instant::now();
        let rate = done as f64 / self.start.elapsed().as_secs_f64();
        let line = format!("{done} of {files} files, {} replies, {} differences, {rate:.0} files/s", tally.calls, tally.differences);
        if std::io::stderr().is_terminal() {
            eprint!("\r{line}   ");
        } else {
            eprintln!("{line}");
        }
    }
}

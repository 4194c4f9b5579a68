//! Times of the library beside the published lazy intruder, growth with the number of cells, and reading long texts, as Markdown tables.

mod clock;
mod growth;
mod measure;
mod runs;
mod stack;
mod texts;

use std::process::ExitCode;
use std::time::Duration;

use measure::Limits;

const HELP: &str = "\
bench: the library's run beside the lazy intruder, as published and with shortcuts, its other questions by size, and long typed texts.

  --cases FOLDER      folder of *.case files (cases, else harness/cases)
  --family NAME       only that family, or those whose name begins with NAME and '-'
  --each N            generated cases per family (15)
  --seed S            seed of the generated cases (1)
  --library-limit MS  time for one run of the library (10000)
  --lazy-limit MS     time for one run of the lazy intruder (2000)
  --only TABLE        runs, growth or texts alone
  --only list         no table: family, bytes and name of each case, for profile.sh
  --once BYTES        one run asked once, for profile.sh
  --only calls        no table: question and shape of each line of the second table, for profile.sh
  --call WORDS        one call of a question, a shape and a number of cells, for profile.sh

Exit status: 0, or 1 if two ways of solving disagree or one with the last word of the case's name, 2 for a flag not understood.";

pub struct Options {
    pub cases: String,
    pub family: String,
    pub each: u64,
    pub seed: u64,
    pub limits: Limits,
    only: String,
    measure: Option<Vec<u8>>,
    once: Option<Vec<u8>>,
    call: Option<String>,
}

fn options() -> Result<Options, String> {
    let here = if std::path::Path::new("cases").is_dir() { "cases" } else { "harness/cases" };
    let limits = Limits { library: Duration::from_secs(10), lazy: Duration::from_secs(2) };
    let (family, only) = (String::new(), String::new());
    let mut options = Options { cases: here.into(), family, each: 15, seed: 1, limits, only, measure: None, once: None, call: None };
    let mut args = std::env::args().skip(1);
    while let Some(flag) = args.next() {
        let value = args.next().ok_or(HELP)?;
        let number = || value.parse::<u64>().map_err(|_| format!("{flag}: {value} is no number"));
        match flag.as_str() {
            "--cases" => options.cases = value,
            "--family" => options.family = value,
            "--each" => options.each = number()?,
            "--seed" => options.seed = number()?,
            "--library-limit" => options.limits.library = Duration::from_millis(number()?),
            "--lazy-limit" => options.limits.lazy = Duration::from_millis(number()?),
            "--only" if ["runs", "growth", "texts", "list", "calls"].contains(&value.as_str()) => options.only = value,
            "--measure" => options.measure = Some(bytes(&value)?),
            "--once" => options.once = Some(bytes(&value)?),
            "--call" => options.call = Some(value),
            _ => return Err(format!("{flag} {value}: not understood\n\n{HELP}")),
        }
    }
    Ok(options)
}

fn bytes(hex: &str) -> Result<Vec<u8>, String> {
    let byte = |i: usize| hex.get(i..i + 2).and_then(|h| u8::from_str_radix(h, 16).ok()).ok_or("bad hexadecimal".to_string());
    (0..hex.len()).step_by(2).map(byte).collect()
}

fn main() -> ExitCode {
    let options = match options() {
        Ok(options) => options,
        Err(message) => {
            eprintln!("{message}");
            return ExitCode::from(2);
        }
    };
    if let Some(file) = &options.measure {
        measure::inside(file, options.limits);
    }
    if let Some(file) = &options.once {
        library::run(file, &mut [0; 128]);
        return ExitCode::SUCCESS;
    }
    if let Some(words) = &options.call {
        return ExitCode::from(if growth::once(words, options.seed) { 0 } else { 2 });
    }
    if options.only == "calls" {
        growth::list(options.seed);
        return ExitCode::SUCCESS;
    }
    if options.only == "list" {
        runs::list(&options);
        return ExitCode::SUCCESS;
    }
    if !library::LINKED {
        println!("No library is linked: the column \"library\" shows a stand-in.\n");
    }
    let asked = |table: &str| options.only.is_empty() || options.only == table;
    let agreed = !asked("runs") || runs::table(&options);
    if asked("growth") {
        growth::table(options.seed);
        println!();
    }
    if asked("texts") {
        texts::table();
    }
    ExitCode::from(!agreed as u8)
}

//! The flags of `compare`.

use std::ops::RangeInclusive;
use std::time::Duration;

use reference::casefile::MOST;

pub const QUESTIONS: [&str; 6] = ["equate", "run", "check", "marks", "reduce", "text"];

pub const HELP: &str = "\
compare: case files and typed texts through the library and through an independent reference, every reply compared.

  --files N        how many files, and as many texts (20000)
  --seed S         the seed all files and texts follow from (1)
  --from I         number of the first file and text (0)
  --only I         one file and one text alone, shown with their replies
  --questions Q,.. of equate, run, check, marks, reduce, and text, which alone asks the texts (all)
  --damaged P      how many files or texts of a hundred are damaged on purpose (15 files, 50 texts)
  --cells LO..HI   only files of LO to HI cells, parts of several shapes in one, none damaged
  --sets N         constraint sets at which the lazy intruder stops unfinished (1500)
  --lists N        value lists up to which all are tried (1500)
  --file PATH      compare this file alone and no generated ones
  --text PATH      compare this text alone and no generated ones
  --fault NAME     let the stand-in be wrong in a known way (only without the library)
  --limit MS       time for one run of the library (10000)
  --trace          the number of each file and text before it is asked, for finding one that never ends or ends the program

Exit status: 0 if all replies agree, 1 if any differs, 2 for a flag not understood, 3 if none differs but some run is not ended in time.";

#[derive(Clone)]
pub struct Options {
    pub files: u64,
    pub seed: u64,
    pub from: u64,
    pub only: bool,
    pub questions: Vec<&'static str>,
    /// How many of a hundred are damaged, where a flag says so.
    pub damaged: Option<usize>,
    /// The numbers of cells to which files are grown; without it files of all shapes are made as they come.
    pub cells: Option<RangeInclusive<usize>>,
    pub sets: usize,
    pub lists: usize,
    pub path: Option<String>,
    pub fault: String,
    pub limit: Duration,
    pub trace: bool,
    /// Whether this process only serves runs, see `worker`.
    pub serve: bool,
}

impl Options {
    pub fn asks(&self, question: &str) -> bool {
        self.questions.contains(&question)
    }

    /// Whether any question is asked of files.
    pub fn asks_files(&self) -> bool {
        self.questions.iter().any(|&question| question != "text")
    }

    /// What holds where no flag says otherwise.
    fn usual() -> Options {
        Options {
            files: 20_000,
            seed: 1,
            from: 0,
            only: false,
            questions: QUESTIONS.to_vec(),
            damaged: None,
            cells: None,
            sets: 1500,
            lists: 1500,
            path: None,
            fault: "none".into(),
            limit: Duration::from_secs(10),
            trace: false,
            serve: false,
        }
    }

    /// Reads the flags; a message if one is not understood.
    pub fn read(mut args: impl Iterator<Item = String>) -> Result<Options, String> {
        let mut options = Options::usual();
        while let Some(flag) = args.next() {
            match flag.as_str() {
                "--trace" => options.trace = true,
                "--serve" => options.serve = true,
                "--help" => return Err(HELP.into()),
                _ => {
                    let value = args.next().ok_or(format!("{flag}: value missing, or no such flag\n\n{HELP}"))?;
                    options.set(&flag, value)?;
                }
            }
        }
        Ok(options)
    }

    /// Takes over one flag with its value.
    fn set(&mut self, flag: &str, value: String) -> Result<(), String> {
        let number = || value.replace('_', "").parse::<u64>().map_err(|_| format!("{flag}: {value} is no number"));
        match flag {
            "--files" => self.files = number()?,
            "--seed" => self.seed = number()?,
            "--from" => self.from = number()?,
            "--only" => {
                self.from = number()?;
                self.files = 1;
                self.only = true;
            }
            "--questions" => self.questions = questions(&value)?,
            "--damaged" => self.damaged = Some(number()? as usize),
            "--cells" => self.cells = Some(cells(&value)?),
            "--sets" => self.sets = number()? as usize,
            "--lists" => self.lists = number()? as usize,
            "--file" | "--text" => {
                self.path = Some(value);
                self.files = 1;
                self.only = true;
                self.questions.retain(|&question| (question == "text") == (flag == "--text"));
            }
            "--fault" => self.fault = value,
            "--limit" => self.limit = Duration::from_millis(number()?),
            _ => return Err(format!("{flag}: no such flag\n\n{HELP}")),
        }
        Ok(())
    }
}

fn questions(value: &str) -> Result<Vec<&'static str>, String> {
    let known = |name: &str| QUESTIONS.iter().find(|&&q| q == name).copied().ok_or(format!("--questions: {name} is none"));
    value.split(',').map(known).collect()
}

/// Numbers of cells, both ends included.
fn cells(value: &str) -> Result<RangeInclusive<usize>, String> {
    let ends = value.split_once("..").and_then(|(low, high)| Some((low.parse().ok()?, high.parse().ok()?)));
    let fits = |&(low, high): &(usize, usize)| 0 < low && low <= high && high <= MOST;
    ends.filter(fits).map(|(low, high)| low..=high).ok_or(format!("--cells: {value} is not LO..HI from 1 to {MOST}"))
}

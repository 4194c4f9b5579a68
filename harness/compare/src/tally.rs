//! Counts of replies, and the first difference.

use std::collections::BTreeMap;
use std::time::Duration;

use generator::text::{hex, readable};

use crate::options::Options;

/// One difference between the library and the reference.
pub struct Difference {
    pub number: u64,
    pub question: &'static str,
    pub file: Vec<u8>,
    pub what: String,
}

impl std::fmt::Display for Difference {
    fn fmt(&self, f: &mut std::fmt::Formatter) -> std::fmt::Result {
        if self.question == "text" {
            return write!(f, "  {}\n  text: {}\n", self.what, self.file.escape_ascii());
        }
        write!(f, "  question {}: {}\n  hex: {}\n{}", self.question, self.what, hex(&self.file), readable(&self.file))
    }
}

#[derive(Default)]
pub struct Tally {
    replies: BTreeMap<(&'static str, String), u64>,
    notes: BTreeMap<String, u64>,
    shapes: BTreeMap<&'static str, [u64; 3]>,
    pub calls: u64,
    pub differences: u64,
    pub first: Option<Difference>,
    /// The longest run of the library and the number of its file.
    pub slowest: (Duration, u64),
    /// The numbers of the files whose run was not ended in time.
    pub late: Vec<u64>,
}

impl Tally {
    pub fn reply(&mut self, question: &'static str, kind: impl Into<String>) {
        self.calls += 1;
        *self.replies.entry((question, kind.into())).or_default() += 1;
    }

    pub fn note(&mut self, what: impl Into<String>) {
        *self.notes.entry(what.into()).or_default() += 1;
    }

    /// Counts a run of a shape: 0 yes with chosen values, 1 yes with name 0 alone, 2 no.
    pub fn shape(&mut self, shape: &'static str, reply: usize) {
        self.shapes.entry(shape).or_default()[reply] += 1;
    }

    pub fn differs(&mut self, number: u64, question: &'static str, file: &[u8], what: String) {
        self.differences += 1;
        self.first.get_or_insert_with(|| Difference { number, question, file: file.to_vec(), what });
    }

    /// The exit status of the program.
    pub fn status(&self) -> u8 {
        match (self.differences, self.late.len()) {
            (0, 0) => 0,
            (0, _) => 3,
            _ => 1,
        }
    }

    pub fn print(&self, options: &Options, time: Duration) {
        let (files, seed) = (options.files, options.seed);
        let asked = match (options.asks_files(), options.asks("text")) {
            (true, true) => format!("{files} files and as many texts"),
            (false, true) => format!("{files} texts"),
            _ => format!("{files} files"),
        };
        println!("{asked}, {} replies, seed {seed}, {:.1} s", self.calls, time.as_secs_f64());
        let mut last = "";
        for ((question, kind), count) in &self.replies {
            if *question != last {
                println!("  {question}");
                last = question;
            }
            println!("    {kind:12} {count}");
        }
        for (what, count) in &self.notes {
            println!("  {what}: {count}");
        }
        for (shape, [chosen, plain, no]) in &self.shapes {
            println!("  runs of shape {shape}: yes with chosen values {chosen}, yes with name 0 alone {plain}, no {no}");
        }
        if self.slowest.0 > Duration::ZERO {
            println!("  slowest run: {:.3} ms, file {}", self.slowest.0.as_secs_f64() * 1e3, self.slowest.1);
        }
        if !self.late.is_empty() {
            println!("  runs not ended in time: {}, files {:?}", self.late.len(), self.late);
        }
        println!("differences: {}", self.differences);
        if let Some(first) = &self.first {
            let what = if first.question == "text" { "text" } else { "file" };
            println!("first difference, {what} {} of seed {seed}:\n{first}", first.number);
        }
    }
}

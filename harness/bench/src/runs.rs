//! The table of runs by family.

use std::time::Duration;

use generator::chance::Chance;
use generator::families;
use generator::text::hex;
use reference::casefile::read;

use crate::clock::{median, shown};
use crate::measure::{outside, Case};
use crate::Options;

struct Family {
    name: String,
    files: Vec<(String, Vec<u8>)>,
}

/// The families of the case folder, by the first word of the file names, then the generated ones.
fn families(options: &Options) -> Vec<Family> {
    let mut files: Vec<(String, Vec<u8>)> = Vec::new();
    for entry in std::fs::read_dir(&options.cases).into_iter().flatten().flatten() {
        let name = entry.file_name().to_string_lossy().into_owned();
        if let (Some(stem), Ok(bytes)) = (name.strip_suffix(".case"), std::fs::read(entry.path())) {
            files.push((stem.to_string(), bytes));
        }
    }
    files.sort();
    let mut families: Vec<Family> = Vec::new();
    for (stem, bytes) in files {
        let name = stem.split('-').next().unwrap_or_default().to_string();
        match families.last_mut() {
            Some(family) if family.name == name => family.files.push((stem, bytes)),
            _ => families.push(Family { name, files: vec![(stem, bytes)] }),
        }
    }
    for (place, name) in families::RUNS.iter().enumerate() {
        let seed = options.seed.wrapping_add(1000 * place as u64);
        let file = |n: u64| (format!("{name} {n}"), families::run(name, Chance::of(seed, n)).bytes());
        let accepted = |n: &u64| read(&file(*n).1).is_ok();
        families.push(Family {
            name: name.to_string(),
            files: (0..options.each * 2).filter(accepted).take(options.each as usize).map(file).collect(),
        });
    }
    families.retain(|family| asked(options, &family.name));
    for name in families::HARD.into_iter().filter(|name| asked(options, name)) {
        let cases = families::hard(name, options.seed, options.each as usize);
        let files = cases.iter().enumerate().map(|(n, case)| (format!("{name} {n}"), case.bytes())).collect();
        families.push(Family { name: name.to_string(), files });
    }
    families
}

/// Whether a family is asked for: all are if none is named.
fn asked(options: &Options, name: &str) -> bool {
    let rest = name.strip_prefix(&options.family);
    options.family.is_empty() || rest.is_some_and(|rest| rest.is_empty() || rest.starts_with('-'))
}

/// Prints family, bytes and name of each case.
pub fn list(options: &Options) {
    for family in families(options) {
        for (name, file) in &family.files {
            println!("{} {} {name}", family.name, hex(file));
        }
    }
}

/// Whether all finished ways of solving give one reply, and that of the name if its last word is one.
fn agreed(name: &str, case: &Case) -> bool {
    let told = name.rsplit('-').next().filter(|word| ["yes", "no"].contains(word));
    let replies: Vec<&str> = told.into_iter().chain(case.iter().map(|d| d.reply.as_str())).filter(|&r| r != "unfinished").collect();
    replies.iter().all(|reply| *reply == replies[0] && ["yes", "no"].contains(reply))
}

/// Median of one way over the cases of a family; unfinished ones count as their limit.
fn middle(cases: &[Case], way: usize) -> Duration {
    median(cases.iter().map(|case| case[way].time).collect())
}

fn unfinished(cases: &[Case], way: usize) -> usize {
    cases.iter().filter(|case| !case[way].finished()).count()
}

/// "more than" where the middle case is unfinished.
fn at_least(cases: &[Case], way: usize) -> &'static str {
    if unfinished(cases, way) >= cases.len() - cases.len() / 2 {
        "> "
    } else {
        ""
    }
}

fn ratio(cases: &[Case], way: usize) -> String {
    let times = middle(cases, way).as_secs_f64() / middle(cases, 0).as_secs_f64();
    format!("{}{:.*}", at_least(cases, way), if times < 10.0 { 2 } else { 0 }, times)
}

fn medians(cases: &[Case], way: usize) -> String {
    format!("{}{}", at_least(cases, way), shown(middle(cases, way)))
}

/// Prints the table; false if two ways of solving disagree on a case, or one with its name.
pub fn table(options: &Options) -> bool {
    let (library, lazy) = (shown(options.limits.library), shown(options.limits.lazy));
    println!("Run: limit {library} for the library, {lazy} for the lazy intruder, which stops unfinished there.");
    println!("Ratios are medians divided by the library's median.\n");
    let lazy_columns = ["as published", "unfinished", "ratio", "with shortcuts", "unfinished", "ratio"].join(" | ");
    println!("| family | cases | yes | no | library | slowest | unfinished | {lazy_columns} | deepest stack |");
    println!("|---|---|---|---|---|---|---|---|---|---|---|---|---|---|");
    let mut all_agreed = true;
    let mut deepest = (0, String::new());
    for family in families(options) {
        let mut cases: Vec<Case> = Vec::new();
        for (name, bytes) in &family.files {
            let case = outside(bytes, options.limits);
            if !agreed(name, &case) {
                eprintln!("{name}: library {}, as published {}, with shortcuts {}", case[0].reply, case[1].reply, case[2].reply);
                all_agreed = false;
            }
            if case[0].extent > deepest.0 {
                deepest = (case[0].extent, name.clone());
            }
            cases.push(case);
        }
        if cases.is_empty() {
            continue;
        }
        let replies = |reply: &str| cases.iter().filter(|case| case.iter().any(|done| done.reply == reply)).count();
        let slowest = cases.iter().map(|case| case[0].time).max().expect("a family has cases");
        let stack = cases.iter().map(|case| case[0].extent).max().expect("a family has cases");
        println!(
            "| {} | {} | {} | {} | {} | {} | {} | {} | {} | {} | {} | {} | {} | {} B |",
            family.name,
            cases.len(),
            replies("yes"),
            replies("no"),
            medians(&cases, 0),
            shown(slowest),
            unfinished(&cases, 0),
            medians(&cases, 1),
            unfinished(&cases, 1),
            ratio(&cases, 1),
            medians(&cases, 2),
            unfinished(&cases, 2),
            ratio(&cases, 2),
            stack
        );
    }
    println!("\nDeepest stack of the library's run: {} bytes, on {}.\n", deepest.0, deepest.1);
    all_agreed
}

//! Makes a differing file or text smaller, as long as the same question still differs.

use generator::chance::Chance;
use reference::casefile::{read, CaseFile, Cell, Event};

use crate::options::Options;
use crate::tally::{Difference, Tally};
use crate::worker::Worker;
use crate::{compare_file, typed, Made};

/// The longest parts that are taken from a text one after the other.
const SHORT: usize = 40;

/// How the question still differs on the file or text, tried with a few sources of chance.
fn difference(options: &Options, worker: &mut Worker, question: &'static str, file: &[u8]) -> Option<Difference> {
    let narrow = Options { questions: vec![question], ..options.clone() };
    let tries = if question == "text" { 2 } else { 12 };
    (0..tries).find_map(|start| {
        let mut tally = Tally::default();
        let compare = if question == "text" { typed::compare_text } else { compare_file };
        compare(&narrow, &mut tally, worker, Chance::new(start), 0, &Made { shape: "smaller", file: file.to_vec() });
        tally.first
    })
}

/// The file without one cell that nothing uses.
fn without_cell(case: &CaseFile, gone: usize) -> Option<CaseFile> {
    let used = case.cells.iter().any(|cell| cell.parts().iter().flatten().any(|&p| p as usize == gone));
    if used || case.events.iter().any(|event| event.cell() as usize == gone) {
        return None;
    }
    let of = |c: u8| if c as usize > gone { c - 1 } else { c };
    let mut less = case.clone();
    less.cells.remove(gone);
    for cell in &mut less.cells {
        *cell = match *cell {
            Cell::Pair(a, b) => Cell::Pair(of(a), of(b)),
            Cell::Seal(a, b) => Cell::Seal(of(a), of(b)),
            Cell::App(f, a) => Cell::App(f, of(a)),
            other => other,
        };
    }
    for event in &mut less.events {
        *event = match *event {
            Event::Make(c) => Event::Make(of(c)),
            Event::Learn(c) => Event::Learn(of(c)),
        };
    }
    Some(less)
}

/// Files with one event or one cell less, or with a simpler cell or event.
fn steps(case: &CaseFile) -> Vec<CaseFile> {
    let mut steps = Vec::new();
    for place in (0..case.events.len()).rev() {
        let mut less = case.clone();
        less.events.remove(place);
        steps.push(less);
    }
    steps.extend((0..case.count()).rev().filter_map(|c| without_cell(case, c)));
    for c in (0..case.count()).rev().filter(|&c| case.cells[c].parts()[0].is_some()) {
        let mut less = case.clone();
        less.cells[c] = Cell::Atom(1);
        steps.push(less);
    }
    for place in 0..case.events.len() {
        for part in case.cells[case.events[place].cell() as usize].parts().into_iter().flatten() {
            let mut less = case.clone();
            less.events[place] = match case.events[place] {
                Event::Make(_) => Event::Make(part),
                Event::Learn(_) => Event::Learn(part),
            };
            steps.push(less);
        }
    }
    steps
}

/// The text without a part, if the difference is still there.
fn without(options: &Options, worker: &mut Worker, text: &[u8], part: std::ops::Range<usize>) -> Option<Vec<u8>> {
    let less = [&text[..part.start], &text[part.end.min(text.len())..]].concat();
    difference(options, worker, "text", &less).map(|_| less)
}

/// A difference on a text from which nothing short can be taken away without losing it.
fn smaller_text(options: &Options, worker: &mut Worker, text: &[u8]) -> Option<Difference> {
    let mut text = text.to_vec();
    let mut width = text.len();
    while width > 0 {
        let mut at = 0;
        while at < text.len() {
            match without(options, worker, &text, at..at + width) {
                Some(less) => text = less,
                None => at += width,
            }
        }
        width /= 2;
    }
    let parts = |size: usize| (1..=SHORT.min(size)).rev().flat_map(move |width| (0..=size - width).map(move |at| at..at + width));
    while let Some(less) = parts(text.len()).find_map(|part| without(options, worker, &text, part)) {
        text = less;
    }
    difference(options, worker, "text", &text)
}

/// A difference on a file that no step makes smaller without losing it, or on such a text; nothing if the file is refused anyway.
pub fn smaller(options: &Options, worker: &mut Worker, question: &'static str, file: &[u8]) -> Option<Difference> {
    if question == "text" {
        return smaller_text(options, worker, file);
    }
    let mut case = read(file).ok()?;
    let mut keeps = |next: &CaseFile| read(&next.bytes()).is_ok() && difference(options, worker, question, &next.bytes()).is_some();
    while let Some(next) = steps(&case).into_iter().find(|next| keeps(next)) {
        case = next;
    }
    difference(options, worker, question, &case.bytes())
}

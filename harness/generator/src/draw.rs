//! Files drawn cell by cell and event by event, as large as asked and with as many variables.

use reference::casefile::{CaseFile, Cell, Event};

use crate::chance::Chance;

/// What a drawn file is like.
pub struct Like {
    pub cells: usize,
    pub events: usize,
    /// How many of a hundred leaves are variables.
    pub variables: usize,
    /// How many names there are to draw from.
    pub names: usize,
    /// How many of a hundred events are `LN`, as far as their variables allow.
    pub learns: usize,
}

/// A part of cell `n`, mostly one that stands close before it.
fn part(chance: &mut Chance, n: usize) -> u8 {
    let first = if chance.percent(60) { n.saturating_sub(6) } else { 0 };
    chance.between(first, n - 1) as u8
}

fn cell(chance: &mut Chance, n: usize, like: &Like) -> Cell {
    match if n == 0 { 0 } else { chance.below(100) } {
        0..=29 if chance.percent(like.variables) => Cell::Var,
        0..=29 => Cell::Atom(chance.below(like.names) as u16),
        30..=54 => Cell::Pair(part(chance, n), part(chance, n)),
        55..=87 => Cell::Seal(part(chance, n), part(chance, n)),
        _ => Cell::App(*chance.pick(&[0, 9]), part(chance, n)),
    }
}

/// Cells of any kind. Names are few, so that equal trees and name 0 are common.
pub fn cells(chance: &mut Chance, like: &Like) -> Vec<Cell> {
    (0..like.cells).map(|n| cell(chance, n, like)).collect()
}

/// An accepted file. An event that would show a variable of no earlier `MK` is no `LN`.
pub fn file(chance: &mut Chance, like: &Like) -> CaseFile {
    let mut case = CaseFile { cells: cells(chance, like), ..CaseFile::default() };
    let (held, mut made) = (case.held(), 0);
    for _ in 0..like.events {
        let c = chance.below(like.cells);
        case.events.push(if chance.percent(like.learns) && held[c] & !made == 0 {
            Event::Learn(c as u8)
        } else {
            made |= held[c];
            Event::Make(c as u8)
        });
    }
    case
}

/// A small file with that many variables among a hundred leaves.
pub fn small(chance: &mut Chance, variables: &[usize]) -> CaseFile {
    let like = Like { cells: chance.between(1, 12), events: chance.below(9), variables: *chance.pick(variables), names: 4, learns: 55 };
    file(chance, &like)
}

/// A file with variables in which an `LN` stands right before an `MK`.
pub fn lively(chance: &mut Chance, most: usize) -> CaseFile {
    loop {
        let like = Like {
            cells: chance.between(5, most),
            events: chance.between(3, (most / 3).max(4)),
            variables: *chance.pick(&[30, 50]),
            names: *chance.pick(&[3, 5, 9]),
            learns: 50,
        };
        let case = file(chance, &like);
        let turns = case.events.windows(2).any(|two| matches!(two, [Event::Learn(_), Event::Make(_)]));
        if turns && case.cells.contains(&Cell::Var) {
            return case;
        }
    }
}

/// The file with one thing wrong, or by luck nothing.
pub fn damaged(chance: &mut Chance, case: &CaseFile) -> Vec<u8> {
    let mut file = case.bytes();
    let at = chance.below(file.len());
    match chance.below(6) {
        0 => file.truncate(at),
        1 => drop(file.remove(at)),
        2 => file.insert(at, chance.byte()),
        3 => file[at] ^= 1 << chance.below(8),
        4 => {
            let record: &[u8] = chance.pick::<&[u8]>(&[b"AT\0\x03", b"VA", b"PR\0\0", b"MK\0", b"LN\0", b"LN\x7f"]);
            file.splice(file.len() - 2..file.len() - 2, record.iter().copied());
        }
        _ => {
            let other = chance.below(file.len());
            file = [&file[..at], &file[other..]].concat();
        }
    }
    file
}

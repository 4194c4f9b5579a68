//! The sections of run and list check.

use generator::chance::Chance;
use generator::{draw, exchanges};
use reference::casefile::{read, written, CaseFile, Cell};
use reference::questions;

use crate::case::right_list;
use crate::sections::WIDE;
use crate::texts::*;

/// A run drawn by chance, in the manner of the exchanges or of any kind.
fn drawn(chance: &mut Chance, exchanges: usize, sizes: &[usize]) -> CaseFile {
    if chance.percent(exchanges) {
        return exchanges::drawn(chance);
    }
    let most = *chance.pick(sizes);
    draw::lively(chance, most)
}

/// The rooms and files for runs. An error if the searches differ.
pub fn runs(chance: &mut Chance) -> Result<Vec<(usize, Vec<u8>)>, String> {
    let mut found = Vec::new();
    for (_, text) in named() {
        found.extend([0, 4, WIDE].map(|room| (room, written(&text))));
    }
    let scripts = exchanges::scripts();
    found.extend(scripts.iter().map(|script| (WIDE, script.case.bytes())));
    for case in scripts.iter().take(12).map(|script| &script.case) {
        found.extend([case.count() - 1, case.count()].map(|room| (room, case.bytes())));
    }
    found.extend(as_many(chance, 160)?.into_iter().map(|case| (WIDE, case.bytes())));
    Ok(found)
}

/// As many drawn runs with the reply "yes" as with "no". Few of them are right with name 0 for every variable.
fn as_many(chance: &mut Chance, count: usize) -> Result<Vec<CaseFile>, String> {
    let (mut found, mut wanted) = (Vec::new(), [count, count]);
    while wanted != [0, 0] {
        let case = drawn(chance, 50, &[8, 12, 18, 26]);
        let Some(reply) = right_list(&case)? else { continue };
        let easy = questions::values_right(&case, &all_own(&case)) && chance.percent(90);
        let left = &mut wanted[reply.is_some() as usize];
        if *left > 0 && !easy {
            *left -= 1;
            found.push(case);
        }
    }
    Ok(found)
}

/// The list with name 0 for every variable.
fn all_own(case: &CaseFile) -> Vec<u8> {
    (0..case.count()).map(|c| if case.cells[c] == Cell::Var { 255 } else { c as u8 }).collect()
}

/// What a variable's entry may be: the cells that are no variables, and name 0.
fn entries(case: &CaseFile) -> Vec<u8> {
    (0..case.count()).filter(|&c| case.cells[c] != Cell::Var).map(|c| c as u8).chain([255]).collect()
}

/// Every list in good form.
fn every_list(case: &CaseFile) -> Vec<Vec<u8>> {
    (0..case.count()).fold(vec![vec![]], |lists, c| {
        let next = if case.cells[c] == Cell::Var { entries(case) } else { vec![c as u8] };
        lists.iter().flat_map(|list| next.iter().map(|&entry| [&list[..], &[entry]].concat())).collect()
    })
}

/// A list and a file.
type Listed = (Vec<u8>, Vec<u8>);

/// The lists and files for the list check. An error if the searches differ.
pub fn lists(chance: &mut Chance) -> Result<Vec<Listed>, String> {
    let mut found = Vec::new();
    let of_i: [&[u8]; 10] =
        [&[0, 255, 2], &[0, 0, 2], &[0, 2, 2], &[0, 1, 2], &[0, 3, 2], &[0, 254, 2], &[1, 255, 2], &[0, 255], &[0, 255, 2, 3], &[]];
    found.extend(of_i.map(|list| (list.to_vec(), written(&of("I")))));
    for file in ["E", "H", "R", "F"].map(|letter| written(&of(letter))) {
        let case = read(&file).expect("an accepted file");
        found.extend(every_list(&case).into_iter().map(|list| (list, file.clone())));
    }
    for letter in ["A", "B", "J", "C"] {
        found.extend([0, 1, 255].map(|length| (vec![0; length], written(&of(letter)))));
    }
    found.extend(refused().map(|text| (vec![0], written(&text))));
    for events in ["", "MK 02"] {
        let file = written(&format!("VA VA PR 00 01 PR 01 00 {events} EN"));
        let round = [[2, 3, 2, 3], [255, 2, 2, 3], [3, 255, 2, 3], [1, 255, 2, 3], [255, 255, 2, 3], [255, 255, 3, 2]];
        found.extend(round.map(|list| (list.to_vec(), file.clone())));
    }
    while found.len() < 265 {
        found.push(drawn_list(chance)?);
    }
    Ok(found)
}

/// A list for a drawn run: a right one with few values changed, or any, and now and then in bad form.
fn drawn_list(chance: &mut Chance) -> Result<Listed, String> {
    let case = drawn(chance, 40, &[8, 14, 20]);
    let right = right_list(&case)?.flatten();
    let mut list = right.clone().unwrap_or(all_own(&case));
    for v in (0..case.count()).filter(|&c| case.cells[c] == Cell::Var) {
        if right.is_none() || chance.percent(12) {
            list[v] = *chance.pick(&entries(&case));
        }
    }
    if chance.percent(15) {
        let c = chance.below(list.len());
        list[c] = chance.byte();
    }
    if chance.percent(7) {
        list.truncate(chance.below(list.len()));
    }
    Ok((list, case.bytes()))
}

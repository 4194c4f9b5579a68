//! Run by trying every permitted value list, for files where these are few.

use crate::casefile::{CaseFile, Cell};
use crate::lazy::Outcome;
use crate::questions::values_right;
use crate::terms::Terms;

/// The variables the events show, and one cell for each message that is no variable and not name 0.
fn choices(case: &CaseFile) -> (Vec<usize>, Vec<u8>) {
    let held = case.held();
    let shown = case.events.iter().fold(0u128, |sum, e| sum | held[e.cell() as usize]);
    let vars = (0..case.count()).filter(|&c| shown >> c & 1 == 1).collect();
    let ids = case.messages(&mut Terms::new());
    let mut cells = Vec::new();
    for c in 0..case.count() {
        let fresh = !ids[..c].contains(&ids[c]);
        if fresh && !matches!(case.cells[c], Cell::Var | Cell::Atom(0)) {
            cells.push(c as u8);
        }
    }
    (vars, cells)
}

/// How many lists there are to try, as far as that can be counted.
pub fn lists(case: &CaseFile) -> usize {
    let (vars, cells) = choices(case);
    (0..vars.len()).fold(1usize, |product, _| product.saturating_mul(cells.len() + 1))
}

/// Tries all lists if they are at most `most`. A variable no event shows gets 255: its value cannot matter.
pub fn solve(case: &CaseFile, most: usize) -> Outcome {
    if lists(case) > most {
        return Outcome::Unfinished;
    }
    let (vars, cells) = choices(case);
    let mut list: Vec<u8> = (0..case.count()).map(|c| if case.cells[c] == Cell::Var { 255 } else { c as u8 }).collect();
    let mut turn = vec![0usize; vars.len()];
    loop {
        if values_right(case, &list) {
            return Outcome::Right(list);
        }
        let Some(place) = turn.iter().position(|&t| t < cells.len()) else {
            return Outcome::None;
        };
        for lower in 0..place {
            turn[lower] = 0;
            list[vars[lower]] = 255;
        }
        list[vars[place]] = cells[turn[place]];
        turn[place] += 1;
    }
}

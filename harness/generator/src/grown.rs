//! Case files with a given number of cells: parts of one shape or of several, one after the other in one draft.

use reference::casefile::CaseFile;
use reference::lazy::{self, Limit, Outcome, SHORTENED};

use crate::chance::Chance;
use crate::draft::Draft;
use crate::planted::planted;
use crate::shapes::{drawn, Maker};

/// A case file with that many cells, and the name of the shape it starts with: some parts of that one, then parts of any.
pub fn grown(mut chance: Chance, cells: usize) -> (&'static str, CaseFile) {
    let (name, make) = drawn(&mut chance);
    let mut draft = Draft::new(chance);
    draft.most = cells;
    let parts = draft.chance.between(1, 4);
    if name == "planted" {
        planted(&mut draft, 4 * parts);
    } else {
        (0..parts).for_each(|_| add(&mut draft, make));
    }
    while draft.count() < cells {
        let (_, make) = drawn(&mut draft.chance);
        add(&mut draft, make);
    }
    (name, draft.done())
}

/// Adds a part. What it asks is mostly taken back if that plainly cannot come true any more; its cells stay.
fn add(draft: &mut Draft, make: Maker) {
    let before = draft.events.len();
    make(draft);
    let case = CaseFile { cells: draft.cells.clone(), events: draft.events.clone(), first_var: None };
    if lazy::solve(&case, SHORTENED, Limit::sets(10)).0 == Outcome::None && !draft.chance.once_in(12) {
        draft.events.truncate(before);
    }
}

//! Files with a planted solution: every variable has a value in mind, and what must be made can be made under these
//! values. A last change breaks some of them, so that what looks solvable is not.

use reference::casefile::{CaseFile, Cell, Event};
use reference::questions::values_right;

use crate::draft::Draft;

/// A draft with the value in mind for each variable.
struct Plant<'a> {
    draft: &'a mut Draft,
    /// One entry per cell: a variable's cell in mind, 255 for one that was there before, else the cell itself.
    list: Vec<u8>,
}

impl Plant<'_> {
    fn keep_up(&mut self) {
        for c in self.list.len()..self.draft.count() {
            self.list.push(if self.draft.cells[c] == Cell::Var { 255 } else { c as u8 });
        }
    }

    /// A variable that stands for the given cell.
    fn var_for(&mut self, c: u8) -> u8 {
        let same = (0..self.list.len()).find(|&v| self.draft.cells[v] == Cell::Var && self.list[v] == self.value(c));
        match same {
            Some(v) if self.draft.chance.percent(70) => v as u8,
            _ if self.draft.count() + 8 >= self.draft.most => c,
            _ => {
                let v = self.draft.var();
                self.keep_up();
                self.list[v as usize] = self.value(c);
                v
            }
        }
    }

    fn value(&self, c: u8) -> u8 {
        match self.draft.cells[c as usize] {
            Cell::Var => self.list[c as usize],
            _ => c,
        }
    }

    /// A copy in which some parts are variables that stand for them.
    fn loosened(&mut self, c: u8, percent: usize) -> u8 {
        if self.draft.chance.percent(percent) {
            return self.var_for(c);
        }
        if self.draft.vast(c) {
            return c;
        }
        let made = match self.draft.cells[c as usize] {
            Cell::Atom(_) | Cell::Var => c,
            Cell::Pair(a, b) => {
                let (a, b) = (self.loosened(a, percent), self.loosened(b, percent));
                self.draft.pair(a, b)
            }
            Cell::Seal(a, b) => {
                let (a, b) = (self.loosened(a, percent), self.loosened(b, percent / 2));
                self.draft.seal(a, b)
            }
            Cell::App(f, a) => {
                let a = self.loosened(a, percent);
                self.draft.app(f, a)
            }
        };
        self.keep_up();
        made
    }

    fn right(&self) -> bool {
        let case = CaseFile { cells: self.draft.cells.clone(), events: self.draft.events.clone(), first_var: None };
        values_right(&case, &self.list)
    }

    /// Wants a cell if that stays right under the values in mind; now and then even if not.
    fn make(&mut self, c: u8) {
        let before = self.draft.events.len();
        self.draft.make(c);
        if !self.right() && !self.draft.chance.once_in(25) {
            self.draft.events.truncate(before);
        }
    }

    fn learn(&mut self, c: u8) {
        let before = self.draft.events.len();
        self.draft.learn(c);
        if !self.right() && !self.draft.chance.once_in(25) {
            self.draft.events.truncate(before);
        }
    }

    /// Something said: new content over old cells, mostly under a key.
    fn said(&mut self, keys: &[u8]) -> u8 {
        let (a, b) = (self.draft.any(), self.draft.any());
        let body = match self.draft.chance.below(6) {
            0 => self.draft.pair(a, b),
            1 => self.draft.app(0, a),
            2 => self.draft.seal(a, b),
            _ => a,
        };
        let made = match self.draft.chance.below(8) {
            0 => body,
            1 | 2 => {
                let key = self.draft.any();
                self.draft.seal(body, key)
            }
            3 => {
                let (x, y) = (*self.draft.chance.pick(keys), self.draft.any());
                let key = self.draft.pair(x, y);
                self.draft.seal(body, key)
            }
            _ => {
                let key = *self.draft.chance.pick(keys);
                self.draft.seal(body, key)
            }
        };
        self.keep_up();
        made
    }
}

/// A story that can come true, and sometimes just cannot any more.
pub fn planted(draft: &mut Draft, rounds: usize) {
    let own = draft.atom(0);
    let atoms: Vec<u8> = (1..=draft.chance.between(3, 6)).map(|n| draft.atom(n as u16)).collect();
    let keys: Vec<u8> = atoms[..2].to_vec();
    let mut plant = Plant { draft, list: Vec::new() };
    plant.keep_up();
    let mut said = vec![own];
    for _ in 0..plant.draft.chance.between(1, 3) {
        let c = plant.said(&keys);
        plant.learn(c);
        said.push(c);
    }
    for _ in 0..rounds {
        for _ in 0..plant.draft.chance.between(1, 2) {
            let c = *plant.draft.chance.pick(&said);
            let percent = *plant.draft.chance.pick(&[20, 40]);
            let wanted = plant.loosened(c, percent);
            plant.make(wanted);
        }
        let c = plant.said(&keys);
        let c = if plant.draft.chance.once_in(2) { plant.loosened(c, 25) } else { c };
        plant.learn(c);
        said.push(c);
    }
    for _ in 0..plant.draft.chance.between(1, 4) {
        let c = plant.draft.any();
        plant.make(c);
    }
    if plant.draft.chance.once_in(2) {
        broken(plant.draft);
    }
}

/// One small change: an event lost or moved, a part or a name exchanged.
fn broken(draft: &mut Draft) {
    let events = draft.events.len();
    match draft.chance.below(4) {
        0 if events > 1 => {
            let place = draft.chance.below(events);
            draft.events.remove(place);
        }
        1 if events > 1 => {
            let place = draft.chance.below(events);
            let event = draft.events.remove(place);
            let place = draft.chance.below(events);
            draft.events.insert(place, event);
        }
        2 => {
            let c = draft.chance.below(draft.count());
            if let Cell::Atom(_) = draft.cells[c] {
                draft.cells[c] = Cell::Atom(draft.chance.below(7) as u16);
            }
        }
        _ => {
            let c = draft.chance.below(draft.count());
            let mut part = |p: u8| if draft.chance.once_in(2) { draft.chance.below(c) as u8 } else { p };
            draft.cells[c] = match draft.cells[c] {
                Cell::Pair(a, b) => Cell::Pair(part(a), part(b)),
                Cell::Seal(a, b) => Cell::Seal(part(a), part(b)),
                Cell::App(f, a) => Cell::App(f, part(a)),
                other => other,
            };
        }
    }
    well_formed(draft);
}

/// Drops each `LN` that shows a variable no earlier `MK` held.
fn well_formed(draft: &mut Draft) {
    let events = std::mem::take(&mut draft.events);
    let held = CaseFile { cells: draft.cells.clone(), ..CaseFile::default() }.held();
    let mut made = 0u128;
    for event in events {
        match event {
            Event::Make(c) => made |= held[c as usize],
            Event::Learn(c) if held[c as usize] & !made != 0 => continue,
            Event::Learn(_) => {}
        }
        draft.events.push(event);
    }
}

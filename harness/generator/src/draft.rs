//! A case file in the making.

use reference::casefile::{CaseFile, Cell, Event, MOST};

use crate::chance::Chance;

/// How many places a message may have that is copied with changes; one with more stays as it is.
const MANY: u64 = 1 << 14;

/// Cells and events so far. Where there is no room for another cell, an old one is given instead.
pub struct Draft {
    pub cells: Vec<Cell>,
    pub events: Vec<Event>,
    /// The most cells, at most 128.
    pub most: usize,
    /// How often, in percent, a cell equal to an old one is made again (a twin) and not reused.
    pub twins: usize,
    pub chance: Chance,
}

impl Draft {
    pub fn new(mut chance: Chance) -> Self {
        let twins = *chance.pick(&[0, 5, 30, 100]);
        Draft { cells: Vec::new(), events: Vec::new(), most: MOST, twins, chance }
    }

    pub fn count(&self) -> usize {
        self.cells.len()
    }

    pub fn cell(&mut self, cell: Cell) -> u8 {
        let old = self.cells.iter().position(|&c| c == cell && c != Cell::Var);
        if let Some(old) = old {
            if !self.chance.percent(self.twins) {
                return old as u8;
            }
        }
        if self.cells.len() == self.most {
            return old.unwrap_or_else(|| self.chance.below(self.most)) as u8;
        }
        self.cells.push(cell);
        (self.cells.len() - 1) as u8
    }

    pub fn atom(&mut self, name: u16) -> u8 {
        self.cell(Cell::Atom(name))
    }

    pub fn var(&mut self) -> u8 {
        self.cell(Cell::Var)
    }

    pub fn pair(&mut self, a: u8, b: u8) -> u8 {
        self.cell(Cell::Pair(a, b))
    }

    pub fn seal(&mut self, body: u8, key: u8) -> u8 {
        self.cell(Cell::Seal(body, key))
    }

    pub fn app(&mut self, function: u8, argument: u8) -> u8 {
        self.cell(Cell::App(function, argument))
    }

    /// Pairs nested to the right.
    pub fn tuple(&mut self, items: &[u8]) -> u8 {
        let (&last, rest) = items.split_last().expect("a tuple has an item");
        rest.iter().rev().fold(last, |sum, &item| self.pair(item, sum))
    }

    pub fn any(&mut self) -> u8 {
        let count = self.cells.len();
        self.chance.below(count) as u8
    }

    pub fn make(&mut self, c: u8) {
        if self.events.len() < MOST {
            self.events.push(Event::Make(c));
        }
    }

    /// Learns a cell. Variables not made yet are made first, so that the file is accepted.
    pub fn learn(&mut self, c: u8) {
        let missing = self.vars_of(c) & !self.made();
        for v in 0..MOST {
            if missing >> v & 1 == 1 {
                self.make(v as u8);
            }
        }
        if self.vars_of(c) & !self.made() == 0 && self.events.len() < MOST {
            self.events.push(Event::Learn(c));
        }
    }

    fn held(&self) -> Vec<u128> {
        CaseFile { cells: self.cells.clone(), ..CaseFile::default() }.held()
    }

    pub fn vars_of(&self, c: u8) -> u128 {
        self.held()[c as usize]
    }

    fn made(&self) -> u128 {
        let held = self.held();
        let made = |e: &Event| if let Event::Make(c) = e { held[*c as usize] } else { 0 };
        self.events.iter().fold(0, |sum, e| sum | made(e))
    }

    /// Whether the tree of a message has so many places that it is not to be gone through place by place.
    pub fn vast(&self, c: u8) -> bool {
        let mut places: Vec<u64> = Vec::with_capacity(self.count());
        for cell in &self.cells[..=c as usize] {
            places.push(cell.parts().iter().flatten().fold(1u64, |sum, &p| sum.saturating_add(places[p as usize])));
        }
        places[c as usize] > MANY
    }

    /// A copy of a message in which some parts give way to variables, old or new.
    pub fn loosen(&mut self, c: u8, percent: usize) -> u8 {
        if self.chance.percent(percent) {
            let old: Vec<u8> = (0..self.count()).filter(|&v| self.cells[v] == Cell::Var).map(|v| v as u8).collect();
            if !old.is_empty() && (self.count() >= self.most || self.chance.percent(40)) {
                return *self.chance.pick(&old);
            }
            return self.var();
        }
        self.rebuilt(c, |draft, part| draft.loosen(part, percent))
    }

    /// A copy of a message in which variables give way to other cells.
    pub fn tighten(&mut self, c: u8, percent: usize) -> u8 {
        if self.cells[c as usize] == Cell::Var && self.chance.percent(percent) {
            return self.any();
        }
        self.rebuilt(c, |draft, part| draft.tighten(part, percent))
    }

    fn rebuilt(&mut self, c: u8, mut part: impl FnMut(&mut Draft, u8) -> u8) -> u8 {
        if self.count() + 4 > self.most || self.vast(c) {
            return c;
        }
        match self.cells[c as usize] {
            Cell::Atom(_) | Cell::Var => c,
            Cell::Pair(a, b) => {
                let (a, b) = (part(self, a), part(self, b));
                self.pair(a, b)
            }
            Cell::Seal(a, b) => {
                let (a, b) = (part(self, a), part(self, b));
                self.seal(a, b)
            }
            Cell::App(f, a) => {
                let a = part(self, a);
                self.app(f, a)
            }
        }
    }

    /// The file, its cells sometimes put in another order that keeps parts before wholes.
    pub fn done(mut self) -> CaseFile {
        if self.chance.once_in(3) {
            self.shuffle();
        }
        CaseFile { cells: self.cells, events: self.events, first_var: None }
    }

    fn shuffle(&mut self) {
        let count = self.cells.len();
        let mut new_number = vec![None; count];
        let mut cells = Vec::with_capacity(count);
        while cells.len() < count {
            let ready =
                |c: &usize| new_number[*c].is_none() && self.cells[*c].parts().iter().flatten().all(|&p| new_number[p as usize].is_some());
            let open: Vec<usize> = (0..count).filter(ready).collect();
            let c = *self.chance.pick(&open);
            let of = |p: u8| new_number[p as usize].expect("parts come first");
            cells.push(match self.cells[c] {
                Cell::Pair(a, b) => Cell::Pair(of(a), of(b)),
                Cell::Seal(a, b) => Cell::Seal(of(a), of(b)),
                Cell::App(f, a) => Cell::App(f, of(a)),
                other => other,
            });
            new_number[c] = Some((cells.len() - 1) as u8);
        }
        let of = |p: u8| new_number[p as usize].expect("every cell has a number");
        for event in &mut self.events {
            *event = match *event {
                Event::Make(c) => Event::Make(of(c)),
                Event::Learn(c) => Event::Learn(of(c)),
            };
        }
        self.cells = cells;
    }
}

//! Reading case files, record by record from the front.

use crate::terms::{Id, Node, Terms};

/// The most cells, and the most events, of a file.
pub const MOST: usize = 128;

#[derive(Clone, Copy, PartialEq, Eq, Hash, Debug)]
pub enum Cell {
    Atom(u16),
    Var,
    Pair(u8, u8),
    Seal(u8, u8),
    App(u8, u8),
}

#[derive(Clone, Copy, PartialEq, Eq, Debug)]
pub enum Event {
    Make(u8),
    Learn(u8),
}

/// A refusal: its number and its place.
#[derive(Clone, Copy, PartialEq, Eq, Debug)]
pub struct Refusal(pub u8, pub usize);

#[derive(Clone, Debug, Default)]
pub struct CaseFile {
    pub cells: Vec<Cell>,
    pub events: Vec<Event>,
    /// Offset of the first `VA` mark, if there is one.
    pub first_var: Option<usize>,
}

impl Cell {
    /// The cells this one is made of.
    pub fn parts(self) -> [Option<u8>; 2] {
        match self {
            Cell::Atom(_) | Cell::Var => [None, None],
            Cell::Pair(a, b) | Cell::Seal(a, b) => [Some(a), Some(b)],
            Cell::App(_, a) => [Some(a), None],
        }
    }
}

impl Event {
    pub fn cell(self) -> u8 {
        match self {
            Event::Make(c) | Event::Learn(c) => c,
        }
    }
}

impl CaseFile {
    pub fn count(&self) -> usize {
        self.cells.len()
    }

    /// For every cell the variables it holds, one bit per cell number.
    pub fn held(&self) -> Vec<u128> {
        let mut held: Vec<u128> = Vec::with_capacity(self.cells.len());
        for (number, cell) in self.cells.iter().enumerate() {
            let own = if *cell == Cell::Var { 1u128 << number } else { 0 };
            held.push(cell.parts().iter().flatten().fold(own, |sum, &p| sum | held[p as usize]));
        }
        held
    }

    /// The message each cell shows, variables standing for themselves.
    pub fn messages(&self, terms: &mut Terms) -> Vec<Id> {
        let mut ids: Vec<Id> = Vec::with_capacity(self.cells.len());
        for (number, cell) in self.cells.iter().enumerate() {
            let node = match *cell {
                Cell::Atom(name) => Node::Atom(name),
                Cell::Var => Node::Var(number as u8),
                Cell::Pair(a, b) => Node::Pair(ids[a as usize], ids[b as usize]),
                Cell::Seal(a, b) => Node::Seal(ids[a as usize], ids[b as usize]),
                Cell::App(f, a) => Node::App(f, ids[a as usize]),
            };
            ids.push(terms.make(node));
        }
        ids
    }

    /// The bytes of this file.
    pub fn bytes(&self) -> Vec<u8> {
        let mut out = Vec::new();
        for cell in &self.cells {
            match *cell {
                Cell::Atom(name) => out.extend([b'A', b'T', (name >> 8) as u8, name as u8]),
                Cell::Var => out.extend(b"VA"),
                Cell::Pair(a, b) => out.extend([b'P', b'R', a, b]),
                Cell::Seal(a, b) => out.extend([b'S', b'E', a, b]),
                Cell::App(f, a) => out.extend([b'A', b'P', f, a]),
            }
        }
        for event in &self.events {
            match *event {
                Event::Make(c) => out.extend([b'M', b'K', c]),
                Event::Learn(c) => out.extend([b'L', b'N', c]),
            }
        }
        out.extend(b"EN");
        out
    }
}

/// The bytes of a file as docs/FORMAT.md writes it: words of capital letters stand for themselves, all others are hexadecimal.
pub fn written(text: &str) -> Vec<u8> {
    let bytes_of = |word: &str| {
        if word.bytes().all(|b| b.is_ascii_uppercase()) {
            return word.as_bytes().to_vec();
        }
        (0..word.len()).step_by(2).map(|i| u8::from_str_radix(&word[i..i + 2], 16).expect("hexadecimal")).collect()
    };
    text.split_whitespace().flat_map(bytes_of).collect()
}

/// How many bytes of fields follow a mark; nothing for an unknown mark.
fn field_bytes(mark: [u8; 2]) -> Option<usize> {
    match &mark {
        b"AT" | b"PR" | b"SE" | b"AP" => Some(2),
        b"MK" | b"LN" => Some(1),
        b"VA" | b"EN" => Some(0),
        _ => None,
    }
}

/// Reads a whole file; the first record at fault decides.
pub fn read(file: &[u8]) -> Result<CaseFile, Refusal> {
    let mut case = CaseFile::default();
    let mut held: Vec<u128> = Vec::new();
    let mut made: u128 = 0;
    let mut at = 0;
    loop {
        let [Some(&high), Some(&low)] = [file.get(at), file.get(at + 1)] else {
            return Err(Refusal(1, at));
        };
        let mark = [high, low];
        let Some(fields) = field_bytes(mark) else {
            return Err(Refusal(2, at));
        };
        let is_event = &mark == b"MK" || &mark == b"LN";
        let is_cell = !is_event && &mark != b"EN";
        if is_cell && !case.events.is_empty() {
            return Err(Refusal(3, at));
        }
        if (is_cell && case.cells.len() == MOST) || (is_event && case.events.len() == MOST) {
            return Err(Refusal(4, at));
        }
        let Some(field) = file.get(at + 2..at + 2 + fields) else {
            return Err(Refusal(1, at));
        };
        let count = case.cells.len();
        let below = |c: u8| (c as usize) < count;
        if is_cell {
            let cell = match &mark {
                b"AT" => Cell::Atom(u16::from_be_bytes([field[0], field[1]])),
                b"PR" => Cell::Pair(field[0], field[1]),
                b"SE" => Cell::Seal(field[0], field[1]),
                b"AP" => Cell::App(field[0], field[1]),
                _ => Cell::Var,
            };
            if !cell.parts().iter().flatten().all(|&p| below(p)) {
                return Err(Refusal(5, at));
            }
            let own = if cell == Cell::Var { 1u128 << count } else { 0 };
            held.push(cell.parts().iter().flatten().fold(own, |sum, &p| sum | held[p as usize]));
            if cell == Cell::Var && case.first_var.is_none() {
                case.first_var = Some(at);
            }
            case.cells.push(cell);
        } else if is_event {
            let cell = field[0];
            if !below(cell) {
                return Err(Refusal(5, at));
            }
            if &mark == b"MK" {
                made |= held[cell as usize];
                case.events.push(Event::Make(cell));
            } else {
                if held[cell as usize] & !made != 0 {
                    return Err(Refusal(6, at));
                }
                case.events.push(Event::Learn(cell));
            }
        } else {
            return if file.len() > at + 2 { Err(Refusal(7, at + 2)) } else { Ok(case) };
        }
        at += 2 + fields;
    }
}

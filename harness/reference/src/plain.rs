//! All questions but the run a second time, by other means: the definitions' closures over cells, tried step by step.
//!
//! Nothing here is used by [`crate::questions`]; the two are held against each other where the library is not linked.

use crate::casefile::Refusal;
use crate::questions::Reply;

/// A record as it lies in the file: where, which mark, which fields.
struct Record<'a> {
    at: usize,
    mark: [u8; 2],
    fields: &'a [u8],
}

const CELLS: [&[u8; 2]; 5] = [b"AT", b"VA", b"PR", b"SE", b"AP"];

fn is_cell(mark: [u8; 2]) -> bool {
    CELLS.contains(&&mark)
}

/// Cuts a file into records up to and with `EN`; the rest says where cutting stopped.
fn cut(file: &[u8]) -> (Vec<Record<'_>>, usize) {
    let mut records = Vec::new();
    let mut at = 0;
    while at + 2 <= file.len() {
        let mark = [file[at], file[at + 1]];
        let length = match &mark {
            b"VA" | b"EN" => 2,
            b"MK" | b"LN" => 3,
            b"AT" | b"PR" | b"SE" | b"AP" => 4,
            _ => break,
        };
        if at + length > file.len() {
            break;
        }
        records.push(Record { at, mark, fields: &file[at + 2..at + length] });
        at += length;
        if &mark == b"EN" {
            break;
        }
    }
    (records, at)
}

/// Cells with kind, first and second field, and events with their cell; or the refusal of the first record at fault.
struct Table {
    cells: Vec<([u8; 2], u8, u8)>,
    events: Vec<([u8; 2], u8)>,
    first_var: Option<usize>,
}

fn parts(cell: ([u8; 2], u8, u8)) -> Vec<usize> {
    match &cell.0 {
        b"PR" | b"SE" => vec![cell.1 as usize, cell.2 as usize],
        b"AP" => vec![cell.2 as usize],
        _ => vec![],
    }
}

fn holds(table: &Table, c: usize, var: usize) -> bool {
    let mut inside = vec![false; c + 1];
    inside[c] = true;
    for d in (0..=c).rev() {
        if inside[d] {
            parts(table.cells[d]).into_iter().for_each(|p| inside[p] = true);
        }
    }
    var <= c && inside[var]
}

fn record_fault(table: &Table, record: &Record) -> Option<u8> {
    let count = table.cells.len();
    if is_cell(record.mark) {
        let cell = (record.mark, *record.fields.first().unwrap_or(&0), *record.fields.get(1).unwrap_or(&0));
        return if parts(cell).iter().any(|&p| p >= count) { Some(5) } else { None };
    }
    if &record.mark == b"EN" {
        return None;
    }
    let cell = record.fields[0] as usize;
    if cell >= count {
        return Some(5);
    }
    if &record.mark == b"LN" {
        let made = |v| table.events.iter().any(|e| &e.0 == b"MK" && holds(table, e.1 as usize, v));
        let shown = (0..count).filter(|&v| &table.cells[v].0 == b"VA" && holds(table, cell, v));
        if shown.into_iter().any(|v| !made(v)) {
            return Some(6);
        }
    }
    None
}

/// The faults a record has before its fields are looked at.
fn early_fault(table: &Table, mark: [u8; 2]) -> Option<u8> {
    if is_cell(mark) && !table.events.is_empty() {
        Some(3)
    } else if (is_cell(mark) && table.cells.len() >= 128) || ((&mark == b"MK" || &mark == b"LN") && table.events.len() >= 128) {
        Some(4)
    } else {
        None
    }
}

fn read(file: &[u8]) -> Result<Table, Refusal> {
    let (records, stopped) = cut(file);
    let mut table = Table { cells: vec![], events: vec![], first_var: None };
    for record in &records {
        if let Some(number) = early_fault(&table, record.mark).or_else(|| record_fault(&table, record)) {
            return Err(Refusal(number, record.at));
        }
        let field = |i: usize| *record.fields.get(i).unwrap_or(&0);
        if is_cell(record.mark) {
            if &record.mark == b"VA" {
                table.first_var = table.first_var.or(Some(record.at));
            }
            table.cells.push((record.mark, field(0), field(1)));
        } else if &record.mark != b"EN" {
            table.events.push((record.mark, field(0)));
        }
    }
    if records.last().is_some_and(|r| &r.mark == b"EN") {
        return if stopped < file.len() { Err(Refusal(7, stopped)) } else { Ok(table) };
    }
    if stopped + 2 > file.len() {
        return Err(Refusal(1, stopped));
    }
    let mark = [file[stopped], file[stopped + 1]];
    if !is_cell(mark) && ![b"MK", b"LN", b"EN"].contains(&&mark) {
        return Err(Refusal(2, stopped));
    }
    Err(Refusal(early_fault(&table, mark).unwrap_or(1), stopped))
}

/// Classes of cells that are equal wherever two given cells are; nothing if two cells of one class clash.
struct Classes {
    class: Vec<usize>,
}

fn unite(table: &Table, a: usize, b: usize) -> Option<Classes> {
    let mut class: Vec<usize> = (0..table.cells.len()).collect();
    let mut work = vec![(a, b)];
    while let Some((a, b)) = work.pop() {
        let (from, to) = (class[a], class[b]);
        if from == to {
            continue;
        }
        let solid = |k: usize| (0..class.len()).find(|&c| class[c] == k && &table.cells[c].0 != b"VA");
        if let (Some(c), Some(d)) = (solid(from), solid(to)) {
            let (left, right) = (table.cells[c], table.cells[d]);
            let clash = match &left.0 {
                b"AT" => (left.1, left.2) != (right.1, right.2),
                b"AP" => left.1 != right.1,
                _ => false,
            };
            if left.0 != right.0 || clash {
                return None;
            }
            work.extend(parts(left).into_iter().zip(parts(right)));
        }
        class.iter_mut().filter(|k| **k == from).for_each(|k| *k = to);
    }
    Some(Classes { class })
}

impl Classes {
    /// The lowest cell of a class that is no variable, else its lowest variable.
    fn shown(&self, table: &Table, c: usize) -> usize {
        let members = || (0..self.class.len()).filter(|&d| self.class[d] == self.class[c]);
        members().find(|&d| &table.cells[d].0 != b"VA").unwrap_or_else(|| members().next().expect("a cell is in its class"))
    }

    /// Whether some class lies inside itself: take away classes whose parts are all gone until nothing changes.
    fn round(&self, table: &Table) -> bool {
        let mut gone = vec![false; self.class.len()];
        loop {
            let ready = |c: usize| parts(table.cells[self.shown(table, c)]).into_iter().all(|p| gone[self.class[p]]);
            match (0..self.class.len()).find(|&c| !gone[self.class[c]] && ready(c)) {
                Some(c) => gone[self.class[c]] = true,
                None => return (0..self.class.len()).any(|c| !gone[self.class[c]]),
            }
        }
    }
}

/// Equating. Without the occurs check the replies are wrong: only a test that differences are seen asks that.
pub fn equate(file: &[u8], a: usize, b: usize, room: usize, occurs_check: bool) -> Reply {
    let table = match read(file) {
        Err(refusal) => return refusal.into(),
        Ok(table) => table,
    };
    let count = table.cells.len();
    if a >= count || b >= count {
        return Reply::Refused(5, count);
    }
    if room < count {
        return Reply::Refused(9, count);
    }
    match unite(&table, a, b) {
        None => Reply::No,
        Some(classes) if occurs_check && classes.round(&table) => Reply::No,
        Some(classes) => {
            let entry = |c: usize| if &table.cells[c].0 == b"VA" { classes.shown(&table, c) } else { c };
            Reply::Bytes((0..count).map(|c| entry(c) as u8).collect())
        }
    }
}

/// A table in which no variable is left: every cell with the number of its message. Number 0 is name 0.
struct Messages {
    tops: Vec<([u8; 2], u8, u8, usize, usize)>,
    of: Vec<usize>,
}

/// Numbers the messages, each variable standing for the cell its entry names. Nothing if an order cannot be found.
fn messages(table: &Table, list: &[u8]) -> Option<Messages> {
    let mut found = Messages { tops: vec![(*b"AT", 0, 0, 0, 0)], of: vec![usize::MAX; table.cells.len()] };
    let mut left = table.cells.len();
    while left > 0 {
        let before = left;
        for (c, &cell) in table.cells.iter().enumerate() {
            let inner = parts(cell);
            if found.of[c] != usize::MAX || inner.iter().any(|&p| found.of[p] == usize::MAX) {
                continue;
            }
            let number = if &cell.0 == b"VA" {
                if list[c] == 255 {
                    0
                } else {
                    found.of[list[c] as usize]
                }
            } else {
                let name = |here: bool, field: u8| if here { field } else { 0 };
                let at = |i: usize| inner.get(i).map_or(0, |&p| found.of[p]);
                let atom = &cell.0 == b"AT";
                let top = (cell.0, name(atom || &cell.0 == b"AP", cell.1), name(atom, cell.2), at(0), at(1));
                found.tops.iter().position(|&t| t == top).unwrap_or_else(|| {
                    found.tops.push(top);
                    found.tops.len() - 1
                })
            };
            if number != usize::MAX {
                found.of[c] = number;
                left -= 1;
            }
        }
        if left == before {
            return None;
        }
    }
    Some(found)
}

impl Messages {
    /// Every message among these that can be built from the learnt ones, by trying each step until none adds anything.
    fn built(&self, learnt: &[usize]) -> Vec<bool> {
        let mut built = vec![false; self.tops.len()];
        built[0] = true;
        learnt.iter().for_each(|&m| built[m] = true);
        loop {
            let mut more = built.clone();
            for (m, &(mark, _, _, a, b)) in self.tops.iter().enumerate() {
                match &mark {
                    b"PR" => {
                        more[m] |= built[a] && built[b];
                        more[a] |= built[m];
                        more[b] |= built[m];
                    }
                    b"SE" => {
                        more[m] |= built[a] && built[b];
                        more[a] |= built[m] && built[b];
                    }
                    b"AP" => more[m] |= built[a],
                    _ => {}
                }
            }
            if more == built {
                return built;
            }
            built = more;
        }
    }

    fn bare(&self, built: &[bool]) -> Vec<usize> {
        let composed = |m: usize| match &self.tops[m].0 {
            b"PR" | b"SE" => built[self.tops[m].3] && built[self.tops[m].4],
            b"AP" => built[self.tops[m].3],
            _ => false,
        };
        (1..self.tops.len()).filter(|&m| built[m] && !composed(m)).collect()
    }
}

fn learnt(table: &Table, shown: &Messages) -> Vec<usize> {
    table.events.iter().filter(|e| &e.0 == b"LN").map(|e| shown.of[e.1 as usize]).collect()
}

pub fn check(file: &[u8], list: &[u8]) -> Reply {
    let table = match read(file) {
        Err(refusal) => return refusal.into(),
        Ok(table) => table,
    };
    if list.len() != table.cells.len() {
        return Reply::Refused(10, table.cells.len());
    }
    for (c, &entry) in list.iter().enumerate() {
        let var = &table.cells[c].0 == b"VA";
        let solid = (entry as usize) < list.len() && &table.cells[entry as usize].0 != b"VA";
        if (var && entry != 255 && !solid) || (!var && entry as usize != c) {
            return Reply::Refused(10, c);
        }
    }
    let Some(shown) = messages(&table, list) else {
        return Reply::No;
    };
    let mut known = Vec::new();
    for (mark, cell) in &table.events {
        let message = shown.of[*cell as usize];
        if mark == b"LN" {
            known.push(message);
        } else if !shown.built(&known)[message] {
            return Reply::No;
        }
    }
    Reply::Right
}

fn ground(file: &[u8]) -> Result<(Table, Messages), Refusal> {
    let table = read(file)?;
    if let Some(offset) = table.first_var {
        return Err(Refusal(8, offset));
    }
    let shown = messages(&table, &[]).expect("cells without variables have an order");
    Ok((table, shown))
}

pub fn marks(file: &[u8], room: usize) -> Reply {
    match ground(file) {
        Err(refusal) => refusal.into(),
        Ok((table, _)) if room < table.cells.len() => Reply::Refused(9, table.cells.len()),
        Ok((table, shown)) => {
            let built = shown.built(&learnt(&table, &shown));
            Reply::Bytes(shown.of.iter().map(|&m| built[m] as u8).collect())
        }
    }
}

/// Reducing. Dropping seals whose body is known is wrong: only a test that differences are seen asks that.
pub fn reduce(file: &[u8], room: usize, drop_known_bodies: bool) -> Reply {
    let (table, shown) = match ground(file) {
        Err(refusal) => return refusal.into(),
        Ok(both) => both,
    };
    let built = shown.built(&learnt(&table, &shown));
    let mut bare = shown.bare(&built);
    bare.retain(|&m| !(drop_known_bodies && &shown.tops[m].0 == b"SE" && built[shown.tops[m].3]));
    let mut inside = vec![false; shown.tops.len()];
    bare.iter().for_each(|&m| inside[m] = true);
    for m in (0..shown.tops.len()).rev() {
        let (mark, _, _, a, b) = shown.tops[m];
        if inside[m] && &mark != b"AT" {
            inside[a] = true;
            inside[b] |= &mark != b"AP";
        }
    }
    let mut order: Vec<usize> = Vec::new();
    let mut done = vec![usize::MAX; shown.tops.len()];
    let mut out = Vec::new();
    while order.len() < inside.iter().filter(|&&i| i).count() {
        let mut level: Vec<(usize, u8, u8, usize)> = Vec::new();
        for m in (0..shown.tops.len()).filter(|&m| inside[m] && done[m] == usize::MAX) {
            let (mark, x, y, a, b) = shown.tops[m];
            let rank = [b"AT", b"PR", b"SE", b"AP"].iter().position(|k| **k == mark).expect("no variables here");
            let ready = match rank {
                0 => true,
                3 => done[a] != usize::MAX,
                _ => done[a] != usize::MAX && done[b] != usize::MAX,
            };
            if ready {
                level.push(match rank {
                    0 => (rank, x, y, m),
                    3 => (rank, x, done[a] as u8, m),
                    _ => (rank, done[a] as u8, done[b] as u8, m),
                });
            }
        }
        level.sort();
        for (rank, x, y, m) in level {
            done[m] = order.len();
            order.push(m);
            out.extend([b"AT", b"PR", b"SE", b"AP"][rank]);
            out.extend([x, y]);
        }
    }
    for (number, m) in order.iter().enumerate() {
        if bare.contains(m) {
            out.extend([b'L', b'N', number as u8]);
        }
    }
    out.extend(b"EN");
    if room < out.len() {
        return Reply::Refused(9, out.len());
    }
    Reply::Bytes(out)
}

//! Typed text a second time, by the productions of its grammar. A byte can stand in a line if it is the next one of some way to put productions in
//! for what is still expected: every symbol has an end, so each such way goes on to a line. A line that is found good is then taken apart from the outside
//! inwards, by its brackets and commas.

use std::rc::Rc;

use crate::casefile::{CaseFile, Cell, Event, Refusal, MOST};
use crate::questions::Reply;

/// How a text is read. All but [`ASKED`] are wrong in some known way.
#[derive(Clone, Copy)]
pub struct Rules {
    /// Numbers may begin with zeros.
    pub zeros: bool,
    /// The deepest nesting.
    pub deepest: usize,
    /// How much deeper a seal's key is nested.
    pub key: usize,
    /// 12 goes before 11 at the same byte.
    pub deep_first: bool,
    /// 4 goes before 11 and 12.
    pub full_first: bool,
    /// Lists are pairs nested to the left.
    pub to_the_left: bool,
    /// Messages that are there are entered again.
    pub twins: bool,
    /// A seal's key is entered before its body.
    pub key_first: bool,
    /// Variables of an `LN` may be in no earlier `MK`.
    pub loose: bool,
    /// The last line may lack its line feed.
    pub open_end: bool,
    /// Each line has variables of its own.
    pub by_line: bool,
}

/// The rules of request 01.
pub const ASKED: Rules = Rules {
    zeros: false,
    deepest: 16,
    key: 1,
    deep_first: false,
    full_first: false,
    to_the_left: false,
    twins: false,
    key_first: false,
    loose: false,
    open_end: false,
    by_line: false,
};

/// What can be expected: a byte, or something with productions.
#[derive(Clone, Copy)]
enum Symbol {
    Byte(u8),
    Message,
    List,
    /// Further messages of a list, each behind a comma.
    More,
    /// A seal's key.
    Key,
    /// A number up to this one.
    Number(u32),
    /// Further digits behind those that give the first number, up to the second.
    Digits(u32, u32),
}

use Symbol::*;

/// Symbols in a row, each so much deeper than what they are put in for.
type Row = &'static [(Symbol, usize)];

const MESSAGE: [Row; 5] = [
    &[(Byte(b'a'), 0), (Number(65_535), 0)],
    &[(Byte(b'X'), 0), (Number(65_535), 0)],
    &[(Byte(b'f'), 0), (Number(255), 0), (Byte(b'('), 0), (List, 1), (Byte(b')'), 0)],
    &[(Byte(b'{'), 0), (Byte(b'|'), 0), (List, 1), (Byte(b'|'), 0), (Byte(b'}'), 0), (Key, 0)],
    &[(Byte(b'('), 0), (List, 1), (Byte(b')'), 0)],
];
const LIST: [Row; 1] = [&[(Message, 0), (More, 0)]];
const MORE: [Row; 2] = [&[(Byte(b','), 0), (Message, 0), (More, 0)], &[]];

/// Symbols that are still expected, the next one in front.
type Expected = Option<Rc<Next>>;

struct Next {
    symbol: Symbol,
    nesting: usize,
    then: Expected,
}

/// The row in front of what is expected already.
fn before(row: &[(Symbol, usize)], nesting: usize, then: &Expected) -> Expected {
    let put = |then, &(symbol, deeper): &(Symbol, usize)| Some(Rc::new(Next { symbol, nesting: nesting + deeper, then }));
    row.iter().rev().fold(then.clone(), put)
}

/// The lines that begin with a word.
fn line_of(word: &[u8]) -> Expected {
    let word: Vec<(Symbol, usize)> = word.iter().map(|&byte| (Byte(byte), 0)).collect();
    before(&word, 0, &before(&[(List, 0), (Byte(b'\n'), 0)], 0, &None))
}

impl Rules {
    /// Every way in which the byte is the next: its nesting, and what is expected behind it.
    fn behind(&self, byte: u8, expected: &Expected, ways: &mut Vec<(usize, Expected)>) {
        let Some(next) = expected else { return };
        let (nesting, then) = (next.nesting, &next.then);
        let mut choose = |rows: &[Row]| {
            for row in rows.iter().filter(|row| !matches!(row, [(Byte(first), _), ..] if *first != byte)) {
                self.behind(byte, &before(row, nesting, then), ways);
            }
        };
        let digit = byte.wrapping_sub(b'0') as u32;
        match next.symbol {
            Byte(wanted) if wanted == byte => ways.push((nesting, then.clone())),
            Byte(_) => {}
            Message => choose(&MESSAGE),
            List => choose(&LIST),
            More => choose(&MORE),
            Key => self.behind(byte, &before(&[(Message, self.key)], nesting, then), ways),
            Number(_) if digit == 0 && !self.zeros => ways.push((nesting, then.clone())),
            Number(most) if digit <= 9 => ways.push((nesting, before(&[(Digits(digit, most), 0)], nesting, then))),
            Number(_) => {}
            Digits(value, most) => {
                choose(&[&[]]);
                if digit <= 9 && value * 10 + digit <= most {
                    ways.push((nesting, before(&[(Digits(value * 10 + digit, most), 0)], nesting, then)));
                }
            }
        }
    }

    /// The end of the line that starts at `start`, or its fault.
    fn end_of_line(&self, text: &[u8], start: usize) -> Result<usize, Refusal> {
        let mut ways = vec![(0, line_of(b"learn ")), (0, line_of(b"make "))];
        let mut next = Vec::new();
        for (at, &byte) in text.iter().enumerate().skip(start) {
            for (_, expected) in &ways {
                self.behind(byte, expected, &mut next);
            }
            if self.deep_first && next.is_empty() && ways.iter().any(|(_, expected)| next_nesting(expected) > self.deepest) {
                return Err(Refusal(12, at));
            }
            std::mem::swap(&mut ways, &mut next);
            next.clear();
            match ways.first() {
                None => return Err(Refusal(11, at)),
                Some((nesting, _)) if *nesting > self.deepest => return Err(Refusal(12, at)),
                Some((_, None)) => return Ok(at + 1),
                Some(_) => {}
            }
        }
        let mut feeds = Vec::new();
        ways.iter().for_each(|(_, expected)| self.behind(b'\n', expected, &mut feeds));
        if self.open_end && !feeds.is_empty() {
            return Ok(text.len());
        }
        Err(Refusal(11, text.len()))
    }
}

/// The nesting of the next symbol.
fn next_nesting(expected: &Expected) -> usize {
    expected.as_ref().map_or(0, |next| next.nesting)
}

/// How many brackets are open behind each byte.
fn depths(bytes: &[u8]) -> impl Iterator<Item = usize> + '_ {
    bytes.iter().scan(0usize, |depth, byte| {
        match byte {
            b'(' | b'{' => *depth += 1,
            b')' | b'}' => *depth = depth.saturating_sub(1),
            _ => {}
        }
        Some(*depth)
    })
}

/// The places of the commas that part a list's messages.
fn commas(list: &[u8]) -> impl Iterator<Item = usize> + '_ {
    depths(list).enumerate().filter(|&(at, depth)| depth == 0 && list[at] == b',').map(|(at, _)| at)
}

/// The number that the digits in front give.
fn number(digits: &[u8]) -> u32 {
    digits.iter().take_while(|digit| digit.is_ascii_digit()).fold(0, |value, digit| value * 10 + (digit - b'0') as u32)
}

/// The cells with what they are of: a variable's cell has the line, where that counts, and its number.
struct Cells<'a> {
    rules: &'a Rules,
    line: usize,
    cells: Vec<(Cell, [usize; 2])>,
}

impl Cells<'_> {
    /// The number of a cell, the first one like it. Nothing if it is the 129th.
    fn enter(&mut self, cell: Cell, variable: usize) -> Option<u8> {
        let line = if self.rules.by_line && cell == Cell::Var { self.line } else { 0 };
        let entry = (cell, [line, variable]);
        let again = self.rules.twins && cell != Cell::Var;
        let old = self.cells.iter().position(|other| *other == entry && !again);
        let number = old.unwrap_or(self.cells.len());
        if number == self.cells.len() {
            self.cells.push(entry);
        }
        u8::try_from(number).ok().filter(|&number| (number as usize) < MOST)
    }

    fn list(&mut self, list: &[u8]) -> Option<u8> {
        let mut items = Vec::new();
        let mut from = 0;
        for comma in commas(list).chain([list.len()]) {
            items.push(self.message(&list[from..comma])?);
            from = comma + 1;
        }
        if self.rules.to_the_left {
            return items.into_iter().map(Some).reduce(|left, right| self.enter(Cell::Pair(left?, right?), 0))?;
        }
        items.into_iter().rev().map(Some).reduce(|right, left| self.enter(Cell::Pair(left?, right?), 0))?
    }

    fn message(&mut self, message: &[u8]) -> Option<u8> {
        let inner = |from: usize| &message[from..message.len() - 1];
        match message[0] {
            b'a' => self.enter(Cell::Atom(number(&message[1..]) as u16), 0),
            b'X' => self.enter(Cell::Var, number(&message[1..]) as usize),
            b'f' => {
                let open = message.iter().position(|&byte| byte == b'(')?;
                let argument = self.list(inner(open + 1))?;
                self.enter(Cell::App(number(&message[1..]) as u8, argument), 0)
            }
            b'{' => {
                let close = depths(message).position(|depth| depth == 0)?;
                let (body, key) = (&message[2..close - 1], &message[close + 1..]);
                let key_before = if self.rules.key_first { Some(self.message(key)?) } else { None };
                let body = self.list(body)?;
                let key = key_before.or_else(|| self.message(key))?;
                self.enter(Cell::Seal(body, key), 0)
            }
            _ => self.list(inner(1)),
        }
    }
}

/// Whether the messages before a fault in a line bring the 129th cell, or the line is the 129th event.
fn full(cells: &mut Cells, events: usize, line: &[u8]) -> bool {
    let list = line.splitn(2, |&byte| byte == b' ').nth(1).unwrap_or_default();
    let whole = commas(list).last();
    events == MOST || whole.is_some_and(|end| cells.list(&list[..end]).is_none())
}

/// The cells and events of a text, read by the rules.
fn read(text: &[u8], rules: Rules) -> Result<CaseFile, Refusal> {
    let mut cells = Cells { rules: &rules, line: 0, cells: vec![] };
    let mut case = CaseFile::default();
    let mut start = 0;
    while start < text.len() {
        let end = match rules.end_of_line(text, start) {
            Err(Refusal(_, at)) if rules.full_first && full(&mut cells, case.events.len(), &text[start..at]) => {
                return Err(Refusal(4, start))
            }
            other => other?,
        };
        let line = text[start..end].strip_suffix(b"\n").unwrap_or(&text[start..end]);
        let word = line.iter().position(|&byte| byte == b' ').expect("a space behind the word");
        cells.line = start;
        let cell = cells.list(&line[word + 1..]);
        let Some(cell) = cell.filter(|_| case.events.len() < MOST) else { return Err(Refusal(4, start)) };
        case.cells = cells.cells.iter().map(|&(cell, _)| cell).collect();
        let held = case.held();
        let made = |event: &Event| if let Event::Make(cell) = event { held[*cell as usize] } else { 0 };
        let made = case.events.iter().fold(0, |sum, event| sum | made(event));
        if &line[..word] == b"learn" && held[cell as usize] & !made != 0 && !rules.loose {
            return Err(Refusal(6, start));
        }
        case.events.push(if &line[..word] == b"learn" { Event::Learn(cell) } else { Event::Make(cell) });
        start = end;
    }
    Ok(case)
}

/// The file of a text, for a buffer of `room` bytes.
pub fn file(text: &[u8], room: usize, rules: Rules) -> Reply {
    let bytes = match read(text, rules) {
        Err(refusal) => return refusal.into(),
        Ok(case) => case.bytes(),
    };
    if room < bytes.len() {
        return Reply::Refused(9, bytes.len());
    }
    Reply::Bytes(bytes)
}

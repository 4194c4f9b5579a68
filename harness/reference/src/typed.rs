//! Typed text into a case file, as request 01 asks: each line is read byte by byte by an automaton with a stack of its own, which leaves the
//! line's message as a tree; then the tree's parts are entered as cells.
//!
//! ```text
//! line    = ("learn" | "make") " " list LF
//! list    = message ("," message)*
//! message = "a" number | "X" number | "f" number "(" list ")" | "{|" list "|}" message | "(" list ")"
//! number  = "0" | digit from 1 to 9, digits                      at most 65,535, behind f at most 255
//! ```
//!
//! A line's list is at nesting 0. A message has the nesting of its list, and so have its own bytes; the list inside a bracket and a seal's key are one
//! deeper.

use crate::casefile::{CaseFile, Cell, Event, Refusal, MOST};
use crate::questions::Reply;
use crate::terms::QuickMap;

/// The deepest nesting that is read.
pub const DEEPEST: usize = 16;

/// The place of a tree among those of its line.
type Place = usize;

/// A message as typed; a list is pairs nested to the right, and round brackets leave no trace.
#[derive(Clone, Copy)]
enum Tree {
    Atom(u16),
    Var(u16),
    Pair(Place, Place),
    Seal(Place, Place),
    App(u8, Place),
}

/// What a number is behind.
#[derive(Clone, Copy)]
enum Letter {
    A,
    X,
    F,
}

impl Letter {
    fn most(self) -> u32 {
        match self {
            Letter::A | Letter::X => 65_535,
            Letter::F => 255,
        }
    }
}

/// What a list stands in, and so which byte may end it.
#[derive(Clone, Copy)]
enum Holder {
    Line,
    Group,
    Argument(u8),
    Body,
}

impl Holder {
    fn last(self) -> u8 {
        match self {
            Holder::Line => b'\n',
            Holder::Group | Holder::Argument(_) => b')',
            Holder::Body => b'|',
        }
    }
}

/// What is begun and not yet complete, one frame for each nesting.
enum Frame {
    /// A list, and its messages so far.
    List(Holder, Vec<Place>),
    /// A seal with this body, whose key is being read.
    Key(Place),
}

/// What the next byte is part of.
#[derive(Clone, Copy)]
enum State {
    Start,
    /// The rest of the line's word and the space behind it.
    Word(&'static [u8]),
    Message,
    /// The bar of `{|`.
    Bar,
    /// The first digit.
    Number(Letter),
    /// Digits that give this number so far, or what follows it.
    Digits(Letter, u32),
    /// What follows a message.
    Joint,
    /// The brace of `|}`, behind this body.
    Brace(Place),
    /// Nothing: the line has this message.
    Ended(Place),
}

/// One line being read.
struct Automaton {
    state: State,
    learns: bool,
    stack: Vec<Frame>,
    trees: Vec<Tree>,
}

impl Automaton {
    fn new() -> Automaton {
        Automaton { state: State::Start, learns: false, stack: vec![Frame::List(Holder::Line, vec![])], trees: vec![] }
    }

    /// The nesting of the message or list that is being read.
    fn nesting(&self) -> usize {
        self.stack.len() - 1
    }

    fn tree(&mut self, tree: Tree) -> Place {
        self.trees.push(tree);
        self.trees.len() - 1
    }

    fn begin(&mut self, holder: Holder) -> State {
        self.stack.push(Frame::List(holder, vec![]));
        State::Message
    }

    /// Takes in a byte and gives its nesting; nothing if no line that begins with the bytes so far has it next.
    fn step(&mut self, byte: u8) -> Option<usize> {
        let nesting = self.nesting();
        let digit = byte.wrapping_sub(b'0') as u32;
        self.state = match (self.state, byte) {
            (State::Start, b'l') => {
                self.learns = true;
                State::Word(b"earn ")
            }
            (State::Start, b'm') => State::Word(b"ake "),
            (State::Word([next]), _) if *next == byte => State::Message,
            (State::Word([next, rest @ ..]), _) if *next == byte => State::Word(rest),
            (State::Message, b'a') => State::Number(Letter::A),
            (State::Message, b'X') => State::Number(Letter::X),
            (State::Message, b'f') => State::Number(Letter::F),
            (State::Message, b'(') => self.begin(Holder::Group),
            (State::Message, b'{') => State::Bar,
            (State::Bar, b'|') => self.begin(Holder::Body),
            (State::Number(letter), _) if digit <= 9 => State::Digits(letter, digit),
            (State::Digits(letter, value), _) if digit <= 9 => {
                let value = Some(value).filter(|&value| value > 0)? * 10 + digit;
                State::Digits(letter, Some(value).filter(|&value| value <= letter.most())?)
            }
            (State::Digits(Letter::F, function), b'(') => self.begin(Holder::Argument(function as u8)),
            (State::Digits(Letter::A, name), _) => return self.behind(Tree::Atom(name as u16), byte),
            (State::Digits(Letter::X, number), _) => return self.behind(Tree::Var(number as u16), byte),
            (State::Brace(body), b'}') => {
                self.stack.push(Frame::Key(body));
                State::Message
            }
            (State::Joint, _) => return self.joint(byte),
            _ => return None,
        };
        Some(nesting)
    }

    /// A leaf is complete, and the byte stands behind it.
    fn behind(&mut self, leaf: Tree, byte: u8) -> Option<usize> {
        let place = self.tree(leaf);
        self.complete(place);
        self.joint(byte)
    }

    /// A message is complete: with it the seals whose key it is, and the last of them goes into its list.
    fn complete(&mut self, message: Place) {
        self.state = State::Joint;
        let mut message = message;
        while let Some(&Frame::Key(body)) = self.stack.last() {
            self.stack.pop();
            message = self.tree(Tree::Seal(body, message));
        }
        let Some(Frame::List(_, items)) = self.stack.last_mut() else { unreachable!("the line's list is at the bottom") };
        items.push(message);
    }

    /// A byte behind a message: a comma, or what ends the list.
    fn joint(&mut self, byte: u8) -> Option<usize> {
        if byte == b',' {
            self.state = State::Message;
            return Some(self.nesting());
        }
        let Some(Frame::List(holder, items)) = self.stack.last() else { unreachable!("complete messages stand in lists") };
        let (holder, items) = (*holder, items.clone());
        if byte != holder.last() {
            return None;
        }
        self.stack.pop();
        let (&last, others) = items.split_last().expect("a message stands before a joint");
        let list = others.iter().rev().fold(last, |right, &left| self.tree(Tree::Pair(left, right)));
        let nesting = self.stack.len().saturating_sub(1);
        match holder {
            Holder::Line => self.state = State::Ended(list),
            Holder::Group => self.complete(list),
            Holder::Argument(function) => {
                let application = self.tree(Tree::App(function, list));
                self.complete(application);
            }
            Holder::Body => self.state = State::Brace(list),
        }
        Some(nesting)
    }
}

/// What a cell is known by: its variable's number, or itself.
#[derive(PartialEq, Eq, Hash)]
enum Known {
    Var(u16),
    Cell(Cell),
}

/// A step of going through a tree: its parts are still to be entered, or are.
enum Walk {
    Parts(Place),
    Itself(Place),
}

/// The cells and events so far.
#[derive(Default)]
struct Entered {
    case: CaseFile,
    numbers: QuickMap<Known, u8>,
    held: Vec<u128>,
    made: u128,
}

impl Entered {
    /// The cell of a message whose parts have cells; nothing if there is no room for it.
    fn cell(&mut self, known: Known) -> Option<u8> {
        if let Some(&number) = self.numbers.get(&known) {
            return Some(number);
        }
        let number = self.case.count();
        if number == MOST {
            return None;
        }
        let (cell, held) = match known {
            Known::Var(_) => (Cell::Var, 1 << number),
            Known::Cell(cell) => (cell, cell.parts().iter().flatten().fold(0, |sum, &part| sum | self.held[part as usize])),
        };
        self.case.cells.push(cell);
        self.held.push(held);
        self.numbers.insert(known, number as u8);
        Some(number as u8)
    }

    /// The cell of a tree, its parts entered before it, left before right; nothing if there is no room.
    fn tree(&mut self, trees: &[Tree], root: Place) -> Option<u8> {
        let mut walk = vec![Walk::Parts(root)];
        let mut done: Vec<u8> = Vec::new();
        while let Some(step) = walk.pop() {
            match step {
                Walk::Parts(place) => {
                    walk.push(Walk::Itself(place));
                    match trees[place] {
                        Tree::Atom(_) | Tree::Var(_) => {}
                        Tree::Pair(left, right) | Tree::Seal(left, right) => walk.extend([Walk::Parts(right), Walk::Parts(left)]),
                        Tree::App(_, argument) => walk.push(Walk::Parts(argument)),
                    }
                }
                Walk::Itself(place) => {
                    let mut part = || done.pop().expect("parts come first");
                    let known = match trees[place] {
                        Tree::Atom(name) => Known::Cell(Cell::Atom(name)),
                        Tree::Var(number) => Known::Var(number),
                        Tree::Pair(..) => {
                            let right = part();
                            Known::Cell(Cell::Pair(part(), right))
                        }
                        Tree::Seal(..) => {
                            let key = part();
                            Known::Cell(Cell::Seal(part(), key))
                        }
                        Tree::App(function, _) => Known::Cell(Cell::App(function, part())),
                    };
                    done.push(self.cell(known)?);
                }
            }
        }
        done.pop()
    }

    /// Reads the line that starts at `start`, and gives the place behind it.
    fn line(&mut self, text: &[u8], start: usize) -> Result<usize, Refusal> {
        let mut automaton = Automaton::new();
        let mut at = start;
        let root = loop {
            match text.get(at).and_then(|&byte| automaton.step(byte)) {
                None => return Err(Refusal(11, at)),
                Some(nesting) if nesting > DEEPEST => return Err(Refusal(12, at)),
                Some(_) => at += 1,
            }
            if let State::Ended(root) = automaton.state {
                break root;
            }
        };
        let cell = self.tree(&automaton.trees, root).filter(|_| self.case.events.len() < MOST).ok_or(Refusal(4, start))?;
        let held = self.held[cell as usize];
        if automaton.learns && held & !self.made != 0 {
            return Err(Refusal(6, start));
        }
        self.case.events.push(if automaton.learns { Event::Learn(cell) } else { Event::Make(cell) });
        self.made |= if automaton.learns { 0 } else { held };
        Ok(at)
    }
}

/// The cells and events of a text; the first line at fault decides.
pub fn read(text: &[u8]) -> Result<CaseFile, Refusal> {
    let mut entered = Entered::default();
    let mut at = 0;
    while at < text.len() {
        at = entered.line(text, at)?;
    }
    Ok(entered.case)
}

/// The file of a text, for a buffer of `room` bytes.
pub fn file(text: &[u8], room: usize) -> Reply {
    match read(text) {
        Err(refusal) => refusal.into(),
        Ok(case) => match case.bytes() {
            bytes if bytes.len() > room => Reply::Refused(9, bytes.len()),
            bytes => Reply::Bytes(bytes),
        },
    }
}

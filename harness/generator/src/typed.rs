//! Typed text that follows from a seed: lines of all shapes, most of them good.

use reference::casefile::{CaseFile, Cell, Event, MOST};
use reference::typed::DEEPEST;

use crate::chance::Chance;
use crate::shapes;

/// What makes a message one deeper: what stands before and behind it. The last is a seal whose key it is.
pub const DEEPER: [(&str, &str); 4] = [("(", ")"), ("f9(", ")"), ("{|", "|}a7"), ("{|a1|}", "")];

/// A message so many times one deeper in the same way.
pub fn nested((open, close): (&str, &str), levels: usize, message: &str) -> String {
    open.repeat(levels) + message + &close.repeat(levels)
}

/// Atoms of rising names, as a list.
pub fn atoms(names: std::ops::Range<usize>) -> String {
    names.map(|name| format!("a{name}")).collect::<Vec<_>>().join(",")
}

/// A line of nested groups, at least as long as asked and at most about a third longer, that has at most 128 cells: each group says the same several times, the inner ones
/// `many` times, the outer ones from the level `from` on `few` times.
pub fn groups(bytes: usize) -> String {
    let times = |(many, few, from): (usize, usize, usize), level: usize| if level < from { many } else { few };
    let length = |&shape: &(usize, usize, usize)| (0..DEEPEST).fold(2, |inner, level| (inner + 1) * times(shape, level) + 1);
    let shapes = (1..=8).flat_map(|many| (1..=many).flat_map(move |few| (0..DEEPEST).map(move |from| (many, few, from))));
    let shape = shapes.filter(|shape| length(shape) >= bytes).min_by_key(length).expect("groups can be very long");
    let group = |inner: String, level: usize| format!("({})", vec![inner; times(shape, level)].join(","));
    format!("learn {}\n", (0..DEEPEST).fold("a1".to_string(), group))
}

/// A text being typed.
struct Typist {
    chance: Chance,
    text: String,
    /// How many names and variables there are to choose from.
    few: usize,
    /// How many of a hundred messages stand in brackets that say nothing.
    needless: usize,
    /// How many of a hundred numbers stand at a bound.
    bounds: usize,
    /// The variables that are made so far, and those of this line.
    made: Vec<usize>,
    line: Vec<usize>,
    /// Whether the line may have any variable.
    free: bool,
}

type Maker = fn(&mut Typist);

/// The shapes, each with its share among all.
const SHAPES: [(&str, usize, Maker); 11] = [
    ("lines", 12, lines),
    ("deep", 18, deep),
    ("bounds", 6, bounds),
    ("brackets", 6, brackets),
    ("repeated", 6, repeated),
    ("events", 6, events),
    ("cells", 6, cells),
    ("one-list", 6, one_list),
    ("unmade", 6, unmade),
    ("groups", 6, same_groups),
    ("nothing", 1, |_| {}),
];

/// A text and the name of its shape: one of those above, or the events of a generated case file.
pub fn any(mut chance: Chance) -> (&'static str, String) {
    let mut place = chance.below(100);
    for (name, share, make) in SHAPES {
        if place < share {
            return (name, typed(chance, make));
        }
        place -= share;
    }
    ("case", case(&shapes::any(chance).1))
}

/// A short text with little wrong, or nothing.
pub fn short(mut chance: Chance) -> String {
    let make = *chance.pick::<Maker>(&[lines, deep, bounds, brackets, unmade]);
    typed(chance, make)
}

fn typed(mut chance: Chance, make: Maker) -> String {
    let few = *chance.pick(&[2, 3, 5, 12]);
    let needless = *chance.pick(&[0, 0, 10, 40]);
    let bounds = *chance.pick(&[0, 10]);
    let mut typist = Typist { chance, text: String::new(), few, needless, bounds, made: vec![], line: vec![], free: false };
    make(&mut typist);
    typist.text
}

impl Typist {
    fn number(&mut self, most: usize) -> usize {
        if !self.chance.percent(self.bounds) {
            return self.chance.below(self.few);
        }
        *self.chance.pick(&[0, 1, 9, 10, 11, 99, 100, most / 10, most / 10 + 1, most - 1, most])
    }

    fn leaf(&mut self) -> String {
        if !self.chance.once_in(3) {
            return format!("a{}", self.number(65_535));
        }
        let variable = self.number(65_535);
        if !self.free && !self.made.contains(&variable) {
            return format!("a{variable}");
        }
        self.line.push(variable);
        format!("X{variable}")
    }

    /// A message at a nesting, with about so many leaves.
    fn message(&mut self, nesting: usize, leaves: usize) -> String {
        if nesting == DEEPEST {
            return self.leaf();
        }
        if self.chance.percent(self.needless) {
            return format!("({})", self.message(nesting + 1, leaves));
        }
        match self.chance.below(if leaves > 1 { 5 } else { 9 }) {
            0 => format!("({})", self.list(nesting + 1, leaves)),
            1 => format!("f{}({})", self.number(255), self.list(nesting + 1, leaves)),
            2 | 3 => {
                let body = self.list(nesting + 1, leaves.div_ceil(2));
                format!("{{|{body}|}}{}", self.message(nesting + 1, leaves / 2))
            }
            _ => self.leaf(),
        }
    }

    fn list(&mut self, nesting: usize, leaves: usize) -> String {
        let items = self.chance.between(1, leaves.clamp(1, 4));
        (0..items).map(|_| self.message(nesting, leaves / items)).collect::<Vec<_>>().join(",")
    }

    /// Types a line. What it learns has no variable that is not made.
    fn line(&mut self, list: impl FnOnce(&mut Typist) -> String) {
        let learns = self.chance.once_in(2);
        self.free = !learns;
        let list = list(self);
        self.put(learns, &list);
    }

    fn put(&mut self, learns: bool, list: &str) {
        self.text += &format!("{} {list}\n", if learns { "learn" } else { "make" });
        let line = std::mem::take(&mut self.line);
        self.made.extend(if learns { vec![] } else { line });
    }
}

fn lines(typist: &mut Typist) {
    for _ in 0..typist.chance.between(1, 6) {
        let leaves = *typist.chance.pick(&[1, 2, 4, 9]);
        typist.line(|typist| typist.list(0, leaves));
    }
}

/// Nestings up to 16 or one more, by one kind of bracket or by all, with further messages before and behind.
fn deep(typist: &mut Typist) {
    for _ in 0..typist.chance.between(1, 3) {
        let levels = *typist.chance.pick(&[14, 15, 15, 16, 16, 16, 16, 17]);
        typist.line(|typist| deepened(typist, levels));
    }
}

fn deepened(typist: &mut Typist, levels: usize) -> String {
    let kinds: &[usize] = typist.chance.pick::<&[usize]>(&[&[0], &[1], &[2], &[3], &[3, 3, 2], &[0, 1, 2, 3]]);
    let kinds = kinds.to_vec();
    let mut message = typist.leaf();
    for _ in 0..levels {
        let kind = *typist.chance.pick(&kinds);
        let (open, close) = DEEPER[kind];
        if kind < 3 && typist.chance.once_in(5) {
            message = match typist.chance.below(2) {
                0 => format!("{},{message}", typist.leaf()),
                _ => format!("{message},{}", typist.leaf()),
            };
        }
        message = format!("{open}{message}{close}");
    }
    if typist.chance.once_in(3) {
        return format!("{},{message},{}", typist.leaf(), typist.leaf());
    }
    message
}

fn bounds(typist: &mut Typist) {
    typist.bounds = 100;
    lines(typist);
}

fn brackets(typist: &mut Typist) {
    typist.needless = 70;
    lines(typist);
}

/// The same few messages over and over, with and without brackets.
fn repeated(typist: &mut Typist) {
    typist.free = true;
    let known: Vec<String> = (0..typist.chance.between(1, 3)).map(|_| typist.message(2, 4)).collect();
    let all = known.join(",");
    typist.put(false, &all);
    for _ in 0..typist.chance.between(1, 12) {
        let item = |chance: &mut Chance| {
            let message = chance.pick(&known).clone();
            if chance.once_in(3) {
                format!("({message})")
            } else {
                message
            }
        };
        let list = (0..typist.chance.between(1, 3)).map(|_| item(&mut typist.chance)).collect::<Vec<_>>().join(",");
        let learns = typist.chance.once_in(2);
        typist.put(learns, &list);
    }
}

/// About 128 lines.
fn events(typist: &mut Typist) {
    let count = typist.chance.between(MOST - 2, MOST + 2);
    for _ in 0..count {
        typist.line(|typist| typist.leaf());
    }
    if typist.chance.once_in(3) {
        typist.line(|typist| typist.list(0, 4));
    }
}

/// About 128 cells in several lines.
fn cells(typist: &mut Typist) {
    let last = typist.chance.between(MOST - 1, MOST + 2);
    let (mut count, mut name) = (0, 100);
    while count < last {
        let items = typist.chance.between(1, 20).min((last - count).div_ceil(2));
        let list = atoms(name..name + items);
        let learns = typist.chance.once_in(2);
        typist.put(learns, &list);
        (count, name) = (count + 2 * items - 1, name + items);
    }
    for _ in 0..typist.chance.below(3) {
        typist.line(|typist| typist.list(0, 3));
    }
}

/// One list of many messages, few of them different.
fn one_list(typist: &mut Typist) {
    let count = *typist.chance.pick(&[60, 63, 64, 65, 126, 127, 128, 129, 130, 300]);
    let names = *typist.chance.pick(&[1, 1, 2, 3, count]);
    let list: Vec<String> = (0..count).map(|place| format!("a{}", place % names)).collect();
    if typist.chance.once_in(2) {
        lines(typist);
    }
    typist.put(true, &list.join(","));
    if typist.chance.once_in(2) {
        lines(typist);
    }
}

/// Variables that are learnt, made before or not.
fn unmade(typist: &mut Typist) {
    for _ in 0..typist.chance.between(1, 5) {
        let learns = typist.chance.once_in(3);
        typist.free = true;
        let list = typist.list(0, 3);
        typist.put(learns, &list);
    }
}

/// Groups that say the same several times, a few thousand bytes long.
fn same_groups(typist: &mut Typist) {
    let bytes = *typist.chance.pick(&[100, 1000, 5000, 20_000]);
    typist.text += &groups(bytes);
    if typist.chance.once_in(3) {
        lines(typist);
    }
}

/// A message of a case file as it is typed, with the number of its cell for a variable; nothing if it is too long.
fn message(case: &CaseFile, c: u8, last: bool, room: &mut usize) -> Option<String> {
    *room = room.checked_sub(1)?;
    Some(match case.cells[c as usize] {
        Cell::Atom(name) => format!("a{name}"),
        Cell::Var => format!("X{c}"),
        Cell::Pair(a, b) => {
            let list = format!("{},{}", message(case, a, false, room)?, message(case, b, true, room)?);
            if last {
                list
            } else {
                format!("({list})")
            }
        }
        Cell::Seal(a, b) => format!("{{|{}|}}{}", message(case, a, true, room)?, message(case, b, false, room)?),
        Cell::App(f, a) => format!("f{f}({})", message(case, a, true, room)?),
    })
}

/// The events of a case file, one for each line; without those whose message has more than a thousand places.
pub fn case(case: &CaseFile) -> String {
    let line = |event: &Event| {
        let word = if matches!(event, Event::Learn(_)) { "learn" } else { "make" };
        message(case, event.cell(), true, &mut 1000).map(|message| format!("{word} {message}\n"))
    };
    case.events.iter().filter_map(line).collect()
}

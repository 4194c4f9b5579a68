//! The reference held to the definitions on small files, by trying everything. Messages are trees of their own here, and what the intruder can
//! build is the least set among all messages up to a height.

use std::collections::HashSet;
use std::rc::Rc;

use generator::chance::Chance;
use generator::draw::{self, Like};
use reference::casefile::{read, CaseFile, Cell, Event};
use reference::lazy::Limit;
use reference::questions::{self, Reply};
use reference::searches::agreed;

#[derive(PartialEq, Eq, Hash, Debug)]
enum Tree {
    Atom(u16),
    /// A variable, by its cell.
    Var(usize),
    Pair(Message, Message),
    Seal(Message, Message),
    App(u8, Message),
}

type Message = Rc<Tree>;

const NAMES: u16 = 3;
const FUNCTIONS: [u8; 2] = [0, 9];

fn parts(message: &Message) -> Vec<&Message> {
    match &**message {
        Tree::Atom(_) | Tree::Var(_) => vec![],
        Tree::Pair(a, b) | Tree::Seal(a, b) => vec![a, b],
        Tree::App(_, a) => vec![a],
    }
}

fn height(message: &Message) -> usize {
    parts(message).into_iter().map(|part| 1 + height(part)).max().unwrap_or(0)
}

/// Every message without variables up to the height, over the names and functions that files are drawn with.
fn everything(height: usize) -> HashSet<Message> {
    let mut found: HashSet<Message> = (0..NAMES).map(|name| Rc::new(Tree::Atom(name))).collect();
    for _ in 0..height {
        let lower: Vec<Message> = found.iter().cloned().collect();
        for a in &lower {
            found.extend(FUNCTIONS.map(|f| Rc::new(Tree::App(f, a.clone()))));
            for b in &lower {
                found.extend([Tree::Pair(a.clone(), b.clone()), Tree::Seal(a.clone(), b.clone())].map(Rc::new));
            }
        }
    }
    found
}

/// Whether a step that composes gives the message from built ones.
fn composed(message: &Message, built: &HashSet<Message>) -> bool {
    !parts(message).is_empty() && parts(message).into_iter().all(|part| built.contains(part))
}

/// What taking the message apart gives, with the keys that are built.
fn opened(message: &Message, built: &HashSet<Message>) -> Vec<Message> {
    match &**message {
        Tree::Pair(a, b) => vec![a.clone(), b.clone()],
        Tree::Seal(body, key) if built.contains(key) => vec![body.clone()],
        _ => vec![],
    }
}

/// What can be built from the known messages, among all these.
fn least(known: &[Message], all: &HashSet<Message>) -> HashSet<Message> {
    let mut built: HashSet<Message> = known.iter().cloned().chain([Rc::new(Tree::Atom(0))]).collect();
    loop {
        let mut more: Vec<Message> = all.iter().filter(|m| composed(m, &built)).cloned().collect();
        more.extend(built.iter().flat_map(|m| opened(m, &built)));
        let before = built.len();
        built.extend(more);
        if built.len() == before {
            return built;
        }
    }
}

/// The message of each cell, a variable's from the values, which is itself where it has none.
fn shown(case: &CaseFile, values: &[(usize, Message)]) -> Vec<Message> {
    let mut found: Vec<Message> = Vec::new();
    for (c, cell) in case.cells.iter().enumerate() {
        let of = |part: u8| found[part as usize].clone();
        let given = values.iter().find(|(v, _)| *v == c).map(|(_, message)| message.clone());
        let message = given.unwrap_or_else(|| {
            Rc::new(match *cell {
                Cell::Atom(name) => Tree::Atom(name),
                Cell::Var => Tree::Var(c),
                Cell::Pair(a, b) => Tree::Pair(of(a), of(b)),
                Cell::Seal(a, b) => Tree::Seal(of(a), of(b)),
                Cell::App(f, a) => Tree::App(f, of(a)),
            })
        });
        found.push(message);
    }
    found
}

fn variables(case: &CaseFile) -> Vec<usize> {
    (0..case.count()).filter(|&c| case.cells[c] == Cell::Var).collect()
}

/// A drawn file with that share of variables and of learnt messages, whose cells are at most so high and have at most so many variables.
fn low(chance: &mut Chance, [share, learns]: [usize; 2], most_height: usize, most_variables: usize) -> CaseFile {
    loop {
        let like = Like { cells: chance.between(2, 10), events: chance.between(1, 6), variables: share, names: NAMES as usize, learns };
        let case = draw::file(chance, &like);
        if variables(&case).len() <= most_variables && shown(&case, &[]).iter().all(|m| height(m) <= most_height) {
            return case;
        }
    }
}

/// Every choice of messages for the variables.
fn assignments<'a>(variables: &[usize], from: &'a HashSet<Message>) -> Vec<Vec<(usize, &'a Message)>> {
    variables.iter().fold(vec![vec![]], |chosen, &v| {
        chosen.iter().flat_map(|values| from.iter().map(move |m| [&values[..], &[(v, m)]].concat())).collect()
    })
}

fn owned(values: &[(usize, &Message)]) -> Vec<(usize, Message)> {
    values.iter().map(|&(v, message)| (v, message.clone())).collect()
}

fn bytes(reply: Reply) -> Vec<u8> {
    match reply {
        Reply::Bytes(bytes) => bytes,
        other => panic!("{other:?}"),
    }
}

/// All messages inside these, themselves included.
fn inside(messages: &HashSet<Message>) -> HashSet<Message> {
    let mut found = messages.clone();
    let mut work: Vec<Message> = messages.iter().cloned().collect();
    while let Some(message) = work.pop() {
        work.extend(parts(&message).into_iter().filter(|part| found.insert((*part).clone())).cloned().collect::<Vec<_>>());
    }
    found
}

/// What the records of a reduced file are ordered by.
fn rank(message: &Message, cell: &Cell) -> (usize, usize, u16, u8) {
    match *cell {
        Cell::Atom(name) => (height(message), 0, name, 0),
        Cell::Pair(a, b) => (height(message), 1, a as u16, b),
        Cell::Seal(a, b) => (height(message), 2, a as u16, b),
        Cell::App(f, a) => (height(message), 3, f as u16, a),
        Cell::Var => panic!("a variable in a reduced file"),
    }
}

#[test]
fn marks_and_reducing() {
    let all = everything(2);
    for number in 0..1000 {
        let case = low(&mut Chance::of(11, number), [0, 85], 2, 0);
        let (file, messages) = (case.bytes(), shown(&case, &[]));
        let learnt = |event: &Event| matches!(event, Event::Learn(_)).then(|| messages[event.cell() as usize].clone());
        let built = least(&case.events.iter().filter_map(learnt).collect::<Vec<_>>(), &all);
        let marks: Vec<u8> = messages.iter().map(|m| built.contains(m) as u8).collect();
        assert_eq!(bytes(questions::marks(&file, 999)), marks, "{case:?}");
        let own: Message = Rc::new(Tree::Atom(0));
        let bare: HashSet<Message> = built.iter().filter(|m| !composed(m, &built) && **m != own).cloned().collect();
        let out = bytes(questions::reduce(&file, 999));
        let reduced = read(&out).expect("a reduced file is accepted");
        let cells = shown(&reduced, &[]);
        assert_eq!(cells.iter().cloned().collect::<HashSet<_>>(), inside(&bare), "{case:?}");
        let ranks: Vec<_> = cells.iter().zip(&reduced.cells).map(|(message, cell)| rank(message, cell)).collect();
        assert!(ranks.windows(2).all(|two| two[0] < two[1]), "{case:?}");
        let listed: Vec<Event> = (0..cells.len()).filter(|&c| bare.contains(&cells[c])).map(|c| Event::Learn(c as u8)).collect();
        assert_eq!(reduced.events, listed, "{case:?}");
        assert_eq!(out.len(), 4 * cells.len() + 3 * listed.len() + 2);
        assert_eq!(bytes(questions::reduce(&out, 999)), out);
    }
}

/// A list holds under exactly those values that make the two cells equal, and so does every list that is judged right.
#[test]
fn equating() {
    let (few, all) = (everything(1), everything(2));
    let mut replies = [0; 2];
    for number in 0..300 {
        let mut chance = Chance::of(12, number);
        let case = low(&mut chance, [60, 55], 6, 2);
        let variables = variables(&case);
        let (a, b) = (chance.below(case.count()), chance.below(case.count()));
        let list = questions::equating_list(&case, a, b);
        replies[list.is_some() as usize] += 1;
        let mut lists: Vec<Vec<u8>> = list.iter().cloned().collect();
        lists.iter().for_each(|list| assert_eq!(questions::judge_equating(&case, a, b, list), Ok(()), "{case:?}"));
        for _ in 0..8 {
            let mut other: Vec<u8> = (0..case.count() as u8).collect();
            variables.iter().for_each(|&v| other[v] = chance.below(case.count()) as u8);
            lists.extend(questions::judge_equating(&case, a, b, &other).is_ok().then_some(other));
        }
        assert!(list.is_some() || lists.is_empty(), "{case:?}");
        for values in assignments(&variables, if variables.len() < 2 { &all } else { &few }) {
            let shown = shown(&case, &owned(&values));
            let equal = shown[a] == shown[b];
            assert!(list.is_some() || !equal, "{case:?} cells {a} and {b}");
            for list in &lists {
                assert_eq!(
                    variables.iter().all(|&v| shown[v] == shown[list[v] as usize]),
                    equal,
                    "{case:?} cells {a} and {b} list {list:?}"
                );
            }
        }
    }
    assert!(replies.iter().all(|&count| count > 50), "{replies:?}");
}

/// The searches agree with trying every list.
#[test]
fn runs() {
    let mut replies = [0; 2];
    for number in 0..5000 {
        let mut chance = Chance::of(13, number);
        let like = Like {
            cells: chance.between(2, 11),
            events: chance.between(1, 7),
            variables: *chance.pick(&[30, 50, 70]),
            names: *chance.pick(&[2, 3, 4]),
            learns: *chance.pick(&[40, 60]),
        };
        let case = draw::file(&mut chance, &like);
        if let Some(list) = agreed(&case, 1500, Limit::sets(3000)).unwrap_or_else(|why| panic!("{case:?}: {why}")) {
            replies[list.is_some() as usize] += 1;
        }
    }
    assert!(replies.iter().all(|&count| count > 200), "{replies:?}");
}

/// Whether each message asked of him is among the least set of what he had learnt by then.
fn right(case: &CaseFile, values: &[(usize, Message)], all: &HashSet<Message>) -> bool {
    let (shown, mut known) = (shown(case, values), Vec::new());
    case.events.iter().all(|event| match *event {
        Event::Make(c) => least(&known, all).contains(&shown[c as usize]),
        Event::Learn(c) => {
            known.push(shown[c as usize].clone());
            true
        }
    })
}

/// Values from all low messages, not only from cells: some are right exactly if the reply is "yes". The list check says of a cell what is so of
/// its message.
#[test]
fn runs_over_low_messages() {
    let (few, all) = (everything(1), everything(2));
    let mut replies = [0; 2];
    for number in 0..200 {
        let case = low(&mut Chance::of(14, number), [50, 55], 1, 1);
        let variables = variables(&case);
        let reply = agreed(&case, 1500, Limit::sets(3000)).expect("the searches agree").expect("every list is tried");
        let some = assignments(&variables, &few).iter().any(|values| right(&case, &owned(values), &all));
        assert_eq!(reply.is_some(), some, "{case:?}");
        replies[some as usize] += 1;
        let held = case.held();
        for &v in &variables {
            for c in (0..case.count()).filter(|&c| case.cells[c] != Cell::Var) {
                let mut list: Vec<u8> = (0..case.count() as u8).collect();
                list[v] = c as u8;
                let is_right = held[c] == 0 && right(&case, &[(v, shown(&case, &[])[c].clone())], &all);
                assert_eq!(questions::check(&case.bytes(), &list) == Reply::Right, is_right, "{case:?} {list:?}");
            }
        }
    }
    assert!(replies.iter().all(|&count| count > 10), "{replies:?}");
}

//! The five questions from bytes to replies.

use crate::building::Knowledge;
use crate::casefile::{read, CaseFile, Cell, Event, Refusal};
use crate::lazy::{self, Limit, Outcome, Rules};
use crate::reducing;
use crate::terms::{Id, Node, QuickMap, Terms};
use crate::unifying::Bindings;

/// A reply. `No` is also the list check's "wrong"; `Bytes` is what is written.
#[derive(Clone, PartialEq, Eq, Debug)]
pub enum Reply {
    Refused(u8, usize),
    No,
    Right,
    Bytes(Vec<u8>),
}

impl From<Refusal> for Reply {
    fn from(refusal: Refusal) -> Self {
        Reply::Refused(refusal.0, refusal.1)
    }
}

/// The files equating accepts, with the refusals in their order.
pub fn open_equate(file: &[u8], a: usize, b: usize, room: usize) -> Result<CaseFile, Refusal> {
    let case = read(file)?;
    if a >= case.count() || b >= case.count() {
        return Err(Refusal(5, case.count()));
    }
    with_room(case, room)
}

/// The files a run accepts.
pub fn open_run(file: &[u8], room: usize) -> Result<CaseFile, Refusal> {
    with_room(read(file)?, room)
}

fn with_room(case: CaseFile, room: usize) -> Result<CaseFile, Refusal> {
    if room < case.count() {
        return Err(Refusal(9, case.count()));
    }
    Ok(case)
}

fn without_vars(file: &[u8]) -> Result<CaseFile, Refusal> {
    let case = read(file)?;
    match case.first_var {
        Some(offset) => Err(Refusal(8, offset)),
        None => Ok(case),
    }
}

pub fn equate(file: &[u8], a: usize, b: usize, room: usize) -> Reply {
    match open_equate(file, a, b, room) {
        Err(refusal) => refusal.into(),
        Ok(case) => equating_list(&case, a, b).map_or(Reply::No, Reply::Bytes),
    }
}

/// An equating list for two cells, if some values make them equal.
pub fn equating_list(case: &CaseFile, a: usize, b: usize) -> Option<Vec<u8>> {
    let mut terms = Terms::new();
    let ids = case.messages(&mut terms);
    let mut bound = Bindings::default();
    if !bound.unify(&terms, ids[a], ids[b]) {
        return None;
    }
    let cell_of = |id: Id| ids.iter().position(|&other| other == id).expect("bindings lead to cells") as u8;
    let entry = |c: usize| match (case.cells[c], bound.of(c as u8)) {
        (Cell::Var, Some(id)) => cell_of(id),
        _ => c as u8,
    };
    Some((0..case.count()).map(entry).collect())
}

/// Whether a list is one that equating may show for two cells; otherwise what is wrong with it.
pub fn judge_equating(case: &CaseFile, a: usize, b: usize, list: &[u8]) -> Result<(), String> {
    if list.len() != case.count() {
        return Err(format!("{} entries for {} cells", list.len(), case.count()));
    }
    for (c, &entry) in list.iter().enumerate() {
        let fits = if case.cells[c] == Cell::Var { (entry as usize) < case.count() } else { entry as usize == c };
        if !fits {
            return Err(format!("entry {c} is {entry}"));
        }
    }
    let free = |c: usize| case.cells[c] == Cell::Var && list[c] as usize == c;
    if comes_round(case, |c| if free(c) { None } else { Some(list[c]) }) {
        return Err("following the list comes round".into());
    }
    let mut terms = Terms::new();
    let ids = case.messages(&mut terms);
    let mut by_list = Bindings::default();
    let mut by_cells = Bindings::default();
    for c in 0..case.count() {
        if !by_list.unify(&terms, ids[c], ids[list[c] as usize]) {
            return Err("no values satisfy the list".into());
        }
    }
    if !by_cells.unify(&terms, ids[a], ids[b]) {
        return Err("no values make the cells equal".into());
    }
    if !by_list.same(&mut terms, ids[a], ids[b]) {
        return Err("the list holds under values that do not make the cells equal".into());
    }
    for c in 0..case.count() {
        if !by_cells.same(&mut terms, ids[c], ids[list[c] as usize]) {
            return Err(format!("entry {c} asks more than that the cells are equal"));
        }
    }
    Ok(())
}

/// Run by the lazy intruder within about `sets` constraint sets; nothing if it stays unfinished.
pub fn run(file: &[u8], room: usize, rules: Rules, sets: usize) -> Option<Reply> {
    match open_run(file, room) {
        Err(refusal) => Some(refusal.into()),
        Ok(case) => match lazy::solve(&case, rules, Limit::by_size(&case, sets)).0 {
            Outcome::Right(list) => Some(Reply::Bytes(list)),
            Outcome::None => Some(Reply::No),
            Outcome::Unfinished => None,
        },
    }
}

/// Whether following comes round: from a variable to the entry `next` gives it, from any other cell to its parts.
fn comes_round(case: &CaseFile, next: impl Fn(usize) -> Option<u8>) -> bool {
    fn visit(case: &CaseFile, next: &impl Fn(usize) -> Option<u8>, colour: &mut [u8], c: usize) -> bool {
        if colour[c] != 0 {
            return colour[c] == 1;
        }
        colour[c] = 1;
        let follow = if case.cells[c] == Cell::Var { [next(c), None] } else { case.cells[c].parts() };
        let round = follow.iter().flatten().any(|&p| visit(case, next, colour, p as usize));
        colour[c] = 2;
        round
    }
    let mut colour = vec![0u8; case.count()];
    (0..case.count()).any(|c| visit(case, &next, &mut colour, c))
}

/// The message each cell shows under a value list in good form; nothing if following it comes round.
pub fn values(case: &CaseFile, list: &[u8], terms: &mut Terms) -> Option<Vec<Id>> {
    if comes_round(case, |c| Some(list[c]).filter(|&entry| entry != 255)) {
        return None;
    }
    fn value(case: &CaseFile, list: &[u8], terms: &mut Terms, done: &mut QuickMap<u8, Id>, c: u8) -> Id {
        if let Some(&id) = done.get(&c) {
            return id;
        }
        let id = match case.cells[c as usize] {
            Cell::Var if list[c as usize] == 255 => terms.make(Node::Atom(0)),
            Cell::Var => value(case, list, terms, done, list[c as usize]),
            Cell::Atom(name) => terms.make(Node::Atom(name)),
            Cell::Pair(a, b) => {
                let (a, b) = (value(case, list, terms, done, a), value(case, list, terms, done, b));
                terms.make(Node::Pair(a, b))
            }
            Cell::Seal(a, b) => {
                let (a, b) = (value(case, list, terms, done, a), value(case, list, terms, done, b));
                terms.make(Node::Seal(a, b))
            }
            Cell::App(f, a) => {
                let a = value(case, list, terms, done, a);
                terms.make(Node::App(f, a))
            }
        };
        done.insert(c, id);
        id
    }
    let mut done = QuickMap::default();
    Some((0..case.count()).map(|c| value(case, list, terms, &mut done, c as u8)).collect())
}

/// Whether a value list in good form never comes round and gives right values.
pub fn values_right(case: &CaseFile, list: &[u8]) -> bool {
    let mut terms = Terms::new();
    let own = terms.make(Node::Atom(0));
    let Some(shown) = values(case, list, &mut terms) else {
        return false;
    };
    let mut known = Knowledge::new(&terms, own);
    case.events.iter().all(|event| match *event {
        Event::Make(c) => known.builds(shown[c as usize]),
        Event::Learn(c) => {
            known.learn(shown[c as usize]);
            true
        }
    })
}

/// The first entry that has not the form of a value list.
pub fn bad_entry(case: &CaseFile, list: &[u8]) -> Option<usize> {
    let fits = |c: usize| match case.cells[c] {
        Cell::Var => list[c] == 255 || case.cells.get(list[c] as usize).is_some_and(|cell| *cell != Cell::Var),
        _ => list[c] as usize == c,
    };
    (0..case.count()).find(|&c| !fits(c))
}

pub fn check(file: &[u8], list: &[u8]) -> Reply {
    let case = match read(file) {
        Err(refusal) => return refusal.into(),
        Ok(case) => case,
    };
    if list.len() != case.count() {
        return Reply::Refused(10, case.count());
    }
    if let Some(place) = bad_entry(&case, list) {
        return Reply::Refused(10, place);
    }
    if values_right(&case, list) {
        Reply::Right
    } else {
        Reply::No
    }
}

/// What is known from all learnt messages of a file without variables.
fn with_learnt<T>(case: &CaseFile, then: impl FnOnce(&Terms, &[Id], Id, &mut Knowledge) -> T) -> T {
    let mut terms = Terms::new();
    let own = terms.make(Node::Atom(0));
    let ids = case.messages(&mut terms);
    let mut known = Knowledge::new(&terms, own);
    for event in &case.events {
        if let Event::Learn(c) = *event {
            known.learn(ids[c as usize]);
        }
    }
    then(&terms, &ids, own, &mut known)
}

pub fn marks(file: &[u8], room: usize) -> Reply {
    match without_vars(file).and_then(|case| with_room(case, room)) {
        Err(refusal) => refusal.into(),
        Ok(case) => with_learnt(&case, |_, ids, _, known| Reply::Bytes(known.builds_each(ids).into_iter().map(u8::from).collect())),
    }
}

pub fn reduce(file: &[u8], room: usize) -> Reply {
    let case = match without_vars(file) {
        Err(refusal) => return refusal.into(),
        Ok(case) => case,
    };
    let out = with_learnt(&case, |terms, _, own, known| {
        let bare: Vec<Id> = known.bare().into_iter().filter(|&id| id != own).collect();
        reducing::write(terms, &bare)
    });
    if room < out.len() {
        return Reply::Refused(9, out.len());
    }
    Reply::Bytes(out)
}

//! The published lazy intruder: constraints "from(wanted, known)" rewritten by the rules of its Figure 3.
//!
//! The first constraint that wants more than variables is taken, and its first wanted message that is no variable; the
//! branches are equating it with a known message (G unif), splitting it into its parts (G pair, G scrypt, and the like
//! for applications), and opening a known seal (A scrypt). Splitting a known pair (A pair) loses nothing and is done
//! at once. Name 0 is always known. Read literally the rules do not end: from a pair of {a}a and b the seal that A scrypt
//! takes away comes back by A pair. There are only finitely many constraint sets, so a set met before is not gone into
//! again; and since every solution is reached by a way on which its shortest proofs shrink, none is lost by that.

use std::rc::Rc;
use std::time::Instant;

use crate::casefile::{CaseFile, Cell, Event};
use crate::terms::{Id, Node, QuickMap, QuickSet, Terms};
use crate::unifying::Bindings;

/// Which rules are used. [`PUBLISHED`] is the figure; [`SHORTENED`] has shortcuts that lose no solution.
#[derive(Clone, Copy)]
pub struct Rules {
    /// Equate a wanted message with a known variable too, as the figure allows. No solution needs it, since what stands
    /// for a known variable was made from less.
    pub known_variables: bool,
    /// Drop, without other branches, a wanted message that is known as it stands or wanted from less.
    pub drop_given: bool,
    /// Open, without a branch, a known seal whose key composes from what is given as it stands. Where nothing known holds
    /// a variable no other seal can be opened. Where a seal is opened by a branch, let every constraint that knows at
    /// least as much have the body.
    pub open_given: bool,
    /// End a branch that wants an atom found nowhere in what is known.
    pub missing_atoms: bool,
    /// Of the messages wanted by the chosen constraint take the one that fewest known ones are like.
    pub fewest: bool,
    /// Open seals by branches (A scrypt). Without it solutions are lost: only a test that differences are seen asks that.
    pub opens: bool,
}

pub const PUBLISHED: Rules =
    Rules { known_variables: true, drop_given: false, open_given: false, missing_atoms: false, fewest: false, opens: true };
pub const SHORTENED: Rules =
    Rules { known_variables: false, drop_given: true, open_given: true, missing_atoms: true, fewest: true, opens: true };

/// Where a search stops unfinished.
#[derive(Clone, Copy)]
pub struct Limit {
    pub sets: usize,
    pub until: Option<Instant>,
}

impl Limit {
    pub fn sets(sets: usize) -> Self {
        Limit { sets, until: None }
    }

    /// About that many sets for a small file, and fewer for a large one, whose sets take longer.
    pub fn by_size(case: &CaseFile, sets: usize) -> Self {
        Limit::sets(sets * 400 / (400 + case.cells.len() * case.events.len()))
    }
}

#[derive(Clone, PartialEq, Eq, Debug)]
pub enum Outcome {
    /// A value list of right values.
    Right(Vec<u8>),
    None,
    Unfinished,
}

/// All of `wanted` can be built from the knowledge of that number. Sorted, without doubles.
#[derive(Clone, PartialEq, Eq)]
struct Constraint {
    known: u32,
    wanted: Vec<Id>,
}

#[derive(Clone)]
struct State {
    set: Vec<Constraint>,
    bound: Rc<Bindings>,
}

/// The knowledge met so far, each a sorted list without doubles in which no pair is left to split.
#[derive(Default)]
struct Knowledge {
    lists: Vec<Rc<[Id]>>,
    numbers: QuickMap<Rc<[Id]>, u32>,
}

struct Search {
    terms: Terms,
    rules: Rules,
    knowledge: Knowledge,
    met: QuickSet<Box<[u32]>>,
}

/// Adds to a sorted list; true if it was not there yet.
fn put(list: &mut Vec<Id>, id: Id) -> bool {
    let place = list.binary_search(&id);
    if let Err(place) = place {
        list.insert(place, id);
    }
    place.is_err()
}

fn put_all(list: &mut Vec<Id>, ids: impl IntoIterator<Item = Id>) {
    for id in ids {
        put(list, id);
    }
}

fn has(list: &[Id], id: Id) -> bool {
    list.binary_search(&id).is_ok()
}

fn within(small: &[Id], large: &[Id]) -> bool {
    small.len() <= large.len() && small.iter().all(|&id| has(large, id))
}

/// Searches for right values. Also says how many constraint sets it went into.
pub fn solve(case: &CaseFile, rules: Rules, limit: Limit) -> (Outcome, usize) {
    let mut terms = Terms::new();
    let own = terms.make(Node::Atom(0));
    let ids = case.messages(&mut terms);
    let mut search = Search { terms, rules, knowledge: Knowledge::default(), met: QuickSet::default() };
    let mut stack = vec![search.start(case, &ids, own)];
    let mut count = 0;
    while let Some(mut state) = stack.pop() {
        if !search.tidy(&mut state) || !search.met.insert(key(&state)) {
            continue;
        }
        if count >= limit.sets || (count % 16 == 0 && limit.until.is_some_and(|t| Instant::now() >= t)) {
            return (Outcome::Unfinished, count);
        }
        count += 1;
        let Some((place, message)) = search.chosen(&state) else {
            return (Outcome::Right(search.list(case, &ids, own, &state)), count);
        };
        let mut branches = search.branches(&state, place, message);
        branches.reverse();
        stack.append(&mut branches);
    }
    (Outcome::None, count)
}

/// A constraint set as words, for telling whether it was met before.
fn key(state: &State) -> Box<[u32]> {
    let mut words = Vec::new();
    for from in &state.set {
        words.push(from.known);
        words.push(from.wanted.len() as u32);
        words.extend(&from.wanted);
    }
    words.into_boxed_slice()
}

impl Search {
    /// One constraint for each `MK`.
    fn start(&mut self, case: &CaseFile, ids: &[Id], own: Id) -> State {
        let mut set = Vec::new();
        let mut known = vec![own];
        for event in &case.events {
            let id = ids[event.cell() as usize];
            match event {
                Event::Make(_) => set.push(Constraint { known: self.number(known.clone()), wanted: vec![id] }),
                Event::Learn(_) => put_all(&mut known, [id]),
            }
        }
        State { set, bound: Rc::default() }
    }

    /// The number of some knowledge, its pairs split.
    fn number(&mut self, mut known: Vec<Id>) -> u32 {
        self.split_pairs(&mut known);
        if let Some(&number) = self.knowledge.numbers.get(&known[..]) {
            return number;
        }
        let number = self.knowledge.lists.len() as u32;
        let list: Rc<[Id]> = known.into();
        self.knowledge.lists.push(list.clone());
        self.knowledge.numbers.insert(list, number);
        number
    }

    fn known(&self, from: &Constraint) -> Rc<[Id]> {
        self.knowledge.lists[from.known as usize].clone()
    }

    fn split_pairs(&self, known: &mut Vec<Id>) {
        let mut work: Vec<Id> = known.iter().copied().filter(|&id| matches!(self.terms.node(id), Node::Pair(..))).collect();
        while let Some(id) = work.pop() {
            if let Node::Pair(a, b) = self.terms.node(id) {
                for part in [a, b] {
                    if put(known, part) {
                        work.push(part);
                    }
                }
            }
        }
    }

    /// Uses the shortcuts asked for, and puts the set in order, less knowledge first. False if the set plainly has no
    /// solution.
    fn tidy(&mut self, state: &mut State) -> bool {
        if self.rules.open_given {
            self.open_given(state);
        }
        state.set.sort_by_cached_key(|from| (self.knowledge.lists[from.known as usize].len(), from.known));
        let mut merged: Vec<Constraint> = Vec::with_capacity(state.set.len());
        for from in state.set.drain(..) {
            match merged.last_mut() {
                Some(last) if last.known == from.known => put_all(&mut last.wanted, from.wanted),
                _ => merged.push(from),
            }
        }
        if self.rules.drop_given {
            for place in (0..merged.len()).rev() {
                let given = self.given(&merged, place);
                let known = self.known(&merged[place]);
                merged[place].wanted.retain(|&id| !has(&given, id) && !has(&known, id));
            }
        }
        merged.retain(|from| !from.wanted.is_empty());
        state.set = merged;
        !self.rules.missing_atoms || state.set.iter().all(|from| self.atoms_there(from))
    }

    /// What other constraints with strictly less knowledge want: it can be built here too.
    fn given(&self, set: &[Constraint], place: usize) -> Vec<Id> {
        let here = self.known(&set[place]);
        let mut given = Vec::new();
        for other in set {
            let less = self.known(other);
            if less.len() < here.len() && within(&less, &here) {
                put_all(&mut given, other.wanted.iter().copied());
            }
        }
        given
    }

    /// Whether composing alone gives the message, variables standing for themselves.
    fn composes(&self, known: &[Id], given: &[Id], id: Id, memo: &mut QuickMap<Id, bool>) -> bool {
        if has(known, id) || has(given, id) {
            return true;
        }
        if let Some(&found) = memo.get(&id) {
            return found;
        }
        let parts = self.terms.node(id).parts();
        let found = parts[0].is_some() && parts.iter().flatten().all(|&p| self.composes(known, given, p, memo));
        memo.insert(id, found);
        found
    }

    fn open_given(&mut self, state: &mut State) {
        for place in 0..state.set.len() {
            let given = self.given(&state.set, place);
            let mut known = self.known(&state.set[place]).to_vec();
            loop {
                let mut memo = QuickMap::default();
                let mut gained = Vec::new();
                for &id in &known {
                    if let Node::Seal(body, key) = self.terms.node(id) {
                        if !has(&known, body) && self.composes(&known, &given, key, &mut memo) {
                            gained.push(body);
                        }
                    }
                }
                if gained.is_empty() {
                    break;
                }
                put_all(&mut known, gained);
                self.split_pairs(&mut known);
            }
            state.set[place].known = self.number(known);
        }
    }

    fn atoms_there(&self, from: &Constraint) -> bool {
        let is_name = |id: &Id| matches!(self.terms.node(*id), Node::Atom(name) if name != 0);
        let there = self.terms.all_parts(&self.known(from));
        self.terms.all_parts(&from.wanted).iter().filter(|id| is_name(id)).all(|&id| has(&there, id))
    }

    /// The constraint and the wanted message to go on with; nothing if only variables are wanted.
    fn chosen(&self, state: &State) -> Option<(usize, Id)> {
        let solid = |from: &Constraint| from.wanted.iter().copied().find(|&id| !self.terms.is_var(id));
        let (place, first) = state.set.iter().enumerate().find_map(|(place, from)| solid(from).map(|id| (place, id)))?;
        if !self.rules.fewest {
            return Some((place, first));
        }
        let from = &state.set[place];
        let known = self.known(from);
        let choices = |id: Id| known.iter().filter(|&&k| self.alike(id, k)).count() + self.terms.node(id).parts()[0].is_some() as usize;
        from.wanted.iter().copied().filter(|&id| !self.terms.is_var(id)).min_by_key(|&id| choices(id)).map(|id| (place, id))
    }

    /// Whether two messages could be equal by their tops.
    fn alike(&self, left: Id, right: Id) -> bool {
        match (self.terms.node(left), self.terms.node(right)) {
            (Node::Var(_), _) | (_, Node::Var(_)) => true,
            (Node::Atom(_), Node::Atom(_)) => left == right,
            (Node::App(f, _), Node::App(g, _)) => f == g,
            (Node::Pair(..), Node::Pair(..)) | (Node::Seal(..), Node::Seal(..)) => true,
            _ => false,
        }
    }

    fn branches(&mut self, state: &State, place: usize, message: Id) -> Vec<State> {
        let known = self.known(&state.set[place]);
        let mut rest = state.clone();
        rest.set[place].wanted.retain(|&id| id != message);
        let mut branches = Vec::new();
        for &other in known.iter() {
            if !self.alike(message, other) || (self.terms.is_var(other) && !self.rules.known_variables) {
                continue;
            }
            let mut bound = (*state.bound).clone();
            if bound.unify(&self.terms, message, other) {
                branches.push(self.with(&rest, bound));
            }
        }
        let parts = self.terms.node(message).parts();
        if parts[0].is_some() {
            let mut split = rest.clone();
            put_all(&mut split.set[place].wanted, parts.into_iter().flatten());
            branches.push(split);
        }
        let more_to_open = !self.rules.open_given || known.iter().any(|&id| self.terms.is_open(id));
        for &seal in known.iter() {
            if let Node::Seal(body, key) = self.terms.node(seal) {
                if self.rules.opens && more_to_open && !has(&known, body) {
                    branches.push(self.opened(state, place, seal, body, key));
                }
            }
        }
        branches
    }

    /// The set with the bindings put in.
    fn with(&mut self, rest: &State, bound: Bindings) -> State {
        let mut memo = QuickMap::default();
        let mut set = Vec::with_capacity(rest.set.len());
        for from in &rest.set {
            let known = self.known(from);
            let number = match known.iter().any(|&id| self.terms.is_open(id)) {
                true => {
                    let known = self.all_with(&bound, &known, &mut memo);
                    self.number(known)
                }
                false => from.known,
            };
            set.push(Constraint { known: number, wanted: self.all_with(&bound, &from.wanted, &mut memo) });
        }
        State { set, bound: Rc::new(bound) }
    }

    fn all_with(&mut self, bound: &Bindings, ids: &[Id], memo: &mut QuickMap<Id, Id>) -> Vec<Id> {
        let mut done: Vec<Id> = ids.iter().map(|&id| bound.put_in(&mut self.terms, id, None, memo)).collect();
        done.sort_unstable();
        done.dedup();
        done
    }

    /// A scrypt: the body is known, and the key is wanted from the same knowledge without the seal.
    fn opened(&mut self, state: &State, place: usize, seal: Id, body: Id, key: Id) -> State {
        let mut next = state.clone();
        let here = self.known(&state.set[place]);
        for (other, from) in next.set.iter_mut().enumerate() {
            let there = self.known(from);
            if other == place || (self.rules.open_given && within(&here, &there)) {
                let mut more = there.to_vec();
                put(&mut more, body);
                from.known = self.number(more);
            }
        }
        let less: Vec<Id> = here.iter().copied().filter(|&id| id != seal).collect();
        next.set.push(Constraint { known: self.number(less), wanted: vec![key] });
        next
    }

    /// The value list of a solved set: free variables are name 0, and every other value is shown by a cell.
    fn list(&mut self, case: &CaseFile, ids: &[Id], own: Id, state: &State) -> Vec<u8> {
        let mut memo = QuickMap::default();
        let shown: Vec<Id> = ids.iter().map(|&id| state.bound.put_in(&mut self.terms, id, Some(own), &mut memo)).collect();
        let cell_of = |value: Id| {
            let found = (0..case.count()).find(|&c| case.cells[c] != Cell::Var && shown[c] == value);
            found.expect("a value is name 0 or shown by a cell") as u8
        };
        let entry = |c: usize| match case.cells[c] {
            Cell::Var if shown[c] == own => 255,
            Cell::Var => cell_of(shown[c]),
            _ => c as u8,
        };
        (0..case.count()).map(entry).collect()
    }
}

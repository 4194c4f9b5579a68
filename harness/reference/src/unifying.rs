//! A textbook unifier with occurs check over shared trees. Each pair of trees is met once, so it is polynomial.

use crate::casefile::MOST;
use crate::terms::{Id, Node, QuickMap, QuickSet, Terms};

/// What each variable is bound to; following the bindings never comes round.
#[derive(Clone)]
pub struct Bindings(Vec<Option<Id>>);

impl Default for Bindings {
    fn default() -> Self {
        Bindings(vec![None; MOST])
    }
}

impl Bindings {
    pub fn of(&self, var: u8) -> Option<Id> {
        self.0[var as usize]
    }

    /// Follows variables until a free one or another tree is met.
    pub fn walk(&self, terms: &Terms, mut id: Id) -> Id {
        while let Node::Var(v) = terms.node(id) {
            match self.of(v) {
                Some(next) => id = next,
                None => break,
            }
        }
        id
    }

    fn occurs(&self, terms: &Terms, var: u8, id: Id) -> bool {
        let mut seen = QuickSet::default();
        let mut work = vec![id];
        while let Some(id) = work.pop() {
            let id = self.walk(terms, id);
            if !terms.is_open(id) || !seen.insert(id) {
                continue;
            }
            if terms.node(id) == Node::Var(var) {
                return true;
            }
            work.extend(terms.node(id).parts().iter().flatten());
        }
        false
    }

    /// Adds what makes the two trees equal; false if nothing does (the bindings are then of no use).
    pub fn unify(&mut self, terms: &Terms, left: Id, right: Id) -> bool {
        let mut met = QuickSet::default();
        let mut work = vec![(left, right)];
        while let Some((left, right)) = work.pop() {
            let (left, right) = (self.walk(terms, left), self.walk(terms, right));
            if left == right || !met.insert((left, right)) {
                continue;
            }
            match (terms.node(left), terms.node(right)) {
                (Node::Var(v), _) => {
                    if self.occurs(terms, v, right) {
                        return false;
                    }
                    self.0[v as usize] = Some(right);
                }
                (_, Node::Var(v)) => {
                    if self.occurs(terms, v, left) {
                        return false;
                    }
                    self.0[v as usize] = Some(left);
                }
                (Node::Pair(a, b), Node::Pair(c, d)) | (Node::Seal(a, b), Node::Seal(c, d)) => work.extend([(b, d), (a, c)]),
                (Node::App(f, a), Node::App(g, c)) if f == g => work.push((a, c)),
                _ => return false,
            }
        }
        true
    }

    /// The tree with all bindings put in; a free variable becomes `free`, or stays if that is `None`.
    pub fn put_in(&self, terms: &mut Terms, id: Id, free: Option<Id>, memo: &mut QuickMap<Id, Id>) -> Id {
        if !terms.is_open(id) {
            return id;
        }
        if let Some(&done) = memo.get(&id) {
            return done;
        }
        let done = match terms.node(id) {
            Node::Var(v) => match self.of(v) {
                Some(next) => self.put_in(terms, next, free, memo),
                None => free.unwrap_or(id),
            },
            Node::Pair(a, b) => {
                let (a, b) = (self.put_in(terms, a, free, memo), self.put_in(terms, b, free, memo));
                terms.make(Node::Pair(a, b))
            }
            Node::Seal(a, b) => {
                let (a, b) = (self.put_in(terms, a, free, memo), self.put_in(terms, b, free, memo));
                terms.make(Node::Seal(a, b))
            }
            Node::App(f, a) => {
                let a = self.put_in(terms, a, free, memo);
                terms.make(Node::App(f, a))
            }
            Node::Atom(_) => id,
        };
        memo.insert(id, done);
        done
    }

    /// Whether the two trees are the same under the bindings, free variables standing for themselves.
    pub fn same(&self, terms: &mut Terms, left: Id, right: Id) -> bool {
        let mut memo = QuickMap::default();
        self.put_in(terms, left, None, &mut memo) == self.put_in(terms, right, None, &mut memo)
    }
}

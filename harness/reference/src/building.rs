//! What the intruder can build from messages without variables: taking apart first, putting together on demand.

use crate::terms::{Id, Node, Terms};

/// The messages taken in so far and what taking them apart gives. Name 0 is always among them.
pub struct Knowledge<'a> {
    terms: &'a Terms,
    held: Vec<bool>,
    list: Vec<Id>,
    settled: bool,
}

impl<'a> Knowledge<'a> {
    /// Knowledge of name 0 alone; `own` is its number.
    pub fn new(terms: &'a Terms, own: Id) -> Self {
        let mut known = Knowledge { terms, held: vec![false; terms.len()], list: Vec::new(), settled: false };
        known.learn(own);
        known
    }

    pub fn learn(&mut self, message: Id) {
        if !std::mem::replace(&mut self.held[message as usize], true) {
            self.list.push(message);
            self.settled = false;
        }
    }

    /// Whether composing alone gives the message from what is held.
    fn composes(&self, message: Id, memo: &mut [Option<bool>]) -> bool {
        if self.held[message as usize] {
            return true;
        }
        if let Some(known) = memo[message as usize] {
            return known;
        }
        let found = self.parts_compose(message, memo);
        memo[message as usize] = Some(found);
        found
    }

    /// Whether a composing step gives the message from what can be composed.
    fn parts_compose(&self, message: Id, memo: &mut [Option<bool>]) -> bool {
        let parts = self.terms.node(message).parts();
        parts[0].is_some() && parts.iter().flatten().all(|&p| self.composes(p, memo))
    }

    /// Takes apart until nothing new appears.
    fn settle(&mut self) {
        while !self.settled {
            self.settled = true;
            let mut memo = vec![None; self.terms.len()];
            let mut gained = Vec::new();
            for &message in &self.list {
                match self.terms.node(message) {
                    Node::Pair(a, b) => gained.extend([a, b]),
                    Node::Seal(body, key) if self.composes(key, &mut memo) => gained.push(body),
                    _ => {}
                }
            }
            for message in gained {
                self.learn(message);
            }
        }
    }

    /// Whether each of the messages can be built.
    pub fn builds_each(&mut self, messages: &[Id]) -> Vec<bool> {
        self.settle();
        let mut memo = vec![None; self.terms.len()];
        messages.iter().map(|&m| self.composes(m, &mut memo)).collect()
    }

    pub fn builds(&mut self, message: Id) -> bool {
        self.builds_each(&[message])[0]
    }

    /// The buildable messages that no composing step gives from built messages.
    pub fn bare(&mut self) -> Vec<Id> {
        self.settle();
        let mut memo = vec![None; self.terms.len()];
        self.list.iter().copied().filter(|&m| !self.parts_compose(m, &mut memo)).collect()
    }
}

//! Runs written by hand, many of them published exchanges and their attacks, each with the reply that it must have; and runs drawn by chance
//! in their manner.

use std::cell::RefCell;

use reference::casefile::{CaseFile, Cell, Event};

use crate::chance::Chance;

/// A case file in the making. A message is the number of its cell; equal messages share a cell.
#[derive(Default)]
struct Exchange(RefCell<CaseFile>);

impl Exchange {
    fn cell(&self, cell: Cell) -> u8 {
        let cells = &mut self.0.borrow_mut().cells;
        let old = cells.iter().position(|&c| c == cell && c != Cell::Var);
        old.unwrap_or_else(|| {
            cells.push(cell);
            cells.len() - 1
        }) as u8
    }

    fn name(&self, number: u16) -> u8 {
        self.cell(Cell::Atom(number))
    }

    fn names<const N: usize>(&self, numbers: [u16; N]) -> [u8; N] {
        numbers.map(|number| self.name(number))
    }

    /// Names numbered in a row.
    fn row(&self, first: u16, count: usize) -> Vec<u8> {
        (first..).take(count).map(|number| self.name(number)).collect()
    }

    fn variable(&self) -> u8 {
        self.cell(Cell::Var)
    }

    fn app(&self, function: u8, argument: u8) -> u8 {
        self.cell(Cell::App(function, argument))
    }

    /// Pairs nested to the right.
    fn pair(&self, messages: &[u8]) -> u8 {
        let (&last, rest) = messages.split_last().expect("a message at least");
        rest.iter().rev().fold(last, |sum, &message| self.cell(Cell::Pair(message, sum)))
    }

    /// The pair of the messages under a key.
    fn seal(&self, messages: &[u8], key: u8) -> u8 {
        let body = self.pair(messages);
        self.cell(Cell::Seal(body, key))
    }

    fn learn(&self, messages: &[u8]) {
        self.0.borrow_mut().events.extend(messages.iter().map(|&m| Event::Learn(m)));
    }

    fn make(&self, messages: &[u8]) {
        self.0.borrow_mut().events.extend(messages.iter().map(|&m| Event::Make(m)));
    }
}

/// The initiator takes part of her own request for the key, unless the reply is tagged.
fn otway_rees(e: &Exchange, tagged: bool) {
    let [a, b, m, na, kas, secret, tag] = e.names([1, 2, 3, 4, 5, 6, 7]);
    let x = e.variable();
    e.learn(&[tag, e.pair(&[m, a, b, e.seal(&[na, m, a, b], kas)])]);
    e.make(&[e.pair(&[m, if tagged { e.seal(&[tag, na, x], kas) } else { e.seal(&[na, x], kas) }])]);
    e.learn(&[e.seal(&[secret], x)]);
    e.make(&[secret]);
}

/// With the responder's nonce in the clear, the intruder's own nonce is taken for the key.
fn yahalom(e: &Exchange, sealed: bool) {
    let [a, b, nb, kbs, secret] = e.names([1, 2, 3, 4, 5]);
    let (x, y) = (e.variable(), e.variable());
    e.learn(&[a, b]);
    e.make(&[e.pair(&[a, x])]);
    e.learn(&[if sealed { e.pair(&[b, e.seal(&[a, x, nb], kbs)]) } else { e.pair(&[b, nb, e.seal(&[a, x], kbs)]) }]);
    e.make(&[e.pair(&[e.seal(&[a, y], kbs), e.seal(&[nb], y)])]);
    e.learn(&[e.seal(&[secret], y)]);
    e.make(&[secret]);
}

/// Symmetric keys. An old ticket serves again if its key has become known.
fn needham_schroeder(e: &Exchange, leaked: bool, sessions: u16) {
    let [a, b, na, kab, kas, kbs] = e.names([1, 2, 3, 4, 5, 6]);
    let ticket = e.seal(&[kab, a], kbs);
    e.learn(&[a, b, e.seal(&[na, b, kab, ticket], kas), ticket]);
    if leaked {
        e.learn(&[kab]);
    }
    for session in 0..sessions {
        let (nb, secret, x) = (e.name(20 + session), e.name(40 + session), e.variable());
        e.make(&[e.seal(&[x, a], kbs)]);
        e.learn(&[e.seal(&[nb], x)]);
        e.make(&[e.seal(&[e.app(1, nb)], x)]);
        e.learn(&[e.seal(&[secret], x)]);
        e.make(&[secret]);
    }
}

/// A ticket with a time in it serves twice; one that answers a nonce serves once.
fn denning_sacco(e: &Exchange, fresh: bool) {
    let [a, kab, kbs, t, n1, n2] = e.names([1, 2, 3, 4, 5, 6]);
    let (x, y) = (e.variable(), e.variable());
    let (first, second) = if fresh { (n1, n2) } else { (t, t) };
    e.learn(&[a, t, n1, n2, e.seal(&[a, kab, first], kbs)]);
    e.make(&[e.seal(&[a, x, first], kbs), e.seal(&[a, y, second], kbs)]);
}

/// How the chosen value of [`pairing`] comes in.
#[derive(Clone, Copy, PartialEq)]
enum Chosen {
    Free,
    Salted,
    Replayed,
    ReplayedAndKnown,
}

/// A code under a key that depends on a chosen value, and a secret under the code.
fn pairing(e: &Exchange, way: Chosen) {
    let [code, secret, n, k] = e.names([1, 2, 3, 4]);
    let x = e.variable();
    if way == Chosen::Replayed || way == Chosen::ReplayedAndKnown {
        e.learn(&[e.seal(&[n], k)]);
        if way == Chosen::ReplayedAndKnown {
            e.learn(&[n]);
        }
        e.make(&[e.seal(&[x], k)]);
    } else {
        e.make(&[x]);
    }
    let key = e.app(9, x);
    let key = if way == Chosen::Salted { e.pair(&[key, n]) } else { key };
    e.learn(&[e.seal(&[code], key), e.seal(&[secret], code)]);
    e.make(&[secret]);
}

/// A challenge is sent back to its sender in a second session.
fn reflection(e: &Exchange, directed: bool) {
    let [k, n, here, there] = e.names([1, 2, 3, 4]);
    let y = e.variable();
    e.learn(&[n, here, there]);
    e.make(&[y]);
    e.learn(&[if directed { e.seal(&[there, y], k) } else { e.seal(&[y], k) }]);
    e.make(&[if directed { e.seal(&[here, n], k) } else { e.seal(&[n], k) }]);
}

/// The key of a wanted seal is a variable: a replay fixes it, and the key is told afterwards.
fn key_chosen(e: &Exchange, learnt_later: bool) {
    let [s, k] = e.names([1, 2]);
    let x = e.variable();
    e.learn(&[e.seal(&[s], k)]);
    e.make(&[e.seal(&[s], x)]);
    if learnt_later {
        e.learn(&[x]);
    }
    e.make(&[s]);
}

/// A kind of key, and what is known of it.
#[derive(Clone, Copy, PartialEq)]
enum Key {
    Pair,
    Application,
    Seal,
    Twice,
}

#[derive(Clone, Copy, PartialEq)]
enum Known {
    Nothing,
    One,
    Both,
    Whole,
}

/// A seal whose key is a pair, an application, a seal or a pair of equal parts; known parts decide.
fn composed_key(e: &Exchange, kind: Key, known: Known) {
    let [s, p, q] = e.names([1, 2, 3]);
    let key = match kind {
        Key::Pair => e.pair(&[p, q]),
        Key::Application => e.app(7, p),
        Key::Seal => e.seal(&[p], q),
        Key::Twice => e.pair(&[p, p]),
    };
    e.learn(&[e.seal(&[s], key)]);
    for (part, is_known) in [(p, known != Known::Nothing), (q, known == Known::Both), (key, known == Known::Whole)] {
        if is_known {
            e.learn(&[part]);
        }
    }
    e.make(&[s]);
}

/// Whether what is known gives the key.
fn opens(kind: Key, known: Known) -> bool {
    known == Known::Both || known == Known::Whole || known == Known::One && matches!(kind, Key::Application | Key::Twice)
}

/// A seal is the key of another, which holds the first one's own key.
fn seal_as_key(e: &Exchange, body_only: bool) {
    let [b, k] = e.names([1, 2]);
    let first = e.seal(&[b], k);
    e.learn(&[e.seal(&[k], if body_only { b } else { first }), first]);
    e.make(&[b]);
}

/// Names sealed each under the next, round; one of them learnt opens all.
fn ring(e: &Exchange, length: usize, opened: bool) {
    let ns = e.row(1, length);
    for i in 0..length {
        e.learn(&[e.seal(&[ns[i]], ns[(i + 1) % length])]);
    }
    if opened {
        e.learn(&ns[length - 1..]);
    }
    e.make(&ns);
}

/// Seals whose keys are chosen one after the other; the last opens the secret.
fn chain(e: &Exchange, length: usize, whole: bool) {
    let [k, secret] = e.names([1, 2]);
    let ns = e.row(10, length + 1);
    for two in ns.windows(2) {
        e.learn(&[e.seal(two, k)]);
    }
    let mut x = ns[0];
    for _ in 0..length {
        let y = e.variable();
        e.make(&[e.seal(&[x, y], k)]);
        e.learn(&[e.app(3, y)]);
        x = y;
    }
    e.learn(&[e.seal(&[secret], if whole { e.app(3, x) } else { x })]);
    e.make(&[secret]);
}

/// Towers of doubled pairs, one over a variable and one over a name, made equal.
fn doubled(e: &Exchange, height: usize, told: bool) {
    let [n, k] = e.names([1, 2]);
    let x = e.variable();
    let (mut left, mut right) = (x, n);
    for _ in 0..height {
        (left, right) = (e.pair(&[left, left]), e.pair(&[right, right]));
    }
    e.learn(&[e.seal(&[right], k)]);
    e.make(&[e.seal(&[left], k)]);
    if told {
        e.learn(&[x]);
    }
    e.make(&[n]);
}

/// Wanted seals that each fit every learnt one; the sum of the choices must match a last one.
fn seals_fit(e: &Exchange, wanted: usize, learnt: usize, odd: bool) {
    let [k, q] = e.names([1, 2]);
    let ns = e.row(10, learnt);
    ns.iter().for_each(|&n| e.learn(&[e.seal(&[n], k)]));
    let mut xs: Vec<u8> = (0..wanted).map(|_| e.variable()).collect();
    xs.iter().for_each(|&x| e.make(&[e.seal(&[x], k)]));
    let sum: Vec<u8> = (0..wanted).map(|i| ns[i % learnt]).collect();
    e.learn(&[e.seal(&sum, q)]);
    if odd {
        xs[wanted - 1] = e.name(99);
    }
    e.make(&[e.seal(&xs, q)]);
}

/// A value that would hold itself: the wanted seal fits the learnt one only round a corner.
fn occurs(e: &Exchange, fits: bool) {
    let [k, n] = e.names([1, 2]);
    let (x, y) = (e.variable(), e.variable());
    e.make(&[y]);
    e.learn(&[e.seal(&[y, y], k)]);
    e.make(&[e.seal(&[x, if fits { x } else { e.seal(&[x], n) }], k)]);
}

/// What stands round the wanted seal of [`promised`].
#[derive(Clone, Copy)]
enum Wrap {
    Bare,
    Pair,
    Application,
    Seal,
    Later,
}

/// A value that a replay fixes must have been at hand where it was first wanted.
fn promised(e: &Exchange, early: bool, wrap: Wrap) {
    let [s, k, n] = e.names([1, 2, 3]);
    let x = e.variable();
    e.learn(&[n]);
    if early {
        e.learn(&[s]);
    }
    e.make(&[x]);
    e.learn(&[e.seal(&[s], k)]);
    let wanted = e.seal(&[x], k);
    e.make(&[match wrap {
        Wrap::Bare => wanted,
        Wrap::Pair => e.pair(&[n, wanted]),
        Wrap::Application => e.app(4, wanted),
        Wrap::Seal => e.seal(&[wanted], n),
        Wrap::Later => e.pair(&[e.app(4, x), wanted]),
    }]);
}

/// What opens the seal of [`opened_late`], and what is wanted beside the secret.
#[derive(Clone, Copy, PartialEq)]
enum Opens {
    Variable,
    Pair,
    Application,
    Seal,
    Other,
}

#[derive(Clone, Copy, PartialEq)]
enum Also {
    Nothing,
    Value,
    Unknown,
}

/// What opens a seal is chosen: the key is a variable, or composed of one, and a second seal must agree with the choice. The keys not used
/// stay as cells, which a value might be.
fn opened_late(e: &Exchange, way: Opens, also: Also) {
    let [s, k, q, n] = e.names([1, 2, 3, 4]);
    let x = e.variable();
    e.learn(&[n, e.seal(&[n], k), e.seal(&[q], k)]);
    e.make(&[e.seal(&[x], k)]);
    let (pair, application, seal, other) = (e.pair(&[x, n]), e.app(2, x), e.seal(&[n], x), e.pair(&[x, q]));
    let key = match way {
        Opens::Variable => x,
        Opens::Pair => pair,
        Opens::Application => application,
        Opens::Seal => seal,
        Opens::Other => other,
    };
    e.learn(&[e.seal(&[s], key)]);
    e.make(&[s]);
    match also {
        Also::Nothing => {}
        Also::Value => e.make(&[x]),
        Also::Unknown => e.make(&[q]),
    }
}

/// A learnt application is made again with a value in it; the value, though its message was never seen, is what another application shows.
fn told_twice(e: &Exchange, other: bool) {
    let [a, b] = e.names([1, 2]);
    let x = e.variable();
    e.learn(&[e.app(7, a)]);
    e.make(&[e.app(7, x)]);
    e.learn(&[e.app(6, x)]);
    e.make(&[e.app(6, if other { b } else { a })]);
}

/// Variables that no event shows.
fn unreached(e: &Exchange, learnt: bool) {
    let n = e.name(5);
    let (x, y) = (e.variable(), e.variable());
    e.pair(&[x, e.seal(&[y], n)]);
    if learnt {
        e.learn(&[n]);
    }
    e.make(&[n]);
}

/// Name 0 opens what is sealed under it, and is no help as a body.
fn own_name(e: &Exchange, as_key: bool) {
    let [own, s] = e.names([0, 7]);
    e.learn(&[if as_key { e.seal(&[s], own) } else { e.seal(&[own], s) }]);
    e.make(&[own, s]);
}

/// A run with the reply it must have.
pub struct Script {
    pub case: CaseFile,
    pub yes: bool,
}

/// The runs, most of them on both sides of what they show.
pub fn scripts() -> Vec<Script> {
    let mut found = Vec::new();
    let mut put = |yes: bool, steps: &dyn Fn(&Exchange)| {
        let exchange = Exchange::default();
        steps(&exchange);
        found.push(Script { case: exchange.0.into_inner(), yes });
    };
    let both = [true, false];
    both.iter().for_each(|&yes| put(yes, &|e| otway_rees(e, !yes)));
    both.iter().for_each(|&yes| put(yes, &|e| yahalom(e, !yes)));
    for sessions in 1..=3 {
        both.iter().for_each(|&yes| put(yes, &|e| needham_schroeder(e, yes, sessions)));
    }
    both.iter().for_each(|&yes| put(yes, &|e| denning_sacco(e, !yes)));
    both.iter().for_each(|&yes| put(yes, &|e| reflection(e, !yes)));
    for (way, yes) in [(Chosen::Free, true), (Chosen::Salted, false), (Chosen::Replayed, false), (Chosen::ReplayedAndKnown, true)] {
        put(yes, &|e| pairing(e, way));
    }
    both.iter().for_each(|&yes| put(yes, &|e| key_chosen(e, yes)));
    both.iter().for_each(|&yes| put(yes, &|e| seal_as_key(e, !yes)));
    for kind in [Key::Pair, Key::Application, Key::Seal, Key::Twice] {
        for known in [Known::Nothing, Known::One, Known::Both, Known::Whole] {
            put(opens(kind, known), &|e| composed_key(e, kind, known));
        }
    }
    for length in [1, 2, 3, 6, 20] {
        both.iter().for_each(|&yes| put(yes, &|e| ring(e, length, yes)));
    }
    for length in 1..=4 {
        both.iter().for_each(|&yes| put(yes, &|e| chain(e, length, yes)));
    }
    for height in [1, 5, 20, 40, 58] {
        both.iter().for_each(|&yes| put(yes, &|e| doubled(e, height, yes)));
    }
    for (wanted, learnt) in [(2, 2), (3, 2), (3, 3), (4, 3)] {
        both.iter().for_each(|&yes| put(yes, &|e| seals_fit(e, wanted, learnt, !yes)));
    }
    both.iter().for_each(|&yes| put(yes, &|e| occurs(e, yes)));
    both.iter().for_each(|&yes| put(yes, &|e| unreached(e, yes)));
    both.iter().for_each(|&yes| put(yes, &|e| own_name(e, yes)));
    for wrap in [Wrap::Bare, Wrap::Pair, Wrap::Application, Wrap::Seal, Wrap::Later] {
        both.iter().for_each(|&yes| put(yes, &|e| promised(e, yes, wrap)));
    }
    for way in [Opens::Variable, Opens::Pair, Opens::Application, Opens::Seal, Opens::Other] {
        for also in [Also::Nothing, Also::Value, Also::Unknown] {
            put(way != Opens::Other && also != Also::Unknown, &|e| opened_late(e, way, also));
        }
    }
    both.iter().for_each(|&yes| put(yes, &|e| told_twice(e, !yes)));
    found
}

/// A name of the list, or a small message made of such names.
fn item(e: &Exchange, chance: &mut Chance, names: &[u8], depth: usize) -> u8 {
    match chance.below(100) {
        0..=14 if depth < 2 => {
            let two = [0; 2].map(|_| item(e, chance, names, depth + 1));
            e.pair(&two)
        }
        15..=29 if depth < 2 => {
            let function = *chance.pick(&[8, 9]);
            let argument = item(e, chance, names, depth + 1);
            e.app(function, argument)
        }
        _ => *chance.pick(names),
    }
}

/// A run drawn by chance in the manner of the above: seals are seen, a wanted pattern fits some of them, the reply is under what was chosen.
pub fn drawn(chance: &mut Chance) -> CaseFile {
    let e = Exchange::default();
    let (known, keys, secrets) = (e.names([1, 2]), e.names([3, 4]), e.names([5, 6, 7]));
    let names = [&known[..], &secrets].concat();
    e.learn(&known);
    let mut seals = Vec::new();
    for _ in 0..chance.between(2, 5) {
        let two = [0; 2].map(|_| item(&e, chance, &names, 0));
        seals.push((two, *chance.pick(&keys)));
    }
    seals.iter().for_each(|(two, key)| e.learn(&[e.seal(two, *key)]));
    let (mut chosen, mut told) = (Vec::new(), Vec::new());
    for _ in 0..chance.between(1, 3) {
        let ([left, right], key) = *chance.pick(&seals);
        let x = e.variable();
        chosen.push(x);
        e.make(&[match chance.below(7) {
            0 => e.seal(&[left, x], key),
            1 => e.seal(&[x, right], key),
            2 => e.seal(&[x, x], key),
            3 => e.seal(&[x, *chance.pick(&chosen)], key),
            4 => x,
            5 => e.seal(&[e.app(8, x), right], key),
            _ => e.seal(&[left, right], x),
        }]);
        let lock = match chance.below(5) {
            0 => x,
            1 => e.pair(&[x, *chance.pick(&known)]),
            2 => e.app(8, x),
            3 => *chance.pick(&chosen),
            _ => e.seal(&known[..1], x),
        };
        told.push(*chance.pick(&secrets));
        e.learn(&[e.seal(&told[told.len() - 1..], lock)]);
        if chance.percent(25) {
            e.learn(&[x]);
        }
    }
    e.make(&[*chance.pick(&told)]);
    if chance.percent(40) {
        e.make(&[match chance.below(3) {
            0 => e.pair(&chosen),
            1 => e.seal(&[*chance.pick(&told)], chosen[chosen.len() - 1]),
            _ => e.app(9, chosen[0]),
        }]);
    }
    e.0.into_inner()
}

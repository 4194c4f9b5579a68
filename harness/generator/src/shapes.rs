//! The shapes of generated case files. Each shape makes cells and events from chance.

use reference::casefile::{CaseFile, Cell, MOST};

use crate::chance::Chance;
use crate::draft::Draft;
use crate::planted::planted;

pub(crate) type Maker = fn(&mut Draft);

/// Name, weight and maker of each shape; small files weigh more than large ones.
const SHAPES: [(&str, usize, Maker); 15] = [
    ("soup", 8, soup),
    ("ground", 12, ground),
    ("own-name", 8, own_name),
    ("keys", 14, keys),
    ("replay", 14, replay),
    ("roles", 10, some_roles),
    ("woven", 12, woven),
    ("towers", 2, towers),
    ("equal", 8, equal),
    ("locks", 8, locks),
    ("chains", 4, chains),
    ("crossed", 6, crossed),
    ("large", 2, large),
    ("planted", 40, some_planted),
    ("steered", 20, steered),
];

/// Name and maker of a shape, drawn by weight.
pub(crate) fn drawn(chance: &mut Chance) -> (&'static str, Maker) {
    let mut left = chance.below(SHAPES.iter().map(|(_, weight, _)| weight).sum());
    for (name, weight, make) in SHAPES {
        if left < weight {
            return (name, make);
        }
        left -= weight;
    }
    unreachable!("the weights add up to more than what is left")
}

/// Any case file, with the name of its shape.
pub fn any(mut chance: Chance) -> (&'static str, CaseFile) {
    let (name, make) = drawn(&mut chance);
    let mut draft = Draft::new(chance);
    make(&mut draft);
    (name, draft.done())
}

fn some_roles(draft: &mut Draft) {
    let sessions = draft.chance.between(1, 3);
    roles(draft, sessions);
}

fn some_planted(draft: &mut Draft) {
    let rounds = draft.chance.between(1, 3);
    planted(draft, rounds);
}

fn name(draft: &mut Draft, most: usize) -> u8 {
    let name = if draft.chance.once_in(30) { *draft.chance.pick(&[255, 256, 65535, 0x4154]) } else { draft.chance.between(0, most) as u16 };
    draft.atom(name)
}

/// A cell of a random kind over random old cells; late ones are preferred so that trees grow.
pub(crate) fn grow(draft: &mut Draft, vars: bool, names: usize) -> u8 {
    let count = draft.count();
    let roll = draft.chance.below(if vars { 10 } else { 8 });
    if count == 0 || roll < 2 {
        return name(draft, names);
    }
    if roll >= 8 {
        return draft.var();
    }
    let late = draft.chance.once_in(2);
    let mut part = || if late { count - 1 - draft.chance.below(count.min(4)) } else { draft.chance.below(count) } as u8;
    let (a, b) = (part(), part());
    match roll {
        2 | 3 => draft.pair(a, b),
        4..=6 => draft.seal(a, b),
        _ => {
            let function = draft.chance.below(2) as u8;
            draft.app(function, a)
        }
    }
}

pub(crate) fn some_events(draft: &mut Draft, most: usize) {
    let events = draft.chance.between(0, most);
    let learns = draft.chance.between(20, 80);
    for _ in 0..events {
        let c = draft.any();
        if draft.chance.percent(learns) {
            draft.learn(c);
        } else {
            draft.make(c);
        }
    }
}

fn soup(draft: &mut Draft) {
    let cells = draft.chance.between(1, 14);
    let names = draft.chance.between(1, 4);
    for _ in 0..cells {
        grow(draft, true, names);
    }
    some_events(draft, 8);
}

/// No variables: seals over seals, keys that are pairs, seals or applications, twins.
fn ground(draft: &mut Draft) {
    let cells = if draft.chance.once_in(6) { draft.chance.between(20, 120) } else { draft.chance.between(1, 18) };
    let names = draft.chance.between(1, 5);
    for _ in 0..cells {
        grow(draft, false, names);
    }
    for _ in 0..draft.chance.between(0, 2 + cells / 3) {
        let c = draft.any();
        if draft.chance.once_in(8) {
            draft.make(c);
        } else {
            draft.learn(c);
        }
    }
}

/// Name 0 as key, body and atom, beside one or two other names.
fn own_name(draft: &mut Draft) {
    let own = draft.atom(0);
    let other = draft.atom(1);
    let var = draft.var();
    let pool = [own, other, var];
    for _ in 0..draft.chance.between(1, 5) {
        let (a, b) = (*draft.chance.pick(&pool), *draft.chance.pick(&pool));
        match draft.chance.below(4) {
            0 => draft.pair(a, b),
            1 => draft.app(0, a),
            _ => draft.seal(a, b),
        };
    }
    for _ in 0..draft.chance.between(0, 4) {
        grow(draft, false, 1);
    }
    some_events(draft, 6);
}

/// A key for a seal: often something that holds a variable and only then composes.
fn odd_key(draft: &mut Draft, var: u8, names: &[u8]) -> u8 {
    let k = *draft.chance.pick(names);
    match draft.chance.below(8) {
        0 | 1 => var,
        2 => draft.pair(var, k),
        3 => draft.app(1, var),
        4 => draft.seal(var, k),
        5 => draft.seal(k, var),
        6 => draft.pair(k, k),
        _ => k,
    }
}

fn names(draft: &mut Draft, count: usize) -> Vec<u8> {
    (1..=count).map(|n| draft.atom(n as u16)).collect()
}

/// Seals whose keys become known through chosen values.
fn keys(draft: &mut Draft) {
    let atoms_wanted = draft.chance.between(2, 4);
    let atoms = names(draft, atoms_wanted);
    let vars: Vec<u8> = (0..draft.chance.between(1, 3)).map(|_| draft.var()).collect();
    if draft.chance.once_in(2) {
        let (a, k) = (*draft.chance.pick(&atoms), *draft.chance.pick(&atoms));
        let c = draft.seal(a, k);
        draft.learn(c);
    }
    for &v in &vars {
        let wanted = match draft.chance.below(5) {
            0 => draft.pair(v, v),
            1 | 2 => {
                let k = *draft.chance.pick(&atoms);
                draft.seal(v, k)
            }
            3 => {
                let a = *draft.chance.pick(&atoms);
                draft.seal(a, v)
            }
            _ => v,
        };
        draft.make(wanted);
        for _ in 0..draft.chance.between(1, 2) {
            let body = if draft.chance.once_in(4) { draft.any() } else { *draft.chance.pick(&atoms) };
            let key = odd_key(draft, v, &atoms);
            let c = draft.seal(body, key);
            draft.learn(c);
        }
    }
    let goals = draft.chance.between(1, 2);
    goal(draft, &atoms, goals);
}

fn goal(draft: &mut Draft, atoms: &[u8], count: usize) {
    for _ in 0..count {
        let c = match draft.chance.below(4) {
            0 => draft.any(),
            1 => {
                let c = draft.any();
                draft.loosen(c, 30)
            }
            _ => *draft.chance.pick(atoms),
        };
        draft.make(c);
    }
}

/// Learnt seals wanted again with variables inside, one value serving several places.
fn replay(draft: &mut Draft) {
    let atoms_wanted = draft.chance.between(2, 4);
    let atoms = names(draft, atoms_wanted);
    let mut seals = Vec::new();
    for _ in 0..draft.chance.between(1, 3) {
        let (a, b, k) = (*draft.chance.pick(&atoms), *draft.chance.pick(&atoms), *draft.chance.pick(&atoms));
        let body = match draft.chance.below(4) {
            0 => a,
            1 => draft.app(0, a),
            2 => seals.last().copied().unwrap_or(a),
            _ => draft.pair(a, b),
        };
        let c = draft.seal(body, k);
        draft.learn(c);
        seals.push(c);
    }
    for _ in 0..draft.chance.between(1, 3) {
        let c = *draft.chance.pick(&seals);
        let wanted = draft.loosen(c, 35);
        let wanted = if draft.chance.once_in(4) {
            let more = draft.any();
            draft.pair(wanted, more)
        } else {
            wanted
        };
        draft.make(wanted);
        if draft.chance.percent(60) {
            let c = draft.any();
            let c = if draft.chance.once_in(2) {
                let k = draft.any();
                draft.seal(c, k)
            } else {
                c
            };
            draft.learn(c);
        }
    }
    let goals = draft.chance.between(0, 2);
    goal(draft, &atoms, goals);
}

/// Some sessions of one made-up protocol: receive a message with unknown parts, answer with some of them.
pub(crate) fn roles(draft: &mut Draft, sessions: usize) {
    let agents = draft.chance.between(1, 2);
    let shared: Vec<u8> = (0..agents).map(|n| draft.atom(10 + n as u16)).collect();
    let public = draft.atom(1);
    let secret = draft.atom(2);
    let steps = draft.chance.between(1, 3);
    let plan: Vec<[usize; 6]> = (0..steps).map(|_| std::array::from_fn(|_| draft.chance.below(6))).collect();
    draft.learn(public);
    if draft.chance.once_in(3) {
        let old = draft.atom(40);
        let ticket = draft.pair(old, public);
        let c = draft.seal(ticket, shared[0]);
        draft.learn(c);
        if draft.chance.once_in(2) {
            draft.learn(old);
        }
    }
    for session in 0..sessions {
        let nonce = draft.atom(20 + session as u16);
        let mut got = vec![nonce, public];
        for step in &plan {
            let key = shared[step[0] % shared.len()];
            let unknown = draft.var();
            let body = match step[1] {
                0 => unknown,
                1 => draft.pair(unknown, nonce),
                2 => draft.pair(got[step[2] % got.len()], unknown),
                3 => draft.app(step[2] as u8, unknown),
                _ => draft.pair(public, unknown),
            };
            let received = match step[3] {
                0 | 1 => body,
                2 => draft.seal(body, got[step[4] % got.len()]),
                _ => draft.seal(body, key),
            };
            draft.make(received);
            got.push(unknown);
            let content = match step[4] {
                0 => nonce,
                1 => draft.pair(unknown, nonce),
                2 => draft.pair(nonce, unknown),
                3 => draft.app(step[2] as u8, unknown),
                4 => secret,
                _ => unknown,
            };
            let sent = match step[5] {
                0 => content,
                1 => draft.seal(content, unknown),
                2 => draft.seal(content, got[step[2] % got.len()]),
                3 => draft.pair(public, content),
                _ => draft.seal(content, key),
            };
            draft.learn(sent);
        }
        if draft.chance.once_in(2) {
            let last = got[got.len() - 1];
            let c = draft.seal(secret, last);
            draft.learn(c);
        }
    }
    let want = match draft.chance.below(4) {
        0 => draft.seal(public, shared[0]),
        1 => draft.any(),
        _ => secret,
    };
    draft.make(want);
}

/// A random story: learn something grown from what is there, want a loosened form of something.
fn woven(draft: &mut Draft) {
    let count = draft.chance.between(2, 4);
    let atoms = names(draft, count);
    for _ in 0..draft.chance.between(1, 6) {
        grow(draft, false, 3);
    }
    let steps = draft.chance.between(1, 4);
    for _ in 0..steps {
        for _ in 0..draft.chance.between(0, 2) {
            let c = draft.any();
            draft.learn(c);
        }
        let c = draft.any();
        let percent = *draft.chance.pick(&[10, 25, 50]);
        let wanted = draft.loosen(c, percent);
        draft.make(wanted);
        if draft.chance.once_in(2) {
            let (c, var) = (draft.any(), draft.any());
            let key = odd_key(draft, var, &atoms);
            let seal = draft.seal(c, key);
            draft.learn(seal);
        }
    }
    let goals = draft.chance.between(0, 1);
    goal(draft, &atoms, goals);
}

/// Doubled pairs, seals or applications upon each other: few cells, very large trees.
fn towers(draft: &mut Draft) {
    draft.twins = 0;
    let ends = [draft.atom(1), if draft.chance.once_in(2) { draft.var() } else { draft.atom(0) }];
    let height = *draft.chance.pick(&[3, 10, 30, 58]);
    let mut tops = ends;
    let first_kind = draft.chance.below(3);
    let odd = draft.chance.below(height * 8);
    let tower = |draft: &mut Draft, end: u8, side: usize| {
        let mut top = end;
        for level in 0..height {
            let kind = if level + side * height == odd { first_kind + 1 } else { first_kind };
            top = match kind % 3 {
                0 => draft.pair(top, top),
                1 => draft.seal(top, top),
                _ => draft.app(7, top),
            };
        }
        top
    };
    for side in 0..2 {
        tops[side] = tower(draft, ends[side], side);
    }
    let key = draft.atom(3);
    let seal = draft.seal(tops[0], key);
    let wanted = draft.seal(tops[1], key);
    match draft.chance.below(4) {
        0 => {
            draft.learn(tops[0]);
            draft.make(tops[1]);
        }
        1 => draft.make(tops[1]),
        _ => {
            draft.learn(seal);
            draft.make(wanted);
            if draft.chance.once_in(2) {
                draft.make(ends[1]);
            }
        }
    }
}

/// Related trees for equating: one is the other loosened and tightened; variables over variables.
fn equal(draft: &mut Draft) {
    let vars = draft.chance.between(1, 5);
    for _ in 0..vars {
        draft.var();
    }
    for _ in 0..draft.chance.between(2, 12) {
        grow(draft, true, 2);
    }
    for _ in 0..draft.chance.between(1, 3) {
        let c = draft.any();
        let looser = draft.loosen(c, 20);
        draft.tighten(looser, 30);
    }
    some_events(draft, 5);
}

/// Seals that are keys of other seals, and keys that hold the seal they open.
fn locks(draft: &mut Draft) {
    let count = draft.chance.between(2, 4);
    let atoms = names(draft, count);
    let var = if draft.chance.once_in(2) { Some(draft.var()) } else { None };
    let mut pool = atoms.clone();
    pool.extend(var);
    for _ in 0..draft.chance.between(2, 5) {
        let (body, key) = (*draft.chance.pick(&pool), *draft.chance.pick(&pool));
        let c = match draft.chance.below(6) {
            0 => draft.pair(body, key),
            1 => draft.app(0, body),
            _ => draft.seal(body, key),
        };
        pool.push(c);
    }
    let seals: Vec<u8> = pool[count..].to_vec();
    if let Some(v) = var {
        if draft.chance.once_in(2) {
            draft.make(v);
        } else {
            let c = *draft.chance.pick(&seals);
            let c = draft.loosen(c, 25);
            draft.make(c);
        }
    }
    for &c in &seals {
        if draft.chance.percent(75) {
            draft.learn(c);
        }
    }
    let goals = draft.chance.between(1, 2);
    goal(draft, &atoms, goals);
    if draft.chance.once_in(2) {
        let c = draft.any();
        draft.learn(c);
        goal(draft, &atoms, 1);
    }
}

/// Keys sealed under one another, the first known through a value, sometimes with a link left out.
fn chains(draft: &mut Draft) {
    let links = draft.chance.between(2, 5);
    let gap = draft.chance.below(links * 3);
    let keys = names(draft, links + 1);
    let var = draft.var();
    draft.make(var);
    let mut order: Vec<usize> = (0..links).collect();
    for i in (1..links).rev() {
        order.swap(i, draft.chance.below(i + 1));
    }
    let first = odd_key(draft, var, &keys[..1]);
    let c = draft.seal(keys[0], first);
    draft.learn(c);
    for link in order {
        if link == gap {
            continue;
        }
        let key = if draft.chance.once_in(4) { draft.pair(keys[link], keys[link]) } else { keys[link] };
        let c = draft.seal(keys[link + 1], key);
        draft.learn(c);
    }
    draft.make(keys[links]);
}

/// Some wanted seals that each fit some learnt ones, their contents tied together afterwards.
fn crossed(draft: &mut Draft) {
    let (many, few) = (draft.chance.between(2, 4), draft.chance.between(1, 3));
    crossed_of(draft, many, few);
}

pub(crate) fn crossed_of(draft: &mut Draft, many: usize, few: usize) {
    let contents = names(draft, many);
    let (key, tie) = (draft.atom(30), draft.atom(31));
    for &a in &contents {
        let c = draft.seal(a, key);
        draft.learn(c);
    }
    let vars: Vec<u8> = (0..few).map(|_| draft.var()).collect();
    for &v in &vars {
        let c = draft.seal(v, key);
        draft.make(c);
    }
    let fixed: Vec<u8> = vars.iter().map(|_| *draft.chance.pick(&contents)).collect();
    let body = draft.tuple(&fixed);
    let c = draft.seal(body, tie);
    draft.learn(c);
    let mut wanted = vars.clone();
    if draft.chance.once_in(2) {
        let a = *draft.chance.pick(&vars);
        let place = draft.chance.below(wanted.len());
        wanted[place] = a;
    }
    let body = draft.tuple(&wanted);
    let c = draft.seal(body, tie);
    draft.make(c);
}

/// A message over `content` that he cannot compose, as long as `hidden` is not known.
fn closed(draft: &mut Draft, kind: usize, content: u8, hidden: u8) -> u8 {
    match kind {
        0 => draft.seal(content, hidden),
        1 => {
            let body = draft.pair(content, hidden);
            draft.app(1, body)
        }
        2 => {
            let body = draft.pair(content, content);
            draft.seal(body, hidden)
        }
        3 => {
            let inner = draft.seal(content, hidden);
            draft.app(2, inner)
        }
        _ => {
            let key = draft.pair(hidden, content);
            draft.seal(content, key)
        }
    }
}

/// Keys that are messages he cannot compose but has learnt for some contents: a variable he was free to choose must have
/// been chosen so that the key is one of them. Two such keys may ask different things of it.
fn steered(draft: &mut Draft) {
    let hidden = draft.atom(9);
    let (a, b) = (draft.atom(1), draft.atom(2));
    let mut contents = vec![a, b];
    if draft.chance.once_in(2) {
        contents.push(draft.seal(a, hidden));
    }
    if draft.chance.once_in(3) {
        contents.push(draft.pair(a, b));
    }
    let kinds = [draft.chance.below(5), draft.chance.below(5)];
    let mut late = Vec::new();
    for &c in &contents {
        if draft.chance.percent(65) {
            draft.learn(c);
        } else if draft.chance.once_in(2) {
            late.push(c);
        }
        for &kind in &kinds {
            if draft.chance.percent(55) {
                let c = closed(draft, kind, c, hidden);
                draft.learn(c);
            }
        }
    }
    let vars: Vec<u8> = (0..draft.chance.between(1, 2)).map(|_| draft.var()).collect();
    for &v in &vars {
        let wanted = match draft.chance.below(6) {
            0 => closed(draft, kinds[0], v, hidden),
            1 => draft.pair(v, a),
            2 => draft.seal(v, a),
            3 => draft.app(1, v),
            _ => v,
        };
        draft.make(wanted);
    }
    let goals = [draft.atom(3), draft.atom(4)];
    for &goal in &goals {
        let v = *draft.chance.pick(&vars);
        let kind = *draft.chance.pick(&kinds);
        let key = closed(draft, kind, v, hidden);
        let key = if draft.chance.once_in(4) { draft.pair(key, v) } else { key };
        let body = if draft.chance.once_in(4) { draft.pair(goal, v) } else { goal };
        let c = draft.seal(body, key);
        draft.learn(c);
    }
    if draft.chance.once_in(2) {
        late.into_iter().for_each(|c| draft.learn(c));
    }
    let first = draft.chance.below(2);
    draft.make(goals[first]);
    if draft.chance.once_in(2) {
        draft.make(goals[1 - first]);
    }
}

/// Up to 128 cells and 128 events.
fn large(draft: &mut Draft) {
    draft.twins = draft.twins.max(5);
    let cells = if draft.chance.once_in(2) { MOST } else { draft.chance.between(40, MOST) }.min(draft.most);
    let vars = draft.chance.between(0, 3);
    let names = draft.chance.between(2, 9);
    while draft.count() < cells {
        let var = draft.cells.iter().filter(|&&c| c == Cell::Var).count() < vars && draft.chance.once_in(6);
        grow(draft, var, names);
        draft.twins = draft.twins.max(30);
    }
    let events = if draft.chance.once_in(8) { MOST } else { draft.chance.between(1, 12) };
    let learns = draft.chance.between(30, 100);
    for _ in 0..events {
        let c = draft.any();
        if draft.chance.percent(learns) {
            draft.learn(c);
        } else {
            draft.make(c);
        }
    }
}

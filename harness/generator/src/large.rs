//! Case files of up to 128 cells for measuring the search. The last word of a name is the reply to the file's run. The program
//! `large` writes them into the folder of case files.

use reference::casefile::{CaseFile, MOST};

use crate::chance::Chance;
use crate::draft::Draft;
use crate::grown::grown;

/// Colours, vertices, edges, the seed of the graph, and the reply.
const COLOURED: [(usize, usize, usize, u64, &str); 16] = [
    (3, 26, 63, 0, "no"),
    (3, 26, 63, 4, "no"),
    (3, 27, 61, 2, "no"),
    (3, 27, 61, 5, "yes"),
    (3, 28, 59, 7, "yes"),
    (3, 28, 59, 10, "yes"),
    (4, 18, 71, 0, "no"),
    (4, 18, 71, 1, "no"),
    (4, 19, 69, 3, "no"),
    (4, 19, 69, 128, "yes"),
    (4, 20, 67, 4, "yes"),
    (5, 15, 67, 3, "no"),
    (5, 15, 67, 5, "no"),
    (5, 15, 67, 9, "no"),
    (5, 16, 65, 0, "yes"),
    (5, 16, 65, 3, "yes"),
];

/// Pigeons and holes.
const PIGEONS: [(usize, usize); 4] = [(6, 5), (6, 6), (7, 6), (8, 8)];

/// Chains, exchanges of a chain, and the reply.
const BLIND: [(usize, usize, &str); 6] = [(11, 2, "no"), (11, 2, "yes"), (7, 3, "no"), (5, 4, "no"), (4, 6, "yes"), (1, 24, "no")];

/// The key of the answers, exchanges, choices in each, vertices and edges of the graph, its seed, and the reply.
const BESIDE: [(&str, usize, usize, usize, usize, u64, &str); 6] = [
    ("seal", 20, 12, 7, 13, 0, "no"),
    ("seal", 20, 12, 7, 13, 3, "yes"),
    ("seal", 10, 8, 16, 35, 2, "no"),
    ("value", 20, 12, 7, 13, 0, "no"),
    ("value", 12, 10, 14, 29, 3, "yes"),
    ("value", 16, 8, 12, 25, 2, "no"),
];

/// Number of a grown file and the reply.
const RANDOM: [(u64, &str); 6] = [(9819, "no"), (13108, "yes"), (14866, "no"), (18767, "no"), (27957, "yes"), (63684, "yes")];

/// All these files by name.
pub fn all() -> Vec<(String, CaseFile)> {
    let mut files = Vec::new();
    for (colours, vertices, edges, seed, reply) in COLOURED {
        let name = format!("colour{colours}-{vertices}v{edges}e-s{seed}-{reply}");
        files.push((name, coloured(colours, vertices, edges, seed)));
    }
    for (pigeons, holes) in PIGEONS {
        let reply = if pigeons > holes { "no" } else { "yes" };
        files.push((format!("pigeons-{pigeons}x{holes}-{reply}"), pigeon_holes(pigeons, holes)));
    }
    for (chains, exchanges, reply) in BLIND {
        files.push((format!("blind-{chains}x{exchanges}-{reply}"), blind(chains, exchanges, reply == "yes")));
    }
    for (under, exchanges, choices, vertices, edges, seed, reply) in BESIDE {
        let name = format!("beside-{under}-{exchanges}x{choices}-s{seed}-{reply}");
        files.push((name, beside(under == "seal", exchanges, choices, vertices, &graph(vertices, edges, seed))));
    }
    for (number, reply) in RANDOM {
        files.push((format!("random128-{number}-{reply}"), grown(Chance::of(1, number), MOST).1));
    }
    files
}

/// An empty draft in which equal cells are one.
fn plain(seed: u64) -> Draft {
    let mut draft = Draft::new(Chance::new(seed));
    draft.twins = 0;
    draft
}

/// The file of a draft, its cells in the order in which they were made.
fn file(draft: Draft) -> CaseFile {
    CaseFile { cells: draft.cells, events: draft.events, first_var: None }
}

/// Learns the seal of a body under a key.
fn learn_seal(draft: &mut Draft, body: u8, key: u8) {
    let c = draft.seal(body, key);
    draft.learn(c);
}

/// Wants the seal of a body under a key.
fn make_seal(draft: &mut Draft, body: u8, key: u8) {
    let c = draft.seal(body, key);
    draft.make(c);
}

/// That many different edges between vertices, not more than there are.
fn graph(vertices: usize, edges: usize, seed: u64) -> Vec<(usize, usize)> {
    let mut chance = Chance::new(seed);
    let mut left: Vec<(usize, usize)> = (0..vertices).flat_map(|b| (0..b).map(move |a| (a, b))).collect();
    (0..edges).map(|_| left.swap_remove(chance.below(left.len()))).collect()
}

/// A colouring being written. That two differ is shown by one sealed under the other, or by their pair sealed under the key. He knows
/// neither the colours nor the key, so that only seals he learnt will do.
struct Colouring {
    draft: Draft,
    key: u8,
    pairs: bool,
}

impl Colouring {
    /// Learnt: what shows that two colours differ; without pairs also each colour under the key.
    fn start(colours: usize, pairs: bool) -> Self {
        let mut draft = plain(0);
        let key = draft.atom(100);
        let names: Vec<u8> = (1..=colours).map(|n| draft.atom(n as u16)).collect();
        let mut colouring = Colouring { draft, key, pairs };
        for &a in &names {
            for &b in names.iter().filter(|&&b| b != a) {
                let c = colouring.differ(a, b);
                colouring.draft.learn(c);
            }
            if !pairs {
                learn_seal(&mut colouring.draft, a, key);
            }
        }
        colouring
    }

    /// What shows that two differ.
    fn differ(&mut self, a: u8, b: u8) -> u8 {
        if self.pairs {
            let body = self.draft.pair(a, b);
            return self.draft.seal(body, self.key);
        }
        self.draft.seal(a, b)
    }

    /// A variable for each vertex. To be made: without pairs each under the key, so that it is a colour.
    fn vertices(&mut self, count: usize) -> Vec<u8> {
        let vars: Vec<u8> = (0..count).map(|_| self.draft.var()).collect();
        for &v in vars.iter().filter(|_| !self.pairs) {
            make_seal(&mut self.draft, v, self.key);
        }
        vars
    }

    /// To be made: what shows that the ends of each edge differ.
    fn edges(&mut self, vars: &[u8], edges: &[(usize, usize)]) {
        for &(a, b) in edges {
            let c = self.differ(vars[a], vars[b]);
            self.draft.make(c);
        }
    }
}

/// A graph to be coloured.
fn coloured(colours: usize, vertices: usize, edges: usize, seed: u64) -> CaseFile {
    let mut colouring = Colouring::start(colours, false);
    let vars = colouring.vertices(vertices);
    colouring.edges(&vars, &graph(vertices, edges, seed));
    file(colouring.draft)
}

/// Pigeons that each need a hole of their own: a colouring in which all differ, by pairs where the cells suffice for these.
fn pigeon_holes(pigeons: usize, holes: usize) -> CaseFile {
    let edges = pigeons * (pigeons - 1) / 2;
    let pairs = 1 + holes + pigeons + 2 * holes * (holes - 1) + 2 * edges <= MOST;
    let mut colouring = Colouring::start(holes, pairs);
    let vars = colouring.vertices(pigeons);
    colouring.edges(&vars, &graph(pigeons, edges, 0));
    file(colouring.draft)
}

/// Chains of keys, each from the last key of the one before. The keys of a chain are learnt under its server's key. An exchange takes
/// any of these seals and sends its body blind under a key of the chain. All keys are to be made. For "no" the last chain has one key
/// more than exchanges, and an exchange brings no more than one to light.
fn blind(chains: usize, exchanges: usize, yes: bool) -> CaseFile {
    let mut draft = plain(1);
    let mut first = draft.atom(1);
    draft.learn(first);
    let mut goals = Vec::new();
    for chain in 0..chains {
        let server = draft.atom(200 + chain as u16);
        let count = exchanges + (!yes && chain + 1 == chains) as usize;
        let keys: Vec<u8> = (0..count).map(|_| draft.atom(2 + draft.count() as u16)).collect();
        let mut left = keys.clone();
        while !left.is_empty() {
            let place = draft.chance.below(left.len());
            learn_seal(&mut draft, left.swap_remove(place), server);
        }
        for &key in [first].iter().chain(&keys).take(exchanges) {
            let sent = draft.var();
            make_seal(&mut draft, sent, server);
            learn_seal(&mut draft, sent, key);
        }
        first = keys[count - 1];
        goals.extend(keys);
    }
    goals.into_iter().for_each(|key| draft.make(key));
    file(draft)
}

/// A graph to be coloured with three colours, and between its vertices and its edges exchanges that do not matter. Each takes a value;
/// its answer opens if that is the body of one of some learnt seals, and holds nothing that is wanted. The answer's key is that seal, or
/// the value.
fn beside(seal_is_key: bool, exchanges: usize, choices: usize, vertices: usize, edges: &[(usize, usize)]) -> CaseFile {
    let mut colouring = Colouring::start(3, false);
    let vars = colouring.vertices(vertices);
    let draft = &mut colouring.draft;
    let (lock, told) = (draft.atom(200), draft.atom(201));
    for n in 0..choices {
        let name = draft.atom(300 + n as u16);
        learn_seal(draft, name, lock);
        if seal_is_key {
            draft.learn(name);
        }
    }
    for _ in 0..exchanges {
        let value = draft.var();
        let seal = draft.seal(value, lock);
        let (made, key) = if seal_is_key { (value, seal) } else { (seal, value) };
        draft.make(made);
        learn_seal(draft, told, key);
    }
    colouring.edges(&vars, edges);
    file(colouring.draft)
}

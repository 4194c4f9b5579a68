//! Messages as shared trees: equal trees have one number.

use std::collections::{HashMap, HashSet};
use std::hash::{BuildHasherDefault, Hasher};

/// The number of a tree in a [`Terms`].
pub type Id = u32;

/// The top of a tree. A variable carries the number of its cell.
#[derive(Clone, Copy, PartialEq, Eq, Hash, Debug)]
pub enum Node {
    Atom(u16),
    Var(u8),
    Pair(Id, Id),
    Seal(Id, Id),
    App(u8, Id),
}

impl Node {
    /// The parts, left to right.
    pub fn parts(self) -> [Option<Id>; 2] {
        match self {
            Node::Atom(_) | Node::Var(_) => [None, None],
            Node::Pair(a, b) | Node::Seal(a, b) => [Some(a), Some(b)],
            Node::App(_, a) => [Some(a), None],
        }
    }
}

/// A quick hash for small keys; no defence against chosen input is needed here.
#[derive(Default, Clone, Copy)]
pub struct Mixer(u64);

impl Mixer {
    fn mix(&mut self, word: u64) {
        self.0 = (self.0.rotate_left(5) ^ word).wrapping_mul(0x517c_c1b7_2722_0a95);
    }
}

impl Hasher for Mixer {
    fn finish(&self) -> u64 {
        self.0 ^ (self.0 >> 29)
    }
    fn write(&mut self, bytes: &[u8]) {
        let (words, rest) = bytes.split_at(bytes.len() & !7);
        for word in words.chunks_exact(8) {
            self.mix(u64::from_le_bytes(word.try_into().expect("eight bytes")));
        }
        for &byte in rest {
            self.mix(byte as u64);
        }
    }
    fn write_u8(&mut self, word: u8) {
        self.mix(word as u64);
    }
    fn write_u16(&mut self, word: u16) {
        self.mix(word as u64);
    }
    fn write_u32(&mut self, word: u32) {
        self.mix(word as u64);
    }
    fn write_u64(&mut self, word: u64) {
        self.mix(word);
    }
    fn write_usize(&mut self, word: usize) {
        self.mix(word as u64);
    }
}

pub type Quick = BuildHasherDefault<Mixer>;
pub type QuickMap<K, V> = HashMap<K, V, Quick>;
pub type QuickSet<K> = HashSet<K, Quick>;

/// All trees made so far. Parts have lower numbers than the trees that hold them.
#[derive(Clone, Default)]
pub struct Terms {
    nodes: Vec<Node>,
    open: Vec<bool>,
    numbers: QuickMap<Node, Id>,
}

impl Terms {
    pub fn new() -> Self {
        Self::default()
    }

    /// The number of the tree with this top.
    pub fn make(&mut self, node: Node) -> Id {
        if let Some(&id) = self.numbers.get(&node) {
            return id;
        }
        let id = self.nodes.len() as Id;
        let open = matches!(node, Node::Var(_)) || node.parts().iter().flatten().any(|&p| self.open[p as usize]);
        self.nodes.push(node);
        self.open.push(open);
        self.numbers.insert(node, id);
        id
    }

    pub fn node(&self, id: Id) -> Node {
        self.nodes[id as usize]
    }

    /// Whether the tree holds a variable.
    pub fn is_open(&self, id: Id) -> bool {
        self.open[id as usize]
    }

    pub fn is_var(&self, id: Id) -> bool {
        matches!(self.node(id), Node::Var(_))
    }

    pub fn len(&self) -> usize {
        self.nodes.len()
    }

    pub fn is_empty(&self) -> bool {
        self.nodes.is_empty()
    }

    /// Every tree inside the given ones, themselves included, each once, parts first.
    pub fn all_parts(&self, roots: &[Id]) -> Vec<Id> {
        let mut inside = vec![false; self.nodes.len()];
        let mut work: Vec<Id> = roots.to_vec();
        while let Some(id) = work.pop() {
            if !std::mem::replace(&mut inside[id as usize], true) {
                work.extend(self.node(id).parts().iter().flatten());
            }
        }
        (0..self.nodes.len() as Id).filter(|&id| inside[id as usize]).collect()
    }
}

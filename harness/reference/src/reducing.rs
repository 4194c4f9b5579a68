//! The reduced file of a set of bare messages.

use crate::terms::{Id, Node, QuickMap, Terms};

/// Writes the file that lists the bare messages: their parts by height, then kind, then fields with the new numbers.
pub fn write(terms: &Terms, bare: &[Id]) -> Vec<u8> {
    let inside = terms.all_parts(bare);
    let mut height: QuickMap<Id, usize> = QuickMap::default();
    for &id in &inside {
        let above = terms.node(id).parts().iter().flatten().map(|p| height[p] + 1).max();
        height.insert(id, above.unwrap_or(0));
    }
    let highest = height.values().copied().max().unwrap_or(0);
    let mut number: QuickMap<Id, u8> = QuickMap::default();
    let mut out = Vec::new();
    for level in 0..=highest {
        let mut records: Vec<(u8, [u8; 2], Id)> = Vec::new();
        for &id in inside.iter().filter(|id| height[id] == level) {
            records.push(match terms.node(id) {
                Node::Atom(name) => (0, name.to_be_bytes(), id),
                Node::Pair(a, b) => (1, [number[&a], number[&b]], id),
                Node::Seal(a, b) => (2, [number[&a], number[&b]], id),
                Node::App(f, a) => (3, [f, number[&a]], id),
                Node::Var(_) => unreachable!("messages of a reduced file hold no variables"),
            });
        }
        records.sort();
        for (kind, fields, id) in records {
            number.insert(id, number.len() as u8);
            out.extend([b"AT", b"PR", b"SE", b"AP"][kind as usize]);
            out.extend(fields);
        }
    }
    let mut learnt: Vec<u8> = bare.iter().map(|id| number[id]).collect();
    learnt.sort();
    for cell in learnt {
        out.extend([b'L', b'N', cell]);
    }
    out.extend(b"EN");
    out
}

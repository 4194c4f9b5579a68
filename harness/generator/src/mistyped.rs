//! Typed text that is damaged on purpose, for refusals 11, 12, 4 and 6 and the order between them.

use reference::typed::DEEPEST;

use crate::chance::Chance;
use crate::typed::{any, atoms, nested, short, DEEPER};

/// The bytes of the grammar, and such as are often taken for them.
pub const BYTES: &[u8] = b"lm earnk\nakeXf{|}(),0123456789AxF \t\r\0[]-+.;:\x7f\xff";

/// What somebody may type in place of a message, and mostly must not.
pub const WRONG: [&str; 42] = [
    "a01",
    "a00",
    "a65536",
    "a65540",
    "a70000",
    "a655350",
    "a4294967297",
    "a18446744073709551617",
    "X01",
    "X65536",
    "X99999",
    "f256(a1)",
    "f260(a1)",
    "f1000(a1)",
    "f00(a1)",
    "f01(a1)",
    "f1",
    "f(a1)",
    "f1()",
    "f1 (a1)",
    "f1a1",
    "a",
    "X",
    "f",
    "a 1",
    "a1 ",
    " a1",
    "a1\r",
    "a1,",
    ",a1",
    "a1,,a2",
    "()",
    "(a1",
    "a1)",
    "{a1}a2",
    "{|a1}a2",
    "{|a1|}",
    "{||}a1",
    "{|a1|} a2",
    "{|a1|a2",
    "A1",
    "a1a2",
];

/// What somebody may type in place of a word.
pub const WORDS: [&str; 14] =
    ["Learn ", "learns ", "lern ", "learn  ", "learn\t", "learn", "Make ", "mak ", "make  ", "make", "MAKE ", "differ ", "", " "];

/// A damaged text.
pub fn damaged(mut chance: Chance) -> Vec<u8> {
    let mut text = match chance.below(4) {
        0 => any(Chance::new(chance.word())).1,
        _ => short(Chance::new(chance.word())),
    }
    .into_bytes();
    let at = chance.below(text.len() + 1);
    match chance.below(12) {
        0 | 1 => text.truncate(at),
        2 => text.insert(at, *chance.pick(BYTES)),
        3 | 4 => {
            if let Some(byte) = text.get_mut(at) {
                *byte = if chance.once_in(5) { chance.byte() } else { *chance.pick(BYTES) };
            }
        }
        5 => {
            text.drain(at..(at + chance.between(1, 3)).min(text.len()));
        }
        6 | 7 => put_message(&mut text, &mut chance),
        8 => put_word(&mut text, &mut chance),
        9 => return too_deep(&mut chance).into_bytes(),
        10 => return too_full(&mut chance).into_bytes(),
        _ => text = [text, short(Chance::new(chance.word())).into_bytes()].concat(),
    }
    if chance.once_in(10) {
        text.truncate(chance.below(text.len() + 1));
    }
    if chance.once_in(10) {
        let at = chance.below(text.len() + 1);
        text.insert(at, *chance.pick(BYTES));
    }
    text
}

/// A wrong message in place of an atom.
fn put_message(text: &mut Vec<u8>, chance: &mut Chance) {
    let atoms: Vec<usize> = (0..text.len()).filter(|&at| text[at..].starts_with(b"a") && text[at + 1].is_ascii_digit()).collect();
    if !atoms.is_empty() {
        let at = *chance.pick(&atoms);
        let end = (at + 1..text.len()).find(|&end| !text[end].is_ascii_digit()).unwrap_or(text.len());
        text.splice(at..end, chance.pick(&WRONG).bytes());
    }
}

/// A wrong word at the start of a line.
fn put_word(text: &mut Vec<u8>, chance: &mut Chance) {
    let starts: Vec<usize> = (0..text.len()).filter(|&at| at == 0 || text[at - 1] == b'\n').collect();
    if !starts.is_empty() {
        let at = *chance.pick(&starts);
        let end = (at..text.len()).find(|&end| text[end] == b' ').map_or(text.len(), |space| space + 1);
        text.splice(at..end, chance.pick(&WORDS).bytes());
    }
}

/// A nesting about one too deep, with a byte that is wrong there, or before it, or behind it.
fn too_deep(chance: &mut Chance) -> String {
    let kind = *chance.pick(&DEEPER);
    let levels = chance.between(DEEPEST - 1, DEEPEST + 2);
    let core =
        *chance.pick(&["a1", "X1", "f1(a1)", "{|a1|}a2", "(a1)", "", ")", ",", "|}", " ", "1", "a", "a01", "{a", "a65536", "\n", "l"]);
    let mut list = nested(kind, levels, core);
    if chance.once_in(3) {
        list = format!("{},{list}", chance.pick(&["a1", "a01", "(a1)", "f256(a1)", "X65535"]));
    }
    if chance.once_in(3) {
        list.truncate(chance.below(list.len() + 1));
    }
    let before = if chance.once_in(3) { short(Chance::new(chance.word())) } else { String::new() };
    before + *chance.pick(&["learn ", "make "]) + &list + *chance.pick(&["\n", "", "\r\n", ",\n", ")\n"])
}

/// A table that is full, or nearly, before or in a line that may be wrong in another way too.
fn too_full(chance: &mut Chance) -> String {
    let mut text = match chance.below(4) {
        0 => "make a1\n".repeat(chance.between(126, 128)),
        1 => format!("make {}\n", atoms(0..64)),
        2 => format!("make {}\nmake a100\n", atoms(0..64)),
        _ => short(Chance::new(chance.word())),
    };
    let many = atoms(50..*chance.pick(&[52, 64, 114, 115, 200]));
    let end = match chance.below(6) {
        0 => nested(*chance.pick(&DEEPER), chance.between(DEEPEST, DEEPEST + 1), "a1"),
        1 => chance.pick(&WRONG).to_string(),
        2 => "X9".into(),
        3 => "".into(),
        _ => "a1".into(),
    };
    let line = match chance.below(3) {
        0 => format!("{many},{end}"),
        1 => format!("{end},{many}"),
        _ => format!("({many}),{end}"),
    };
    text += *chance.pick(&["learn ", "make "]);
    text += &line;
    text + *chance.pick(&["\n", "\n", "\n", "", " ", "\nmake a01\n", "\nlearn X1\n"])
}

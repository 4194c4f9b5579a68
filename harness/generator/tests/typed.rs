//! Generated texts: what they are replied by both ways of reading, and that every refusal and every shape comes up.

use std::collections::BTreeMap;

use generator::chance::Chance;
use generator::{mistyped, shapes, typed};
use reference::casefile::{read, CaseFile, Cell};
use reference::grammar::{self, ASKED};
use reference::questions::Reply;

fn both(text: &[u8]) -> Reply {
    let reply = reference::typed::file(text, 1000);
    assert_eq!(grammar::file(text, 1000, ASKED), reply, "{}", text.escape_ascii());
    reply
}

fn kind(reply: &Reply) -> String {
    match reply {
        Reply::Refused(number, _) => format!("refused {number}"),
        Reply::Bytes(bytes) => {
            let case = read(bytes).expect("a typed file is accepted");
            let full = if case.count() == 128 { ", 128 cells" } else { "" };
            let long = if case.events.len() == 128 { ", 128 events" } else { "" };
            format!("accepted{full}{long}")
        }
        other => panic!("{other:?}"),
    }
}

#[test]
fn good_and_damaged() {
    let mut replies: BTreeMap<String, usize> = BTreeMap::new();
    let mut names: BTreeMap<&str, usize> = BTreeMap::new();
    for number in 0..4000 {
        let (name, text) = typed::any(Chance::of(7, number));
        *replies.entry("any ".to_string() + &kind(&both(text.as_bytes()))).or_default() += 1;
        *names.entry(name).or_default() += 1;
        let text = mistyped::damaged(Chance::of(8, number));
        *replies.entry("damaged ".to_string() + &kind(&both(&text))).or_default() += 1;
    }
    println!("{replies:#?} {names:?}");
    for (reply, least) in [
        ("any accepted", 2000),
        ("any accepted, 128 cells", 20),
        ("any accepted, 128 events", 20),
        ("any refused 4", 50),
        ("any refused 6", 50),
        ("any refused 12", 50),
        ("damaged refused 4", 50),
        ("damaged refused 6", 50),
        ("damaged refused 11", 1500),
        ("damaged refused 12", 50),
    ] {
        assert!(replies.get(reply).is_some_and(|&count| count >= least), "{reply}: {replies:#?}");
    }
    assert_eq!(replies.get("any refused 11"), None, "{replies:#?}");
    assert_eq!(names.len(), 12, "{names:?}");
}

/// What two cells show, with a variable known by its number in the text.
fn same(one: &CaseFile, a: u8, other: &CaseFile, b: u8, variables: &mut BTreeMap<u8, u8>) -> bool {
    match (one.cells[a as usize], other.cells[b as usize]) {
        (Cell::Atom(name), Cell::Atom(same)) => name == same,
        (Cell::Var, Cell::Var) => *variables.entry(a).or_insert(b) == b,
        (Cell::Pair(a, c), Cell::Pair(b, d)) | (Cell::Seal(a, c), Cell::Seal(b, d)) => {
            same(one, a, other, b, variables) && same(one, c, other, d, variables)
        }
        (Cell::App(f, a), Cell::App(g, b)) => f == g && same(one, a, other, b, variables),
        _ => false,
    }
}

/// The events of a case file, typed and read, show the same messages.
#[test]
fn typed_and_read() {
    let mut compared = 0;
    for number in 0..600 {
        let case = shapes::any(Chance::of(9, number)).1;
        let text = typed::case(&case);
        let Reply::Bytes(bytes) = both(text.as_bytes()) else { continue };
        let read = read(&bytes).expect("a typed file is accepted");
        if read.events.len() != case.events.len() {
            continue;
        }
        let mut variables = BTreeMap::new();
        for (was, is) in case.events.iter().zip(&read.events) {
            assert_eq!(std::mem::discriminant(was), std::mem::discriminant(is));
            assert!(same(&case, was.cell(), &read, is.cell(), &mut variables), "{text}");
        }
        let cells: std::collections::BTreeSet<u8> = variables.values().copied().collect();
        assert_eq!(cells.len(), variables.len(), "two variables in one cell: {text}");
        compared += 1;
    }
    assert!(compared > 500, "{compared}");
}

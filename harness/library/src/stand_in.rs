//! A stand-in for the library: the plain second way of the reference, for typed text the productions of its grammar, and for a run the lazy intruder,
//! as published and, where that stays unfinished, with shortcuts.

use std::sync::atomic::{AtomicUsize, Ordering};

use reference::casefile::{read, Event};
use reference::grammar::{self, Rules as Typing, ASKED};
use reference::lazy::{Rules, PUBLISHED, SHORTENED};
use reference::plain;
use reference::questions::{self, Reply};

use crate::{FAULTS, LAST_PLACE, UNFINISHED};

static FAULT: AtomicUsize = AtomicUsize::new(0);

/// Chooses one of the wrong versions; false if there is none of that name.
pub fn set_fault(name: &str) -> bool {
    let place = FAULTS.iter().position(|&f| f == name);
    FAULT.store(place.unwrap_or(0), Ordering::Relaxed);
    place.is_some()
}

fn fault() -> &'static str {
    FAULTS[FAULT.load(Ordering::Relaxed)]
}

fn given(reply: Reply, out: &mut [u8]) -> u64 {
    match reply {
        _ if fault() == "refuses-all" => 1 << 32,
        Reply::Refused(number, place) => {
            let off = (fault() == "place-off" && number == 5) as usize;
            ((number as u64) << 32) + (place + off).min(LAST_PLACE) as u64
        }
        Reply::No => 0,
        Reply::Right => 1,
        Reply::Bytes(bytes) => {
            if fault() != "writes-nothing" {
                out[..bytes.len()].copy_from_slice(&bytes);
            }
            if fault() == "writes-beyond" && bytes.len() < out.len() {
                out[bytes.len()] ^= 1;
            }
            1 + bytes.len() as u64
        }
    }
}

pub fn equate(file: &[u8], a: usize, b: usize, out: &mut [u8]) -> u64 {
    given(plain::equate(file, a, b, out.len(), fault() != "no-occurs-check"), out)
}

pub fn run(file: &[u8], out: &mut [u8]) -> u64 {
    let opens = fault() != "opens-nothing";
    let moved = if fault() == "later-learning" { learnt_first(file) } else { None };
    let file = moved.as_deref().unwrap_or(file);
    let ways = [Rules { opens, ..PUBLISHED }, Rules { opens, open_given: opens, ..SHORTENED }];
    for (rules, sets) in ways.into_iter().zip([1000, 5000]) {
        if let Some(reply) = questions::run(file, out.len(), rules, sets) {
            return given(reply, out);
        }
    }
    UNFINISHED
}

fn learnt_first(file: &[u8]) -> Option<Vec<u8>> {
    let mut case = read(file).ok()?;
    case.events.sort_by_key(|event| matches!(event, Event::Make(_)));
    let bytes = case.bytes();
    read(&bytes).ok().map(|_| bytes)
}

pub fn check(file: &[u8], list: &[u8]) -> u64 {
    given(plain::check(file, list), &mut [])
}

/// The file with only its first `LN`.
fn first_learnt(file: &[u8]) -> Option<Vec<u8>> {
    let mut case = read(file).ok()?;
    let mut learnt = 0;
    case.events.retain(|event| {
        learnt += matches!(event, Event::Learn(_)) as usize;
        learnt <= 1
    });
    Some(case.bytes())
}

pub fn marks(file: &[u8], out: &mut [u8]) -> u64 {
    let less = if fault() == "first-learnt-only" { first_learnt(file) } else { None };
    given(plain::marks(less.as_deref().unwrap_or(file), out.len()), out)
}

pub fn reduce(file: &[u8], out: &mut [u8]) -> u64 {
    given(plain::reduce(file, out.len(), fault() == "drops-known-bodies"), out)
}

/// How texts are read, with the fault chosen.
fn typing() -> Typing {
    match fault() {
        "leading-zeros" => Typing { zeros: true, ..ASKED },
        "nests-deeper" => Typing { deepest: 17, ..ASKED },
        "key-not-deeper" => Typing { key: 0, ..ASKED },
        "deep-before-wrong" => Typing { deep_first: true, ..ASKED },
        "full-before-wrong" => Typing { full_first: true, ..ASKED },
        "pairs-to-the-left" => Typing { to_the_left: true, ..ASKED },
        "enters-twice" => Typing { twins: true, ..ASKED },
        "key-before-body" => Typing { key_first: true, ..ASKED },
        "learns-unmade" => Typing { loose: true, ..ASKED },
        "no-line-feed" => Typing { open_end: true, ..ASKED },
        "variables-by-line" => Typing { by_line: true, ..ASKED },
        _ => ASKED,
    }
}

pub fn text(text: &[u8], out: &mut [u8]) -> u64 {
    given(grammar::file(text, out.len(), typing()), out)
}

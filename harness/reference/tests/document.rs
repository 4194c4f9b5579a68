//! The files on both sides of each line, from docs/FORMAT.md.

use reference::casefile::{read, written as file};
use reference::lazy::{Limit, PUBLISHED};
use reference::plain;
use reference::questions::{self, Reply};
use reference::searches;

const E: &str = "AT 0001 AT 0002 SE 01 00 VA SE 03 00";

/// What all three ways of solving say of a run; they must agree.
fn solved(text: &str) -> Option<Vec<u8>> {
    let case = read(&file(text)).expect("accepted");
    let reply = searches::agreed(&case, 1_000_000, Limit::sets(10_000)).unwrap_or_else(|why| panic!("{text}: {why}"));
    reply.expect("every list is tried")
}

fn run_refused(text: &str) -> Reply {
    let reply = questions::run(&file(text), 1000, PUBLISHED, 10).expect("refused at once");
    assert_eq!(plain::check(&file(text), &[]), reply);
    reply
}

fn marks(text: &str) -> Reply {
    let reply = questions::marks(&file(text), 1000);
    assert_eq!(plain::marks(&file(text), 1000), reply);
    reply
}

fn reduced(text: &str) -> Reply {
    let reply = questions::reduce(&file(text), 1000);
    assert_eq!(plain::reduce(&file(text), 1000, false), reply);
    reply
}

#[test]
fn a_to_d() {
    assert_eq!(run_refused(""), Reply::Refused(1, 0));
    assert_eq!(solved("EN"), Some(vec![]));
    assert_eq!(reduced("EN"), Reply::Bytes(b"EN".to_vec()));
    assert_eq!(solved("AT 0000 MK 00 EN"), Some(vec![0]));
    assert_eq!(solved("AT 0005 MK 00 EN"), None);
}

#[test]
fn e_to_i() {
    let text = format!("{E} LN 02 MK 04 EN");
    assert_eq!(file(&text).len(), 26);
    assert_eq!(solved(&text), Some(vec![0, 1, 2, 1, 4]));
    for entry in [0, 2, 4, 255] {
        assert_eq!(questions::check(&file(&text), &[0, 1, 2, entry, 4]), Reply::No);
    }
    assert!(solved(&format!("{E} LN 02 LN 00 MK 01 EN")).is_some());
    assert_eq!(solved(&format!("{E} LN 02 MK 01 LN 00 EN")), None);
    assert_eq!(solved(&format!("{E} PR 03 04 LN 02 MK 05 EN")), None);
    assert_eq!(solved("AT 0002 VA SE 00 01 MK 01 LN 02 MK 00 EN"), Some(vec![0, 255, 2]));
}

#[test]
fn j_to_m() {
    assert_eq!(run_refused("VA LN 00 EN"), Reply::Refused(6, 2));
    let small = Reply::Bytes(file("AT 0003 AT 0007 LN 00 LN 01 EN"));
    assert_eq!(reduced("AT 0007 AT 0003 PR 00 01 LN 02 EN"), small);
    assert_eq!(reduced("AT 0003 AT 0007 SE 00 01 LN 01 LN 02 EN"), small);
    let own = "AT 0000 AT 0007 SE 00 01 LN 02 EN";
    assert_eq!(reduced(own), Reply::Bytes(file(own)));
    assert_eq!(marks("AT 0001 AT 0002 SE 00 01 SE 01 00 LN 02 LN 03 EN"), Reply::Bytes(vec![0, 0, 1, 1]));
}

#[test]
fn n_to_r() {
    assert_eq!(marks("AT 0005 AP 09 00 LN 01 EN"), Reply::Bytes(vec![0, 1]));
    let key = "AT 0001 AT 0002 AT 0003 PR 01 02 SE 00 03 LN 01 LN 02 LN 04 EN";
    assert_eq!(marks(key), Reply::Bytes(vec![1; 5]));
    assert!(solved("AT 0004 AT 0004 LN 00 MK 01 EN").is_some());
    let text = file("VA AT 0001 PR 00 01 EN");
    assert_eq!(questions::equate(&text, 0, 2, 3), Reply::No);
    assert_eq!(questions::equate(&text, 0, 1, 3), Reply::Bytes(vec![1, 1, 2]));
    assert_eq!(plain::equate(&text, 0, 2, 3, true), Reply::No);
    assert_eq!(plain::equate(&text, 0, 1, 3, true), Reply::Bytes(vec![1, 1, 2]));
}

#[test]
fn bounds() {
    let cells = |count: usize| "VA ".repeat(count) + "EN";
    let events = |count: usize| "AT 0000 ".to_string() + &"LN 00 ".repeat(count) + "EN";
    assert!(read(&file(&cells(128))).is_ok());
    assert_eq!(run_refused(&cells(129)), Reply::Refused(4, 256));
    assert!(read(&file(&events(128))).is_ok());
    assert_eq!(run_refused(&events(129)), Reply::Refused(4, 388));
    assert_eq!(run_refused("PR 00 00 EN"), Reply::Refused(5, 0));
    assert!(read(&file("AT 0000 PR 00 00 EN")).is_ok());
    assert_eq!(run_refused("EN EN"), Reply::Refused(7, 2));
    assert_eq!(run_refused("AT 0000 LN 00 41"), Reply::Refused(1, 7));
    assert_eq!(run_refused("AT 0000 LN 00 AT"), Reply::Refused(3, 7));
    assert_eq!(run_refused("PR ff"), Reply::Refused(1, 0));
    assert_eq!(run_refused("5858"), Reply::Refused(2, 0));
}

/// Two towers of doubled pairs on two variables, side by side: 2^59 leaves each.
#[test]
fn towers_at_once() {
    let mut text = String::from("VA VA ");
    for c in 0..118 {
        text += &format!("PR {c:02x} {c:02x} ");
    }
    let bytes = file(&(text + "EN"));
    assert!(matches!(questions::equate(&bytes, 118, 119, 120), Reply::Bytes(_)));
    assert_eq!(questions::equate(&bytes, 117, 119, 120), Reply::No);
}

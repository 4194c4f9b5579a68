//! The binding tells the library's replies as they are: every kind of reply to every question, in rooms that fit and that do not.

#![cfg(linked)]

use library::binding::*;
use reference::casefile::written as file;

fn refused<T>(number: u8, place: usize, of: fn(Refusal) -> T) -> T {
    of(Refusal { number, place })
}

#[test]
fn values() {
    let e = file("AT 0001 AT 0002 SE 01 00 VA SE 03 00 LN 02 MK 04 EN");
    let r = file("VA AT 0001 PR 00 01 EN");
    let mut out = [7; CELLS];
    assert_eq!(run(&e, &mut out), Values::List(&[0, 1, 2, 1, 4]));
    assert_eq!(out[5..], [7; CELLS - 5]);
    assert_eq!(run(&e, &mut out[..4]), refused(9, 5, Values::Refused));
    assert_eq!(run(b"EN", &mut []), Values::List(&[]));
    assert_eq!(run(&file("AT 0005 MK 00 EN"), &mut out), Values::No);
    assert_eq!(run(&file("VA LN 00 EN"), &mut out), refused(6, 2, Values::Refused));
    assert_eq!(equate(&r, 0, 1, &mut out), Values::List(&[1, 1, 2]));
    assert_eq!(equate(&r, 0, 2, &mut out), Values::No);
    assert_eq!(equate(&r, 0, usize::MAX, &mut out), refused(5, 3, Values::Refused));
}

#[test]
fn judged() {
    let i = file("AT 0002 VA SE 00 01 MK 01 LN 02 MK 00 EN");
    assert_eq!(check(&i, &[0, OWN, 2]), Judged::Right);
    assert_eq!(check(&i, &[0, 0, 2]), Judged::Wrong);
    assert_eq!(check(&i, &[0, 1, 2]), refused(10, 1, Judged::Refused));
    assert_eq!(check(&[], &[]), refused(1, 0, Judged::Refused));
}

#[test]
fn bytes() {
    let l = file("AT 0000 AT 0007 SE 00 01 LN 02 EN");
    let mut out = [0; FILE];
    assert_eq!(reduce(&l, &mut out), Written::Bytes(&l));
    assert_eq!(reduce(&l, &mut []), refused(9, l.len(), Written::Refused));
    assert_eq!(marks(&l, &mut out), Written::Bytes(&[1, 0, 1]));
    assert_eq!(marks(&file("VA EN"), &mut out), refused(8, 0, Written::Refused));
    assert_eq!(Refusal { number: 8, place: 0 }.to_string(), "refused 8 at 0");
}

#[test]
fn typed() {
    let mut out = [7; FILE];
    let made = file("AT 0001 AT 0002 PR 00 01 AT 0007 SE 02 03 AP 09 00 LN 04 MK 05 EN");
    assert_eq!(text(b"learn {|a1,a2|}a7\nmake f9(a1)\n", &mut out), Written::Bytes(&made));
    assert_eq!(out[made.len()..], [7; FILE][made.len()..]);
    assert_eq!(text(b"", &mut out), Written::Bytes(b"EN"));
    assert_eq!(text(b"make a01\n", &mut out), refused(11, 7, Written::Refused));
    assert_eq!(text(b"make a1", &mut out), refused(11, 7, Written::Refused));
    assert_eq!(text(b"make (((((((((((((((((a1)))))))))))))))))\n", &mut out), refused(12, 22, Written::Refused));
    assert_eq!(text(b"make a1\nlearn X1\n", &mut out), refused(6, 8, Written::Refused));
    assert_eq!(text(&b"make a1\n".repeat(129), &mut out), refused(4, 1024, Written::Refused));
    assert_eq!(text(b"make a1\n", &mut out[..8]), refused(9, 9, Written::Refused));
    assert_eq!(text(b"", &mut []), refused(9, 2, Written::Refused));
}

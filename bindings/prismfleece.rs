//! Prismfleece for callers in Rust: the five questions about case files of radio door controllers, and typed text read into a case file, over
//! `libprismfleece.a`.
//!
//! One file without dependencies, to be copied as it is. It needs the library at linking: `-l static=prismfleece`, or in a build script
//! `cargo:rustc-link-lib=static=prismfleece`. Every function takes any bytes as a file or text and any buffer, and nothing is allocated: a reply lies
//! in the front of the lent buffer, whose other bytes stay as they were; a refusal, "no" and "wrong" leave all of it as it was.

#![allow(dead_code)] // a caller need not ask everything

use core::fmt;

/// The version of the library that this file is written for.
pub const VERSION: &str = "0.1.0";

/// The most cells of a file; also the longest list of values or marks.
pub const CELLS: usize = 128;

/// The most events of a file.
pub const EVENTS: usize = 128;

/// The most bytes of a file, given, reduced or typed.
pub const FILE: usize = 898;

/// A variable's entry in a value list that stands for name 0, the intruder's own.
pub const OWN: u8 = 255;

/// Why a question is not answered. What the numbers mean stands in `prismfleece.h`.
#[derive(Clone, Copy, PartialEq, Eq, Debug)]
pub struct Refusal {
    /// From 1 to 12.
    pub number: u8,
    /// An offset in the file or text, told as 2^32 - 1 if it is higher; for 9 the length needed; for a cell asked about the cell count; for 10 the cell
    /// count or the number of an entry.
    pub place: usize,
}

impl fmt::Display for Refusal {
    fn fmt(&self, f: &mut fmt::Formatter) -> fmt::Result {
        write!(f, "refused {} at {}", self.number, self.place)
    }
}

impl core::error::Error for Refusal {}

/// The reply to [`equate`] and [`run`].
#[derive(Clone, Copy, PartialEq, Eq, Debug)]
pub enum Values<'a> {
    Refused(Refusal),
    /// There are no such values.
    No,
    /// A list, one byte per cell.
    List(&'a [u8]),
}

/// The reply to [`check`].
#[derive(Clone, Copy, PartialEq, Eq, Debug)]
pub enum Judged {
    Refused(Refusal),
    Wrong,
    Right,
}

/// The reply to [`marks`], [`reduce`] and [`text`].
#[derive(Clone, Copy, PartialEq, Eq, Debug)]
pub enum Written<'a> {
    Refused(Refusal),
    Bytes(&'a [u8]),
}

/// Most general values of the variables that make the cells `a` and `b` show one message: for a variable the number of a cell that it equals
/// (its own number: free), for any other cell its own number. [`CELLS`] bytes of room are always enough.
pub fn equate<'a>(file: &[u8], a: usize, b: usize, out: &'a mut [u8]) -> Values<'a> {
    let reply = numbers::equate(file, a, b, out);
    values(reply, out)
}

/// Values of the variables under which the intruder can make each message asked of him from what he had learnt by then: for a variable the number
/// of a cell that is no variable, or [`OWN`]; for any other cell its own number. [`CELLS`] bytes of room are always enough.
pub fn run<'a>(file: &[u8], out: &'a mut [u8]) -> Values<'a> {
    let reply = numbers::run(file, out);
    values(reply, out)
}

/// Whether a value list, as [`run`] writes it, is right.
pub fn check(file: &[u8], list: &[u8]) -> Judged {
    let reply = numbers::check(file, list);
    match (refusal(reply), reply) {
        (Some(refusal), _) => Judged::Refused(refusal),
        (None, 0) => Judged::Wrong,
        (None, _) => Judged::Right,
    }
}

/// For each cell of a file without variables 1 if its message can be built from all messages that `LN` events teach, else 0. [`CELLS`] bytes of
/// room are always enough.
pub fn marks<'a>(file: &[u8], out: &'a mut [u8]) -> Written<'a> {
    let reply = numbers::marks(file, out);
    written(reply, out)
}

/// The reduced file of a file without variables: equal for two files exactly if what they teach lets him build the same messages. [`FILE`] bytes of
/// room are always enough.
pub fn reduce<'a>(file: &[u8], out: &'a mut [u8]) -> Written<'a> {
    let reply = numbers::reduce(file, out);
    written(reply, out)
}

/// The case file of a typed text: one event for each line, `learn` or `make`, one space, a list of messages, and a line feed. Cells stand in order of
/// first completion, none twice. [`FILE`] bytes of room are always enough.
pub fn text<'a>(text: &[u8], out: &'a mut [u8]) -> Written<'a> {
    let reply = numbers::text(text, out);
    written(reply, out)
}

/// The refusal that a number tells, if it tells one.
pub fn refusal(reply: u64) -> Option<Refusal> {
    let number = (reply >> 32) as u8;
    (number != 0).then_some(Refusal { number, place: reply as u32 as usize })
}

fn values(reply: u64, out: &[u8]) -> Values<'_> {
    match (refusal(reply), reply) {
        (Some(refusal), _) => Values::Refused(refusal),
        (None, 0) => Values::No,
        (None, more) => Values::List(&out[..more as usize - 1]),
    }
}

fn written(reply: u64, out: &[u8]) -> Written<'_> {
    match refusal(reply) {
        Some(refusal) => Written::Refused(refusal),
        None => Written::Bytes(&out[..reply as usize - 1]),
    }
}

/// The same functions with the library's own replies: a refusal is number * 2^32 + place, "no" and "wrong" are 0, "right" is 1, and every other
/// reply is 1 + the bytes written.
pub mod numbers {
    unsafe extern "C" {
        fn prismfleece_equate(file: *const u8, file_len: usize, a: usize, b: usize, out: *mut u8, out_len: usize) -> u64;
        fn prismfleece_run(file: *const u8, file_len: usize, out: *mut u8, out_len: usize) -> u64;
        fn prismfleece_check(file: *const u8, file_len: usize, list: *const u8, list_len: usize) -> u64;
        fn prismfleece_marks(file: *const u8, file_len: usize, out: *mut u8, out_len: usize) -> u64;
        fn prismfleece_reduce(file: *const u8, file_len: usize, out: *mut u8, out_len: usize) -> u64;
        fn prismfleece_text(text: *const u8, text_len: usize, out: *mut u8, out_len: usize) -> u64;
    }

    // Safe: each pointer comes with its slice's own length, `out` overlaps nothing since it is borrowed alone, and the library keeps no pointer.

    pub fn equate(file: &[u8], a: usize, b: usize, out: &mut [u8]) -> u64 {
        unsafe { prismfleece_equate(file.as_ptr(), file.len(), a, b, out.as_mut_ptr(), out.len()) }
    }

    pub fn run(file: &[u8], out: &mut [u8]) -> u64 {
        unsafe { prismfleece_run(file.as_ptr(), file.len(), out.as_mut_ptr(), out.len()) }
    }

    pub fn check(file: &[u8], list: &[u8]) -> u64 {
        unsafe { prismfleece_check(file.as_ptr(), file.len(), list.as_ptr(), list.len()) }
    }

    pub fn marks(file: &[u8], out: &mut [u8]) -> u64 {
        unsafe { prismfleece_marks(file.as_ptr(), file.len(), out.as_mut_ptr(), out.len()) }
    }

    pub fn reduce(file: &[u8], out: &mut [u8]) -> u64 {
        unsafe { prismfleece_reduce(file.as_ptr(), file.len(), out.as_mut_ptr(), out.len()) }
    }
    pub fn text(text: &[u8], out: &mut [u8]) -> u64 {
        unsafe { prismfleece_text(text.as_ptr(), text.len(), out.as_mut_ptr(), out.len()) }
    }
}

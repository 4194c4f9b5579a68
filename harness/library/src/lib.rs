//! The functions of the library under test, the five questions and the reading of typed text, as numbers: a refusal is number * 2^32 + place, "no"
//! and "wrong" are 0, "right" is 1, and every other reply is 1 + the bytes written.

#[cfg(linked)]
mod linked;
#[cfg(linked)]
pub use linked::*;

#[cfg(not(linked))]
mod stand_in;
#[cfg(not(linked))]
pub use stand_in::*;

/// Whether the library itself is linked, and not the stand-in.
pub const LINKED: bool = cfg!(linked);

/// The stand-in's reply where its search for a run stays unfinished. The library never gives it.
pub const UNFINISHED: u64 = u64::MAX;

/// The highest place that a reply can tell; one beyond it is told as this one.
pub const LAST_PLACE: usize = u32::MAX as usize;

/// Wrong versions of the stand-in, to show that differences are seen. The library has none.
pub const FAULTS: [&str; 21] = [
    "none",
    "later-learning",
    "opens-nothing",
    "drops-known-bodies",
    "no-occurs-check",
    "writes-beyond",
    "place-off",
    "refuses-all",
    "writes-nothing",
    "first-learnt-only",
    "leading-zeros",
    "nests-deeper",
    "key-not-deeper",
    "deep-before-wrong",
    "full-before-wrong",
    "pairs-to-the-left",
    "enters-twice",
    "key-before-body",
    "learns-unmade",
    "no-line-feed",
    "variables-by-line",
];

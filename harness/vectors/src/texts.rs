//! Records and files as docs/FORMAT.md writes them, for `written` to turn into bytes.

use reference::casefile::MOST;

pub const EN: &str = "EN ";

pub fn at(name: usize) -> String {
    format!("AT {name:04x} ")
}

pub fn pr(left: usize, right: usize) -> String {
    format!("PR {left:02x} {right:02x} ")
}

pub fn se(body: usize, key: usize) -> String {
    format!("SE {body:02x} {key:02x} ")
}

pub fn ap(function: usize, argument: usize) -> String {
    format!("AP {function:02x} {argument:02x} ")
}

pub fn mk(cell: usize) -> String {
    format!("MK {cell:02x} ")
}

pub fn ln(cell: usize) -> String {
    format!("LN {cell:02x} ")
}

/// As many variables.
pub fn variables(count: usize) -> String {
    "VA ".repeat(count)
}

/// As many bytes 0.
pub fn zeros(count: usize) -> String {
    "00 ".repeat(count)
}

/// 128 cells, all different.
pub fn full_cells() -> String {
    (0..MOST).map(at).collect()
}

/// 128 events.
pub fn full_events() -> String {
    mk(0).repeat(MOST)
}

/// Cells over the cell `base`, each made of the one before it, twice.
pub fn tower(height: usize, base: usize, make: impl Fn(usize, usize) -> String) -> String {
    (base..base + height).map(|c| make(c, c)).collect()
}

const CELLS_OF_E: &str = "AT 0001 AT 0002 SE 01 00 VA SE 03 00 ";

/// The worked files by their letters.
pub fn named() -> Vec<(&'static str, String)> {
    let with_cells_of_e = |rest: &str| CELLS_OF_E.to_string() + rest;
    vec![
        ("A", "".into()),
        ("B", "EN".into()),
        ("C", "AT 0000 MK 00 EN".into()),
        ("D", "AT 0005 MK 00 EN".into()),
        ("E", with_cells_of_e("LN 02 MK 04 EN")),
        ("F", with_cells_of_e("LN 02 LN 00 MK 01 EN")),
        ("G", with_cells_of_e("LN 02 MK 01 LN 00 EN")),
        ("H", with_cells_of_e("PR 03 04 LN 02 MK 05 EN")),
        ("I", "AT 0002 VA SE 00 01 MK 01 LN 02 MK 00 EN".into()),
        ("J", "VA LN 00 EN".into()),
        ("K1", "AT 0007 AT 0003 PR 00 01 LN 02 EN".into()),
        ("K2", "AT 0003 AT 0007 SE 00 01 LN 01 LN 02 EN".into()),
        ("L", "AT 0000 AT 0007 SE 00 01 LN 02 EN".into()),
        ("M", "AT 0001 AT 0002 SE 00 01 SE 01 00 LN 02 LN 03 EN".into()),
        ("N", "AT 0005 AP 09 00 LN 01 EN".into()),
        ("O", "AT 0001 AT 0002 PR 00 01 AT 0009 SE 03 02 LN 00 LN 01 LN 04 EN".into()),
        ("P", "AT 0004 AT 0004 LN 00 MK 01 EN".into()),
        ("Q0", "PR 00 00 EN".into()),
        ("Q1", "AT 0001 PR 00 00 EN".into()),
        ("R", "VA AT 0001 PR 00 01 EN".into()),
    ]
}

/// One of the worked files.
pub fn of(letter: &str) -> String {
    named().into_iter().find(|(name, _)| *name == letter).expect("a worked file").1
}

/// Q's files as large as they may be, and one cell or event larger.
pub fn bounds() -> Vec<String> {
    let one = at(0);
    vec![full_cells() + EN, full_cells() + &at(9) + EN, one.clone() + &full_events() + EN, one + &full_events() + &mk(0) + EN]
}

/// 128 variables; and 100, of which the first 25 must be cell 101.
pub fn many_variables() -> [String; 2] {
    let seals: String = (0..25).map(|v| se(v, 100)).collect();
    let wanted: String = (103..128).map(mk).collect();
    [variables(128) + EN, variables(100) + &at(1) + &at(2) + &se(101, 100) + &seals + &ln(102) + &wanted + EN]
}

/// A file for each of the refusals 1 to 7.
pub fn refused() -> [String; 7] {
    [of("A"), "ZZ EN".into(), "AT 0001 LN 00 AT 0002 EN".into(), variables(129) + EN, of("Q0"), of("J"), of("E") + " X"]
}

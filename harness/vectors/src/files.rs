//! The section of the reader: which files are accepted.

use generator::chance::Chance;
use generator::draw::{self, Like};
use reference::casefile::written;

use crate::texts::*;

const EVERY_KIND: &str = "AT 0001 VA PR 00 01 SE 02 00 AP 07 03 MK 04 LN 02 EN";

pub fn files(chance: &mut Chance) -> Vec<Vec<u8>> {
    let named = named().into_iter().map(|(_, text)| text);
    let texts = named.chain(edges()).chain(held()).chain(coinciding()).chain(towers());
    let mut found: Vec<Vec<u8>> = texts.map(|text| written(&text)).chain(long()).collect();
    found.extend([written(&of("E")), written(EVERY_KIND)].iter().flat_map(|whole| ends(whole)));
    found.extend(one_byte_changed(&written(&of("E"))));
    found.extend((0..80).map(|_| draw::small(chance, &[0, 20, 50]).bytes()));
    for _ in 0..170 {
        let case = draw::small(chance, &[0, 30]);
        found.push(draw::damaged(chance, &case));
    }
    for _ in 0..6 {
        let like = Like { cells: chance.between(120, 128), events: chance.between(118, 128), variables: 20, names: 4, learns: 55 };
        let case = draw::file(chance, &like);
        found.push(draw::damaged(chance, &case));
    }
    found
}

/// The file cut everywhere, and with a byte behind it.
fn ends(whole: &[u8]) -> Vec<Vec<u8>> {
    let cut = (0..whole.len()).map(|n| whole[..n].to_vec());
    let longer = [0, 65, 69, 255].map(|byte| [whole, &[byte]].concat());
    cut.chain(longer).collect()
}

/// The file with each byte changed in nine ways.
fn one_byte_changed(whole: &[u8]) -> Vec<Vec<u8>> {
    let changed = |at: usize, byte: u8| [&whole[..at], &[byte], &whole[at + 1..]].concat();
    let ways = |byte: u8| [0, 3, 5, 65, 69, 78, byte ^ 32, byte ^ 1, 255];
    (0..whole.len()).flat_map(|at| ways(whole[at]).map(|byte| changed(at, byte))).collect()
}

/// The bounds on cells, events and cell numbers, on both sides.
fn edges() -> Vec<String> {
    let (cells, events) = (full_cells(), full_events());
    let but_one = &cells[..cells.len() - at(127).len()];
    let mut found = bounds();
    found.extend([
        cells.clone() + "VA EN",
        variables(128) + EN,
        variables(129) + EN,
        at(0) + &events + "LN 00 EN",
        cells.clone() + &events + EN,
        cells.clone() + "MK 7f LN 7f EN",
        cells.clone() + "MK 80 EN",
        cells.clone() + "LN ff EN",
        but_one.to_string() + "PR 7e 7e EN",
        but_one.to_string() + "PR 7f 00 EN",
        but_one.to_string() + "SE 00 7f EN",
    ]);
    let short = ["AT ffff AT 0100 AT 00ff EN", "EN EN", "EN E", "EN 00", "MK 00 EN", "LN 00 EN"];
    found.extend(short.map(String::from));
    for mark in ["PR", "SE"] {
        found.extend([
            format!("{mark} 00 00 EN"),
            format!("AT 0001 {mark} 00 00 EN"),
            format!("AT 0001 {mark} 01 00 EN"),
            format!("AT 0001 {mark} 00 01 EN"),
            format!("AT 0001 {mark} ff ff EN"),
            format!("AT 0001 VA {mark} 01 00 {mark} 02 01 EN"),
            format!("AT 0001 {mark} 00 02 AT 0002 EN"),
        ]);
    }
    for function in [0, 1, 127, 128, 255] {
        found.extend([0, 1, 255].map(|argument| at(1) + &ap(function, argument) + EN));
        found.push(ap(function, 0) + EN);
    }
    for mark in ["MK", "LN"] {
        found.extend(["00", "01", "ff"].map(|cell| format!("AT 0001 {mark} {cell} EN")));
        found.push(format!("AT 0001 {mark} 00 {mark} 01 EN"));
    }
    found
}

/// Variables of an `LN`: held by an earlier `MK`, by a later one, by an `LN` alone, deep inside keys and arguments.
fn held() -> Vec<String> {
    let cells = "AT 0001 VA VA SE 00 01 PR 01 02 AP 09 02 SE 05 03";
    let events = [
        "LN 01",
        "MK 01 LN 01",
        "LN 01 MK 01",
        "MK 00 LN 01",
        "MK 02 LN 01",
        "MK 03 LN 01",
        "MK 03 LN 03",
        "MK 03 LN 04",
        "MK 04 LN 03",
        "MK 01 LN 04",
        "MK 01 MK 02 LN 04",
        "MK 01 LN 01 LN 04",
        "MK 01 LN 01 MK 02 LN 04",
        "MK 05 LN 02",
        "MK 06 LN 04",
        "MK 06 LN 06",
        "LN 06",
        "LN 00 LN 05",
        "MK 05 LN 05 LN 06",
        "MK 05 LN 03",
        "LN 00 MK 01 LN 03 LN 02",
        "MK 03 LN 00 LN 01 LN 05",
        "LN 07",
        "MK 03 LN 07",
        "MK 06 MK 07 LN 01",
        "LN 01 LN 07",
    ];
    let others = ["VA LN 00 X", "VA LN 00", "VA VA MK 00 LN 01 EN", "VA VA MK 01 LN 01 EN", "AT 0002 VA AP ff 01 MK 02 LN 01 EN"];
    events.map(|events| format!("{cells} {events} EN")).into_iter().chain(others.map(String::from)).collect()
}

/// Every two faults that can stand in one record, in every kind of record; the order of docs/FORMAT.md decides between them.
fn coinciding() -> Vec<String> {
    let few = "AT 0001 VA ".to_string();
    let full = at(1) + &variables(127);
    let late = few.clone() + "MK 00 ";
    let crowded = few.clone() + &full_events();
    let mut found = Vec::new();
    let mut put = |place: &str, ends: &[&str]| found.extend(ends.iter().map(|end| format!("{place} {end}")));
    for place in ["", &few, &late, &full, &(full.clone() + "MK 00"), &crowded, &(full.clone() + &full_events())] {
        put(place, &["A", "00", "E"]); // cut mark, whatever else
        put(place, &["ZZ", "6174 ff", "EM EN"]); // unknown mark, whatever else
        put(place, &["EN", "EN ff", "EN ZZ"]); // bytes after EN
    }
    for mark in ["AT", "VA", "PR", "SE", "AP"] {
        for place in [&late, &full, &(full.clone() + "MK 00 "), &crowded] {
            put(&format!("{place} {mark}"), &["", "ff", "ff ff EN"]); // late or 129th, cut or out of range
        }
    }
    for mark in ["MK", "LN"] {
        put(&format!("{crowded} {mark}"), &["", "ff EN", "01 EN"]); // 129th, cut, out of range or loose variable
    }
    for mark in ["PR", "SE", "AP"] {
        put(&format!("{few} {mark}"), &["", "ff", "00 ff EN", "ff 00 EN"]);
    }
    for mark in ["AT", "VA", "PR", "SE", "AP"] {
        put(&format!("AT 0001 LN 00 {mark}"), &["", "00", "00 00 EN"]);
    }
    put(&few, &["AT", "AT ff", "MK", "LN", "LN ff EN", "MK ff EN", "LN 01 EN"]);
    put(&crowded[..crowded.len() - mk(0).len()], &["LN 01 EN", "LN 02 EN", "LN 00 EN"]);
    for first in ["PR 09 09", "ZZ", "AT 0001 MK 07", "AT 0001 MK 00 AT 0002", "VA LN 00", "EN"] {
        put(first, &["", "Z", "ZZ EN", "PR c8 c8 EN"]);
    }
    found
}

/// Inputs about as long as the longest file, and longer.
fn long() -> Vec<Vec<u8>> {
    let body = full_cells() + &full_events();
    let ends =
        ["EN".into(), "EN 00".into(), "EN EN".into(), EN.to_string() + &zeros(102), EN.to_string() + &zeros(1102), "E".into(), "MK".into()];
    let mut found: Vec<Vec<u8>> = ends.iter().map(|end: &String| written(&(body.clone() + end))).collect();
    let mut put = |text: String, size: usize| found.push(written(&text)[..size].to_vec());
    for size in [899, 900] {
        put(EN.to_string() + &zeros(size), size);
        put(at(7).repeat(500), size);
        put(variables(1000), size);
        put(at(1) + &mk(0).repeat(700), size);
    }
    put(of("E") + " " + &zeros(974), 1000);
    put(at(7).repeat(500), 1000);
    put(zeros(2000), 2000);
    put(full_cells() + &ln(5).repeat(500), 2000);
    found
}

fn towers() -> Vec<String> {
    let high = variables(1) + &tower(127, 0, pr);
    let events = ["", "LN 7f", "MK 7f LN 7f", "MK 00 LN 7f", "MK 7f LN 00", "MK 40 LN 7f", "LN 7f MK 7f"];
    let mut found = events.map(|events| format!("{high} {events} EN")).to_vec();
    found.extend([
        variables(1) + &tower(127, 0, se) + "MK 7f LN 7e EN",
        variables(1) + &tower(127, 0, |a, _| ap(3, a)) + "MK 7f LN 7e EN",
        at(1) + "VA " + &tower(126, 1, pr) + "MK 00 LN 7f EN",
        variables(1) + &at(1) + &tower(126, 1, pr) + "LN 7f EN",
        high + &pr(127, 127) + EN,
    ]);
    found
}

//! The sections of build marks and reducing, whose files have no variables.

use generator::chance::Chance;
use generator::draw::{self, Like};
use generator::exchanges;
use reference::casefile::{written, CaseFile, Cell, Event, MOST};
use reference::questions::{self, Reply};

use crate::sections::{without_doubles, WIDE};
use crate::texts::*;

/// The rooms and files for build marks.
pub fn marks(chance: &mut Chance) -> Vec<(usize, Vec<u8>)> {
    let mut found = files(chance, 305);
    found.extend(many_bare().into_iter().take(2));
    with_rooms(chance, found, questions::marks)
}

/// The rooms and files for reducing.
pub fn reduced(chance: &mut Chance) -> Vec<(usize, Vec<u8>)> {
    let mut found = files(chance, 250);
    found.extend(many_bare());
    found.extend((0..60).map(|_| sealed(chance)));
    with_rooms(chance, found, questions::reduce)
}

/// Files without variables: the named ones, knowledge that opens in turn, equal trees, deep trees, and as many random ones as are left.
fn files(chance: &mut Chance, count: usize) -> Vec<Vec<u8>> {
    let named = named().into_iter().map(|(_, text)| text);
    let texts = named.chain(twins()).chain(keys()).chain(high_trees());
    let mut found: Vec<Vec<u8>> = texts.map(|text| written(&text)).collect();
    found.extend(exchanges::scripts().iter().map(|script| script.case.bytes()));
    found.retain(|file| !file.windows(2).any(|mark| mark == b"VA"));
    while found.len() < count {
        let most = if chance.percent(98) { *chance.pick(&[4, 8, 14, 24]) } else { MOST };
        let like = Like {
            cells: chance.between(1, most),
            events: chance.between(1, (most / 2).max(2)),
            variables: 0,
            names: *chance.pick(&[2, 3, 5, 300]),
            learns: 85,
        };
        found.push(draw::file(chance, &like).bytes());
    }
    without_doubles(found)
}

/// Each file with enough room, and a share of the short ones with the very length, a byte less, or none.
fn with_rooms(chance: &mut Chance, files: Vec<Vec<u8>>, question: fn(&[u8], usize) -> Reply) -> Vec<(usize, Vec<u8>)> {
    let mut found = Vec::new();
    for file in files {
        let mut rooms = vec![WIDE];
        if let Reply::Bytes(reply) = question(&file, WIDE) {
            if file.len() < 100 && chance.percent(15) {
                rooms.extend([reply.len(), reply.len().saturating_sub(1), 0]);
            }
        }
        rooms.sort();
        rooms.dedup();
        found.extend(rooms.into_iter().map(|room| (room, file.clone())));
    }
    found
}

/// A file whose learnt seals all have a key that is never built: the reduced file has many parts to put in order.
fn sealed(chance: &mut Chance) -> Vec<u8> {
    let like = Like { cells: chance.between(4, 12), events: 0, variables: 0, names: 5, learns: 0 };
    let mut case = CaseFile { cells: vec![Cell::Atom(900), Cell::Atom(901)], ..CaseFile::default() };
    case.cells.extend(draw::cells(chance, &like).into_iter().map(two_further));
    let mut bodies: Vec<u8> = (2..case.count() as u8).collect();
    for _ in 0..chance.between(2, bodies.len().min(5)) {
        let body = bodies.remove(chance.below(bodies.len()));
        case.events.push(Event::Learn(case.count() as u8));
        case.cells.push(Cell::Seal(body, chance.below(2) as u8));
    }
    case.bytes()
}

/// The cell with parts that stand two cells further on.
fn two_further(cell: Cell) -> Cell {
    match cell {
        Cell::Pair(a, b) => Cell::Pair(a + 2, b + 2),
        Cell::Seal(a, b) => Cell::Seal(a + 2, b + 2),
        Cell::App(f, a) => Cell::App(f, a + 2),
        other => other,
    }
}

/// Equal trees in different cells: learnt through one, asked through the other; equal keys; equal bare messages.
fn twins() -> Vec<String> {
    let rest = [
        "LN 00",
        "LN 01",
        "PR 00 02 PR 01 03 LN 04",
        "PR 00 02 PR 01 03 LN 05 LN 04",
        "SE 00 02 SE 01 03 LN 04",
        "SE 00 02 LN 03 LN 04",
        "SE 00 02 SE 01 03 LN 04 LN 05",
        "AP 01 00 AP 01 01 AP 02 00 LN 04",
        "AP 01 00 AP 01 01 SE 02 04 LN 05 LN 06",
        "PR 00 03 PR 01 02 SE 00 04 SE 01 05 SE 02 06 LN 07 LN 08",
        "PR 00 02 PR 02 00 SE 00 04 SE 00 05 LN 06 LN 04",
    ];
    let mut found = rest.map(|rest| format!("AT 0004 AT 0004 AT 0005 AT 0005 {rest} EN")).to_vec();
    found.push(at(4).repeat(MOST) + "LN 4d EN");
    found
}

/// Name 0 as key and as body, keys that are pairs, applications or seals, seals that open in turn, forwards and backwards.
fn keys() -> Vec<String> {
    let rest = [
        "SE 01 00 LN 02",
        "SE 00 01 LN 02",
        "SE 00 00 LN 02",
        "SE 00 00 SE 01 02 LN 03",
        "SE 01 00 SE 00 01 LN 03",
        "PR 00 01 LN 02",
        "AP 00 00 LN 02",
        "PR 00 00 SE 01 02 LN 03",
        "AP 05 00 SE 01 02 LN 03",
        "AP 05 01 SE 00 02 LN 03",
        "SE 01 01 LN 02",
        "SE 01 01 SE 00 02 LN 02 LN 03",
    ];
    let few = ["AT 0000 LN 00", "AT 0000 AT 0000 LN 01", "AT 0000", "AT 0009", "AT 0009 MK 00", "AT 0009 AP 00 00 MK 01 LN 01 MK 00"];
    let mut found = rest.map(|rest| format!("AT 0000 AT 0007 {rest} EN")).to_vec();
    found.extend(few.map(|few| format!("{few} EN")));
    found.extend([2, 3, 5, 12, 30].into_iter().flat_map(ladder));
    found
}

/// Names sealed each under the next, and what is learnt of them in six ways.
fn ladder(length: usize) -> [String; 6] {
    let names: String = (1..=length).map(at).collect();
    let seals: String = (1..length).map(|i| se(i - 1, i)).collect();
    let forwards: String = (length..2 * length - 1).map(ln).collect();
    let backwards: String = (length..2 * length - 1).rev().map(ln).collect();
    let (first, last) = (ln(0), ln(length - 1));
    let learnt =
        [forwards.clone(), backwards.clone(), last.clone() + &forwards, forwards.clone() + &last, last + &backwards, forwards + &first];
    learnt.map(|learnt| names.clone() + &seals + &learnt + EN)
}

/// Towers of doubled pairs, seals and applications, alone and beside a twin tower.
fn high_trees() -> Vec<String> {
    let one = at(3) + &tower(120, 0, pr);
    let two = at(3) + &tower(62, 0, pr) + &at(3) + &tower(62, 63, pr);
    let other = at(3) + &at(4) + &tower(120, 1, pr) + "SE 00 79 LN 7a ";
    vec![
        one.clone() + "LN 78 EN",
        one + "LN 00 EN",
        at(3) + &tower(127, 0, pr) + "LN 40 EN",
        at(3) + &tower(120, 0, se) + "LN 78 EN",
        at(3) + &tower(120, 0, |a, _| ap(2, a)) + "LN 78 EN",
        two.clone() + "LN 3e EN",
        two.clone() + "SE 3e 7d LN 7e EN",
        two.clone() + "SE 00 3e LN 7d LN 7e EN",
        two + "AP 08 3e LN 7e EN",
        other.clone() + "LN 01 EN",
        other + "LN 00 EN",
    ]
}

/// 128 different cells, all bare; all but two; and in an order that reducing has to turn round.
fn many_bare() -> Vec<Vec<u8>> {
    let learn = |cells: std::ops::Range<usize>| cells.map(ln).collect::<String>() + EN;
    let falling: String = (0..MOST).map(|i| at(1000 - i)).collect();
    let seals: String = at(9) + &at(8) + &(1..127).map(|i| se(i, 0)).collect::<String>();
    let apps: String = at(9) + &(0..127).map(|i| ap(255 - i, 0)).collect::<String>();
    let texts = [
        falling + &learn(0..MOST),
        seals.clone() + &learn(2..MOST),
        apps.clone() + &learn(1..MOST),
        apps + &learn(0..MOST),
        full_cells() + &learn(0..MOST),
        full_cells() + &learn(2..3),
        seals + &learn(0..MOST - 1),
    ];
    texts.iter().map(|text| written(text)).collect()
}

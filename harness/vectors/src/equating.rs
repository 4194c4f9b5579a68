//! The section of equating.

use generator::chance::Chance;
use generator::draw::{self, Like};
use reference::casefile::written;
use reference::questions;

use crate::texts::*;

/// Two cells, the room, and the file.
type Two = (u8, u8, u8, Vec<u8>);

const MOST_ROOM: u8 = 255;

pub fn equated(chance: &mut Chance) -> Vec<Two> {
    let mut found = of_r();
    for text in refused().into_iter().chain([of("B"), at(1) + EN]) {
        found.extend([0, MOST_ROOM].map(|room| (0, 0, room, written(&text))));
    }
    found.extend(high());
    found.extend(every_kind());
    while found.len() < 405 {
        found.extend(drawn(chance));
    }
    found
}

/// Every two cells of R and the first number that is none, and few of them in rooms of all lengths.
fn of_r() -> Vec<Two> {
    let file = written(&of("R"));
    let all = (0..4).flat_map(|a| (0..4).map(move |b| (a, b, 3)));
    let few = [(0, 2), (0, 1), (3, 0), (0, 255)].into_iter().flat_map(|(a, b)| [0, 2, 4, MOST_ROOM].map(|room| (a, b, room)));
    all.chain(few).map(|(a, b, room)| (a, b, room, file.clone())).collect()
}

/// Every two cells of a file that has each kind more than once.
fn every_kind() -> Vec<Two> {
    let file = written("VA VA AT 0001 AT 0001 AT 0002 PR 00 02 PR 01 04 SE 00 02 SE 04 01 AP 01 00 AP 02 00 AP 01 02 AP 02 04 PR 02 03 EN");
    (0..14).flat_map(|a| (0..a).map(move |b| (a, b))).map(|(a, b)| (a, b, MOST_ROOM, file.clone())).collect()
}

/// Towers of doubled pairs over a variable: against themselves, each other, a name, and a part of their own.
fn high() -> Vec<Two> {
    let one = variables(1) + &tower(120, 0, pr);
    let two = variables(1) + &tower(62, 0, pr) + &variables(1) + &tower(62, 63, pr);
    let mixed = at(1) + &tower(62, 0, pr) + &variables(1) + &tower(62, 63, pr);
    let crossed = variables(2) + &pr(0, 1) + &pr(1, 0) + &tower(60, 2, pr);
    let stairs = variables(20) + &tower(19, 0, pr) + &(0..10).map(|i| pr(i, 20 + i)).collect::<String>();
    let asked: [(String, &[(u8, u8)]); 5] = [
        (one, &[(0, 120), (120, 120), (119, 120), (1, 0)]),
        (two, &[(62, 125), (0, 125), (62, 124), (63, 62), (0, 63)]),
        (mixed, &[(62, 125), (61, 125), (0, 125), (62, 63)]),
        (crossed, &[(2, 3), (63, 3)]),
        (stairs, &[(20, 39), (48, 41)]),
    ];
    let of_file = |(cells, twos): &(String, &[(u8, u8)])| {
        let file = written(&(cells.clone() + EN));
        twos.iter().map(|&(a, b)| (a, b, MOST_ROOM, file.clone())).collect::<Vec<_>>()
    };
    asked.iter().flat_map(of_file).collect()
}

/// Two different cells of a small file, mostly such that can be made equal.
fn drawn(chance: &mut Chance) -> Option<Two> {
    let like = Like {
        cells: *chance.pick(&[4, 7, 10, 15]),
        events: chance.below(4),
        variables: *chance.pick(&[30, 60, 90]),
        names: 2,
        learns: 55,
    };
    let case = draw::file(chance, &like);
    let (a, b) = (chance.below(like.cells), chance.below(like.cells));
    let kept = a != b && (questions::equating_list(&case, a, b).is_some() || chance.percent(35));
    kept.then(|| (a as u8, b as u8, MOST_ROOM, case.bytes()))
}

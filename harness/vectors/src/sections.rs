//! The sections of cases, each drawn from its own seed.

use std::collections::HashSet;

use generator::chance::Chance;
use generator::draw::{self, Like};
use reference::casefile::written;

use crate::case::{Asked, Case};
use crate::texts::{self, bounds, many_variables, named, of};
use crate::{equating, files, ground, runs, typed};

/// A room that every reply fits.
pub const WIDE: usize = 1000;

/// A name and its cases.
pub type Section = (&'static str, Vec<Case>);

/// All sections in their order. An error if the searches differ on a run.
pub fn sections() -> Result<Vec<Section>, String> {
    Ok(vec![
        ("files", files(&mut Chance::of(1, 0))),
        ("marks", marks(&mut Chance::of(1, 1))),
        ("reduce", reduce(&mut Chance::of(1, 2))),
        ("equate", equate(&mut Chance::of(1, 3))),
        ("run", run(&mut Chance::of(1, 4))?),
        ("list", list(&mut Chance::of(1, 5))?),
        ("print", printed()),
        ("text", typed(&mut Chance::of(1, 6))),
    ])
}

/// The files in their order, each once.
pub fn without_doubles(mut files: Vec<Vec<u8>>) -> Vec<Vec<u8>> {
    let mut met = HashSet::new();
    files.retain(|file| met.insert(file.clone()));
    files
}

fn files(chance: &mut Chance) -> Vec<Case> {
    without_doubles(files::files(chance)).into_iter().map(|file| Case { asked: Asked::File, file }).collect()
}

fn marks(chance: &mut Chance) -> Vec<Case> {
    with_room(ground::marks(chance).into_iter().chain(refused(chance)), |room| Asked::Marks { room })
}

fn reduce(chance: &mut Chance) -> Vec<Case> {
    with_room(ground::reduced(chance).into_iter().chain(refused(chance)), |room| Asked::Reduced { room })
}

fn equate(chance: &mut Chance) -> Vec<Case> {
    equating::equated(chance).into_iter().map(|(a, b, room, file)| Case { asked: Asked::Equated { a, b, room }, file }).collect()
}

fn run(chance: &mut Chance) -> Result<Vec<Case>, String> {
    Ok(with_room(runs::runs(chance)?.into_iter().chain(refused(chance)), |room| Asked::Run { room }))
}

fn list(chance: &mut Chance) -> Result<Vec<Case>, String> {
    Ok(runs::lists(chance)?.into_iter().map(|(list, file)| Case { asked: Asked::List(list), file }).collect())
}

/// The worked files of docs/FORMAT.md, Q's bounds, and files with many variables.
fn printed() -> Vec<Case> {
    let texts = named().into_iter().map(|(_, text)| text).chain(bounds()).chain(many_variables());
    texts.map(|text| Case { asked: Asked::Printed, file: written(&text) }).collect()
}

/// Typed texts, each once in the same room.
pub fn typed(chance: &mut Chance) -> Vec<Case> {
    let mut met = HashSet::new();
    let once = typed::texts(chance).into_iter().filter(|case| met.insert(case.clone()));
    with_room(once, |room| Asked::Typed { room })
}

fn with_room(cases: impl Iterator<Item = (usize, Vec<u8>)>, asked: fn(usize) -> Asked) -> Vec<Case> {
    cases.map(|(room, file)| Case { asked: asked(room), file }).collect()
}

/// Refusals of the file, and of a variable where there may be none, with and without room.
fn refused(chance: &mut Chance) -> Vec<(usize, Vec<u8>)> {
    let variables = [of("E"), of("R"), "VA EN".into(), "AT 0001 VA LN 00 EN".into(), "AT 0001 PR 00 00 VA EN".into()];
    let later = ["AT 0001 6174 EN", "AT 0001 LN 00 ZZ", "AT 0001 MK 00 VA EN", "AT 0001 MK 01 EN"].map(String::from);
    let mut files: Vec<Vec<u8>> = texts::refused().iter().chain(&later).chain(&variables).map(|text| written(text)).collect();
    for _ in 0..10 {
        let like = Like { cells: 6, events: 4, variables: 20, names: 4, learns: 55 };
        let case = draw::file(chance, &like);
        files.push(draw::damaged(chance, &case));
    }
    files.into_iter().flat_map(|file| [0, WIDE].map(|room| (room, file.clone()))).collect()
}

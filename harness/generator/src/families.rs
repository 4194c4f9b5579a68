//! Families of larger case files, for measuring.

use reference::casefile::{read, CaseFile};
use reference::lazy::{self, Limit, Outcome, Rules, PUBLISHED, SHORTENED};

use crate::chance::Chance;
use crate::draft::Draft;
use crate::planted::planted;
use crate::shapes::{self, crossed_of, grow, roles, some_events};

/// The names of the families of runs.
pub const RUNS: [&str; 6] = ["gen-random-65", "gen-sessions-3", "gen-sessions-5", "gen-planted-4", "gen-planted-8", "gen-crossed-5x5"];

/// One run of a family.
pub fn run(family: &str, chance: Chance) -> CaseFile {
    let mut draft = Draft::new(chance);
    draft.twins = draft.twins.min(5);
    match family {
        "gen-random-65" => {
            while draft.count() < 65 {
                grow(&mut draft, true, 6);
            }
            some_events(&mut draft, 24);
        }
        "gen-sessions-3" => roles(&mut draft, 3),
        "gen-sessions-5" => roles(&mut draft, 5),
        "gen-planted-4" => planted(&mut draft, 4),
        "gen-planted-8" => planted(&mut draft, 8),
        _ => crossed_of(&mut draft, 5, 5),
    }
    draft.done()
}

/// The names of the families of [`hard`].
pub const HARD: [&str; 2] = ["gen-hard-published", "gen-hard-shortcuts"];

/// Of the files of all shapes, those on which one form of the lazy intruder goes into many constraint sets.
pub fn hard(family: &str, seed: u64, count: usize) -> Vec<CaseFile> {
    let (rules, sets): (Rules, usize) = if family == HARD[0] { (PUBLISHED, 2000) } else { (SHORTENED, 200) };
    let long = |case: &CaseFile| read(&case.bytes()).is_ok() && lazy::solve(case, rules, Limit::sets(sets)).0 == Outcome::Unfinished;
    (0..count as u64 * 1000).map(|n| shapes::any(Chance::of(seed, n)).1).filter(long).take(count).collect()
}

/// Files without variables for marks and reducing, of `cells` cells, meant to be slow.
pub fn ground(cells: usize, mut chance: Chance) -> Vec<(&'static str, CaseFile)> {
    let seed = |chance: &mut Chance| Chance::new(chance.word());
    vec![
        ("keys one by one", key_ladder(cells, seed(&mut chance))),
        ("doubled pairs", pair_tower(cells, seed(&mut chance))),
        ("twins", all_twins(cells, seed(&mut chance))),
        ("random", random_ground(cells, seed(&mut chance))),
    ]
}

fn plain_draft(chance: Chance) -> Draft {
    let mut draft = Draft::new(chance);
    draft.twins = 0;
    draft
}

fn file(draft: Draft) -> CaseFile {
    CaseFile { cells: draft.cells, events: draft.events, first_var: None }
}

/// Each key lies under the next one, so that going through the cells upwards opens one seal at a time.
fn key_ladder(cells: usize, chance: Chance) -> CaseFile {
    let mut draft = plain_draft(chance);
    let keys: Vec<u8> = (0..cells / 2 + cells % 2).map(|n| draft.atom(n as u16 + 1)).collect();
    for pair in keys.windows(2) {
        draft.seal(pair[0], pair[1]);
    }
    while draft.count() < cells {
        let last = draft.count() - 1;
        draft.app(1, last as u8);
    }
    for c in keys.len()..cells {
        draft.learn(c as u8);
    }
    draft.learn(keys[keys.len() - 1]);
    file(draft)
}

fn pair_tower(cells: usize, chance: Chance) -> CaseFile {
    let mut draft = plain_draft(chance);
    let mut top = draft.atom(1);
    while draft.count() < cells {
        top = draft.pair(top, top);
    }
    draft.learn(top);
    file(draft)
}

/// Four towers that all show the same messages.
fn all_twins(cells: usize, chance: Chance) -> CaseFile {
    let mut draft = Draft::new(chance);
    draft.twins = 100;
    let mut tops: Vec<u8> = (0..4).map(|_| draft.atom(5)).collect();
    while draft.count() < cells {
        let place = draft.count() % 4;
        tops[place] = draft.seal(tops[place], tops[(place + 1) % 4]);
    }
    for c in (0..cells).rev().step_by(3) {
        draft.learn(c as u8);
    }
    file(draft)
}

fn random_ground(cells: usize, chance: Chance) -> CaseFile {
    let mut draft = Draft::new(chance);
    draft.twins = 30;
    while draft.count() < cells {
        grow(&mut draft, false, cells / 8);
    }
    for _ in 0..cells / 4 {
        let c = draft.any();
        draft.learn(c);
    }
    file(draft)
}

/// Files for equating, of `cells` cells, with the two cells to equate.
pub fn equal(cells: usize, chance: Chance) -> Vec<(&'static str, CaseFile, usize, usize)> {
    let mut draft = plain_draft(chance.clone());
    let mut tops = [draft.var(), draft.var()];
    while draft.count() < cells {
        let side = draft.count() % 2;
        tops[side] = draft.pair(tops[side], tops[side]);
    }
    let towers = ("two doubled towers", file(draft), tops[0] as usize, tops[1] as usize);

    let mut draft = plain_draft(chance);
    let steps = (cells - 1) / 4;
    let vars: Vec<u8> = (0..=steps).map(|_| draft.var()).collect();
    let doubled: Vec<u8> = vars[1..].iter().map(|&v| draft.pair(v, v)).collect();
    let (mut left, mut right) = (vars[0], doubled[0]);
    for step in 1..steps {
        left = draft.pair(vars[step], left);
        right = draft.pair(doubled[step], right);
    }
    while draft.count() < cells {
        draft.var();
    }
    vec![towers, ("each variable twice the next", file(draft), left as usize, right as usize)]
}

/// Files for the list check, of `cells` cells, each with a right list.
pub fn listed(cells: usize, chance: Chance) -> Vec<(&'static str, CaseFile, Vec<u8>)> {
    let mut draft = plain_draft(chance.clone());
    let steps = (cells - 1) / 3;
    let vars: Vec<u8> = (0..steps).map(|_| draft.var()).collect();
    let keys: Vec<u8> = (0..=steps).map(|n| draft.atom(n as u16)).collect();
    let mut list: Vec<u8> = (0..cells as u8).collect();
    let seals: Vec<u8> = (0..steps).map(|s| draft.seal(keys[s + 1], vars[s])).collect();
    while draft.count() < cells {
        draft.atom(65535);
    }
    for s in 0..steps {
        draft.make(vars[s]);
        draft.learn(seals[s]);
        list[vars[s] as usize] = if s == 0 { 255 } else { keys[s] };
    }
    draft.make(keys[steps]);
    let ladder = ("keys one by one", file(draft), list);

    let mut draft = plain_draft(chance);
    let vars: Vec<u8> = (0..cells / 2).map(|_| draft.var()).collect();
    let mut list: Vec<u8> = (0..cells as u8).collect();
    let mut tops = Vec::new();
    for &v in &vars {
        tops.push(draft.pair(v, v));
    }
    while draft.count() < cells {
        draft.atom(1);
    }
    for place in 0..vars.len() {
        list[vars[place] as usize] = if place + 1 < vars.len() { tops[place + 1] } else { 255 };
        draft.make(tops[place]);
        draft.learn(tops[place]);
    }
    vec![ladder, ("each value twice the next", file(draft), list)]
}

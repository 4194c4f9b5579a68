//! Each question asked of the library and held against the reference.

use generator::chance::Chance;
use reference::casefile::{read, CaseFile, Cell};
use reference::lazy::{self, Limit, Outcome, SHORTENED};
use reference::questions::{self, Reply};
use reference::searches;

use crate::buffers::Call;
use crate::options::Options;
use crate::tally::Tally;
use crate::worker::{Lost, Worker};

/// One file or text being compared.
pub struct Asking<'a> {
    pub options: &'a Options,
    pub tally: &'a mut Tally,
    pub worker: &'a mut Worker,
    pub chance: Chance,
    pub number: u64,
    pub shape: &'static str,
    pub file: &'a [u8],
}

/// What the reference says, in words.
fn told(reply: &Reply) -> String {
    match reply {
        Reply::Refused(number, place) => format!("refusal {number} at {place}"),
        Reply::No => "no, or wrong".into(),
        Reply::Right => "right".into(),
        Reply::Bytes(bytes) => format!("{} bytes {bytes:02x?}", bytes.len()),
    }
}

fn shown(number: u64) -> String {
    match number >> 32 {
        0 => format!("reply {number}"),
        refusal => format!("refusal {refusal} at {}", number & 0xffff_ffff),
    }
}

impl Asking<'_> {
    fn differs(&mut self, question: &'static str, what: String) {
        self.tally.differs(self.number, question, self.file, what);
    }

    /// A call whose reply the reference fixes to the last byte. Gives back whether it agreed.
    pub fn exact(&mut self, question: &'static str, kind: &str, call: &Call, reply: &Reply, about: &str) -> bool {
        let room = call.before.len();
        let (fits, name) = match reply {
            Reply::Refused(number, place) => {
                let place = (*place).min(library::LAST_PLACE) as u64;
                (call.refusal() == Some((*number as u64, place)) && call.untouched(), format!("refused {number:2}"))
            }
            Reply::No => (call.number == 0 && call.untouched(), kind.to_string()),
            Reply::Right => (call.number == 1 && call.untouched(), kind.to_string()),
            Reply::Bytes(bytes) => (call.written(bytes.len()) == Some(&bytes[..]), kind.to_string()),
        };
        self.tally.reply(question, name);
        if !fits {
            let touched = if call.outside { ", bytes outside the buffer touched" } else { "" };
            self.differs(
                question,
                format!(
                    "{about}, {room} bytes of room: library {}{touched}, buffer {:02x?}; reference {}",
                    shown(call.number),
                    call.after,
                    told(reply)
                ),
            );
        }
        fits
    }

    /// Rooms to try for a reply of `need` bytes: exactly that, one less, more, and none.
    pub fn rooms(&mut self, need: usize) -> Vec<usize> {
        let mut rooms = vec![need, need + self.chance.between(1, 40)];
        if need > 0 {
            rooms.push(need - 1);
            rooms.push(self.chance.below(need));
        }
        rooms
    }

    pub fn some_room(&mut self) -> usize {
        *self.chance.pick(&[0, 1, 16, 128, 129, 1000])
    }

    /// Build marks and reducing, as far as they are asked.
    pub fn ground_questions(&mut self) {
        self.ground("marks", questions::marks, library::marks);
        self.ground("reduce", questions::reduce, library::reduce);
    }

    fn ground(&mut self, question: &'static str, reference: fn(&[u8], usize) -> Reply, library: fn(&[u8], &mut [u8]) -> u64) {
        if !self.options.asks(question) {
            return;
        }
        let file = self.file;
        let rooms = match reference(file, usize::MAX) {
            Reply::Bytes(bytes) => self.rooms(bytes.len()),
            _ => vec![self.some_room()],
        };
        for room in rooms {
            let call = Call::with(&mut self.chance, room, |out| library(file, out));
            self.exact(question, "answered", &call, &reference(file, room), question);
        }
    }

    pub fn equate(&mut self) {
        let count = read(self.file).map_or(0, |case| case.count());
        for _ in 0..3 {
            let cell = |chance: &mut Chance| match chance.below(24) {
                0 => count,
                1 => *chance.pick(&[128, 255, 256, 1 << 32, usize::MAX]),
                _ => chance.below(count.max(1)),
            };
            let (a, mut b) = (cell(&mut self.chance), cell(&mut self.chance));
            if self.chance.once_in(2) {
                b = self.like(a).unwrap_or(b);
            }
            let rooms = if self.chance.once_in(3) { self.rooms(count) } else { vec![count] };
            for room in rooms {
                self.equate_with(a, b, room);
            }
        }
    }

    /// Another cell of the same kind.
    fn like(&mut self, a: usize) -> Option<usize> {
        let case = read(self.file).ok()?;
        let kind = std::mem::discriminant(case.cells.get(a)?);
        let like: Vec<usize> = (0..case.count()).filter(|&c| c != a && std::mem::discriminant(&case.cells[c]) == kind).collect();
        (!like.is_empty()).then(|| *self.chance.pick(&like))
    }

    fn equate_with(&mut self, a: usize, b: usize, room: usize) {
        let file = self.file;
        let about = format!("equating cells {a} and {b}");
        let call = Call::with(&mut self.chance, room, |out| library::equate(file, a, b, out));
        let case = match questions::open_equate(file, a, b, room) {
            Err(refusal) => {
                self.exact("equate", "", &call, &refusal.into(), &about);
                return;
            }
            Ok(case) => case,
        };
        if questions::equating_list(&case, a, b).is_none() {
            self.exact("equate", "no", &call, &Reply::No, &about);
            return;
        }
        self.tally.reply("equate", "listed");
        let judged = match call.written(case.count()) {
            None => Err(format!("library {}, buffer {:02x?}; some values make them equal", shown(call.number), call.after)),
            Some(list) => questions::judge_equating(&case, a, b, list).map_err(|why| format!("list {list:?}: {why}")),
        };
        if let Err(why) = judged {
            self.differs("equate", format!("{about}, {room} bytes of room: {why}"));
        }
    }

    /// Asks the run; gives back a right list if one was found.
    pub fn run(&mut self) -> Option<Vec<u8>> {
        let file = self.file;
        let count = read(file).map_or(0, |case| case.count());
        let accepted = questions::open_run(file, count);
        let Ok(case) = accepted else {
            let room = self.some_room();
            let call = self.called(room)?;
            let reply = questions::open_run(file, room).expect_err("refused above").into();
            self.exact("run", "", &call, &reply, "run");
            return None;
        };
        if count > 0 {
            let room = if self.chance.once_in(2) { count - 1 } else { self.chance.below(count) };
            let call = self.called(room)?;
            self.exact("run", "", &call, &Reply::Refused(9, count), "run");
        }
        let outcomes = self.outcomes(&case);
        let more = if self.chance.once_in(4) { self.chance.between(1, 40) } else { 0 };
        self.run_with(&case, count + more, &outcomes)
    }

    /// The library's run; nothing if it is not ended in time, or ends its process, which counts as a difference.
    fn called(&mut self, room: usize) -> Option<Call> {
        match self.worker.run(self.chance.byte(), room, self.file) {
            Ok((call, time)) => {
                self.tally.slowest = self.tally.slowest.max((time, self.number));
                return Some(call);
            }
            Err(Lost::Late) => self.tally.late.push(self.number),
            Err(Lost::Ended) => self.differs("run", format!("{room} bytes of room: the library ended the program")),
        }
        None
    }

    /// What each independent way of solving says.
    fn outcomes(&mut self, case: &CaseFile) -> [(&'static str, Outcome); 3] {
        let limit = Limit::by_size(case, self.options.sets);
        let outcomes = searches::outcomes(case, self.options.lists, limit);
        for (name, outcome) in &outcomes {
            match outcome {
                Outcome::Unfinished => self.tally.note(format!("unfinished: {name}")),
                Outcome::Right(list) if !questions::values_right(case, list) => {
                    self.differs("run", format!("{name} gives the list {list:?}, which is wrong"))
                }
                _ => {}
            }
        }
        outcomes
    }

    fn run_with(&mut self, case: &CaseFile, room: usize, outcomes: &[(&'static str, Outcome)]) -> Option<Vec<u8>> {
        let file = self.file;
        let call = self.called(room)?;
        if call.number == library::UNFINISHED && !library::LINKED {
            self.tally.reply("run", "unfinished");
            return None;
        }
        let says = |yes: bool| {
            let fits = |outcome: &Outcome| matches!(outcome, Outcome::Right(_)) && yes || *outcome == Outcome::None && !yes;
            outcomes.iter().filter(|(_, o)| fits(o)).map(|(name, _)| *name).collect::<Vec<_>>()
        };
        if call.number == 0 {
            self.tally.reply("run", "no");
            self.tally.shape(self.shape, 2);
            let agreed = if says(false).is_empty() { "none".into() } else { says(false).join(", ") };
            self.tally.note(format!("run no, agreed by: {agreed}"));
            if !call.untouched() {
                self.differs("run", "the buffer is touched though the reply is no".into());
            }
            if !says(true).is_empty() {
                self.differs("run", format!("library says no; yes by: {}; {outcomes:?}", says(true).join(", ")));
            }
            return None;
        }
        let Some(list) = call.written(case.count()) else {
            self.tally.reply("run", "other");
            self.differs("run", format!("{room} bytes of room: library {}, buffer {:02x?}", shown(call.number), call.after));
            return None;
        };
        self.tally.reply("run", "yes");
        let chosen = (0..list.len()).any(|c| case.cells[c] == Cell::Var && list[c] != 255);
        self.tally.note(if chosen { "run yes with a value other than name 0" } else { "run yes with name 0 alone" });
        self.tally.shape(self.shape, if chosen { 0 } else { 1 });
        let judged = questions::check(file, list);
        if judged != Reply::Right {
            self.differs("run", format!("library says yes with the list {list:?}; the list check says {}", told(&judged)));
            return None;
        }
        if !says(false).is_empty() {
            self.differs("run", format!("the right list {list:?} is there, yet no by: {}", says(false).join(", ")));
        }
        Some(list.to_vec())
    }

    /// The list check on made-up lists, damaged lists and, where one is at hand, a right list.
    pub fn check(&mut self, right: Option<Vec<u8>>) {
        let file = self.file;
        let Ok(case) = read(file) else {
            let list: Vec<u8> = (0..self.chance.below(5)).map(|_| self.chance.byte()).collect();
            return self.check_list(&list);
        };
        let right = right.or_else(|| match lazy::solve(&case, SHORTENED, Limit::sets(300)).0 {
            Outcome::Right(list) => Some(list),
            _ => None,
        });
        let mut lists = vec![self.made_up(&case, 0), self.made_up(&case, 30)];
        if let Some(list) = right {
            lists.push(self.altered(&case, &list));
            lists.push(list);
        }
        let last = self.chance.pick(&lists).clone();
        lists.push(self.damaged(&case, &last));
        for list in lists {
            self.check_list(&list);
        }
    }

    fn check_list(&mut self, list: &[u8]) {
        let file = self.file;
        let call = Call::with(&mut self.chance, 0, |_| library::check(file, list));
        let reply = questions::check(file, list);
        let kind = if reply == Reply::Right { "right" } else { "wrong" };
        self.exact("check", kind, &call, &reply, &format!("list check of {list:?}"));
    }

    fn entry(&mut self, case: &CaseFile, solid: &[u8], own_percent: usize) -> u8 {
        if solid.is_empty() || self.chance.percent(own_percent) {
            return 255;
        }
        let atoms: Vec<u8> = solid.iter().copied().filter(|&c| matches!(case.cells[c as usize], Cell::Atom(_))).collect();
        if !atoms.is_empty() && self.chance.once_in(2) {
            return *self.chance.pick(&atoms);
        }
        *self.chance.pick(solid)
    }

    /// A list in good form.
    fn made_up(&mut self, case: &CaseFile, own_percent: usize) -> Vec<u8> {
        let solid: Vec<u8> = (0..case.count()).filter(|&c| case.cells[c] != Cell::Var).map(|c| c as u8).collect();
        (0..case.count()).map(|c| if case.cells[c] == Cell::Var { self.entry(case, &solid, own_percent) } else { c as u8 }).collect()
    }

    /// The list with one variable's value changed.
    fn altered(&mut self, case: &CaseFile, list: &[u8]) -> Vec<u8> {
        let other = self.made_up(case, 20);
        let vars: Vec<usize> = (0..case.count()).filter(|&c| case.cells[c] == Cell::Var).collect();
        let mut list = list.to_vec();
        if !vars.is_empty() {
            let c = *self.chance.pick(&vars);
            list[c] = other[c];
        }
        list
    }

    /// The list in bad form: an entry out of place, or the wrong length.
    fn damaged(&mut self, case: &CaseFile, list: &[u8]) -> Vec<u8> {
        let mut list = list.to_vec();
        match self.chance.below(5) {
            0 => drop(list.pop()),
            1 => list.push(self.chance.byte()),
            2 => list.truncate(self.chance.below(list.len() + 1)),
            _ => {
                for _ in 0..self.chance.between(1, 2) {
                    if !list.is_empty() {
                        let c = self.chance.below(list.len());
                        list[c] = *self.chance.pick(&[c as u8, case.count() as u8, 254, 255, 128, 0, 1]);
                        if self.chance.once_in(3) {
                            list[c] = self.chance.byte();
                        }
                    }
                }
            }
        }
        list
    }
}

//! A case: a question, what it asks besides, and a file. Its bytes, and the lines that it must print.

use generator::text::hex;
use reference::casefile::{read, CaseFile, Cell, Refusal};
use reference::grammar::{self, ASKED};
use reference::lazy::Limit;
use reference::questions::{self, Reply};
use reference::{plain, searches, typed};

/// The question, and what it asks besides the file.
#[derive(Clone)]
pub enum Asked {
    File,
    Marks {
        room: usize,
    },
    Reduced {
        room: usize,
    },
    Equated {
        a: u8,
        b: u8,
        room: u8,
    },
    Run {
        room: usize,
    },
    List(Vec<u8>),
    Printed,
    /// The file is a typed text.
    Typed {
        room: usize,
    },
}

#[derive(Clone)]
pub struct Case {
    pub asked: Asked,
    pub file: Vec<u8>,
}

/// A number in two bytes, high byte first.
fn two_bytes(number: usize) -> [u8; 2] {
    u16::try_from(number).expect("a number of two bytes").to_be_bytes()
}

fn refused(number: u8, place: usize) -> String {
    format!("refused {number} at {place}")
}

/// A right list, or none, as all searches say that finish; nothing where none finishes. An error if they differ.
pub fn right_list(case: &CaseFile) -> Result<Option<Option<Vec<u8>>>, String> {
    searches::agreed(case, 400, Limit::by_size(case, 3000))
}

/// Whether the run has right values. An error if the searches differ or none finishes.
fn decided(case: &CaseFile) -> Result<bool, String> {
    right_list(case)?.map(|list| list.is_some()).ok_or("no search finishes".into())
}

/// The reply that both ways of the reference give.
fn both(one: Reply, other: Reply) -> Result<Reply, String> {
    if one != other {
        return Err(format!("the reference says {one:?} and {other:?}"));
    }
    Ok(one)
}

/// What a call of the library wrote to the front of the buffer, as long as the reply must be.
fn listed(reply: u64, out: &[u8], length: usize) -> Result<&[u8], String> {
    if reply != 1 + length as u64 {
        return Err(format!("the library's reply is {reply}, and not a list of {length} entries"));
    }
    Ok(&out[..length])
}

impl Case {
    /// The letter and what is asked besides, then the file behind its length.
    pub fn bytes(&self) -> Vec<u8> {
        let with_room = |letter: u8, room: usize| [&[letter][..], &two_bytes(room)].concat();
        let head = match &self.asked {
            Asked::File => b"f".to_vec(),
            Asked::Marks { room } => with_room(b'm', *room),
            Asked::Reduced { room } => with_room(b'r', *room),
            Asked::Equated { a, b, room } => vec![b'e', *a, *b, *room],
            Asked::Run { room } => with_room(b'y', *room),
            Asked::List(list) => [&[b'l', list.len() as u8][..], list].concat(),
            Asked::Printed => b"p".to_vec(),
            Asked::Typed { room } => with_room(b't', *room),
        };
        [&head[..], &two_bytes(self.file.len()), &self.file].concat()
    }

    /// What the case must print, without the last line feed. An error if the reference is in two minds or the library shows a wrong list.
    pub fn lines(&self) -> Result<String, String> {
        self.reply().map_err(|why| format!("{why}; file {}", hex(&self.file)))
    }

    fn reply(&self) -> Result<String, String> {
        let file = &self.file;
        Ok(match &self.asked {
            Asked::File => self.accepted(),
            Asked::Marks { room } => told("marks", both(questions::marks(file, *room), plain::marks(file, *room))?),
            Asked::Reduced { room } => told("reduced", both(questions::reduce(file, *room), plain::reduce(file, *room, false))?),
            Asked::Equated { a, b, room } => self.equated(*a as usize, *b as usize, *room as usize)?,
            Asked::Run { room } => self.run(*room)?,
            Asked::List(list) => told("", both(questions::check(file, list), plain::check(file, list))?),
            Asked::Printed => self.printed()?,
            Asked::Typed { room } => told("typed", both(typed::file(file, *room), grammar::file(file, *room, ASKED))?),
        })
    }

    fn accepted(&self) -> String {
        match read(&self.file) {
            Err(Refusal(number, place)) => refused(number, place),
            Ok(case) => {
                let first = case.first_var.map_or("-".into(), |place| place.to_string());
                format!("accepted {} {} {first}", case.count(), case.events.len())
            }
        }
    }

    /// Several lists are right: the line has the library's, which the reference judges.
    fn equated(&self, a: usize, b: usize, room: usize) -> Result<String, String> {
        let case = match questions::open_equate(&self.file, a, b, room) {
            Err(Refusal(number, place)) => return Ok(refused(number, place)),
            Ok(case) => case,
        };
        if questions::equating_list(&case, a, b).is_none() {
            return Ok("no".into());
        }
        let mut out = vec![0; room];
        let reply = library::equate(&self.file, a, b, &mut out);
        let list = listed(reply, &out, case.count())?;
        questions::judge_equating(&case, a, b, list).map_err(|why| format!("equating cells {a} and {b}, list {list:?}: {why}"))?;
        Ok(list.iter().fold("yes".into(), |line, entry| format!("{line} {entry}")))
    }

    fn run(&self, room: usize) -> Result<String, String> {
        match questions::open_run(&self.file, room) {
            Err(Refusal(number, place)) => Ok(refused(number, place)),
            Ok(case) => Ok(if decided(&case)? { "yes" } else { "no" }.into()),
        }
    }

    /// The lines of the program `run`. Several lists are right: the values are the library's, which the list check judges.
    fn printed(&self) -> Result<String, String> {
        let case = match read(&self.file) {
            Err(Refusal(number, place)) => return Ok(refused(number, place)),
            Ok(case) => case,
        };
        let mut lines = vec![format!("cells {} events {}", case.count(), case.events.len())];
        if !decided(&case)? {
            lines.push("run no".into());
            return Ok(lines.join("\n"));
        }
        let mut out = vec![0; case.count()];
        let reply = library::run(&self.file, &mut out);
        let list = listed(reply, &out, case.count())?;
        if both(questions::check(&self.file, list), plain::check(&self.file, list))? != Reply::Right {
            return Err(format!("the run's list {list:?} is wrong"));
        }
        lines.push("run yes".into());
        lines.extend((0..case.count()).filter(|&c| case.cells[c] == Cell::Var).map(|v| match list[v] {
            255 => format!("v{v} = own"),
            cell => format!("v{v} = {cell}"),
        }));
        Ok(lines.join("\n"))
    }
}

/// A reply that the reference fixes to the last byte, as a line.
fn told(what: &str, reply: Reply) -> String {
    match reply {
        Reply::Refused(number, place) => refused(number, place),
        Reply::No => "wrong".into(),
        Reply::Right => "right".into(),
        Reply::Bytes(bytes) if what == "marks" => bytes.iter().fold("marks ".into(), |line, mark| format!("{line}{mark}")),
        Reply::Bytes(bytes) => format!("{what} {}", hex(&bytes)),
    }
}

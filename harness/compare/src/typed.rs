//! Typed texts through the library and through the reference.

use generator::chance::Chance;
use generator::mistyped::damaged;
use generator::typed::any;
use reference::questions::Reply;
use reference::typed;

use crate::ask::Asking;
use crate::buffers::Call;
use crate::options::Options;
use crate::tally::Tally;
use crate::worker::Worker;
use crate::Made;

/// Keeps the texts of a seed apart from its files.
const TEXTS: u64 = 1 << 40;

/// The source for one text of a seed.
pub fn chance(options: &Options, number: u64) -> Chance {
    Chance::of(options.seed ^ TEXTS, number)
}

/// A generated text, as it comes or damaged.
pub fn made(chance: &mut Chance, options: &Options) -> Made {
    if chance.percent(options.damaged.unwrap_or(50)) {
        return Made { shape: "damaged", file: damaged(chance.clone()) };
    }
    let (shape, text) = any(chance.clone());
    Made { shape, file: text.into_bytes() }
}

/// Reads a text, in buffers that its file fits and does not.
pub fn compare_text(options: &Options, tally: &mut Tally, worker: &mut Worker, chance: Chance, number: u64, made: &Made) {
    let before = made.file.clone();
    Asking { options, tally, worker, chance, number, shape: made.shape, file: &made.file }.text();
    if made.file != before {
        tally.differs(number, "text", &before, "the text itself is touched".into());
    }
}

impl Asking<'_> {
    fn text(&mut self) {
        let text = self.file;
        let rooms = match typed::file(text, usize::MAX) {
            Reply::Bytes(bytes) => [self.rooms(bytes.len()), vec![0]].concat(),
            _ => vec![0, self.some_room()],
        };
        for room in rooms {
            let call = Call::with(&mut self.chance, room, |out| library::text(text, out));
            self.exact("text", "written", &call, &typed::file(text, room), "typed text");
        }
    }
}

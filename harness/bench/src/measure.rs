//! One case in a process of its own: the library's run and the lazy intruder, one after the other.

use std::process::Command;
use std::sync::mpsc;
use std::time::{Duration, Instant};

use generator::text::hex;
use reference::casefile::read;
use reference::lazy::{self, Limit, Outcome, Rules, PUBLISHED, SHORTENED};
use reference::questions::values_right;

use crate::clock::time_of;
use crate::stack::deepest;

/// Time limits: for the library's run, and for each form of the lazy intruder.
#[derive(Clone, Copy)]
pub struct Limits {
    pub library: Duration,
    pub lazy: Duration,
}

/// What one way of solving did: its reply, its time, and the stack in bytes or the constraint sets gone into.
#[derive(Clone, Debug)]
pub struct Done {
    pub reply: String,
    pub time: Duration,
    pub extent: usize,
}

impl Done {
    pub fn finished(&self) -> bool {
        self.reply == "yes" || self.reply == "no"
    }
}

/// The library's run, the lazy intruder as published, and the lazy intruder with shortcuts.
pub type Case = [Done; 3];

/// Measures a file in this process and prints three lines.
pub fn inside(file: &[u8], limits: Limits) {
    let (sender, receiver) = mpsc::channel();
    let bytes = file.to_vec();
    std::thread::spawn(move || sender.send(library_run(&bytes)));
    match receiver.recv_timeout(limits.library) {
        Ok(done) => print(&done),
        Err(_) => print(&Done { reply: "unfinished".into(), time: limits.library, extent: 0 }),
    }
    for rules in [PUBLISHED, SHORTENED] {
        print(&lazy_run(file, rules, limits.lazy));
    }
    std::process::exit(0);
}

fn print(done: &Done) {
    println!("{} {} {}", done.reply, done.time.as_nanos(), done.extent);
}

fn library_run(file: &[u8]) -> Done {
    let mut out = [0u8; 128];
    let ((number, once), stack) = deepest(|| {
        let start = Instant::now();
        (library::run(file, &mut out), start.elapsed())
    });
    let case = read(file).expect("cases for measuring are accepted");
    let reply = match number {
        0 => "no",
        library::UNFINISHED => "unfinished",
        n if n == 1 + case.count() as u64 && values_right(&case, &out[..case.count()]) => "yes",
        _ => "wrong",
    };
    let long = once > Duration::from_millis(30);
    let time = if long { once } else { time_of(|| library::run(file, &mut out)).1 };
    Done { reply: reply.into(), time, extent: stack }
}

fn lazy_run(file: &[u8], rules: Rules, limit: Duration) -> Done {
    let case = read(file).expect("cases for measuring are accepted");
    let solve = || lazy::solve(&case, rules, Limit { sets: usize::MAX, until: Some(Instant::now() + limit) });
    let ((outcome, sets), time) = time_of(solve);
    let reply = match outcome {
        Outcome::Right(_) => "yes",
        Outcome::None => "no",
        Outcome::Unfinished => "unfinished",
    };
    Done { reply: reply.into(), time, extent: sets }
}

/// Measures a file in a new process, so that a run that never ends takes nothing from the next.
pub fn outside(file: &[u8], limits: Limits) -> Case {
    let millis = |time: Duration| time.as_millis().to_string();
    let program = std::env::current_exe().expect("this program has a path");
    let output = Command::new(program)
        .args(["--measure", &hex(file), "--library-limit", &millis(limits.library), "--lazy-limit", &millis(limits.lazy)])
        .output()
        .expect("this program starts again");
    let text = String::from_utf8_lossy(&output.stdout).into_owned();
    let mut lines = text.lines().map(|line| {
        let words: Vec<&str> = line.split(' ').collect();
        let number = |i: usize| words.get(i).and_then(|w| w.parse::<u64>().ok()).unwrap_or(0);
        Done { reply: words[0].into(), time: Duration::from_nanos(number(1)), extent: number(2) as usize }
    });
    let crashed = || Done { reply: "crashed".into(), time: limits.library, extent: 0 };
    std::array::from_fn(|_| lines.next().unwrap_or_else(crashed))
}

//! The other questions at 16, 32, 64 and 128 cells.

use std::time::Duration;

use generator::chance::Chance;
use generator::families;

use crate::clock::{shown, time_of};

const SIZES: [usize; 4] = [16, 32, 64, 128];

/// One question asked of one case.
struct Call {
    question: &'static str,
    shape: &'static str,
    ask: Box<dyn Fn() -> u64>,
}

/// Every question with every shape at so many cells.
fn calls(cells: usize, seed: u64) -> Vec<Call> {
    let mut all = Vec::new();
    for (shape, case) in families::ground(cells, Chance::new(seed)) {
        let (file, same) = (case.bytes(), case.bytes());
        all.push(Call { question: "marks", shape, ask: Box::new(move || library::marks(&file, &mut [0; 1000])) });
        all.push(Call { question: "reduce", shape, ask: Box::new(move || library::reduce(&same, &mut [0; 1000])) });
    }
    for (shape, case, a, b) in families::equal(cells, Chance::new(seed)) {
        let file = case.bytes();
        let ask = Box::new(move || library::equate(&file, a, b, &mut [0; 1000]));
        assert!(ask() == 1 + cells as u64, "equating {shape} at {cells} cells");
        all.push(Call { question: "equate", shape, ask });
    }
    for (shape, case, list) in families::listed(cells, Chance::new(seed)) {
        let file = case.bytes();
        let ask = Box::new(move || library::check(&file, &list));
        assert!(ask() == 1, "list check of {shape} at {cells} cells");
        all.push(Call { question: "check", shape, ask });
    }
    all.sort_by_key(|call| call.question);
    all
}

/// One line per question and shape: times by size, and how much the last doubling costs.
pub fn table(seed: u64) {
    println!("Questions by size: median time of one call, and the time at 128 cells divided by that at 64.\n");
    println!("| question | shape | 16 cells | 32 cells | 64 cells | 128 cells | growth |");
    println!("|---|---|---|---|---|---|---|");
    let sizes = SIZES.map(|cells| calls(cells, seed));
    for i in 0..sizes[0].len() {
        let times: Vec<Duration> = sizes.iter().map(|calls| time_of(&calls[i].ask).1).collect();
        let growth = times[3].as_secs_f64() / times[2].as_secs_f64();
        let cells: Vec<String> = times.iter().map(|&time| shown(time)).collect();
        println!("| {} | {} | {} | {growth:.1} |", sizes[0][i].question, sizes[0][i].shape, cells.join(" | "));
    }
}

/// The questions and shapes, for profile.sh.
pub fn list(seed: u64) {
    for call in calls(SIZES[0], seed) {
        println!("{} {}", call.question, call.shape);
    }
}

/// One call of the question, the shape and the number of cells that `words` names, asked once more than the calls that made sure of it.
pub fn once(words: &str, seed: u64) -> bool {
    let Some((name, cells)) = words.rsplit_once(' ') else { return false };
    let Ok(cells) = cells.parse() else { return false };
    let Some(call) = calls(cells, seed).into_iter().find(|call| format!("{} {}", call.question, call.shape) == name) else { return false };
    collected(&call);
    true
}

/// The call that profile.sh counts.
#[inline(never)]
#[no_mangle]
extern "C" fn collected(call: &Call) -> u64 {
    (call.ask)()
}

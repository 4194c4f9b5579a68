//! Reading long texts: how fast, and how deep the stack goes.

use generator::typed::groups;

use crate::clock::{shown, time_of};
use crate::stack::deepest;

const MB: usize = 1_000_000;

/// A line of so many commas.
fn commas(count: usize) -> String {
    format!("learn {}a1\n", "a1,".repeat(count))
}

/// The line of a name.
fn text(name: &str) -> String {
    match name {
        "groups, 1 MB" => groups(MB),
        "groups, 10 MB" => groups(10 * MB),
        "groups, 100 MB" => groups(100 * MB),
        _ => commas(MB),
    }
}

fn reply(number: u64) -> String {
    match number >> 32 {
        0 => format!("{} bytes", number - 1),
        refusal => format!("refused {refusal} at {}", number as u32),
    }
}

/// Prints a line for each text: a line of nested groups that has few cells, as long as 1, 10 and 100 MB, and a line of a million commas, which has too
/// many.
pub fn table() {
    println!("Typed text: median time of reading one line, and the deepest stack.\n");
    println!("| line | bytes | reply | time | MB/s | deepest stack |");
    println!("|---|---|---|---|---|---|");
    for name in ["groups, 1 MB", "groups, 10 MB", "groups, 100 MB", "a million commas"] {
        let text = text(name).into_bytes();
        let (_, stack) = deepest(|| library::text(&text, &mut [0; 1000]));
        let (number, time) = time_of(|| library::text(&text, &mut [0; 1000]));
        let rate = text.len() as f64 / time.as_secs_f64() / MB as f64;
        println!("| {name} | {} | {} | {} | {rate:.0} | {stack} B |", text.len(), reply(number), shown(time));
    }
    println!();
}

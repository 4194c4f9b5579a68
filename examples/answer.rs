//! Answers the files E, G and J of docs/FORMAT.md: "yes" with its values, "no", and a refusal. Built and run by examples/run.sh.

#[path = "../bindings/prismfleece.rs"]
mod prismfleece;

use prismfleece::{Judged, Values, CELLS, OWN};

/// Asks the run, and puts a list that it shows to the list check.
fn answer(name: &str, file: &[u8]) {
    let mut buffer = [0; CELLS];
    match prismfleece::run(file, &mut buffer) {
        Values::Refused(refusal) => println!("{name}: {refusal}"),
        Values::No => println!("{name}: no"),
        Values::List(list) => {
            let right = prismfleece::check(file, list) == Judged::Right;
            print!("{name}: yes,");
            list.iter().for_each(|&entry| if entry == OWN { print!(" own") } else { print!(" {entry}") });
            println!(", the list check says {}", if right { "right" } else { "wrong" });
        }
    }
}

fn main() {
    answer("E", b"AT\0\x01AT\0\x02SE\x01\0VASE\x03\0LN\x02MK\x04EN");
    answer("G", b"AT\0\x01AT\0\x02SE\x01\0VASE\x03\0LN\x02MK\x01LN\0EN");
    answer("J", b"VALN\0EN");
}

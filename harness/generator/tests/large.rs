//! The large case files of the folder are those that `large` makes; grown files are accepted and have the cells asked for.

use generator::chance::Chance;
use generator::grown::grown;
use generator::large;
use reference::casefile::{read, MOST};

/// Every file that is made stands in the folder, is accepted, and says its reply.
#[test]
fn cases_are_as_made() {
    for (name, case) in large::all() {
        let path = format!("{}/../cases/{name}.case", env!("CARGO_MANIFEST_DIR"));
        let file = std::fs::read(&path).unwrap_or_else(|why| panic!("{path}: {why}"));
        assert!(file == case.bytes(), "{name} is not as it is made: run the program large");
        assert!(read(&file).is_ok() && file.len() > 400, "{name}");
        assert!(name.ends_with("-yes") || name.ends_with("-no"), "{name}");
    }
}

/// Grown files of every size.
#[test]
fn grown_to_size() {
    for number in 0..256 {
        let cells = 1 + number % MOST;
        let (shape, case) = grown(Chance::of(5, number as u64), cells);
        let read = read(&case.bytes()).unwrap_or_else(|_| panic!("{shape} {number} is refused"));
        assert_eq!(read.count(), cells, "{shape} {number}");
    }
}

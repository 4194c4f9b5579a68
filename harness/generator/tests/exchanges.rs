//! The reference gives each run written by hand the reply that it must have.

use generator::exchanges::scripts;
use reference::casefile::read;
use reference::lazy::Limit;
use reference::searches::agreed;

#[test]
fn replies_as_written() {
    for (number, script) in scripts().iter().enumerate() {
        let case = read(&script.case.bytes()).unwrap_or_else(|why| panic!("script {number}: {why:?}"));
        let reply = agreed(&case, 400, Limit::by_size(&case, 3000)).unwrap_or_else(|why| panic!("script {number}: {why}"));
        let reply = reply.unwrap_or_else(|| panic!("script {number}: no search finishes"));
        assert_eq!(reply.is_some(), script.yes, "script {number}");
    }
}

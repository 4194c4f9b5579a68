//! A run by every search there is, each as far as it goes.

use crate::brute;
use crate::casefile::CaseFile;
use crate::lazy::{self, Limit, Outcome, PUBLISHED, SHORTENED};
use crate::questions::values_right;

/// What each search says: every list, where these are at most `lists`, and both forms of the lazy intruder up to the limit.
pub fn outcomes(case: &CaseFile, lists: usize, limit: Limit) -> [(&'static str, Outcome); 3] {
    [
        ("every list", brute::solve(case, lists)),
        ("lazy intruder as published", lazy::solve(case, PUBLISHED, limit).0),
        ("lazy intruder with shortcuts", lazy::solve(case, SHORTENED, limit).0),
    ]
}

/// A right list or "no", as every search says that finishes; nothing if none does. An error if they differ or a list is wrong.
pub fn agreed(case: &CaseFile, lists: usize, limit: Limit) -> Result<Option<Option<Vec<u8>>>, String> {
    let found = outcomes(case, lists, limit);
    let mut reply = None;
    for (name, outcome) in &found {
        let list = match outcome {
            Outcome::Unfinished => continue,
            Outcome::None => None,
            Outcome::Right(list) if values_right(case, list) => Some(list.clone()),
            Outcome::Right(list) => return Err(format!("{name} gives the list {list:?}, which is wrong")),
        };
        if reply.get_or_insert_with(|| list.clone()).is_some() != list.is_some() {
            return Err(format!("the searches differ: {found:?}"));
        }
    }
    Ok(reply)
}

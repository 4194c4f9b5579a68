//! Both ways of reading typed text, held to the grammar by trying everything: all short byte strings behind a word.

use std::collections::HashSet;

use reference::casefile::Refusal;
use reference::grammar::{self, ASKED};
use reference::questions::Reply;
use reference::typed;

/// The bytes that are tried; of the digits only 0 and 1.
const SOME: &[u8] = b"\n)|}1a(0Xf{,";

/// The most bytes of a list that are tried.
const MOST: usize = 7;

/// All numbers of so many digits 0 and 1, up to the most.
fn numbers(digits: usize, most: usize) -> Vec<String> {
    let all = (0..=most).map(|number| number.to_string());
    all.filter(|number| number.len() == digits && number.bytes().all(|digit| digit <= b'1')).collect()
}

/// All lists of at most so many bytes, by the productions.
fn lists(most: usize) -> HashSet<String> {
    let (mut messages, mut lists): (Vec<Vec<String>>, Vec<Vec<String>>) = (vec![vec![]], vec![vec![]]);
    for size in 1..=most {
        let digits = |less: usize, most: usize| size.checked_sub(less).map_or(vec![], |digits| numbers(digits, most));
        let lists_of = |less: usize| size.checked_sub(less).map_or(&[][..], |size| &lists[size]);
        let mut here: Vec<String> = digits(1, 65_535).iter().flat_map(|number| [format!("a{number}"), format!("X{number}")]).collect();
        here.extend(lists_of(2).iter().map(|list| format!("({list})")));
        for (inner, lists) in lists.iter().enumerate().skip(1) {
            let put = |list: &String| digits(inner + 3, 255).iter().map(|number| format!("f{number}({list})")).collect::<Vec<_>>();
            here.extend(lists.iter().flat_map(put));
            let keys = size.checked_sub(inner + 4).map_or(&[][..], |size| &messages[size]);
            here.extend(lists.iter().flat_map(|list| keys.iter().map(move |key| format!("{{|{list}|}}{key}"))));
        }
        let mut all = here.clone();
        for first in 1..size {
            all.extend(messages[first].iter().flat_map(|item| lists[size - first - 1].iter().map(move |list| format!("{item},{list}"))));
        }
        messages.push(here);
        lists.push(all);
    }
    lists.concat().into_iter().collect()
}

/// How a text is refused, by both ways; nothing if it is read.
fn refused(text: &str) -> Option<Refusal> {
    let reply = typed::file(text.as_bytes(), 1000);
    assert_eq!(grammar::file(text.as_bytes(), 1000, ASKED), reply, "{text}");
    match reply {
        Reply::Refused(number, place) => Some(Refusal(number, place)),
        _ => None,
    }
}

/// Whether a text that stops inside a line can be gone on with to a line.
fn goes_on(text: &str) -> bool {
    let mut text = text.to_string();
    for _ in 0..60 {
        let fits = |byte: &&u8| refused(&format!("{text}{}", **byte as char)) != Some(Refusal(11, text.len()));
        let Some(&byte) = SOME.iter().find(fits) else { return false };
        text.push(byte as char);
        if refused(&text).is_none() {
            return true;
        }
    }
    false
}

/// Every string of the bytes behind a word is refused at the first byte with which no line begins so, and read if it is a line.
#[test]
fn every_short_line() {
    let lists = lists(MOST);
    let mut open: Vec<String> = vec!["make ".into()];
    let mut read = 0;
    for size in 0..=MOST {
        let mut longer = Vec::new();
        for text in &open {
            assert!(goes_on(text), "{text}");
            for &byte in SOME {
                let next = format!("{text}{}", byte as char);
                match refused(&next) {
                    None => {
                        assert!(lists.contains(&text["make ".len()..]) && byte == b'\n', "{next}");
                        read += 1;
                    }
                    Some(Refusal(11, place)) if place == next.len() => longer.push(next),
                    Some(refusal) => {
                        assert_eq!(refusal, Refusal(11, text.len()), "{next}");
                        let begun = |list: &&String| format!("make {list}\n").starts_with(&next);
                        assert_eq!(lists.iter().find(begun), None, "{next}");
                    }
                }
            }
        }
        open = longer;
        assert!(size < MOST || !open.is_empty());
    }
    assert_eq!(read, lists.len());
}

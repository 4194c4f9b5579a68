//! Request 01: what each sentence asks, with worked examples, by both ways of reading.

use reference::casefile::{self, written, Refusal};
use reference::grammar::{self, ASKED};
use reference::questions::Reply;
use reference::typed;

fn reply(text: &[u8], room: usize) -> Reply {
    let reply = typed::file(text, room);
    assert_eq!(grammar::file(text, room, ASKED), reply, "{}", text.escape_ascii());
    reply
}

/// The text is read into this file, and the file is accepted.
fn reads(text: &str, file: &str) {
    let bytes = written(file);
    assert_eq!(reply(text.as_bytes(), bytes.len()), Reply::Bytes(bytes.clone()), "{text}");
    assert!(casefile::read(&bytes).is_ok(), "{text}");
}

/// The text is refused, whatever the room.
fn refused(text: &str, number: u8, place: usize) {
    for room in [0, 1000] {
        assert_eq!(reply(text.as_bytes(), room), Reply::Refused(number, place), "{text}");
    }
}

/// A line that makes one message.
fn make(message: &str) -> String {
    format!("make {message}\n")
}

/// A message inside so many of the same brackets, or so many times a key.
fn inside(open: &str, levels: usize, message: &str, close: &str) -> String {
    open.repeat(levels) + message + &close.repeat(levels)
}

/// What goes one deeper: each bracket, and a seal's key.
const DEEPER: [(&str, &str); 4] = [("(", ")"), ("f9(", ")"), ("{|", "|}a7"), ("{|a1|}", "")];

#[test]
fn the_request() {
    reads("make X2\nlearn {|a1,X2|}a7\nmake f9(a1)\n", "VA AT 0001 PR 01 00 AT 0007 SE 02 03 AP 09 01 MK 00 LN 04 MK 05 EN");
    reads("learn {|a1,a2|}a7\nmake f9(a1)\n", "AT 0001 AT 0002 PR 00 01 AT 0007 SE 02 03 AP 09 00 LN 04 MK 05 EN");
    refused("learn {|a1,X2|}a7\nmake f9(a1)\n", 6, 0);
}

/// A text is lines, each ended by a line feed, and nothing stands between tokens.
#[test]
fn lines() {
    reads("", "EN");
    refused("\n", 11, 0);
    refused("make a1", 11, 7);
    refused("make a1\n\n", 11, 8);
    refused("make a1\nlearn", 11, 13);
    refused("make a1\r\n", 11, 7);
    refused("make a1 \n", 11, 7);
    refused(" make a1\n", 11, 0);
    refused("make  a1\n", 11, 5);
    refused("make\ta1\n", 11, 4);
    refused("make a1, a2\n", 11, 8);
    refused("make a1\0", 11, 7);
    refused("Make a1\n", 11, 0);
    refused("makes a1\n", 11, 4);
    refused("lern a1\n", 11, 2);
    refused("differ (a1)(a2)\n", 11, 0);
    for (word, cut) in ["learn ", "make "].into_iter().flat_map(|word| (1..=word.len()).map(move |cut| (word, cut))) {
        refused(&word[..cut], 11, cut);
    }
}

/// The grammar, one production after the other.
#[test]
fn productions() {
    reads("make a0\n", "AT 0000 MK 00 EN");
    reads("make X0\n", "VA MK 00 EN");
    reads("make f0(a0)\n", "AT 0000 AP 00 00 MK 01 EN");
    reads("make {|a0|}a0\n", "AT 0000 SE 00 00 MK 01 EN");
    reads("make (a0)\n", "AT 0000 MK 00 EN");
    reads("make a0,a0\n", "AT 0000 PR 00 00 MK 01 EN");
    reads("learn f1({|a1|}(a2,a3))\n", "AT 0001 AT 0002 AT 0003 PR 01 02 SE 00 03 AP 01 04 LN 05 EN");
    reads("make {|a1|}{|a2|}a3\n", "AT 0001 AT 0002 AT 0003 SE 01 02 SE 00 03 MK 04 EN");
    reads("make {|{|a1|}a2|}a3\n", "AT 0001 AT 0002 SE 00 01 AT 0003 SE 02 03 MK 04 EN");
    for (message, at) in [
        ("", 0),
        ("()", 1),
        ("(a1", 3),
        ("a1)", 2),
        ("(a1,)", 4),
        (",a1", 0),
        ("a1,,a2", 3),
        ("a", 1),
        ("aa1", 1),
        ("a-1", 1),
        ("x1", 0),
        ("A1", 0),
        ("F1(a1)", 0),
        ("f(a1)", 1),
        ("f1", 2),
        ("f1a1", 2),
        ("f1()", 3),
        ("f1{|a1|}a2", 2),
        ("{a1}a2", 1),
        ("{|a1}a2", 4),
        ("{|a1|a2", 5),
        ("{||}a1", 2),
        ("{|a1|}", 6),
        ("{|a1|},a2", 6),
        ("{|a1|}a2a3", 8),
        ("(a1)a2", 4),
        ("(a1|}a2", 3),
        ("{|a1)", 4),
    ] {
        refused(&make(message), 11, 5 + at);
    }
}

/// Numbers at their bounds; 11 at the digit that no number has there.
#[test]
fn numbers() {
    reads("make a65535,X65535\n", "AT ffff VA PR 00 01 MK 02 EN");
    reads("make f255(a10)\n", "AT 000a AP ff 00 MK 01 EN");
    for (message, at) in [
        ("a65536", 5),
        ("a65540", 5),
        ("a66000", 5),
        ("a655350", 6),
        ("a4294967297", 6),
        ("X65536", 5),
        ("X99999", 5),
        ("a01", 2),
        ("a00", 2),
        ("X07", 2),
        ("f256(a1)", 3),
        ("f260(a1)", 3),
        ("f300(a1)", 3),
        ("f2550(a1)", 4),
        ("f00(a1)", 2),
        ("f1a", 2),
    ] {
        refused(&make(message), 11, 5 + at);
    }
}

/// Nesting. Brackets have their message's, commas their list's, what is inside a bracket or is a key one more.
#[test]
fn nesting() {
    for (open, close) in DEEPER {
        for levels in 0..=16 {
            assert!(matches!(reply(make(&inside(open, levels, "a1", close)).as_bytes(), 1000), Reply::Bytes(_)), "{levels} of {open}");
        }
        let opening = open.split("a1").next().expect("the bytes before the first that is deeper").len();
        let place = 5 + 16 * open.len() + opening;
        refused(&make(&inside(open, 17, "a1", close)), 12, place);
        refused(&make(&inside(open, 40, "a1", close)), 12, place);
    }
    // A second message, a comma and brackets at 16 are as deep as the first.
    let full = inside("(", 15, "(a1,{|a2|}a3,a4),a5", ")");
    refused(&make(&full), 12, 5 + 16 + "a1,{|".len());
    let keys = inside("(", 15, "(a1,a2,a3)", ")") + ",a1";
    reads(&make(&keys), "AT 0001 AT 0002 AT 0003 PR 01 02 PR 00 03 PR 04 00 MK 05 EN");
    // A key at 16 may be a leaf, not a bracket with something in it.
    let key = |key: &str| make(&inside("(", 15, &format!("{{|a1|}}{key}"), ")"));
    assert!(matches!(reply(key("a2").as_bytes(), 1000), Reply::Bytes(_)));
    refused(&key("(a2)"), 12, 5 + 15 + 6 + 1);
    refused(&key("f1(a2)"), 12, 5 + 15 + 6 + 3);
    refused(&key("{|a2|}a3"), 12, 5 + 15 + 6 + 2);
}

/// The lower byte decides, 11 at the same byte, and at the text's end.
#[test]
fn wrong_or_deep() {
    let deep = |behind: &str| format!("make {}{behind}", "(".repeat(17));
    for (behind, number) in [
        ("a1", 12),
        ("X1", 12),
        ("f1(", 12),
        ("{|", 12),
        ("(", 12),
        ("a", 12),
        ("{x", 12),
        ("a\n", 12),
        (")", 11),
        (",", 11),
        ("\n", 11),
        (" ", 11),
        ("1", 11),
        ("", 11),
    ] {
        refused(&deep(behind), number, 22);
    }
    refused(&("make ".to_string() + &"(".repeat(16)), 11, 21);
    refused(&("make ".to_string() + &"(".repeat(16) + "?"), 11, 21);
    refused(&("make a01,".to_string() + &"(".repeat(17) + "a1"), 11, 7);
    refused(&("make ".to_string() + &"{|a1|}".repeat(16) + "{|"), 11, 5 + 96 + 2);
    refused(&("make ".to_string() + &"{|a1|}".repeat(16) + "{|a1|}a1"), 12, 5 + 96 + 2);
    refused(&("make ".to_string() + &"{|a1|}".repeat(16) + "{a1"), 11, 5 + 96 + 1);
}

fn atoms(from: usize, to: usize) -> String {
    (from..to).map(|name| format!("a{name}")).collect::<Vec<_>>().join(",")
}

/// The first line at fault decides; in a line 11 or 12, then 4, then 6; after the last line 9.
#[test]
fn order() {
    let events = |count: usize| "make a1\n".repeat(count);
    assert_eq!(reply(events(128).as_bytes(), 1000).clone(), typed::file(events(128).as_bytes(), 390));
    refused(&events(129), 4, 1024);
    refused(&(events(128) + "make"), 11, 1024 + 4);
    refused(&(events(128) + &make(&inside("(", 17, "a1", ")"))), 12, 1024 + 22);
    refused(&(events(128) + "learn X1\n"), 4, 1024);
    // 64 atoms and 63 pairs over them; the 65th brings the 129th and 130th cell.
    let cells = |count: usize| make(&atoms(0, count));
    assert!(matches!(reply(cells(64).as_bytes(), 1000), Reply::Bytes(bytes) if bytes.len() == 127 * 4 + 5));
    refused(&cells(65), 4, 0);
    let full = cells(64) + "make a900\n";
    assert!(matches!(reply(full.as_bytes(), 1000), Reply::Bytes(bytes) if bytes.len() == 128 * 4 + 2 * 3 + 2));
    refused(&(full.clone() + "make a901\n"), 4, full.len());
    refused(&(full.clone() + "learn X1\n"), 4, full.len());
    assert!(matches!(reply((full.clone() + "make (a63),a900\n").as_bytes(), 1000), Reply::Refused(4, _)));
    assert!(matches!(reply((full.clone() + "learn (a62),a63\n").as_bytes(), 1000), Reply::Bytes(_)));
    let many = make(&atoms(0, 300));
    refused(&many, 4, 0);
    refused(&many[..many.len() - 1], 11, many.len() - 1);
    refused(&many.replace('\n', "?\n"), 11, many.len() - 1);
    refused(&many.replace('\n', &format!(",{}\n", inside("(", 17, "a1", ")"))), 12, many.len() + 17);
    refused(&("learn X1\n".to_string() + &many), 6, 0);
    refused(&("learn X1,X1\n".to_string() + "?"), 6, 0);
    refused("learn X1\r\n", 11, 8);
    refused(&("make a1\nlearn X1,".to_string() + &atoms(0, 200) + "\nmake a01\n"), 4, 8);
}

/// 6 as in docs/FORMAT.md, at the line's first byte.
#[test]
fn learnt_variables() {
    refused("make a1\nlearn X1\n", 6, 8);
    refused("learn X1\nmake X1\n", 6, 0);
    refused("make X1\nlearn {|X1|}X2\n", 6, 8);
    refused("make a1\nlearn f3((X9))\nmake\n", 6, 8);
    reads("make X1\nlearn X1\n", "VA MK 00 LN 00 EN");
    reads("make f1({|X1|}X2)\nlearn X2,X1\n", "VA VA SE 00 01 AP 01 02 PR 01 00 MK 03 LN 04 EN");
}

/// After the last line 9, with the length of the file.
#[test]
fn room() {
    for (text, need) in [("", 2), ("make a1\n", 9), ("make X1\nlearn (X1)\n", 10)] {
        for room in 0..need {
            assert_eq!(reply(text.as_bytes(), room), Reply::Refused(9, need));
        }
        assert!(matches!(reply(text.as_bytes(), need), Reply::Bytes(bytes) if bytes.len() == need));
    }
    assert_eq!(reply(b"make a1", 0), Reply::Refused(11, 7));
    assert_eq!(reply(b"learn X1\n", 0), Reply::Refused(6, 0));
}

/// Cells in order of first completion, none twice; brackets leave no trace; `a7` and `X7` are two things.
#[test]
fn cells() {
    reads("make a1,a2,a3\n", "AT 0001 AT 0002 AT 0003 PR 01 02 PR 00 03 MK 04 EN");
    reads("make (a1,a2),a3\n", "AT 0001 AT 0002 PR 00 01 AT 0003 PR 02 03 MK 04 EN");
    reads("make a1,(a2,a3)\n", "AT 0001 AT 0002 AT 0003 PR 01 02 PR 00 03 MK 04 EN");
    reads("make ((a1),((a2,(a3))))\n", "AT 0001 AT 0002 AT 0003 PR 01 02 PR 00 03 MK 04 EN");
    reads("make {|a2,a1|}a3\n", "AT 0002 AT 0001 PR 00 01 AT 0003 SE 02 03 MK 04 EN");
    reads("make a7,X7,a7,X7\n", "AT 0007 VA PR 00 01 PR 01 02 PR 00 03 MK 04 EN");
    reads("make X7\nmake X8\nlearn X7,X8\n", "VA VA PR 00 01 MK 00 MK 01 LN 02 EN");
    reads("make f1(a1),f2(a1),f1((a1))\n", "AT 0001 AP 01 00 AP 02 00 PR 02 01 PR 01 03 MK 04 EN");
    reads("make a1\nmake a1\nlearn (a1)\n", "AT 0001 MK 00 MK 00 LN 00 EN");
    reads("make a1,a1,a1\n", "AT 0001 PR 00 00 PR 00 01 MK 02 EN");
}

/// Long lists cost no stack, and a line whose groups say the same over and over has few cells.
#[test]
fn long() {
    let commas = make(&"a1,".repeat(1_000_000)).replace(",\n", "\n");
    assert_eq!(typed::read(commas.as_bytes()).map(|_| ()), Err(Refusal(4, 0)));
    assert_eq!(reply(&commas.as_bytes()[..commas.len() - 1], 0), Reply::Refused(11, commas.len() - 1));
    let groups = (0..16).fold("a1".to_string(), |group, _| format!("({group},{group})"));
    let Reply::Bytes(file) = reply(make(&groups).as_bytes(), 1000) else { panic!("accepted") };
    assert_eq!(file.len(), 17 * 4 + 3 + 2);
}

//! The section of typed text.

use generator::chance::Chance;
use generator::mistyped::{self, WORDS, WRONG};
use generator::typed::{atoms, nested, short, DEEPER};
use reference::questions::Reply;
use reference::typed;

use crate::sections::WIDE;

/// A good line with everything in it, and one that learns what it makes.
const LINE: &str = "make X2,{|a10,X2|}f12({|a1|}{|a65535|}X3,(a1,a2)),a0\n";
const LEARNT: &str = "learn f255({|X3,a1|}(X2))\n";

/// The bytes of the grammar, and some that are none of it.
const BYTES: &[u8] = b"lmearnk \nXf{|}(),0159AxF\t\r\0\xff";

/// The rooms and texts.
pub fn texts(chance: &mut Chance) -> Vec<(usize, Vec<u8>)> {
    let written = [good(), numbers(), nestings(), words(), bounds(), overfull(), pairs_of_faults()].concat();
    let mut found: Vec<(usize, Vec<u8>)> = written.into_iter().map(|text| (WIDE, text.into_bytes())).collect();
    found.extend(next_bytes().into_iter().chain(ties()).chain(changed()).map(|text| (WIDE, text)));
    found.extend(drawn(chance).into_iter().map(|text| (WIDE, text)));
    found.extend(with_rooms());
    found
}

fn make(list: &str) -> String {
    format!("make {list}\n")
}

/// Good texts: each production, brackets that say nothing, the order of cells, messages that are there already.
fn good() -> Vec<String> {
    let lists = [
        "a0",
        "X0",
        "f0(a0)",
        "{|a0|}a0",
        "(a0)",
        "a0,a0",
        "a1,a2,a3",
        "(a1,a2),a3",
        "a1,(a2,a3)",
        "a1,((a2,a3))",
        "((a1),((a2,(a3))))",
        "(((((((a1)))))))",
        "(a1),(a1),((a1))",
        "a1,a1,a1,a1",
        "(a1,a1),(a1,a1)",
        "((a1,a1),a1),a1",
        "{|a2,a1|}a3",
        "{|a1|}{|a2|}a3",
        "{|{|a1|}a2|}a3",
        "{|a1|}(a2,a3)",
        "{|a1|}((a2),(a3))",
        "{|a1|}f1(a1)",
        "{|a1|}a2,a3",
        "{|a1,{|a1|}a2|}{|a1|}a2",
        "f1({|a1|}(a2,a3))",
        "f1(a1,a2),f1((a1,a2)),f2(a1,a2)",
        "f1(f1(f1(a1))),f1(f1(a1))",
        "f1(a2),f2(a1)",
        "a7,X7,a7,X7",
        "X7,a7",
        "X1,X2,X1",
        "X3,X2,X1,X0",
        "X65535,X0,a65535,a0",
        "{|X1|}X1,{|X1|}X2",
    ];
    let mut found: Vec<String> = lists.map(make).to_vec();
    let lines = [
        "",
        "learn {|a1,a2|}a7\nmake f9(a1)\n",
        "make X2\nlearn {|a1,X2|}a7\nmake f9(a1)\n",
        "make a1\nmake a1\nlearn (a1)\nlearn ((a1))\n",
        "learn a2\nlearn a1\nlearn a1,a2\nlearn a2,a1\n",
        "make a1,a2\nmake a3,a1,a2\nlearn a2\n",
        "make X1\nmake X2\nlearn X2\nlearn X1\n",
        "make f1({|X1|}X2)\nlearn X2,X1\n",
        "make {|X1|}X2\nlearn X1,X2\nmake X3\nlearn X3\n",
        "make f1((X9))\nlearn {|X9|}X9\n",
        "learn {|a1,a2|}(a7,a8)\nlearn a7,a8\nmake a1\n",
        "make a5\nlearn {|{|X1|}a5|}a5\n",
        "make a1\nlearn X1\n",
        "learn X1\nmake X1\n",
        "learn a1\nlearn f3((X9))\nmake\n",
        "make X1\nlearn {|X1|}X2\n",
    ];
    found.extend(lines.map(String::from));
    found.extend([LINE.into(), format!("{LINE}{LEARNT}"), format!("{LEARNT}{LINE}"), format!("{LINE}{LEARNT}{LINE}{LEARNT}")]);
    found
}

/// Every byte behind the beginnings of a line: where it cannot stand, and where the text only ends too early.
fn next_bytes() -> Vec<Vec<u8>> {
    let begun = [
        "",
        "l",
        "lear",
        "learn",
        "learn ",
        "m",
        "mak",
        "make",
        "make ",
        "make a",
        "make a0",
        "make a1",
        "make X",
        "make X6553",
        "make X65535",
        "make f",
        "make f0",
        "make f25",
        "make f255",
        "make f1(",
        "make f1(a1",
        "make {",
        "make {|",
        "make {|a1",
        "make {|a1|",
        "make {|a1|}",
        "make {|a1|}a1",
        "make (",
        "make (a1",
        "make (a1)",
        "make a1,",
        "make a1\n",
    ];
    begun.iter().flat_map(|text| BYTES.iter().map(move |&byte| [text.as_bytes(), &[byte]].concat())).collect()
}

/// Numbers about their bounds, and such as are none, of atoms, variables and functions.
fn numbers() -> Vec<String> {
    let numbers = [
        "0",
        "1",
        "9",
        "10",
        "99",
        "100",
        "199",
        "200",
        "249",
        "250",
        "254",
        "255",
        "256",
        "257",
        "259",
        "260",
        "300",
        "999",
        "1000",
        "2550",
        "6553",
        "6554",
        "9999",
        "10000",
        "65529",
        "65530",
        "65534",
        "65535",
        "65536",
        "65537",
        "65539",
        "65540",
        "65599",
        "65600",
        "66000",
        "70000",
        "99999",
        "100000",
        "655350",
        "00",
        "01",
        "000",
        "010",
        "0x1",
        "4294967295",
        "4294967296",
        "4294967297",
        "4294967551",
        "18446744073709551616",
        "18446744073709551617",
        "-1",
        "+1",
        "1.0",
        "1e3",
        "",
    ];
    let list = |number: &str| [make(&format!("a{number}")), make(&format!("X{number}")), make(&format!("f{number}(a1)"))];
    numbers.iter().flat_map(|number| list(number)).collect()
}

/// Nestings 15 to 17 by each bracket, by keys, and by all in turn, over messages and what is none.
fn nestings() -> Vec<String> {
    let cores = ["a1", "X1,a2", "(a1)", "f1(a1)", "{|a2|}a3", "{|a2|}(a3)", "", ")", "a01", "a1)", "{a1}"];
    let mut found = Vec::new();
    for (levels, core) in (15..=17).flat_map(|levels| cores.map(|core| (levels, core))) {
        found.extend(DEEPER.map(|kind| make(&nested(kind, levels, core))));
        let all = (0..levels).fold(core.to_string(), |message, level| nested(DEEPER[level % 4], 1, &message));
        found.push(make(&all));
    }
    for kind in DEEPER {
        let deep = nested(kind, 16, "a1");
        found.extend([
            make(&format!("a1,{deep}")),
            make(&format!("{deep},{deep}")),
            make(&deep) + &make(&deep),
            make(&format!("({deep})")),
        ]);
        found.extend([18, 40].map(|levels| make(&nested(kind, levels, "a1"))));
    }
    found
}

/// Every byte where the next one is nested too deep: 12 where it can stand, 11 where it cannot, and at the text's end.
fn ties() -> Vec<Vec<u8>> {
    let begun = DEEPER.map(|(open, _)| format!("make {}{}", open.repeat(16), open.split("a1").next().expect("what stands before")));
    let cut = begun.iter().flat_map(|text| [text.len() - 1, text.len()].map(|end| text.as_bytes()[..end].to_vec()));
    let next = begun.iter().flat_map(|text| BYTES.iter().map(move |&byte| [text.as_bytes(), &[byte]].concat()));
    cut.chain(next).collect()
}

/// A long line cut behind each byte, with each byte left out, and with each typed twice; in a second line too.
fn changed() -> Vec<Vec<u8>> {
    let line = LINE.as_bytes();
    let two = [LEARNT.replace('X', "a").as_bytes(), line].concat();
    let cut = |whole: &[u8], from: usize| (from..whole.len()).map(|end| whole[..end].to_vec()).collect::<Vec<_>>();
    let mut found = [cut(line, 1), cut(&two, two.len() - line.len() - 3)].concat();
    found.extend((0..line.len()).map(|at| [&line[..at], &line[at + 1..]].concat()));
    found.extend((0..line.len()).map(|at| [&line[..at], &line[at..=at], &line[at..]].concat()));
    found
}

/// Words that are cut or wrong, and wrong messages, in the first line and in the second; lines that end otherwise.
fn words() -> Vec<String> {
    let mut found: Vec<String> = WORDS.iter().flat_map(|word| [format!("{word}a1\n"), format!("make a1\n{word}a1\n")]).collect();
    found.extend((1..=6).map(|end| "learn "[..end].to_string()));
    found.extend(WRONG.iter().flat_map(|wrong| [make(wrong), make(&format!("(a3,{wrong},a4)"))]));
    found.extend(
        ["\n", "\nmake a1\n", "make a1\n\n", "make a1\r\n", "make a1\n ", "make a1\n\0", "make a1 make a2\n", "make a1;\n"]
            .map(String::from),
    );
    found
}

/// 128 and 129 events and cells, in one line and in many, by each kind of cell.
fn bounds() -> Vec<String> {
    let events = |count: usize| "make a1\n".repeat(count);
    let mut found: Vec<String> = [128, 129].map(events).to_vec();
    let last = ["make a1", "learn X1\n", "make a01\n", "\n"];
    found.extend(last.map(|line| events(128) + line));
    found.extend([127, 128, 129].map(|count| make(&vec!["a1"; count].join(","))));
    found.extend([63, 64, 65].map(|count| make(&atoms(0..count))));
    found.extend([64, 65].map(|count| make(&atoms(0..count).replace('a', "X"))));
    let each = |count: usize, of: &dyn Fn(usize) -> String| (0..count).map(of).collect::<String>();
    found.extend([128, 129].map(|count| each(count, &|number| format!("make a{number}\n"))));
    found.extend([128, 129].map(|count| each(count, &|number| format!("make X{number}\n"))));
    found.extend([127, 128].map(|count| each(count, &|number| format!("make f{number}(a1)\n"))));
    found.extend([126, 127].map(|count| make("a1,a2") + &each(count / 2, &|number| format!("make {{|a{}|}}a1\n", number + 3))));
    let full = full();
    let next = [
        "make a900\n",
        "make a901\n",
        "learn (a62),a63\n",
        "make a63,a62\n",
        "make X1\n",
        "learn X1\n",
        "make f0(a1)\n",
        "make {|a1|}a1\n",
        "make a901",
        "make a901\r\n",
        "make a01\n",
        "learn ((((a0))))\n",
        "",
    ];
    found.extend(next.map(|line| full.clone() + line));
    found
}

/// Two lines with 128 cells: 64 atoms with their 63 pairs, and one atom more.
fn full() -> String {
    make(&atoms(0..64)) + "make a900\n"
}

/// A table that is full in the middle of a line, which goes on well, ends badly, or goes too deep.
fn overfull() -> Vec<String> {
    let many = atoms(0..80);
    let deep = DEEPER.map(|kind| nested(kind, 17, "a1"));
    let mut found = vec![make(&atoms(0..300)), format!("make {}", atoms(0..300)), make(&(atoms(0..300) + ",a01"))];
    let ends = ["\n", "", ",\n", " \n", ",a01\n", ",a65536\n", ",f256(a1)\n", ")\n", ",()\n", ",X1\n", ",(a1)\n", "\nmake a01\n", "\r\n"];
    found.extend(ends.map(|end| format!("learn {many}{end}")));
    found.extend(ends.map(|end| format!("make a1\nlearn ({many}){end}")));
    found.extend(deep.iter().flat_map(|deep| [make(&format!("{many},{deep}")), make(&format!("{deep},{many}"))]));
    found.extend(["a01", "f1", "{|a1|}"].map(|wrong| make(&format!("{wrong},{many}"))));
    found
}

/// Every two faults in one line, in both orders where there are two, and every two in two lines.
fn pairs_of_faults() -> Vec<String> {
    let deep = nested(DEEPER[0], 17, "a1");
    let many = atoms(0..65);
    let parts = ["a01", &deep, &many, "X1", "a1"];
    let mut found: Vec<String> = parts.iter().flat_map(|one| parts.map(|other| format!("learn {one},{other}\n"))).collect();
    let lines = [make("a01"), make(&deep), make(&many), "learn X1\n".into(), make("a1"), "make a1".into()];
    found.extend(lines.iter().flat_map(|one| lines.iter().map(move |other| format!("{one}{other}"))));
    found.extend(lines.iter().map(|line| full() + line));
    found
}

/// Rooms about the length of the file, and none; a refusal of the text goes before them.
fn with_rooms() -> Vec<(usize, Vec<u8>)> {
    let full_lines = full() + &"learn a900\n".repeat(126);
    let good = ["".into(), make("a1"), make("X1"), format!("{LINE}{LEARNT}"), make("f1({|a1|}(a2,a3))"), full(), full_lines];
    let mut found = Vec::new();
    for text in good.map(String::into_bytes) {
        let Reply::Bytes(file) = typed::file(&text, WIDE) else { panic!("a good text") };
        found.extend([0, 1, file.len() - 1, file.len(), file.len() + 1].map(|room| (room, text.clone())));
    }
    let refused = ["make a01\n", "make a1", "learn X1\n", "make a1\n\n"].map(String::from);
    let refused = refused.into_iter().chain([make(&nested(DEEPER[1], 17, "a1")), make(&atoms(0..65))]);
    found.extend(refused.flat_map(|text| [0, 1].map(|room| (room, text.clone().into_bytes()))));
    found
}

/// Short texts drawn by chance, good and damaged.
fn drawn(chance: &mut Chance) -> Vec<Vec<u8>> {
    let good: Vec<Vec<u8>> = (0..90).map(|_| short(Chance::new(chance.word())).into_bytes()).collect();
    let damaged: Vec<Vec<u8>> = (0..160).map(|_| mistyped::damaged(Chance::new(chance.word()))).collect();
    good.into_iter().chain(damaged).filter(|text| text.len() < 200).collect()
}

#[cfg(test)]
mod tests {
    use std::collections::BTreeMap;

    use crate::sections::typed;
    use generator::chance::Chance;

    /// Every reply comes up often enough, by both ways of reading; two faults in one line leave each of the four first.
    #[test]
    fn replies() {
        let cases = typed(&mut Chance::of(1, 6));
        let mut counts: BTreeMap<String, usize> = BTreeMap::new();
        for case in &cases {
            let line = case.lines().expect("both ways agree");
            let kind = line.split(" at ").next().expect("a line").split(' ').take(2).collect::<Vec<_>>().join(" ");
            *counts.entry(if line.starts_with("typed") { "typed".into() } else { kind }).or_default() += 1;
        }
        let bytes: usize = cases.iter().map(|case| case.bytes().len()).sum();
        println!("{} texts, {bytes} bytes, {counts:?}", cases.len());
        assert!(cases.len() >= 600 && bytes < 130_000, "{} texts, {bytes} bytes", cases.len());
        for (kind, least) in
            [("typed", 100), ("refused 4", 30), ("refused 6", 10), ("refused 9", 15), ("refused 11", 400), ("refused 12", 60)]
        {
            assert!(counts.get(kind).is_some_and(|&count| count >= least), "{kind}: {counts:?}");
        }
    }
}

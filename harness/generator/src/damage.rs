//! Byte strings that are no case files, or only by luck: whole files cut, flipped, lengthened and overfilled.

use reference::casefile::{CaseFile, Event, MOST};

use crate::chance::Chance;
use crate::shapes;

const MARKS: [&[u8; 2]; 8] = [b"AT", b"VA", b"PR", b"SE", b"AP", b"MK", b"LN", b"EN"];

/// The offsets of the records of a whole file.
fn offsets(file: &[u8]) -> Vec<usize> {
    let mut offsets = Vec::new();
    let mut at = 0;
    while at + 2 <= file.len() {
        offsets.push(at);
        at += match &file[at..at + 2] {
            b"VA" | b"EN" => 2,
            b"MK" | b"LN" => 3,
            _ => 4,
        };
    }
    offsets
}

/// A damaged byte string.
pub fn damaged(mut chance: Chance) -> Vec<u8> {
    let case = shapes::any(Chance::new(chance.word())).1;
    let mut file = case.bytes();
    match chance.below(17) {
        0 => file.truncate(chance.below(file.len() + 1)),
        1 => {
            let at = chance.below(file.len());
            file[at] ^= 1 << chance.below(8);
        }
        2 => {
            let at = chance.below(file.len());
            file[at] = chance.byte();
        }
        3 => {
            let at = chance.below(file.len() + 1);
            let more: Vec<u8> = (0..chance.between(1, 4)).map(|_| chance.byte()).collect();
            file.splice(at..at, more);
        }
        4 => {
            let at = chance.below(file.len());
            let end = (at + chance.between(1, 4)).min(file.len());
            file.drain(at..end);
        }
        5 => file.extend((0..chance.between(1, 5)).map(|_| *chance.pick(b"ENATVA\x00\xff"))),
        6 => insert_record(&mut file, &mut chance),
        7 => swap_records(&mut file, &mut chance),
        8 => return overfull_cells(&mut chance),
        9 => return overfull_events(&mut chance),
        10 => {
            let at = *chance.pick(&offsets(&file));
            file[at + 1] = *chance.pick(b"TARENKPL\x00");
        }
        11 => return early_learning(case, &mut chance),
        12 => {
            let starts = offsets(&file);
            let at = *chance.pick(&starts);
            let last = file.len() - 1;
            file[(at + chance.between(2, 3)).min(last)] =
                *chance.pick(&[0x7f, 0x80, 0xff, case.count() as u8, case.count().wrapping_sub(1) as u8]);
        }
        13 => file = (0..chance.below(40)).map(|_| *chance.pick(b"ATVAPRSEAPMKLNEN\x00\x01\x02")).collect(),
        14 => return long(&mut chance),
        15 => file = (0..chance.below(12)).flat_map(|_| loose_record(&mut chance, 6)).collect(),
        _ => {
            file = (0..chance.below(12)).flat_map(|_| loose_record(&mut chance, 3)).collect();
            file.extend(b"EN");
        }
    }
    if chance.once_in(6) {
        file.truncate(chance.below(file.len() + 1));
    }
    if chance.once_in(20) {
        let at = chance.below(file.len() + 1);
        file.insert(at, chance.byte());
    }
    file
}

/// As many cells and events as there may be, 898 bytes, and often something behind.
fn long(chance: &mut Chance) -> Vec<u8> {
    let mut file: Vec<u8> = (0..MOST).flat_map(|c| [b'A', b'T', 0, (c % 7) as u8]).collect();
    file.extend((0..MOST).flat_map(|c| [if c % 3 == 0 { b'M' } else { b'L' }, if c % 3 == 0 { b'K' } else { b'N' }, c as u8]));
    if chance.once_in(2) {
        file.extend(b"EN");
    }
    match chance.below(3) {
        0 => {}
        1 => file.extend((0..chance.between(1, 3)).map(|_| *chance.pick(b"ENMK"))),
        _ => file.extend((0..chance.between(1, 70_000)).map(|_| *chance.pick(b"ENLN\x00"))),
    }
    file
}

/// A record with any mark; its numbers lie below `end`, mostly.
fn loose_record(chance: &mut Chance, end: usize) -> Vec<u8> {
    let mark = **chance.pick(&MARKS[..7]);
    let mut record = mark.to_vec();
    let fields = match &mark {
        b"VA" => 0,
        b"MK" | b"LN" => 1,
        _ => 2,
    };
    for _ in 0..fields {
        record.push(if chance.once_in(12) { chance.byte() } else { chance.below(end) as u8 });
    }
    record
}

fn insert_record(file: &mut Vec<u8>, chance: &mut Chance) {
    let at = *chance.pick(&offsets(file));
    let mut record = loose_record(chance, 3);
    if chance.once_in(4) {
        record.truncate(chance.between(1, record.len()));
    }
    file.splice(at..at, record);
}

fn swap_records(file: &mut Vec<u8>, chance: &mut Chance) {
    let starts = offsets(file);
    let place = chance.below(starts.len());
    let end = starts.get(place + 1).copied().unwrap_or(file.len());
    let record: Vec<u8> = file.drain(starts[place]..end).collect();
    let starts = offsets(file);
    let at = if starts.is_empty() { 0 } else { *chance.pick(&starts) };
    file.splice(at..at, record);
}

/// About 128 cells, some more or fewer, sometimes with events before the last of them.
fn overfull_cells(chance: &mut Chance) -> Vec<u8> {
    let count = chance.between(MOST - 1, MOST + 2);
    let mut file = Vec::new();
    let early = chance.once_in(4);
    for c in 0..count {
        if early && c + 1 == count {
            file.extend(b"LN\x00");
        }
        match chance.below(4) {
            0 if c > 0 => file.extend([b'P', b'R', chance.below(c) as u8, chance.below(c) as u8]),
            1 if c > 0 => file.extend(b"VA"),
            _ => file.extend([b'A', b'T', 0, c as u8]),
        }
    }
    if chance.once_in(2) {
        file.truncate(file.len() - chance.below(4));
    } else if chance.once_in(3) {
        file.extend(loose_record(chance, 128));
    }
    file.extend(b"EN");
    file
}

/// About 128 events.
fn overfull_events(chance: &mut Chance) -> Vec<u8> {
    let mut file = b"AT\x00\x00AT\x00\x05VA".to_vec();
    for _ in 0..chance.between(MOST - 1, MOST + 2) {
        file.extend(if chance.once_in(2) { b"LN" } else { b"MK" });
        file.push(chance.below(2) as u8);
    }
    match chance.below(5) {
        0 => file.extend(b"AT\x00\x01"),
        1 => file.extend(b"MK"),
        2 => file.extend(b"LN\x02"),
        3 => file.extend(b"MK\x07"),
        _ => {}
    }
    file.extend(b"EN");
    file
}

/// A whole file with one `LN` moved to the front of the events or its `MK`s taken away.
fn early_learning(mut case: CaseFile, chance: &mut Chance) -> Vec<u8> {
    if case.events.is_empty() {
        let c = chance.below(case.count()) as u8;
        case.events.push(Event::Learn(c));
    } else if chance.once_in(2) {
        let place = chance.below(case.events.len());
        case.events.remove(place);
    } else {
        let place = chance.below(case.events.len());
        let c = case.events.remove(place).cell();
        case.events.insert(0, Event::Learn(c));
    }
    case.bytes()
}

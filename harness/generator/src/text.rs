//! Files as readable text.

use std::fmt::Write;

/// The bytes in hexadecimal.
pub fn hex(bytes: &[u8]) -> String {
    bytes.iter().fold(String::new(), |mut text, byte| {
        let _ = write!(text, "{byte:02x}");
        text
    })
}

/// A file record by record: offset, number, mark and fields, as far as marks are known.
pub fn readable(file: &[u8]) -> String {
    let mut text = String::new();
    let (mut at, mut cells, mut events) = (0, 0, 0);
    while at < file.len() {
        let rest = &file[at..];
        let mark = rest.get(..2).unwrap_or(rest);
        let (fields, what) = match mark {
            b"AT" | b"PR" | b"SE" | b"AP" => (2, "cell"),
            b"VA" => (0, "cell"),
            b"MK" | b"LN" => (1, "event"),
            b"EN" => (0, ""),
            _ => {
                let _ = writeln!(text, "  {at:4}: no known mark from here on: {}", hex(rest));
                break;
            }
        };
        let number = match what {
            "cell" => &mut cells,
            _ => &mut events,
        };
        let name = if what.is_empty() { String::new() } else { format!("{what} {number}") };
        *number += 1;
        let end = (2 + fields).min(rest.len());
        let shown = match (mark, &rest[2..end]) {
            (b"AT", [high, low]) => format!("name {}", u16::from_be_bytes([*high, *low])),
            (b"SE", [body, key]) => format!("body {body} key {key}"),
            (b"AP", [function, argument]) => format!("function {function} of {argument}"),
            (_, bytes) => bytes.iter().map(|b| b.to_string()).collect::<Vec<_>>().join(" "),
        };
        let _ = writeln!(text, "  {at:4}: {name:10} {} {shown}", String::from_utf8_lossy(mark));
        at += 2 + fields;
    }
    text
}

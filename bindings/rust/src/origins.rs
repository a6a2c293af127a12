//! A block's numbers and their bytes, in words: a table that says of each where it came from, and the bytes of the file with these marked.
use crate::{many, quoted};
use std::fmt::Write as _;
use wairokabi::*;

/// Bytes in a row of the dump, and how many of a long stretch are spelled out.
const ROW: usize = 16;
const SPELLED: usize = 16;

/// The table and the dump. A letter stands before each line of the table, and under each of its bytes.
///
/// ```text
///    field       value  from
/// g  left clock  3      byte 7, 2 bytes: 03 01, third of 3  base 2, difference +1
///
///   00000000  00 00 03 05 49 03 02 03 01 02 04 02 03 c4 01 84
///                                  g  g
/// ```
pub fn told(form: u8, update: &[u8], lines: &[Line]) -> String {
    let mut rows = vec![["", "field", "value", "from", ""].map(str::to_string)];
    for (line, letter) in lines.iter().zip('a'..) {
        rows.push([
            letter.to_string(),
            line.field().map_or(String::new(), |field| field.name().to_string()),
            value(form, update, line),
            from(update, line),
            rise(line),
        ]);
    }
    let widths: Vec<usize> = (0..5).map(|k| rows.iter().map(|row| row[k].chars().count()).max().unwrap_or(0)).collect();
    let mut text = String::new();
    for row in &rows {
        let padded = row.iter().zip(&widths).map(|(cell, width)| format!("{cell:width$}")).collect::<Vec<_>>().join("  ");
        let _ = writeln!(text, "{}", padded.trim_end());
    }
    text + "\n" + &dump(update, &marks(update, lines))
}

// ---- the table

/// The value, and what it says where its number alone does not.
fn value(form: u8, update: &[u8], line: &Line) -> String {
    let (value, part) = (line.value, line.part().unwrap_or_default());
    match line.field() {
        Some(Field::Info) => format!("{value}: {}", info(value)),
        Some(Field::ParentInfo) => format!("{value}: {}", if value == 1 { "a name" } else { "an id" }),
        Some(Field::Type) => {
            format!("{value}: {}", Block { kind: TYPE, type_number: value as u16, ..Block::default() }.type_name().unwrap_or_default())
        }
        Some(Field::MarkKey | Field::NodeName) if form == 2 => format!("{value}: {}", short(part, update)),
        Some(Field::MarkKey | Field::NodeName) => format!("{}, {}", short(part, update), many(value as usize, "byte")),
        Some(Field::ParentName | Field::Key | Field::Text | Field::KeyText) => format!("{}, {}", short(part, update), many(value as usize, "unit")),
        Some(Field::Binary | Field::MarkValue | Field::ListValues) => many(value as usize, "byte"),
        _ => value.to_string(),
    }
}

/// A text quoted; of a long one its first characters.
fn short(part: Part, update: &[u8]) -> String {
    const MOST: usize = 24;
    let whole = quoted(part, update);
    if whole.chars().count() <= MOST + 2 {
        return whole;
    }
    whole.chars().take(MOST).collect::<String>() + "..\""
}

/// What an info byte announces.
fn info(byte: u64) -> String {
    match byte {
        0 => return "gc".to_string(),
        10 => return "skip".to_string(),
        _ => {}
    }
    let content = match byte % 32 {
        1 => "deleted",
        3 => "binary",
        4 => "text",
        6 => "mark",
        7 => "type",
        8 => "list",
        _ => "unknown",
    };
    let bits = [(128, "left id"), (64, "right id"), (32, "key")];
    bits.into_iter().filter(|(bit, _)| byte & bit != 0).map(|(_, words)| words).chain([content]).collect::<Vec<_>>().join(", ")
}

/// `byte 7, 2 bytes: 03 01, third of 3`, and the bytes that it leads to.
fn from(update: &[u8], line: &Line) -> String {
    let Some(drawn) = line.drawn() else { return "the first clock and the lengths before".to_string() };
    let stands = match line.stand() {
        Stand::Run { which, of } => format!(", {} of {of}", ordinal(which)),
        Stand::Endless => ", without end".to_string(),
        _ => String::new(),
    };
    let own = (drawn.bytes.0 > 0).then(|| spelled(update, drawn) + &stands);
    let leads = line.part().map(|part| spelled(update, part));
    let new = |leads: &String| own.as_ref() != Some(leads);
    own.iter().chain(leads.iter().filter(|leads| new(leads))).cloned().collect::<Vec<_>>().join("; ")
}

/// `byte 7, 2 bytes: 03 01`
fn spelled(update: &[u8], part: Part) -> String {
    let bytes = part.of(update).unwrap_or_default();
    let shown: Vec<String> = bytes.iter().take(SPELLED).map(|byte| format!("{byte:02x}")).collect();
    let more = if bytes.len() > SPELLED { " .." } else { "" };
    let digits = if bytes.is_empty() { String::new() } else { format!(": {}{more}", shown.join(" ")) };
    format!("byte {}, {}{digits}", part.place, many(bytes.len(), "byte"))
}

fn rise(line: &Line) -> String {
    line.difference().map_or(String::new(), |(base, difference)| format!("base {base}, difference {difference:+}"))
}

fn ordinal(n: u64) -> String {
    const WORDS: [&str; 10] = ["first", "second", "third", "fourth", "fifth", "sixth", "seventh", "eighth", "ninth", "tenth"];
    if let Some(word) = n.checked_sub(1).and_then(|n| WORDS.get(n as usize)) {
        return word.to_string();
    }
    let ending = match (n % 100, n % 10) {
        (11..=13, _) => "th",
        (_, 1) => "st",
        (_, 2) => "nd",
        (_, 3) => "rd",
        _ => "th",
    };
    format!("{n}{ending}")
}

// ---- the bytes

/// The letters of each byte: of one line, of two, or of more, then a plus.
fn marks(update: &[u8], lines: &[Line]) -> Vec<String> {
    let mut marks = vec![String::new(); update.len()];
    for (line, letter) in lines.iter().zip('a'..) {
        for part in [line.drawn(), line.part()].into_iter().flatten() {
            for mark in marks.iter_mut().skip(part.place).take(part.bytes.0) {
                match mark.len() {
                    _ if mark.ends_with(letter) => {}
                    0 | 1 => mark.push(letter),
                    _ => mark.replace_range(1.., "+"),
                }
            }
        }
    }
    marks
}

/// The rows that have marked bytes, sixteen bytes each, and the marks under them; `..` for what is left out: rows without a mark, and rows between two that have
/// one mark alone, the same.
fn dump(update: &[u8], marks: &[String]) -> String {
    let rows: Vec<&[String]> = marks.chunks(ROW).collect();
    let alone = |n: usize| rows.get(n).and_then(|row| row.iter().all(|mark| *mark == row[0]).then_some(&row[0]));
    let left_out = |n: usize| alone(n).is_some_and(|mark| mark.is_empty() || n > 0 && alone(n - 1) == Some(mark) && alone(n + 1) == Some(mark));
    let mut text = String::new();
    for (n, row) in rows.iter().enumerate() {
        if left_out(n) {
            if n == 0 || !left_out(n - 1) {
                text.push_str("  ..\n");
            }
            continue;
        }
        let from = n * ROW;
        let bytes: String = update[from..from + row.len()].iter().map(|byte| format!(" {byte:02x}")).collect();
        let under: String = row.iter().map(|mark| format!(" {mark:2}")).collect();
        let _ = writeln!(text, "  {from:08x} {bytes}\n{:11}{}", "", under.trim_end());
    }
    text
}

#[test]
fn ordinals() {
    let of = |n| ordinal(n);
    assert_eq!(
        [1, 3, 10, 11, 12, 13, 21, 22, 33, 101, 111, 112].map(of),
        ["first", "third", "tenth", "11th", "12th", "13th", "21st", "22nd", "33rd", "101st", "111th", "112th"]
    );
}

/// A text of 1,000 bytes: of the rows that it fills the first and the last are shown.
#[test]
fn long_parts_are_cut() {
    let update = [&[1, 1, 5, 0, 4, 1, 1, 0x74, 0xe8, 7][..], &[0x61; 1000], &[0]].concat();
    let mut out = [Line::default(); MAX_LINES];
    let lines = explain(1, &update, 0, &mut out).unwrap();
    let shown = told(1, &update, lines);
    assert!(shown.contains("text         \"aaaaaaaaaaaaaaaaaaaaaaa..\", 1000 units"), "{shown}");
    assert!(shown.contains("byte 8, 2 bytes: e8 07; byte 10, 1000 bytes: 61 61 61 61 61 61 61 61 61 61 61 61 61 61 61 61 .."), "{shown}");
    let dumped: Vec<&str> = shown.lines().filter(|line| line.starts_with("  ")).map(str::trim).collect();
    let places: Vec<&str> = dumped.iter().filter(|line| line.starts_with("000") || **line == "..").map(|line| &line[..8.min(line.len())]).collect();
    assert_eq!(places, ["00000000", "00000010", "..", "000003e0", "000003f0"]);
    assert_eq!(dumped[dumped.len() - 2..], ["000003f0  61 61 00", "h  h"]);
}

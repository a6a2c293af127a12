//! Where in an update a refused byte lies, for the command: its place, the part of the update that has it, and the bytes around it. Form 2 is cut into its
//! columns here once more, for these words alone; of a damaged update as many as its lengths lead to.
use std::ops::Range;
use wairokabi::{next_difference, open_differences, MAX_BLOCKS};

/// The columns of form 2, in their order.
const COLUMNS: [&str; 9] = ["key", "client", "left clock", "right clock", "info", "text", "parent info", "type", "length"];

/// How many bytes are shown around a place.
const AROUND: usize = 16;

/// A part of a form 2 update; a column and its length by the column's name.
#[derive(Clone, Copy, Debug, PartialEq)]
enum Part {
    Flag,
    Length(&'static str),
    Column(&'static str),
    Rest,
}

/// Three lines: the place in decimal and in hex and what has it; the bytes around it, behind the place of the first; a mark under the one that is blamed.
///
/// ```text
///   byte 11 (0xb): in the column text
///   00000003  05 00 00 01 04 06 03 74 68 69 01 03 01 01 00 00
///                                     ^^
/// ```
///
/// The place may be the update's end: then the mark stands behind the last byte.
pub fn lines(form: u8, update: &[u8], number: u8, place: usize) -> String {
    let to = place.saturating_add(AROUND / 2).max(AROUND).min(update.len());
    let from = to.saturating_sub(AROUND);
    let bytes: String = update[from..to].iter().map(|byte| format!(" {byte:02x}")).collect();
    let mut text = format!("  byte {place} ({place:#x}): {}\n", lies(form, update, number, place));
    text.push_str(format!("  {from:08x} {bytes}").trim_end());
    text.push('\n');
    text.push_str(&" ".repeat(12 + 3 * (place.min(update.len()) - from)));
    text + "^^"
}

/// What has this place, in words. In form 1 only a refusal that blocks alone have says more than that it lies in the update.
fn lies(form: u8, update: &[u8], number: u8, place: usize) -> String {
    if place >= update.len() {
        return "the end of the file".to_string();
    }
    if form == 1 {
        return if matches!(number, 4..=6) { "in the blocks" } else { "in the update" }.to_string();
    }
    let parts = parts(update);
    // a column that ended early is blamed behind its last byte, where the next part begins
    let ended = |(part, of): &&(Part, Range<usize>)| number == 1 && of.end == place && matches!(part, Part::Column(_));
    if let Some((Part::Column(name), _)) = parts.iter().find(ended) {
        return format!("the end of the column {name}");
    }
    match parts.iter().find(|(_, of)| of.contains(&place)) {
        Some((Part::Flag, _)) => "the flag".to_string(),
        Some((Part::Length(name), _)) => format!("in the length of the column {name}"),
        Some((Part::Column(name), _)) => format!("in the column {name}"),
        Some((Part::Rest, _)) => "in the rest, behind the columns".to_string(),
        None => "in the update".to_string(),
    }
}

/// Form 2 has a list of at most so many keys.
const MAX_KEYS: u32 = 256;

/// Whether a form 2 update is refused at this place for its list of keys: the number of the 257th key that would join it is drawn from the run there.
pub fn ends_keys(update: &[u8], place: usize) -> bool {
    let parts = parts(update);
    let Some((_, of)) = parts.iter().find(|(part, _)| *part == Part::Column("key")) else { return false };
    let (column, mut at, mut keys) = (&update[..of.end], open_differences(of.start), 0);
    for _ in 0..MAX_BLOCKS {
        let Ok((number, next)) = next_difference(column, at) else { return false };
        at = next;
        if number >= keys {
            if keys == MAX_KEYS {
                return at.from == place;
            }
            keys += 1;
        }
    }
    false
}

/// The parts of a form 2 update in their order, each beginning where the one before ends: the flag, nine times a length and so many bytes, the rest. The
/// last is the length that does not end, or the column that should have more bytes than are left, if there is one.
fn parts(update: &[u8]) -> Vec<(Part, Range<usize>)> {
    let end = update.len();
    if end == 0 {
        return Vec::new();
    }
    let mut parts = vec![(Part::Flag, 0..1)];
    let mut at = 1;
    for name in COLUMNS {
        let Some((size, from)) = number_at(update, at) else {
            parts.push((Part::Length(name), at..end));
            return parts;
        };
        parts.push((Part::Length(name), at..from));
        if size > (end - from) as u64 {
            parts.push((Part::Column(name), from..end));
            return parts;
        }
        at = from + size as usize;
        parts.push((Part::Column(name), from..at));
    }
    parts.push((Part::Rest, at..end));
    parts
}

/// The unsigned number at a place, and the place after it; none where the bytes end or a ninth byte says more.
fn number_at(update: &[u8], at: usize) -> Option<(u64, usize)> {
    let mut value = 0;
    for (i, byte) in update.get(at..)?.iter().take(9).enumerate() {
        value += u64::from(byte % 128) << (7 * i);
        if *byte < 128 {
            return Some((value, at + i + 1));
        }
    }
    None
}

#[cfg(test)]
mod tests {
    use super::*;

    /// Case D, and where its parts end: the flag, each column's length and bytes, the rest.
    const D: [u8; 23] = [0, 0, 1, 5, 0, 0, 1, 4, 6, 3, 0x74, 0x68, 0x69, 1, 2, 1, 1, 0, 0, 1, 1, 0, 0];
    const ENDS: [usize; 20] = [1, 2, 2, 3, 4, 5, 5, 6, 6, 7, 8, 9, 15, 16, 17, 18, 18, 19, 19, 23];

    #[test]
    fn parts_of_case_d() {
        let parts = parts(&D);
        assert_eq!(parts.iter().map(|(_, of)| of.end).collect::<Vec<_>>(), ENDS);
        assert_eq!(parts[0].0, Part::Flag);
        for (k, name) in COLUMNS.into_iter().enumerate() {
            assert_eq!((parts[1 + 2 * k].0, parts[2 + 2 * k].0), (Part::Length(name), Part::Column(name)));
        }
        assert_eq!(parts[19].0, Part::Rest);
    }

    #[test]
    fn places_of_case_d() {
        for (place, words) in [
            (0, "the flag"),
            (2, "in the length of the column client"),
            (3, "in the column client"),
            (4, "in the length of the column left clock"),
            (8, "in the length of the column text"),
            (14, "in the column text"),
            (18, "in the length of the column length"),
            (19, "in the rest, behind the columns"),
            (22, "in the rest, behind the columns"),
            (23, "the end of the file"),
        ] {
            assert_eq!(lies(2, &D, 3, place), words);
        }
        for (place, name) in [2, 4, 5, 6, 8, 15, 17, 18, 19].into_iter().zip(COLUMNS) {
            assert_eq!(lies(2, &D, 1, place), format!("the end of the column {name}"));
        }
        assert_eq!(lies(2, &D, 1, 23), "the end of the file");
    }

    #[test]
    fn places_of_form_1() {
        assert_eq!(lies(1, &[1, 1, 5, 0, 0x82, 9, 0], 5, 4), "in the blocks");
        assert_eq!(lies(1, &[0x41], 3, 0), "in the update");
        assert_eq!(lies(1, &[1, 1], 1, 2), "the end of the file");
    }

    /// A key column of numbers 0 to 256, in two runs; of 0 to 255, and then 0 without end; of one below zero.
    #[test]
    fn keys_end_at_the_257th() {
        let of = |column: &[u8]| [&[0, column.len() as u8], column, &[0, 0, 0, 0, 1, 0, 0, 0, 0, 0, 0]].concat();
        assert!(ends_keys(&of(&[0, 3, 0xfe, 1]), 3) && !ends_keys(&of(&[0, 3, 0xfe, 1]), 2));
        assert!(!ends_keys(&of(&[0, 3, 0xfd, 1]), 3));
        assert!(!ends_keys(&of(&[0x42]), 2) && !ends_keys(&of(&[]), 2) && !ends_keys(&[0, 9, 0], 2));
        assert!(!ends_keys(&of(&[1, 0xfd, 0xff, 0xff, 0xff, 0x07]), 2));
    }

    /// A length that does not end, one that says more at its ninth byte, and one past the file: what has them is the last part.
    #[test]
    fn parts_of_damaged_updates() {
        assert_eq!(parts(&[]), []);
        assert_eq!(parts(&[7]), [(Part::Flag, 0..1), (Part::Length("key"), 1..1)]);
        assert_eq!(parts(&[7, 0x80]), [(Part::Flag, 0..1), (Part::Length("key"), 1..2)]);
        assert_eq!(parts(&[0x80; 12]), [(Part::Flag, 0..1), (Part::Length("key"), 1..12)]);
        assert_eq!(parts(&[7, 3, 0, 0]), [(Part::Flag, 0..1), (Part::Length("key"), 1..2), (Part::Column("key"), 2..4)]);
        let most = [0, 0xff, 0xff, 0xff, 0xff, 0xff, 0xff, 0xff, 0xff, 0x7f, 1];
        assert_eq!(parts(&most)[1..], [(Part::Length("key"), 1..10), (Part::Column("key"), 10..11)]);
        assert_eq!(number_at(&most, 1), Some(((1 << 63) - 1, 10)));
        assert_eq!((number_at(&most, 11), number_at(&most, usize::MAX)), (None, None));
    }

    /// Parts follow one another up to the file's end, whatever is damaged, and each place has its words and its mark.
    #[test]
    fn any_update_has_parts() {
        let cut = (0..D.len()).map(|end| D[..end].to_vec());
        let changed = (0..D.len()).flat_map(|at| [0x00, 0x01, 0x45, 0x7f, 0x80, 0xff].map(|byte| [&D[..at], &[byte], &D[at + 1..]].concat()));
        let long = [[0x80; 40], [0xff; 40], [0x10; 40], [0; 40]].map(|bytes| bytes.to_vec());
        for update in cut.chain(changed).chain(long) {
            let parts = parts(&update);
            assert!(parts.windows(2).all(|two| two[0].1.end == two[1].1.start));
            assert_eq!(parts.last().map_or(0, |(_, of)| of.end), update.len());
            for place in (0..=update.len()).chain([usize::MAX]) {
                for number in [0, 1, 3, 5, 8, 255] {
                    let [one, two] = [1, 2].map(|form| lines(form, &update, number, place));
                    assert_eq!(one.lines().skip(1).collect::<Vec<_>>(), two.lines().skip(1).collect::<Vec<_>>());
                    assert!(two.ends_with(" ^^") && two.lines().count() == 3 && two.lines().all(|line| line == line.trim_end()));
                    assert!(!two.contains("in the update"));
                }
            }
        }
    }

    #[test]
    fn marks_stand_under_their_bytes() {
        let bytes: Vec<u8> = (0..40).collect();
        let shown = |end, number, place| lines(1, &bytes[..end], number, place).split('\n').map(str::to_string).collect::<Vec<_>>();
        assert_eq!(
            shown(40, 3, 0),
            ["  byte 0 (0x0): in the update", "  00000000  00 01 02 03 04 05 06 07 08 09 0a 0b 0c 0d 0e 0f", "            ^^"]
        );
        assert_eq!(
            shown(40, 3, 9),
            [
                "  byte 9 (0x9): in the update",
                "  00000001  01 02 03 04 05 06 07 08 09 0a 0b 0c 0d 0e 0f 10",
                "                                    ^^"
            ]
        );
        assert_eq!(shown(40, 3, 39)[1], "  00000018  18 19 1a 1b 1c 1d 1e 1f 20 21 22 23 24 25 26 27");
        assert_eq!(shown(40, 3, 39)[2], "                                                         ^^");
        assert_eq!(shown(20, 1, 20)[1], "  00000004  04 05 06 07 08 09 0a 0b 0c 0d 0e 0f 10 11 12 13");
        assert_eq!(shown(20, 1, 20)[2], "                                                            ^^");
        assert_eq!(shown(2, 1, 2), ["  byte 2 (0x2): the end of the file", "  00000000  00 01", "                  ^^"]);
        assert_eq!(shown(0, 1, 0), ["  byte 0 (0x0): the end of the file", "  00000000", "            ^^"]);
    }
}

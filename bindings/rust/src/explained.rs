//! Where the numbers of a block came from: each draw that made its row, with its bytes, its run, its base and its difference.
use crate::lent::{count, words, Row};
use crate::raw::{self, Bytes, Part};
use crate::refused::Refused;
use crate::updates::done_reading;

/// A block has at most so many lines.
pub const MAX_LINES: usize = 16;

/// What a line is about. Its number is the library's.
#[derive(Clone, Copy, Debug, PartialEq, Eq, PartialOrd, Ord, Hash)]
#[repr(u64)]
pub enum Field {
    BlockCount = 2,
    Client = 3,
    FirstClock = 4,
    /// The block's own clock, which is not drawn: the section's first clock and the lengths before it.
    Clock = 5,
    Info = 6,
    SkipLength = 7,
    GcLength = 8,
    LeftClient = 9,
    LeftClock = 10,
    RightClient = 11,
    RightClock = 12,
    ParentInfo = 13,
    ParentName = 14,
    ParentClient = 15,
    ParentClock = 16,
    /// The key in the parent.
    Key = 17,
    DeletedLength = 18,
    Binary = 19,
    Text = 20,
    MarkKey = 21,
    MarkValue = 22,
    Type = 23,
    NodeName = 24,
    ListLength = 25,
    ListValues = 26,
    /// The text of a mark's key or a node name whose number is new, in form 2.
    KeyText = 27,
}

/// All fields, by their numbers, from 2 on, and in words.
const FIELDS: [(Field, &str); 26] = [
    (Field::BlockCount, "block count"),
    (Field::Client, "client"),
    (Field::FirstClock, "first clock"),
    (Field::Clock, "clock"),
    (Field::Info, "info"),
    (Field::SkipLength, "skip length"),
    (Field::GcLength, "gc length"),
    (Field::LeftClient, "left client"),
    (Field::LeftClock, "left clock"),
    (Field::RightClient, "right client"),
    (Field::RightClock, "right clock"),
    (Field::ParentInfo, "parent info"),
    (Field::ParentName, "parent name"),
    (Field::ParentClient, "parent client"),
    (Field::ParentClock, "parent clock"),
    (Field::Key, "key"),
    (Field::DeletedLength, "deleted length"),
    (Field::Binary, "binary"),
    (Field::Text, "text"),
    (Field::MarkKey, "mark key"),
    (Field::MarkValue, "mark value"),
    (Field::Type, "type"),
    (Field::NodeName, "node name"),
    (Field::ListLength, "list length"),
    (Field::ListValues, "list values"),
    (Field::KeyText, "key text"),
];

impl Field {
    /// In words: `left clock`.
    pub fn name(self) -> &'static str {
        FIELDS[self as usize - 2].1
    }
}

/// Where a value stands in the update.
#[derive(Clone, Copy, Debug, PartialEq, Eq, Hash)]
pub enum Stand {
    /// In its own bytes; bytes that are led by their length in those of the length.
    InLine,
    /// In a run: which of its values it is, from 1, and how many it has.
    Run { which: u64, of: u64 },
    /// In the last byte of its column, which has no count and stands without end.
    Endless,
    /// It is not drawn: the block's own clock.
    Nowhere,
}

/// A draw as the library tells it, twelve words. A row that has none is zero, which is also its default.
#[repr(C)]
#[derive(Clone, Copy, Debug, Default, PartialEq, Eq, Hash)]
pub struct Line {
    /// The number of its [`Field`].
    pub field: u64,
    /// Of a text its UTF-16 units, of other bytes how many they are, of a key in form 2 its number.
    pub value: u64,
    /// The first byte in the update, of a run the run's.
    pub place: u64,
    pub bytes: u64,
    pub source: u64,
    pub which: u64,
    pub of: u64,
    pub base: u64,
    pub sign: u64,
    pub size: u64,
    pub part_place: u64,
    pub part_bytes: u64,
}

unsafe impl Row for Line {}

impl Line {
    /// What it is about; `None` for a row that has no line.
    pub fn field(&self) -> Option<Field> {
        let (field, _) = FIELDS.get(usize::try_from(self.field).ok()?.checked_sub(2)?)?;
        Some(*field)
    }

    pub fn stand(&self) -> Stand {
        match self.source {
            _ if self.field == Field::Clock as u64 => Stand::Nowhere,
            0 => Stand::InLine,
            1 => Stand::Run { which: self.which, of: self.of },
            _ => Stand::Endless,
        }
    }

    /// The value's own bytes, or those of its run, or of the length of what it leads to; `None` for the block's own clock.
    pub fn drawn(&self) -> Option<Part> {
        (self.stand() != Stand::Nowhere).then_some(part(self.place, self.bytes))
    }

    /// Where the value is a difference: its base, which is the value before, and what is added to it. Of the block's own clock: the section's first clock, and the
    /// lengths before it.
    pub fn difference(&self) -> Option<(u64, i64)> {
        match self.sign {
            1 => Some((self.base, self.size as i64)),
            2 => Some((self.base, -(self.size as i64))),
            _ => None,
        }
    }

    /// The stored bytes that it leads to.
    pub fn part(&self) -> Option<Part> {
        use Field::*;
        matches!(self.field(), Some(ParentName | Key | Binary | Text | MarkKey | MarkValue | NodeName | ListValues | KeyText))
            .then_some(part(self.part_place, self.part_bytes))
    }
}

fn part(place: u64, bytes: u64) -> Part {
    Part { place: place as usize, bytes: Bytes(bytes as usize) }
}

/// Where the numbers of block n, from 0 in reading order, came from: the draws that made it, in the order of reading, from its section's block count on. They are
/// the first rows of what was lent; the others are zero. Refused by 12, 3, reading's, then 11, then 10; never by 10 with [`MAX_LINES`] rows.
///
/// Of three edits, in form 2, the third one's left clock: the third value of the run `03 01` at byte 7, one more than the value before.
///
/// ```
/// use wairokabi::{explain, Field, Line, Stand, MAX_LINES};
///
/// let update = [
///     0x00, 0x00, 0x03, 0x05, 0x49, 0x03, 0x02, 0x03, 0x01, 0x02, 0x04, 0x02, 0x03, 0xc4, 0x01,
///     0x84, 0x06, 0x03, 0x78, 0x79, 0x7a, 0x41, 0x01, 0x00, 0x00, 0x00, 0x01, 0x03, 0x00, 0x00,
/// ];
/// let mut out = [Line::default(); MAX_LINES];
/// let lines = explain(2, &update, 2, &mut out)?;
/// assert_eq!(lines.len(), 8);
/// let clock = lines[6];
/// assert_eq!((clock.field(), clock.value), (Some(Field::LeftClock), 3));
/// assert_eq!(clock.drawn().and_then(|run| run.of(&update)), Some(&[0x03, 0x01][..]));
/// assert_eq!((clock.place, clock.stand(), clock.difference()), (7, Stand::Run { which: 3, of: 3 }, Some((2, 1))));
/// assert_eq!(lines[7].part().and_then(|text| text.of(&update)), Some(&b"z"[..]));
/// # Ok::<(), wairokabi::Refused>(())
/// ```
pub fn explain<'t>(form: u8, update: &[u8], n: usize, out: &'t mut [Line]) -> Result<&'t [Line], Refused> {
    let answer = unsafe { raw::wairokabi_explain(form, update.as_ptr(), update.len(), n, words(out), count(out)) };
    done_reading(answer.refusal, form, update)?;
    Ok(&out[..answer.lines])
}

//! The four columns of form 2. They are read from a place to the next: a place is a plain value, to be kept, copied and read from again, so a refused
//! read changes nothing. Only `open_..` and `next_..` make one; any other is answered too, by what its fields say. The byte that a refusal blames is
//! counted from the first one of the column that was lent.
use crate::lent::{count, words, Row};
use crate::numbers::written;
use crate::raw::{self, BytePlace, DifferencePlace, NumberPlace, StringPlace};
use crate::refused::{done_at, Refused};

/// The place before the first value of a number column that begins at `at`.
pub fn open_numbers(at: usize) -> NumberPlace {
    unsafe { raw::wairokabi_open_numbers(at) }
}

/// The next value of a number column, and the place after it. Refused by 1, 2, 3.
///
/// Case F, 40 03: five zeros, a sixth read gives 1, at the column's end.
///
/// ```
/// use wairokabi::{next_number, open_numbers};
/// let mut place = open_numbers(0);
/// for _ in 0..5 {
///     let (value, after) = next_number(&[0x40, 0x03], place)?;
///     assert_eq!(value, 0);
///     place = after;
/// }
/// let refused = next_number(&[0x40, 0x03], place).unwrap_err();
/// assert_eq!((refused.number(), refused.at()), (1, Some(2)));
/// # Ok::<(), wairokabi::Refused>(())
/// ```
pub fn next_number(column: &[u8], place: NumberPlace) -> Result<(u64, NumberPlace), Refused> {
    let answer = unsafe { raw::wairokabi_next_number(column.as_ptr(), column.len(), place) };
    done_at(answer.refusal)?;
    Ok((answer.value, answer.place))
}

/// The place before the first value of a difference column that begins at `at`.
pub fn open_differences(at: usize) -> DifferencePlace {
    unsafe { raw::wairokabi_open_differences(at) }
}

/// The next value of a difference column, and the place after it. Refused by 1, 2, 3.
///
/// Case H, 03 01: 1, 2, 3. A run behind it that leads below 0 is blamed as a whole, by its first byte: 43 01, twice less 2, a third time.
///
/// ```
/// use wairokabi::{next_difference, open_differences};
/// let mut place = open_differences(0);
/// for expected in [1, 2, 3, 1] {
///     let (value, after) = next_difference(&[0x03, 0x01, 0x43, 0x01], place)?;
///     assert_eq!(value, expected);
///     place = after;
/// }
/// let refused = next_difference(&[0x03, 0x01, 0x43, 0x01], place).unwrap_err();
/// assert_eq!((refused.number(), refused.at()), (3, Some(2)));
/// # Ok::<(), wairokabi::Refused>(())
/// ```
pub fn next_difference(column: &[u8], place: DifferencePlace) -> Result<(u32, DifferencePlace), Refused> {
    let answer = unsafe { raw::wairokabi_next_difference(column.as_ptr(), column.len(), place) };
    done_at(answer.refusal)?;
    Ok((answer.value, answer.place))
}

/// The place before the first value of a byte column that begins at `at`.
pub fn open_bytes(at: usize) -> BytePlace {
    unsafe { raw::wairokabi_open_bytes(at) }
}

/// The next value of a byte column, and the place after it; the last value, if it has no count, without end. Refused by 1, 2, 3.
///
/// Case K, 04 01 00: 4, 4, then 0 without end.
///
/// ```
/// use wairokabi::{next_byte, open_bytes};
/// let mut place = open_bytes(0);
/// for expected in [4, 4, 0, 0, 0] {
///     let (value, after) = next_byte(&[0x04, 0x01, 0x00], place)?;
///     assert_eq!(value, expected);
///     place = after;
/// }
/// # Ok::<(), wairokabi::Refused>(())
/// ```
pub fn next_byte(column: &[u8], place: BytePlace) -> Result<(u8, BytePlace), Refused> {
    let answer = unsafe { raw::wairokabi_next_byte(column.as_ptr(), column.len(), place) };
    done_at(answer.refusal)?;
    Ok((answer.value, answer.place))
}

/// The place before the first text of a text column that begins at `at`. Refused by 1, 2, 6.
pub fn open_text(column: &[u8], at: usize) -> Result<StringPlace, Refused> {
    let answer = unsafe { raw::wairokabi_open_text(column.as_ptr(), column.len(), at) };
    done_at(answer.refusal)?;
    Ok(answer.place)
}

/// The next text of a text column, that part of the column itself, and the place after it. Refused by 1, 2, 3, 7.
///
/// The text column of case D: "t", "hi".
///
/// ```
/// use wairokabi::{next_text, open_text};
/// let column = [0x03, 0x74, 0x68, 0x69, 0x01, 0x02];
/// let (t, place) = next_text(&column, open_text(&column, 0)?)?;
/// let (hi, _) = next_text(&column, place)?;
/// assert_eq!((t, hi), (&b"t"[..], &b"hi"[..]));
/// # Ok::<(), wairokabi::Refused>(())
/// ```
pub fn next_text(column: &[u8], place: StringPlace) -> Result<(&[u8], StringPlace), Refused> {
    let answer = unsafe { raw::wairokabi_next_text(column.as_ptr(), column.len(), place) };
    done_at(answer.refusal)?;
    // from a place past the column, which no reading made, only a text of no units comes: an empty one
    let text = answer.part.of(column).unwrap_or_default();
    Ok((text, answer.place))
}

/// The next values of a number column, as many as `out` has room for or up to the first that cannot be read, and the place after them. Refused, by 1, 2, 3,
/// only where the very first cannot be read: so a call that gives fewer values than there is room for is followed by one that says why.
///
/// Case F, 40 03, five zeros, by three at a time.
///
/// ```
/// use wairokabi::{open_numbers, read_numbers};
/// let mut out = [9; 3];
/// let (values, place) = read_numbers(&[0x40, 0x03], open_numbers(0), &mut out)?;
/// assert_eq!(values, [0, 0, 0]);
/// let (values, place) = read_numbers(&[0x40, 0x03], place, &mut out)?;
/// assert_eq!(values, [0, 0]);
/// let refused = read_numbers(&[0x40, 0x03], place, &mut out).unwrap_err();
/// assert_eq!((refused.number(), refused.at()), (1, Some(2)));
/// # Ok::<(), wairokabi::Refused>(())
/// ```
pub fn read_numbers<'t>(column: &[u8], place: NumberPlace, out: &'t mut [u64]) -> Result<(&'t [u64], NumberPlace), Refused> {
    let answer = unsafe { raw::wairokabi_read_numbers(column.as_ptr(), column.len(), place, out.as_mut_ptr(), out.len()) };
    done_at(answer.refusal)?;
    Ok((&out[..answer.count], answer.place))
}

/// The next values of a difference column, as [`read_numbers`] gives those of a number column. Refused by 1, 2, 3.
pub fn read_differences<'t>(column: &[u8], place: DifferencePlace, out: &'t mut [u64]) -> Result<(&'t [u64], DifferencePlace), Refused> {
    let answer = unsafe { raw::wairokabi_read_differences(column.as_ptr(), column.len(), place, out.as_mut_ptr(), out.len()) };
    done_at(answer.refusal)?;
    Ok((&out[..answer.count], answer.place))
}

/// The next values of a byte column, as [`read_numbers`] gives those of a number column. Refused by 1, 2, 3.
pub fn read_bytes<'t>(column: &[u8], place: BytePlace, out: &'t mut [u8]) -> Result<(&'t [u8], BytePlace), Refused> {
    let answer = unsafe { raw::wairokabi_read_bytes(column.as_ptr(), column.len(), place, out.as_mut_ptr(), out.len()) };
    done_at(answer.refusal)?;
    Ok((&out[..answer.count], answer.place))
}

/// Where a text lies in its column: its first byte, and how many it has.
#[repr(C)]
#[derive(Clone, Copy, Debug, Default, PartialEq, Eq, Hash)]
pub struct TextPart {
    pub place: u64,
    pub bytes: u64,
}

unsafe impl Row for TextPart {}

impl TextPart {
    /// The text itself, of the column that it was read from; `None` where it does not lie in these bytes.
    pub fn of<'c>(&self, column: &'c [u8]) -> Option<&'c [u8]> {
        let (place, bytes) = (usize::try_from(self.place).ok()?, usize::try_from(self.bytes).ok()?);
        column.get(place..place.checked_add(bytes)?)
    }
}

/// The next texts of a text column, as [`read_numbers`] gives the values of a number column. Refused by 1, 2, 3, 7.
///
/// ```
/// use wairokabi::{open_text, read_texts, TextPart};
/// let column = [0x03, 0x74, 0x68, 0x69, 0x01, 0x02];
/// let mut out = [TextPart::default(); 8];
/// let (texts, _) = read_texts(&column, open_text(&column, 0)?, &mut out)?;
/// assert_eq!(texts, [TextPart { place: 1, bytes: 1 }, TextPart { place: 2, bytes: 2 }]);
/// assert_eq!(texts[1].of(&column), Some(&b"hi"[..]));
/// # Ok::<(), wairokabi::Refused>(())
/// ```
pub fn read_texts<'t>(column: &[u8], place: StringPlace, out: &'t mut [TextPart]) -> Result<(&'t [TextPart], StringPlace), Refused> {
    let answer = unsafe { raw::wairokabi_read_texts(column.as_ptr(), column.len(), place, words(out), count(out)) };
    done_at(answer.refusal)?;
    Ok((&out[..answer.count], answer.place))
}

/// Writes a number column and gives back its bytes. Refused by 3, 10.
pub fn write_numbers<'t>(out: &'t mut [u8], values: &[u64]) -> Result<&'t [u8], Refused> {
    let answer = unsafe { raw::wairokabi_write_numbers(out.as_mut_ptr(), out.len(), values.as_ptr(), values.len()) };
    written(answer, out)
}

/// Writes a difference column of clocks and gives back its bytes. Refused by 3, 13, 10.
pub fn write_differences<'t>(out: &'t mut [u8], values: &[u64]) -> Result<&'t [u8], Refused> {
    let answer = unsafe { raw::wairokabi_write_differences(out.as_mut_ptr(), out.len(), values.as_ptr(), values.len()) };
    written(answer, out)
}

/// Writes a byte column, its last run without a count, and gives back its bytes. Refused by 3, 10.
pub fn write_bytes<'t>(out: &'t mut [u8], values: &[u8]) -> Result<&'t [u8], Refused> {
    let answer = unsafe { raw::wairokabi_write_bytes(out.as_mut_ptr(), out.len(), values.as_ptr(), values.len()) };
    written(answer, out)
}

/// Writes a text column, the text whole, left-over characters too, then the units of each text, and gives back its bytes. Refused by 6, 3, 7, 10.
pub fn write_texts<'t>(out: &'t mut [u8], text: &[u8], units: &[u64]) -> Result<&'t [u8], Refused> {
    let answer = unsafe { raw::wairokabi_write_texts(out.as_mut_ptr(), out.len(), text.as_ptr(), text.len(), units.as_ptr(), units.len()) };
    written(answer, out)
}

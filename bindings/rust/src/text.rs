//! UTF-8 text, counted and cut in UTF-16 units.
use crate::raw::{self, Bytes, Units};
use crate::refused::{done, Refused};

/// How many UTF-16 units a UTF-8 text has. Refused by 6.
///
/// ```
/// use wairokabi::{count_units, Units};
/// assert_eq!(count_units("😀a".as_bytes()), Ok(Units(3)));
/// ```
pub fn count_units(text: &[u8]) -> Result<Units, Refused> {
    let answer = unsafe { raw::wairokabi_count_units(text.as_ptr(), text.len()) };
    done(answer.number)?;
    Ok(answer.units)
}

/// How many bytes the whole characters from `at` on take that use exactly these units. Refused by 7, also at a byte that cannot stand there; what follows
/// the last character taken is not looked at.
///
/// Case L: one character of two units.
///
/// ```
/// use wairokabi::{take_text, Bytes, Units};
/// let face = [0xf0, 0x9f, 0x98, 0x80];
/// assert_eq!(take_text(&face, 0, Units(1)).unwrap_err().number(), 7);
/// assert_eq!(take_text(&face, 0, Units(2)), Ok(Bytes(4)));
/// assert_eq!(take_text(&face, 0, Units(3)).unwrap_err().number(), 7);
/// ```
pub fn take_text(text: &[u8], at: usize, units: Units) -> Result<Bytes, Refused> {
    let answer = unsafe { raw::wairokabi_take_text(text.as_ptr(), text.len(), at, units) };
    done(answer.number)?;
    Ok(answer.bytes)
}

/// How many bytes stand before a cut after so many units. Refused by 6, 7 past the text, 9 inside a pair.
///
/// ```
/// use wairokabi::{cut_text, Bytes, Units};
/// assert_eq!(cut_text("😀a".as_bytes(), Units(2)), Ok(Bytes(4)));
/// assert_eq!(cut_text("😀a".as_bytes(), Units(1)).unwrap_err().number(), 9);
/// ```
pub fn cut_text(text: &[u8], units: Units) -> Result<Bytes, Refused> {
    let answer = unsafe { raw::wairokabi_cut_text(text.as_ptr(), text.len(), units) };
    done(answer.number)?;
    Ok(answer.bytes)
}

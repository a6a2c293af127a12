//! lib0's variable-length numbers.
use crate::raw;
use crate::refused::{done, done_at, Refused};

/// The greatest number that `write_unsigned` takes.
pub const MAX_UNSIGNED: u64 = 9223372036854775807;
/// The greatest magnitude that `write_signed` takes.
pub const MAX_SIGNED: u64 = 4611686018427387903;
/// The greatest client id, and value of a number column.
pub const MAX_VALUE: u64 = 9007199254740991;
/// The greatest clock and length.
pub const MAX_CLOCK: u64 = 2147483647;

/// A sign and a size: minus zero is not zero.
#[derive(Clone, Copy, Debug, PartialEq, Eq, Hash)]
pub struct Signed {
    pub minus: bool,
    pub magnitude: u64,
}

/// Reads the unsigned number whose bytes begin at `at`, and the place after it. Refused by 1, 2.
///
/// ```
/// assert_eq!(wairokabi::read_unsigned(&[0x80, 0x01], 0), Ok((128, 2)));
/// let refused = wairokabi::read_unsigned(&[0x80], 0).unwrap_err();
/// assert_eq!((refused.number(), refused.at()), (1, Some(1)));
/// ```
pub fn read_unsigned(s: &[u8], at: usize) -> Result<(u64, usize), Refused> {
    let answer = unsafe { raw::wairokabi_read_unsigned(s.as_ptr(), s.len(), at) };
    done_at(answer.refusal)?;
    Ok((answer.value, answer.next))
}

/// Reads the signed number whose bytes begin at `at`, and the place after it. Refused by 1, 2.
///
/// ```
/// use wairokabi::Signed;
/// assert_eq!(wairokabi::read_signed(&[0x40], 0), Ok((Signed { minus: true, magnitude: 0 }, 1)));
/// ```
pub fn read_signed(s: &[u8], at: usize) -> Result<(Signed, usize), Refused> {
    let answer = unsafe { raw::wairokabi_read_signed(s.as_ptr(), s.len(), at) };
    done_at(answer.refusal)?;
    Ok((Signed { minus: answer.minus, magnitude: answer.magnitude }, answer.next))
}

/// Writes the shortest spelling, and gives back its bytes. Refused by 3 above [`MAX_UNSIGNED`], 10.
///
/// ```
/// assert_eq!(wairokabi::write_unsigned(&mut [0; 9], 128), Ok(&[0x80, 0x01][..]));
/// ```
pub fn write_unsigned(out: &mut [u8], value: u64) -> Result<&[u8], Refused> {
    let answer = unsafe { raw::wairokabi_write_unsigned(out.as_mut_ptr(), out.len(), value) };
    written(answer, out)
}

/// Writes the shortest spelling, minus zero's too, and gives back its bytes. Refused by 3 above [`MAX_SIGNED`], 10.
///
/// ```
/// use wairokabi::Signed;
/// assert_eq!(wairokabi::write_signed(&mut [0; 9], Signed { minus: true, magnitude: 0 }), Ok(&[0x40][..]));
/// ```
pub fn write_signed(out: &mut [u8], value: Signed) -> Result<&[u8], Refused> {
    let answer = unsafe { raw::wairokabi_write_signed(out.as_mut_ptr(), out.len(), value.minus, value.magnitude) };
    written(answer, out)
}

/// The bytes that a writer wrote.
pub(crate) fn written(answer: raw::Written, out: &[u8]) -> Result<&[u8], Refused> {
    done(answer.number)?;
    Ok(&out[..answer.bytes])
}

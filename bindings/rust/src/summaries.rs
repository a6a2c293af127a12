//! The calls on summaries: who is in an update, without opening it.
use crate::lent::{count, words, Row};
use crate::raw;
use crate::refused::{done, Refused};
use crate::updates::{done_reading, MAX_CLIENTS};

/// No summary has more bytes.
pub const MAX_SUMMARY: usize = (18 + 131 * MAX_CLIENTS) / 8;

/// What a summary says of a client: the clock of its first kept block, the end of its last one, and how many they are.
#[repr(C)]
#[derive(Clone, Copy, Debug, Default, PartialEq, Eq, Hash)]
pub struct SummaryRow {
    pub client: u64,
    pub first: u64,
    pub end: u64,
    pub blocks: u64,
}

unsafe impl Row for SummaryRow {}

/// Writes into `out` the summary of an update, and gives it back. Refused by 12, 3 and what reading refuses, but never by 8; then by 10, never with
/// [`MAX_SUMMARY`] bytes.
///
/// ```
/// use wairokabi::{read_summary, write_summary, SummaryRow, MAX_CLIENTS, MAX_SUMMARY};
///
/// // client 5, clock 0, parent "t", text "hi": case C of document 01
/// let update = [0x01, 0x01, 0x05, 0x00, 0x04, 0x01, 0x01, 0x74, 0x02, 0x68, 0x69, 0x00];
/// let mut out = [0; MAX_SUMMARY];
/// let summary = write_summary(1, &update, &mut out)?;
/// assert_eq!(summary, [0x10, 0x20, 0, 0, 0, 0, 0, 0x05, 0, 0, 0, 0, 0, 0, 0, 0x08, 0, 0x04]);
///
/// let mut rows = [SummaryRow::default(); MAX_CLIENTS];
/// assert_eq!(read_summary(summary, &mut rows)?, [SummaryRow { client: 5, first: 0, end: 2, blocks: 1 }]);
/// # Ok::<(), wairokabi::Refused>(())
/// ```
pub fn write_summary<'t>(form: u8, update: &[u8], out: &'t mut [u8]) -> Result<&'t [u8], Refused> {
    let answer = unsafe { raw::wairokabi_write_summary(form, update.as_ptr(), update.len(), out.as_mut_ptr(), out.len()) };
    done_reading(answer.refusal, form, update)?;
    Ok(&out[..answer.bytes])
}

/// Reads a summary: its rows, highest client first. Refused by 1, 16, 3, 8, then 17; never by 8 with [`MAX_CLIENTS`] rows. No refusal blames a byte.
pub fn read_summary<'t>(summary: &[u8], rows: &'t mut [SummaryRow]) -> Result<&'t [SummaryRow], Refused> {
    let answer = unsafe { raw::wairokabi_read_summary(summary.as_ptr(), summary.len(), words(rows), count(rows)) };
    done(answer.refusal.number)?;
    Ok(&rows[..answer.count])
}

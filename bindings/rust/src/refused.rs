//! Why a call was refused, and which byte it blames.
use crate::raw::Refusal;
use std::error::Error;
use std::fmt;

/// A refusal: its number, with document 01's words for it ("Numbers a refusal gives"), and the byte that it blames.
///
/// ```
/// // form 1: a section of one block, client 5, clock 0, and then nothing
/// let refused = wairokabi::content(1, &[0x01, 0x01, 0x05, 0x00], 0).unwrap_err();
/// assert_eq!((refused.number(), refused.at()), (1, Some(4)));
/// assert_eq!(refused.to_string(), "refused 1 at byte 4: bytes or a column end early");
///
/// let refused = wairokabi::content(3, &[0x00, 0x00], 0).unwrap_err();
/// assert_eq!((refused.number(), refused.at()), (12, None));
/// assert_eq!(refused.to_string(), "refused 12: form not 1 or 2, or rule not 13 or 28");
/// ```
#[derive(Clone, Copy, Debug, PartialEq, Eq, Hash)]
pub struct Refused {
    number: u8,
    at: Option<usize>,
}

impl Refused {
    /// The number: 1 to 17, or 19.
    pub fn number(self) -> u8 {
        self.number
    }

    /// The place of the byte that is blamed, counted from 0 in the update, or in the bytes that a number or a column is read from:
    ///
    /// - 1: the end of the column that ends early, which is the place after its last byte; else the end of the update, or of the bytes.
    /// - 2, 3: the first byte of the number, a run's count too. A number that is drawn from a run blames the run's first byte, and so do the clock that a
    ///   difference leads to and the 257th key of form 2. 3 for the seventeenth array or object inside each other: its tag.
    /// - 4: the section's client.
    /// - 5 for whatever of a block, 8 for its row, 3 for its end: the block's info byte. 8 for a range's row, 3 for a range's end: the first byte of the range's
    ///   clock.
    /// - 6, 7: the first byte of the text, not of its length.
    /// - 14: the flag, which is byte 0. 15: the lowest byte that stays unread.
    ///
    /// In form 2 a section's client and an info byte are drawn from runs too. `None` where no byte is blamed: 9 to 13, 19, 8 for the order, 3 for keys
    /// that are written, an update over [`MAX_UPDATE`](crate::MAX_UPDATE), a state vector, a summary that is read, a text that is counted or cut, and what is to be written.
    pub fn at(self) -> Option<usize> {
        self.at
    }

    /// When this number is given.
    pub fn words(self) -> &'static str {
        match self.number {
            1 => "bytes or a column end early",
            2 => "the ninth byte of a number says more",
            3 => "over a limit, or a clock out of range; plain values with more than 16 arrays and objects open at once; more than 256 keys of form 2, read or written",
            4 => "a client in two sections, or twice in a vector",
            5 => "content number not 1, 3, 4, 6, 7, 8; a plain value with an unknown tag; a type number over 6",
            6 => "not UTF-8",
            7 => "units run past the text, or end in a pair",
            8 => "kept blocks, non-empty delete ranges or order steps exceed the rows lent",
            9 => "a cut, or a diff's, would fall inside a pair",
            10 => "output needs more bytes than lent",
            11 => "no block n, or it has no binary or text",
            12 => "form not 1 or 2, or rule not 13 or 28",
            13 => "form 2, or a difference column, needs a difference outside -2^30 to 2^30-1",
            14 => "strict reading: the flag of form 2 is not 0",
            15 => "strict reading: a byte stays unread",
            16 => "a summary's version is unknown",
            17 => "a summary's rows out of order, a row of no blocks, a first clock above its last end, filling that is not zero, or bytes left over",
            19 => "a diff would keep a format whose form is not the one written",
            _ => "a number that this binding does not know",
        }
    }
}

impl fmt::Display for Refused {
    fn fmt(&self, f: &mut fmt::Formatter<'_>) -> fmt::Result {
        let (number, words) = (self.number, self.words());
        match self.at {
            Some(at) => write!(f, "refused {number} at byte {at}: {words}"),
            None => write!(f, "refused {number}: {words}"),
        }
    }
}

impl Error for Refused {}

/// The number that an answer begins with, 0 for done, where no byte is blamed.
pub(crate) fn done(number: u8) -> Result<(), Refused> {
    match number {
        0 => Ok(()),
        number => Err(Refused { number, at: None }),
    }
}

/// The refusal that an answer begins with, zeros for done, where a byte is blamed.
pub(crate) fn done_at(refusal: Refusal) -> Result<(), Refused> {
    match refusal.number {
        0 => Ok(()),
        number => Err(Refused { number, at: Some(refusal.place) }),
    }
}

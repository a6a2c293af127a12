//! What is lent to the library. The header asks three things that C cannot say, and Rust's slices are all three: a pointer that is not null and leads to
//! as many aligned elements as the count says; elements that hold values of their type; and, what `&mut` lends, no byte shared with anything else.
//! Every `unsafe` call of this crate lends slices and nothing else, so this is the ground for all of them.
use crate::raw::Part;

/// Rows that are words and nothing else, so that a slice of them can be lent as the words that the header has.
///
/// # Safety
///
/// The type is `#[repr(C)]`, and each of its fields is a `u64`.
pub(crate) unsafe trait Row {}

unsafe impl Row for u64 {}

/// Where the words of these rows begin.
pub(crate) fn words<R: Row>(rows: &mut [R]) -> *mut u64 {
    rows.as_mut_ptr().cast()
}

/// How many words these rows are.
pub(crate) fn count<R: Row>(rows: &[R]) -> usize {
    std::mem::size_of_val(rows) / std::mem::size_of::<u64>()
}

impl Part {
    /// The part of these bytes, `None` where it does not lie in them: it was a part of others.
    pub fn of<'u>(&self, bytes: &'u [u8]) -> Option<&'u [u8]> {
        bytes.get(self.place..self.place.checked_add(self.bytes.0)?)
    }
}

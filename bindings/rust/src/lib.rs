//! Wairokabi for Rust: Yjs updates read, diffed, sorted and listed by a proved library, through the C interface of `include/wairokabi.h`.
//!
//! ```
//! use wairokabi::{content, ranges_for, read_update, rows_for};
//!
//! // client 5, clock 0, parent "t", text "hi": case C of document 01
//! let bytes = [0x01, 0x01, 0x05, 0x00, 0x04, 0x01, 0x01, 0x74, 0x02, 0x68, 0x69, 0x00];
//! let (mut rows, mut ranges) = (rows_for(1, &bytes), ranges_for(&bytes));
//! let update = read_update(1, &bytes, &mut rows, &mut ranges)?;
//! assert_eq!((update.blocks[0].client, update.blocks[0].kind_name()), (5, "text"));
//! assert_eq!(content(1, &bytes, 0)?, b"hi");
//! # Ok::<(), wairokabi::Refused>(())
//! ```
//!
//! Every call answers every input, in the same way each time: it keeps no state, allocates nothing and ends. A refusal is a [`Refused`] with its number
//! and the byte that it blames, and all that was lent to be written is zero then; where the call is done, what was lent and is not used is zero. What is
//! promised of each call, and proved, is in `docs/PROMISES.md`; what is trusted here is that this crate declares the header as it is (`tests/header.rs`),
//! that slices are what the header asks for (`src/lent.rs`), and that place 0 is told apart as first byte and as none (`src/updates.rs`).
//!
//! What is written has to be apart from all else that is lent, and Rust sees to that:
//!
//! ```compile_fail,E0502
//! let mut bytes = [4, 4, 0];
//! wairokabi::write_bytes(&mut bytes, &bytes);
//! ```
//!
//! A form is 1 or 2. [`rows_for`] and [`ranges_for`] make tables that no update of that length overflows; smaller ones may be lent, and then 8 says so.
//! [`list`] takes about 128 KiB of stack, the others less. Calls may run in several threads at once.

mod block;
mod columns;
mod explained;
mod lent;
mod numbers;
mod raw;
mod refused;
mod summaries;
mod text;
mod updates;

pub use block::*;
pub use columns::*;
pub use explained::*;
pub use numbers::{read_signed, read_unsigned, write_signed, write_unsigned, Signed, MAX_CLOCK, MAX_SIGNED, MAX_UNSIGNED, MAX_VALUE};
pub use raw::{Block, BytePlace, Bytes, DifferencePlace, NumberPlace, Part, StringPlace, Units};
pub use refused::Refused;
pub use summaries::*;
pub use text::*;
pub use updates::*;

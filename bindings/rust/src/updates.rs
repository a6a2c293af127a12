//! The calls on updates and state vectors.
use crate::lent::{count, words, Row};
use crate::raw::{self, Block};
use crate::refused::{done, done_at, Refused};

/// An update has at most so many bytes.
pub const MAX_UPDATE: usize = 16777215;
/// An update has at most so many blocks, dropped ones too.
pub const MAX_BLOCKS: usize = 65535;
/// An update has at most so many clients with blocks, and a state vector so many entries.
pub const MAX_CLIENTS: usize = 64;
/// `sort` reports at most so many reaches: of the clients with blocks, and of the vector's.
pub const MAX_REACHES: usize = 2 * MAX_CLIENTS;
/// `list` takes at most so many bytes, the form byte among them.
pub const MAX_INPUT: usize = 65536;
/// No listing has more bytes.
pub const MAX_TEXT: usize = 100957;

/// A delete range: the client's ids from `clock` on, `length` of them.
#[repr(C)]
#[derive(Clone, Copy, Debug, Default, PartialEq, Eq, Hash)]
pub struct Range {
    pub client: u64,
    pub clock: u64,
    pub length: u64,
}

unsafe impl Row for Range {}

/// An entry of a state vector, or a reach: how far a client is known.
#[repr(C)]
#[derive(Clone, Copy, Debug, Default, PartialEq, Eq, Hash)]
pub struct Entry {
    pub client: u64,
    pub clock: u64,
}

unsafe impl Row for Entry {}

/// How many of a client's blocks are taken.
#[repr(C)]
#[derive(Clone, Copy, Debug, Default, PartialEq, Eq, Hash)]
pub struct Count {
    pub client: u64,
    pub taken: u64,
}

unsafe impl Row for Count {}

/// A client with blocks left, the client that it waits for (of its first unmet dependency, else, by rule 13, itself), and how far that reaches.
#[repr(C)]
#[derive(Clone, Copy, Debug, Default, PartialEq, Eq, Hash)]
pub struct Pending {
    pub client: u64,
    pub waits_for: u64,
    pub reach: u64,
}

unsafe impl Row for Pending {}

/// A client with blocks left, and the first id that it waits for, which is not held.
#[repr(C)]
#[derive(Clone, Copy, Debug, Default, PartialEq, Eq, Hash)]
pub struct Missing {
    pub client: u64,
    pub waits_for: u64,
    pub clock: u64,
}

unsafe impl Row for Missing {}

/// Zero rows, enough for all blocks of any update of this form and length: in form 1 a block has two bytes at least, in form 2 it may have none.
pub fn rows_for(form: u8, update: &[u8]) -> Vec<Block> {
    let most = if form == 1 { update.len() / 2 } else { MAX_BLOCKS };
    vec![Block::default(); most.min(MAX_BLOCKS)]
}

/// Zero rows, enough for all delete ranges of any update of this length: a range has two bytes at least. They take twelve times the update's bytes; who
/// knows that there are fewer ranges lends less.
pub fn ranges_for(update: &[u8]) -> Vec<Range> {
    vec![Range::default(); update.len().min(MAX_UPDATE) / 2]
}

/// The refusal that the answer of a call on an update begins with. Place 0 blames the first byte where reading the update is refused there, and no byte
/// otherwise: where its length is refused, or its vector, and by what follows reading.
pub(crate) fn done_reading(refusal: raw::Refusal, form: u8, update: &[u8]) -> Result<(), Refused> {
    if refusal.number == 0 || refusal.place > 0 {
        return done_at(refusal);
    }
    if refusal.number > 8 || update.len() > MAX_UPDATE {
        return done(refusal.number);
    }
    // reads all of the update, and nothing else
    let alone = unsafe { raw::wairokabi_content(form, update.as_ptr(), update.len(), 0) }.refusal;
    if (alone.number, alone.place) == (refusal.number, 0) {
        return done_at(refusal);
    }
    done(refusal.number)
}

/// What an update has. Both are the first rows of what was lent; the other rows are zero.
#[derive(Clone, Copy, Debug, PartialEq, Eq)]
pub struct Update<'t> {
    /// The blocks kept, in reading order.
    pub blocks: &'t [Block],
    /// The delete ranges in normal form: highest client first, clocks rising, none empty, none touching.
    pub ranges: &'t [Range],
}

/// Reads an update of form 1 or 2. Refused by 12, 3, then the first refusal of reading: 1 to 8. 3 is also for values inside more than 16 arrays and objects, and in
/// form 2 for a 257th key: Yjs writes each mark and node name of form 2 under a new number, so that a text with 129 coloured words has too many of them there,
/// and is read in form 1.
///
/// Cases C and D: client 5, clock 0, parent "t", text "hi", in either form.
///
/// ```
/// use wairokabi::{read_update, Block, Range, Units, TEXT};
///
/// let c = [0x01, 0x01, 0x05, 0x00, 0x04, 0x01, 0x01, 0x74, 0x02, 0x68, 0x69, 0x00];
/// let d = [
///     0x00, 0x00, 0x01, 0x05, 0x00, 0x00, 0x01, 0x04, 0x06, 0x03, 0x74, 0x68,
///     0x69, 0x01, 0x02, 0x01, 0x01, 0x00, 0x00, 0x01, 0x01, 0x00, 0x00,
/// ];
/// for (form, bytes) in [(1, &c[..]), (2, &d[..])] {
///     let (mut rows, mut ranges) = ([Block::default(); 512], [Range::default(); 1024]);
///     let update = read_update(form, bytes, &mut rows, &mut ranges)?;
///     assert!(update.blocks.len() == 1 && update.ranges.is_empty());
///     let block = update.blocks[0];
///     assert_eq!((block.client, block.clock, block.length, block.kind), (5, 0, Units(2), TEXT));
///     assert_eq!((block.left(), block.right(), block.parent(), block.key()), (None, None, None, None));
///     assert_eq!(block.name().and_then(|name| name.of(bytes)), Some(&b"t"[..]));
///     assert_eq!(block.part().and_then(|part| part.of(bytes)), Some(&b"hi"[..]));
/// }
/// # Ok::<(), wairokabi::Refused>(())
/// ```
pub fn read_update<'t>(form: u8, update: &[u8], rows: &'t mut [Block], ranges: &'t mut [Range]) -> Result<Update<'t>, Refused> {
    let answer =
        unsafe { raw::wairokabi_read_update(form, update.as_ptr(), update.len(), rows.as_mut_ptr(), rows.len(), words(ranges), count(ranges)) };
    done_reading(answer.refusal, form, update)?;
    Ok(Update { blocks: &rows[..answer.blocks], ranges: &ranges[..answer.ranges] })
}

/// Reads an update as [`read_update`] does, for the archive: no byte of it may stay unexplained. Refused by 12, 3, 14 (the flag of form 2 is not 0), then
/// the first refusal of reading, then 15 (a byte stays unread, the lowest of them is blamed).
///
/// ```
/// use wairokabi::{read_update, read_update_strict, Block, Range};
///
/// let c = [0x01, 0x01, 0x05, 0x00, 0x04, 0x01, 0x01, 0x74, 0x02, 0x68, 0x69, 0x00];
/// let (mut rows, mut ranges) = ([Block::default(); 4], [Range::default(); 4]);
/// assert_eq!(read_update_strict(1, &c, &mut rows, &mut ranges)?.blocks.len(), 1);
///
/// let behind = [&c[..], &[0x07]].concat();
/// assert_eq!(read_update(1, &behind, &mut rows, &mut ranges)?.blocks.len(), 1);
/// let refused = read_update_strict(1, &behind, &mut rows, &mut ranges).unwrap_err();
/// assert_eq!((refused.number(), refused.at()), (15, Some(12)));
/// assert_eq!(rows[0], Block::default());
/// # Ok::<(), wairokabi::Refused>(())
/// ```
pub fn read_update_strict<'t>(form: u8, update: &[u8], rows: &'t mut [Block], ranges: &'t mut [Range]) -> Result<Update<'t>, Refused> {
    let answer = unsafe {
        raw::wairokabi_read_update_strict(form, update.as_ptr(), update.len(), rows.as_mut_ptr(), rows.len(), words(ranges), count(ranges))
    };
    // the flag is byte 0
    if answer.refusal.number == 14 {
        done_at(answer.refusal)?;
    }
    done_reading(answer.refusal, form, update)?;
    Ok(Update { blocks: &rows[..answer.blocks], ranges: &ranges[..answer.ranges] })
}

/// The text or binary of block n, from 0 in reading order: that part of the update itself, not a copy. Refused by 12, 3, reading's, then 11, for a format, a type
/// and an any-list too.
///
/// ```
/// let c = [0x01, 0x01, 0x05, 0x00, 0x04, 0x01, 0x01, 0x74, 0x02, 0x68, 0x69, 0x00];
/// let hi = wairokabi::content(1, &c, 0)?;
/// assert_eq!(hi, b"hi");
/// assert_eq!(hi.as_ptr(), c[9..].as_ptr());
/// assert_eq!(wairokabi::content(1, &c, 1).unwrap_err().number(), 11);
/// # Ok::<(), wairokabi::Refused>(())
/// ```
pub fn content(form: u8, update: &[u8], n: usize) -> Result<&[u8], Refused> {
    let answer = unsafe { raw::wairokabi_content(form, update.as_ptr(), update.len(), n) };
    done_reading(answer.refusal, form, update)?;
    Ok(answer.part.of(update).expect("a stored part lies inside its update"))
}

/// A diff that was written, and the update that was read for it.
#[derive(Clone, Copy, Debug, PartialEq, Eq)]
pub struct Diff<'t> {
    /// The first bytes of what was lent for them; the others are zero.
    pub bytes: &'t [u8],
    pub update: Update<'t>,
}

/// Writes into `out`, in the form `to`, what an update has beyond a state vector, with its whole delete set. A text is cut by units, an any-list by entries; values
/// are copied byte for byte. Refused by 12 (either form), reading's, the vector's, then 3 for more than 256 different marks and node names in form 2, 9, 19 for a
/// format that is kept where the forms differ, 13, 10.
///
/// Case E, C against vectors that have one unit of client 5, and both:
///
/// ```
/// use wairokabi::{encode_diff, Block, Range};
///
/// let c = [0x01, 0x01, 0x05, 0x00, 0x04, 0x01, 0x01, 0x74, 0x02, 0x68, 0x69, 0x00];
/// let (mut rows, mut ranges, mut out) = ([Block::default(); 4], [Range::default(); 4], [0; 64]);
/// let diff = encode_diff(1, &c, &[0x01, 0x05, 0x01], 1, &mut rows, &mut ranges, &mut out)?;
/// assert_eq!(diff.bytes, [0x01, 0x01, 0x05, 0x01, 0x84, 0x05, 0x00, 0x01, 0x69, 0x00]);
/// let diff = encode_diff(1, &c, &[0x01, 0x05, 0x02], 1, &mut rows, &mut ranges, &mut out)?;
/// assert_eq!(diff.bytes, [0x00, 0x00]);
/// # Ok::<(), wairokabi::Refused>(())
/// ```
pub fn encode_diff<'t>(
    form: u8,
    update: &[u8],
    vector: &[u8],
    to: u8,
    rows: &'t mut [Block],
    ranges: &'t mut [Range],
    out: &'t mut [u8],
) -> Result<Diff<'t>, Refused> {
    let answer = unsafe {
        raw::wairokabi_encode_diff(
            form,
            update.as_ptr(),
            update.len(),
            vector.as_ptr(),
            vector.len(),
            to,
            rows.as_mut_ptr(),
            rows.len(),
            words(ranges),
            count(ranges),
            out.as_mut_ptr(),
            out.len(),
        )
    };
    done_reading(answer.refusal, form, update)?;
    Ok(diff(answer, rows, ranges, out))
}

/// Writes an update whole in the form `to`: the diff against a vector that names no client.
///
/// Case C in form 2 is case D:
///
/// ```
/// use wairokabi::{encode_update, Block, Range};
///
/// let c = [0x01, 0x01, 0x05, 0x00, 0x04, 0x01, 0x01, 0x74, 0x02, 0x68, 0x69, 0x00];
/// let d = [
///     0x00, 0x00, 0x01, 0x05, 0x00, 0x00, 0x01, 0x04, 0x06, 0x03, 0x74, 0x68,
///     0x69, 0x01, 0x02, 0x01, 0x01, 0x00, 0x00, 0x01, 0x01, 0x00, 0x00,
/// ];
/// let (mut rows, mut ranges, mut out) = ([Block::default(); 4], [Range::default(); 4], [0; 64]);
/// assert_eq!(encode_update(1, &c, 2, &mut rows, &mut ranges, &mut out)?.bytes, d);
/// assert_eq!(encode_update(2, &d, 1, &mut rows, &mut ranges, &mut out)?.bytes, c);
/// # Ok::<(), wairokabi::Refused>(())
/// ```
pub fn encode_update<'t>(
    form: u8,
    update: &[u8],
    to: u8,
    rows: &'t mut [Block],
    ranges: &'t mut [Range],
    out: &'t mut [u8],
) -> Result<Diff<'t>, Refused> {
    let answer = unsafe {
        raw::wairokabi_encode_update(
            form,
            update.as_ptr(),
            update.len(),
            to,
            rows.as_mut_ptr(),
            rows.len(),
            words(ranges),
            count(ranges),
            out.as_mut_ptr(),
            out.len(),
        )
    };
    done_reading(answer.refusal, form, update)?;
    Ok(diff(answer, rows, ranges, out))
}

fn diff<'t>(answer: raw::Diff, rows: &'t [Block], ranges: &'t [Range], out: &'t [u8]) -> Diff<'t> {
    let update = Update { blocks: &rows[..answer.blocks], ranges: &ranges[..answer.ranges] };
    Diff { bytes: &out[..answer.bytes], update }
}

/// The blocks of an update, sorted, and the update that was read for it. Each is the first rows of what was lent; the others are zero.
#[derive(Clone, Copy, Debug, PartialEq, Eq)]
pub struct Sorted<'t> {
    /// The numbers of the blocks that are taken, in order: each step takes the highest client whose front is ready, or, by [`sort_slowly`], the next of a sweep.
    pub order: &'t [u64],
    /// Each client with blocks, highest first, and how many of them are taken.
    pub counts: &'t [Count],
    /// Each of these and of the vector's clients, highest first, and how far it reaches.
    pub reaches: &'t [Entry],
    /// Each client with blocks left, highest first, and what it waits for.
    pub pending: &'t [Pending],
    pub update: Update<'t>,
}

/// Sorts an update's blocks by a rule against a state vector into those that can be applied and those that wait. By rule 28 a block waits for its
/// dependencies on other clients; by rule 13, that of peers on Yjs 13, then also until its own client reaches its clock. Refused by 12 (form or rule), 3,
/// reading's, the vector's, then 8 for the order and 10 for a report; never by these two where the order has as many words as blocks are read, `counts`
/// and `pending` have [`MAX_CLIENTS`] rows and `reaches` [`MAX_REACHES`].
///
/// Case M: 5's block has left id (9,0). With 9's block both are taken, 9's first; without it 5 waits for 9, at reach 0.
///
/// ```
/// use wairokabi::{sort, Block, Count, Entry, Pending, Range};
///
/// let both = [
///     0x02, 0x01, 0x09, 0x00, 0x04, 0x01, 0x01, 0x74, 0x01, 0x61, 0x01, 0x05, 0x00, 0x84, 0x09, 0x00, 0x01, 0x62, 0x00,
/// ];
/// let waits = [0x01, 0x01, 0x05, 0x00, 0x84, 0x09, 0x00, 0x01, 0x62, 0x00];
/// let empty = [0x00];
/// let (mut rows, mut ranges) = ([Block::default(); 4], [Range::default(); 4]);
/// let (mut order, mut counts) = ([0; 4], [Count::default(); 64]);
/// let (mut reaches, mut pending) = ([Entry::default(); 128], [Pending::default(); 64]);
///
/// let sorted = sort(28, 1, &both, &empty, &mut rows, &mut ranges, &mut order, &mut counts, &mut reaches, &mut pending)?;
/// assert_eq!(sorted.order, [0, 1]);
/// assert_eq!(sorted.counts, [Count { client: 9, taken: 1 }, Count { client: 5, taken: 1 }]);
/// assert_eq!(sorted.reaches, [Entry { client: 9, clock: 1 }, Entry { client: 5, clock: 1 }]);
/// assert!(sorted.pending.is_empty());
///
/// let sorted = sort(28, 1, &waits, &empty, &mut rows, &mut ranges, &mut order, &mut counts, &mut reaches, &mut pending)?;
/// assert!(sorted.order.is_empty());
/// assert_eq!(sorted.pending, [Pending { client: 5, waits_for: 9, reach: 0 }]);
///
/// // A block at clock 3 of a client of which nothing is known: rule 28 takes it, rule 13 waits for the client itself.
/// let late = [0x01, 0x01, 0x05, 0x03, 0x04, 0x01, 0x01, 0x74, 0x01, 0x61, 0x00];
/// let sorted = sort(28, 1, &late, &empty, &mut rows, &mut ranges, &mut order, &mut counts, &mut reaches, &mut pending)?;
/// assert_eq!(sorted.order, [0]);
/// let sorted = sort(13, 1, &late, &empty, &mut rows, &mut ranges, &mut order, &mut counts, &mut reaches, &mut pending)?;
/// assert_eq!(sorted.pending, [Pending { client: 5, waits_for: 5, reach: 0 }]);
/// # Ok::<(), wairokabi::Refused>(())
/// ```
#[allow(clippy::too_many_arguments)] // the header's
pub fn sort<'t>(
    rule: u8,
    form: u8,
    update: &[u8],
    vector: &[u8],
    rows: &'t mut [Block],
    ranges: &'t mut [Range],
    order: &'t mut [u64],
    counts: &'t mut [Count],
    reaches: &'t mut [Entry],
    pending: &'t mut [Pending],
) -> Result<Sorted<'t>, Refused> {
    let answer = unsafe {
        raw::wairokabi_sort(
            rule,
            form,
            update.as_ptr(),
            update.len(),
            vector.as_ptr(),
            vector.len(),
            rows.as_mut_ptr(),
            rows.len(),
            words(ranges),
            count(ranges),
            words(order),
            count(order),
            words(counts),
            count(counts),
            words(reaches),
            count(reaches),
            words(pending),
            count(pending),
        )
    };
    done_reading(answer.refusal, form, update)?;
    Ok(sorted(answer, rows, ranges, order, counts, reaches, pending))
}

/// Sorts like [`sort`], by a second sorter that is slow and plain, so that it can be checked by reading it: it sweeps over all clients, lowest first, takes
/// each one's blocks while they are ready, and sweeps again until a sweep takes nothing. Update, reports and refusals are proved to be those of [`sort`]; only
/// the order differs.
///
/// ```
/// use wairokabi::{sort, sort_slowly, Block, Count, Entry, Pending, Range};
///
/// // one block of client 9, two of client 5
/// let update = [0x02, 0x01, 0x09, 0x00, 0x00, 0x01, 0x02, 0x05, 0x00, 0x00, 0x01, 0x00, 0x01, 0x00];
/// let (mut rows, mut ranges) = ([Block::default(); 4], [Range::default(); 4]);
/// let (mut order, mut counts) = ([0; 4], [Count::default(); 64]);
/// let (mut reaches, mut pending) = ([Entry::default(); 128], [Pending::default(); 64]);
///
/// let quick = sort(28, 1, &update, &[0x00], &mut rows, &mut ranges, &mut order, &mut counts, &mut reaches, &mut pending)?;
/// assert_eq!(quick.order, [0, 1, 2]);
/// let slow = sort_slowly(28, 1, &update, &[0x00], &mut rows, &mut ranges, &mut order, &mut counts, &mut reaches, &mut pending)?;
/// assert_eq!(slow.order, [1, 2, 0]);
/// assert_eq!(slow.counts, [Count { client: 9, taken: 1 }, Count { client: 5, taken: 2 }]);
/// # Ok::<(), wairokabi::Refused>(())
/// ```
#[allow(clippy::too_many_arguments)] // the header's
pub fn sort_slowly<'t>(
    rule: u8,
    form: u8,
    update: &[u8],
    vector: &[u8],
    rows: &'t mut [Block],
    ranges: &'t mut [Range],
    order: &'t mut [u64],
    counts: &'t mut [Count],
    reaches: &'t mut [Entry],
    pending: &'t mut [Pending],
) -> Result<Sorted<'t>, Refused> {
    let answer = unsafe {
        raw::wairokabi_sort_slowly(
            rule,
            form,
            update.as_ptr(),
            update.len(),
            vector.as_ptr(),
            vector.len(),
            rows.as_mut_ptr(),
            rows.len(),
            words(ranges),
            count(ranges),
            words(order),
            count(order),
            words(counts),
            count(counts),
            words(reaches),
            count(reaches),
            words(pending),
            count(pending),
        )
    };
    done_reading(answer.refusal, form, update)?;
    Ok(sorted(answer, rows, ranges, order, counts, reaches, pending))
}

/// What was sorted, in what was lent.
fn sorted<'t>(
    answer: raw::Sorted,
    rows: &'t [Block],
    ranges: &'t [Range],
    order: &'t [u64],
    counts: &'t [Count],
    reaches: &'t [Entry],
    pending: &'t [Pending],
) -> Sorted<'t> {
    Sorted {
        order: &order[..answer.steps],
        counts: &counts[..answer.counts],
        reaches: &reaches[..answer.reaches],
        pending: &pending[..answer.pending],
        update: Update { blocks: &rows[..answer.blocks], ranges: &ranges[..answer.ranges] },
    }
}

/// The blocks of an update, sorted by held ids, and the update that was read for it. Each is the first rows of what was lent; the others are zero.
#[derive(Clone, Copy, Debug, PartialEq, Eq)]
pub struct SortedHeld<'t> {
    /// The numbers of the blocks that are taken, in order: each step takes the highest client whose front is ready, or, by [`sort_held_slowly`], sweep by sweep.
    pub order: &'t [u64],
    /// Each client with blocks, highest first, and how many of them are taken.
    pub counts: &'t [Count],
    /// Each client with blocks left, highest first, and the first id that it waits for.
    pub pending: &'t [Missing],
    /// The held ids that were given, in normal form.
    pub held: &'t [Range],
    pub update: Update<'t>,
}

/// Sorts an update's blocks by held ids, laid out as a form 1 delete set: a block waits for its dependencies on other clients until each is held, by what was
/// given or by a taken block that is no Skip. Refused by 12, 3, reading's, then those of a delete set, which blame no byte, then 8 for the order and 10 for a
/// report.
///
/// A block of 5 hangs on (9,1), which lies in a hole of 9: it waits, though 9 was taken to clock 3.
///
/// ```
/// use wairokabi::{sort_held, Block, Count, Missing, Range};
///
/// let hole = [
///     0x02, 0x03, 0x09, 0x00, 0x04, 0x01, 0x01, 0x74, 0x01, 0x61, 0x0a, 0x01, 0x04, 0x01, 0x01, 0x74, 0x01, 0x62, 0x01, 0x05, 0x00, 0x84, 0x09, 0x01,
///     0x01, 0x78, 0x00,
/// ];
/// let (mut rows, mut ranges, mut given) = ([Block::default(); 4], [Range::default(); 4], [Range::default(); 4]);
/// let (mut order, mut counts, mut pending) = ([0; 4], [Count::default(); 64], [Missing::default(); 64]);
///
/// let sorted = sort_held(1, &hole, &[0x00], &mut rows, &mut ranges, &mut given, &mut order, &mut counts, &mut pending)?;
/// assert_eq!(sorted.order, [0, 1, 2]);
/// assert_eq!(sorted.pending, [Missing { client: 5, waits_for: 9, clock: 1 }]);
///
/// let held = [0x01, 0x09, 0x01, 0x01, 0x01];
/// let sorted = sort_held(1, &hole, &held, &mut rows, &mut ranges, &mut given, &mut order, &mut counts, &mut pending)?;
/// assert_eq!(sorted.order, [0, 1, 2, 3]);
/// assert_eq!(sorted.held.len(), 1);
/// # Ok::<(), wairokabi::Refused>(())
/// ```
#[allow(clippy::too_many_arguments)] // the header's
pub fn sort_held<'t>(
    form: u8,
    update: &[u8],
    held: &[u8],
    rows: &'t mut [Block],
    ranges: &'t mut [Range],
    given: &'t mut [Range],
    order: &'t mut [u64],
    counts: &'t mut [Count],
    pending: &'t mut [Missing],
) -> Result<SortedHeld<'t>, Refused> {
    let answer = unsafe {
        raw::wairokabi_sort_held(
            form,
            update.as_ptr(),
            update.len(),
            held.as_ptr(),
            held.len(),
            rows.as_mut_ptr(),
            rows.len(),
            words(ranges),
            count(ranges),
            words(given),
            count(given),
            words(order),
            count(order),
            words(counts),
            count(counts),
            words(pending),
            count(pending),
        )
    };
    done_reading(answer.refusal, form, update)?;
    Ok(sorted_held(answer, rows, ranges, given, order, counts, pending))
}

/// Sorts like [`sort_held`], by the slow plain sorter, as [`sort_slowly`] does. All but the order is proved to be [`sort_held`]'s, refusals too.
///
/// Client 9's block, and two of client 5, the second of which hangs on (9,0), which is held at first: the quick sorter takes 9 first, the slow one 5.
///
/// ```
/// use wairokabi::{sort_held, sort_held_slowly, Block, Count, Missing, Range};
///
/// let update = [0x02, 0x01, 0x09, 0x00, 0x00, 0x01, 0x02, 0x05, 0x00, 0x00, 0x01, 0x81, 0x09, 0x00, 0x01, 0x00];
/// let held = [0x01, 0x09, 0x01, 0x00, 0x01];
/// let (mut rows, mut ranges, mut given) = ([Block::default(); 4], [Range::default(); 4], [Range::default(); 4]);
/// let (mut order, mut counts, mut pending) = ([0; 4], [Count::default(); 64], [Missing::default(); 64]);
///
/// let quick = sort_held(1, &update, &held, &mut rows, &mut ranges, &mut given, &mut order, &mut counts, &mut pending)?;
/// assert_eq!(quick.order, [0, 1, 2]);
/// let slow = sort_held_slowly(1, &update, &held, &mut rows, &mut ranges, &mut given, &mut order, &mut counts, &mut pending)?;
/// assert_eq!(slow.order, [1, 2, 0]);
/// # Ok::<(), wairokabi::Refused>(())
/// ```
#[allow(clippy::too_many_arguments)] // the header's
pub fn sort_held_slowly<'t>(
    form: u8,
    update: &[u8],
    held: &[u8],
    rows: &'t mut [Block],
    ranges: &'t mut [Range],
    given: &'t mut [Range],
    order: &'t mut [u64],
    counts: &'t mut [Count],
    pending: &'t mut [Missing],
) -> Result<SortedHeld<'t>, Refused> {
    let answer = unsafe {
        raw::wairokabi_sort_held_slowly(
            form,
            update.as_ptr(),
            update.len(),
            held.as_ptr(),
            held.len(),
            rows.as_mut_ptr(),
            rows.len(),
            words(ranges),
            count(ranges),
            words(given),
            count(given),
            words(order),
            count(order),
            words(counts),
            count(counts),
            words(pending),
            count(pending),
        )
    };
    done_reading(answer.refusal, form, update)?;
    Ok(sorted_held(answer, rows, ranges, given, order, counts, pending))
}

/// What was sorted by held ids, in what was lent.
fn sorted_held<'t>(
    answer: raw::SortedHeld,
    rows: &'t [Block],
    ranges: &'t [Range],
    given: &'t [Range],
    order: &'t [u64],
    counts: &'t [Count],
    pending: &'t [Missing],
) -> SortedHeld<'t> {
    SortedHeld {
        order: &order[..answer.steps],
        counts: &counts[..answer.counts],
        pending: &pending[..answer.pending],
        held: &given[..answer.held],
        update: Update { blocks: &rows[..answer.blocks], ranges: &ranges[..answer.ranges] },
    }
}

/// Writes the listing of an update as text. `input` is a form byte, then the update. A refusal of reading is text too (`refused 3 at 17`,
/// the place counted in the update, and 0 where no byte is blamed); 10 where the text does not fit, which never happens with [`MAX_TEXT`] bytes.
///
/// ```
/// let input = [0x01, 0x01, 0x01, 0x05, 0x00, 0x04, 0x01, 0x01, 0x74, 0x02, 0x68, 0x69, 0x00];
/// let mut out = [0; 64];
/// assert_eq!(wairokabi::list(&input, &mut out)?, "update form 1 blocks 1 ranges 0\n5 0 2 text\nend\n");
/// assert_eq!(wairokabi::list(&input[..12], &mut out)?, "refused 1 at 11\n");
/// # Ok::<(), wairokabi::Refused>(())
/// ```
pub fn list<'t>(input: &[u8], out: &'t mut [u8]) -> Result<&'t str, Refused> {
    let answer = unsafe { raw::wairokabi_list(input.as_ptr(), input.len(), out.as_mut_ptr(), out.len()) };
    done(answer.number)?;
    Ok(std::str::from_utf8(&out[..answer.bytes]).expect("a listing is ASCII"))
}

/// Reads a state vector: its entries in reading order. Refused by 1, 2, 3, 4, then 10; never by 10 with [`MAX_CLIENTS`] rows. No refusal blames a byte.
///
/// ```
/// use wairokabi::{read_state_vector, Entry, MAX_CLIENTS};
///
/// let mut rows = [Entry::default(); MAX_CLIENTS];
/// assert_eq!(read_state_vector(&[0x01, 0x05, 0x02], &mut rows)?, [Entry { client: 5, clock: 2 }]);
/// # Ok::<(), wairokabi::Refused>(())
/// ```
pub fn read_state_vector<'t>(vector: &[u8], out: &'t mut [Entry]) -> Result<&'t [Entry], Refused> {
    let answer = unsafe { raw::wairokabi_read_state_vector(vector.as_ptr(), vector.len(), words(out), count(out)) };
    done(answer.refusal.number)?;
    Ok(&out[..answer.count])
}

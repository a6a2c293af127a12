// The C interface of Wairokabi: reads, diffs, sorts and lists Yjs updates, proved. The functions are those of crates/capi, and tools/header-check holds
// this file to them. What "proved" means, call by call, is in docs/PROMISES.md.
//
// What is promised. Every call answers every input, in the same way each time: it keeps no state, allocates nothing, reads and writes nothing but what
// it is lent, and ends. An answer of a call that reads begins with a refusal, which is a number and a place; any other answer begins with a number.
// Number 0 is done, at place 0; any other says why it is refused, and the place says where. On a refusal every other field of the answer is zero (a
// refused `wairokabi_next_..` gives back the place it was given), and so is all that was lent to be written. On 0 what is lent and not used is zero.
//
// What is asked, which C cannot say:
// - A pointer with a count after it leads to that many elements (not bytes) of its type, aligned as C aligns it. It is not null, even if the count is 0.
// - What is lent holds values of its type: a `bool` is 0 or 1. Memory that was set to zero does.
// - What is lent to be written (no `const`) shares no byte with anything else that is lent to the same call.
// Calls may run at the same time in several threads, each on what it alone is lent. A call takes no memory but
// what is lent and the stack, at most: `wairokabi_list` 101.4 KiB, `wairokabi_encode_diff` and `_encode_update` 27.9, `_sort_held` 25.9, `_sort` 24.8,
// `_sort_slowly` 19.8, `_sort_held_slowly` 18.9, `_read_update` and `_read_update_strict` 13.4, `_write_summary` 10.3, `_explain` 8.3, `_content` 6.7,
// `_read_state_vector` 1.3, any other 0.3
// (tools/stack; of the x86-64 archive, without what memcpy and memset take).
//
// Numbers:
//
//  0  done
//  1  bytes or a column end early
//  2  the ninth byte of a number says more
//  3  over a limit, or a clock out of range; plain values with more than 16 arrays and objects open at once; more than 256 keys of form 2, read or written
//  4  a client in two sections, or twice in a vector
//  5  content number not 1, 3, 4, 6, 7, 8; a plain value with an unknown tag; a type number over 6
//  6  not UTF-8
//  7  units run past the text, or end in a pair
//  8  kept blocks, non-empty delete ranges or order steps exceed the rows lent
//  9  a cut, or a diff's, would fall inside a pair
// 10  output needs more bytes than lent
// 11  no block n, or it has no binary or text
// 12  form not 1 or 2, or rule not 13 or 28
// 13  form 2, or a difference column, needs a difference outside -2^30 to 2^30-1
// 14  strict reading: the flag of form 2 is not 0
// 15  strict reading: a byte stays unread
// 16  a summary's version is unknown
// 17  a summary's rows out of order, a row of no blocks, a first clock above its last end, filling that is not zero, or bytes left over
// 19  a diff would keep a format whose form is not the one written
//
// Places: the byte that is blamed, counted from 0 in the update, or in the bytes that a number or a column is read from:
//
// - 1: the end of the column that ends early, which is the place after its last byte; else the end of the update, or of the bytes.
// - 2, 3: the first byte of the number, a run's count too. A number that is drawn from a run blames the run's first byte, and so do the clock that a
//   difference leads to and the 257th key of form 2. 3 for the seventeenth array or object inside each other: its tag.
// - 4: the section's client.
// - 5 for whatever of a block, 8 for its row, 3 for its end: the block's info byte. 8 for a range's row, 3 for a range's end: the first byte of the range's
//   clock.
// - 6, 7: the first byte of the text, not of its length.
// - 14: the flag, which is byte 0. 15: the lowest byte that stays unread.
//
// In form 2 a section's client and an info byte are drawn from runs too. Where no byte is blamed the place is 0: 9 to 13, 19, 8 for order steps, 3 for keys
// that are written, an update over WAIROKABI_MAX_UPDATE, whatever a state vector or a summary that is read is refused by. Place 0 may be blamed too: form 1 has
// its count of sections there, and an update of no bytes its end.
#ifndef WAIROKABI_H
#define WAIROKABI_H

#include <stdbool.h>
#include <stddef.h>
#include <stdint.h>

#ifdef __cplusplus
extern "C" {
#endif

// Limits: an update's bytes; the entries of a state vector; the greatest number that `write_unsigned` and `write_signed` take, client ids and the
// values of a number column, clocks and lengths; the bytes of an input of `list`, and those that no listing exceeds.
#define WAIROKABI_MAX_UPDATE 16777215
#define WAIROKABI_MAX_CLIENTS 64
#define WAIROKABI_MAX_UNSIGNED 9223372036854775807
#define WAIROKABI_MAX_SIGNED 4611686018427387903
#define WAIROKABI_MAX_VALUE 9007199254740991
#define WAIROKABI_MAX_CLOCK 2147483647
#define WAIROKABI_MAX_INPUT 65536
#define WAIROKABI_MAX_TEXT 100957

// ---- what answers are made of

// A length in UTF-16 units: two for a character from U+10000 up (a surrogate pair), one for any other.
typedef struct wairokabi_units {
    uint64_t count;
} wairokabi_units;

// A length in bytes.
typedef struct wairokabi_bytes {
    size_t count;
} wairokabi_bytes;

// A part of the bytes that were lent: its first byte's place in them, and its length.
typedef struct wairokabi_part {
    size_t place;
    wairokabi_bytes bytes;
} wairokabi_part;

// Why a call that reads is refused, and the place of the byte that it blames. Zeros for done.
typedef struct wairokabi_refusal {
    uint8_t number;
    size_t place;
} wairokabi_refusal;

// A row of the block table: one block. `has_left` says whether the left id is there, whose client and clock are `left_client` and `left_clock`, and so on;
// what is not there is zero. `part` is the stored part of a binary or a text, the value of a format (in form 1 its JSON text, in form 2 an any-value's bytes)
// or the bytes of all values of an any-list, whose length is how many they are; zero for the others. `mark` is the key of a format, or the node name of a type
// that has one (3 and 5); `type_number` is a type's: 0 array, 1 map, 2 text, 3 XML element, 4 XML fragment, 5 XML hook, 6 XML text. In form 2 a key that was
// read before lies where it lay then. A row that has no block is zero. A row takes 128 bytes, none of them padding.
typedef struct wairokabi_block {
    uint64_t client;
    uint64_t left_client;
    uint64_t right_client;
    uint64_t parent_client;
    wairokabi_units length;
    wairokabi_part name;
    wairokabi_part key;
    wairokabi_part part;
    wairokabi_part mark;
    uint32_t clock;
    uint32_t left_clock;
    uint32_t right_clock;
    uint32_t parent_clock;
    uint8_t kind;
    bool has_left;
    bool has_right;
    bool has_parent;
    bool has_name;
    bool has_key;
    uint16_t type_number;
} wairokabi_block;

// What a block's `kind` says.
#define WAIROKABI_GC 1
#define WAIROKABI_SKIP 2
#define WAIROKABI_DELETED 3
#define WAIROKABI_BINARY 4
#define WAIROKABI_TEXT 5
#define WAIROKABI_FORMAT 6
#define WAIROKABI_TYPE 7
#define WAIROKABI_ANY 8

// How many bytes were written.
typedef struct wairokabi_written {
    uint8_t number;
    size_t bytes;
} wairokabi_written;

// ---- updates

// How many blocks and how many delete ranges were read.
typedef struct wairokabi_update {
    wairokabi_refusal refusal;
    size_t blocks;
    size_t ranges;
} wairokabi_update;

// Reads an update of form 1 or 2. The blocks kept stand in `rows` in reading order, one a row; the delete ranges in normal form (highest client first,
// clocks rising, none empty, none touching) in `ranges`, three words each: client, clock, length. 12, 3, then the first refusal of reading: 1 to 8. 3 is also
// for values inside more than 16 arrays and objects, and in form 2 for a 257th key: Yjs writes each mark and node name of form 2 under a new number, so that
// a text with 129 coloured words has too many of them there, and is read in form 1.
wairokabi_update wairokabi_read_update(
    uint8_t form,
    const uint8_t *update, size_t update_count,
    wairokabi_block *rows, size_t rows_count,
    uint64_t *ranges, size_t ranges_count);

// Reads an update as `read_update` does, for the archive: no byte of it may stay unexplained. The flag of form 2 has to be 0 (14, once it is there, before
// the columns are cut), and no byte of the rest or of any column may stay unread (15, last of all): nothing behind the delete set, no text that no text
// takes, no run that nothing is drawn from; what is left of a run that was begun is none. 12, 3, 14, then the first refusal of reading, then 15.
wairokabi_update wairokabi_read_update_strict(
    uint8_t form,
    const uint8_t *update, size_t update_count,
    wairokabi_block *rows, size_t rows_count,
    uint64_t *ranges, size_t ranges_count);

// Where a part lies in the update.
typedef struct wairokabi_where {
    wairokabi_refusal refusal;
    wairokabi_part part;
} wairokabi_where;

// Where the text or binary of block n, from 0 in reading order, lies in the update: always inside it. 12, 3, reading's, then 11, for a format, a type and an
// any-list too.
wairokabi_where wairokabi_content(
    uint8_t form,
    const uint8_t *update, size_t update_count,
    size_t n);

// How many lines of twelve words each were told.
typedef struct wairokabi_explained {
    wairokabi_refusal refusal;
    size_t lines;
} wairokabi_explained;

// Explains block n, from 0 in reading order: where each of its numbers came from, a line of twelve words for each draw that made its row, in the order of
// reading: its section's block count, client and first clock, its own clock, its info byte, then what that byte announces. A block has at most 16 lines, 192
// words. The words of a line:
//
// - word 0, the field: 2 block count, 3 client, 4 first clock, 5 the block's own clock, 6 info byte, 7 length of a Skip, 8 length of a GC, 9 left client,
//   10 left clock, 11 right client, 12 right clock, 13 parent info, 14 parent name, 15 parent client, 16 parent clock, 17 key in the parent, 18 length of a
//   deleted block, 19 binary, 20 text, 21 key of a format, 22 value of a format, 23 type number, 24 node name, 25 count of an any-list, 26 values of an
//   any-list, 27 text of a key (21, 24) that is new in form 2.
// - word 1, the value: of a text its UTF-16 units, of other bytes how many they are, of a key in form 2 its number.
// - words 2 and 3: the place of its first byte in the update, and how many bytes it has there; those of its run, if it has one; of bytes in line those of
//   their length. Zeros for field 5.
// - word 4, where it stands: 0 in line, 1 in a run, 2 in the last byte of its column, which has no count and stands without end.
// - words 5 and 6: which of its run's values it is, from 1, and how many the run has.
// - words 7, 8 and 9, of a difference: its base, which is the value before; 1 for plus, 2 for minus; its size. Of field 5: the section's first clock, plus, the
//   lengths before this block. Zeros for whatever stands in the bytes as it is.
// - words 10 and 11: place and length of the bytes that it leads to, of a text, a name, a key, a binary or values.
//
// 12, 3, reading's, then 11 where there is no block n, then 10 where `out` has fewer words than the lines.
wairokabi_explained wairokabi_explain(
    uint8_t form,
    const uint8_t *update, size_t update_count,
    size_t n,
    uint64_t *out, size_t out_count);

// How many bytes were written, and how many blocks and delete ranges were read.
typedef struct wairokabi_diff {
    wairokabi_refusal refusal;
    size_t bytes;
    size_t blocks;
    size_t ranges;
} wairokabi_diff;

// Writes into `out`, in the form `to`, what an update has beyond a state vector, with its whole delete set. A text is cut by units, an any-list by entries;
// values are copied byte for byte. In form 2 equal keys have one number. Both tables are filled as `read_update` fills them. 12 (either form), reading's, the
// vector's, then 3 for more than 256 different marks and node names in form 2, 9, 19 for a format that is kept where the forms differ (form 1 has JSON text
// there, form 2 an any-value), 13, 10.
wairokabi_diff wairokabi_encode_diff(
    uint8_t form,
    const uint8_t *update, size_t update_count,
    const uint8_t *vector, size_t vector_count,
    uint8_t to,
    wairokabi_block *rows, size_t rows_count,
    uint64_t *ranges, size_t ranges_count,
    uint8_t *out, size_t out_count);

// Writes an update whole in the form `to`: the diff against a vector that names no client.
wairokabi_diff wairokabi_encode_update(
    uint8_t form,
    const uint8_t *update, size_t update_count,
    uint8_t to,
    wairokabi_block *rows, size_t rows_count,
    uint64_t *ranges, size_t ranges_count,
    uint8_t *out, size_t out_count);

// How many blocks are taken, how many clients each report names, and how many blocks and delete ranges were read.
typedef struct wairokabi_sorted {
    wairokabi_refusal refusal;
    size_t steps;
    size_t counts;
    size_t reaches;
    size_t pending;
    size_t blocks;
    size_t ranges;
} wairokabi_sorted;

// Sorts an update's blocks by a rule against a state vector into those that can be applied and those that wait. By rule 28 a block waits for its
// dependencies on other clients; by rule 13, that of peers on Yjs 13, then also until its own client reaches its clock. `order` has the numbers of the
// blocks that are taken, each step taking the highest client whose front is ready, one word a block. Then, highest client first: in `counts` each client
// with blocks and how many of them are taken, two words a client; in `reaches` each of these and of the vector's clients and how far it reaches, two
// words; in `pending` each client with blocks left, the client that it waits for (of its first unmet dependency, else, by rule 13, itself), and how far
// that reaches, three words. Both tables are filled as `read_update` fills them. 12 (form or rule), 3, reading's, the vector's, then 8 for the order and
// 10 for a report.
wairokabi_sorted wairokabi_sort(
    uint8_t rule,
    uint8_t form,
    const uint8_t *update, size_t update_count,
    const uint8_t *vector, size_t vector_count,
    wairokabi_block *rows, size_t rows_count,
    uint64_t *ranges, size_t ranges_count,
    uint64_t *order, size_t order_count,
    uint64_t *counts, size_t counts_count,
    uint64_t *reaches, size_t reaches_count,
    uint64_t *pending, size_t pending_count);

// Sorts like `wairokabi_sort`, by a second sorter that is slow and plain, so that it can be checked by reading it: it sweeps over all clients, lowest first,
// takes each one's blocks while they are ready, and sweeps again until a sweep takes nothing. Answer, tables, reports and refusals are proved to be those of
// `wairokabi_sort`; only the order differs.
wairokabi_sorted wairokabi_sort_slowly(
    uint8_t rule,
    uint8_t form,
    const uint8_t *update, size_t update_count,
    const uint8_t *vector, size_t vector_count,
    wairokabi_block *rows, size_t rows_count,
    uint64_t *ranges, size_t ranges_count,
    uint64_t *order, size_t order_count,
    uint64_t *counts, size_t counts_count,
    uint64_t *reaches, size_t reaches_count,
    uint64_t *pending, size_t pending_count);

// How many blocks are taken, how many clients each report names, how many blocks and delete ranges were read, and how many held ranges in normal form.
typedef struct wairokabi_sorted_held {
    wairokabi_refusal refusal;
    size_t steps;
    size_t counts;
    size_t pending;
    size_t blocks;
    size_t ranges;
    size_t held;
} wairokabi_sorted_held;

// Sorts an update's blocks by held ids, which are laid out as a form 1 delete set: a block waits for its dependencies on other clients until each is held, by
// what was given or by a taken block that is no Skip. No reach decides anything. `order` and `counts` as `sort` fills them, `counts` of clients with blocks;
// in `pending` each client with blocks left and its first id that is not held, client and clock, three words. The held ids go into `given` in normal form,
// three words a range; the tables are filled as `read_update` fills them. 12, 3, reading's, then those of a delete set at place 0 (1, 2, 3, and 8 where `given`
// is too short), then 8 for the order and 10 for a report.
wairokabi_sorted_held wairokabi_sort_held(
    uint8_t form,
    const uint8_t *update, size_t update_count,
    const uint8_t *held, size_t held_count,
    wairokabi_block *rows, size_t rows_count,
    uint64_t *ranges, size_t ranges_count,
    uint64_t *given, size_t given_count,
    uint64_t *order, size_t order_count,
    uint64_t *counts, size_t counts_count,
    uint64_t *pending, size_t pending_count);

// Sorts like `wairokabi_sort_held`, by the slow plain sorter, as `wairokabi_sort_slowly` does. Answer, tables, reports and refusals are proved to be those of
// `wairokabi_sort_held`; only the order differs.
wairokabi_sorted_held wairokabi_sort_held_slowly(
    uint8_t form,
    const uint8_t *update, size_t update_count,
    const uint8_t *held, size_t held_count,
    wairokabi_block *rows, size_t rows_count,
    uint64_t *ranges, size_t ranges_count,
    uint64_t *given, size_t given_count,
    uint64_t *order, size_t order_count,
    uint64_t *counts, size_t counts_count,
    uint64_t *pending, size_t pending_count);

// Writes the listing of an update as text. `input` is a form byte, then the update. A refusal of reading is text too (`refused 3 at 17`, the place counted
// in the update); 10 where the text does not fit, which never happens with WAIROKABI_MAX_TEXT bytes.
wairokabi_written wairokabi_list(
    const uint8_t *input, size_t input_count,
    uint8_t *out, size_t out_count);

// How many entries were read. A refusal's place is 0.
typedef struct wairokabi_vector {
    wairokabi_refusal refusal;
    size_t count;
} wairokabi_vector;

// Reads a state vector: its entries in reading order, two words each: client, clock. 1, 2, 3, 4, then 10.
wairokabi_vector wairokabi_read_state_vector(
    const uint8_t *vector, size_t vector_count,
    uint64_t *out, size_t out_count);

// ---- summaries

// How many bytes were written.
typedef struct wairokabi_summarized {
    wairokabi_refusal refusal;
    size_t bytes;
} wairokabi_summarized;

// Writes the summary of an update: for each client with kept blocks, highest first, the clock of the first of them, the end of the last, and how many they
// are, in bits, the most significant first (docs/FORMAT.md). It has 2 bytes where there is none, and (18 + 131 n) / 8 for n clients: 1,050 at most. 12, 3,
// what reading refuses, at its place, but never 8; then 10.
wairokabi_summarized wairokabi_write_summary(
    uint8_t form,
    const uint8_t *update, size_t update_count,
    uint8_t *out, size_t out_count);

// How many rows were read. A refusal's place is 0.
typedef struct wairokabi_summary_rows {
    wairokabi_refusal refusal;
    size_t count;
} wairokabi_summary_rows;

// Reads a summary: its rows, highest client first, four words each: client, first clock, last end, blocks. 1, 16, 3, 8, then 17.
wairokabi_summary_rows wairokabi_read_summary(
    const uint8_t *bytes, size_t bytes_count,
    uint64_t *rows, size_t rows_count);

// ---- numbers

// A number, and the place after it.
typedef struct wairokabi_unsigned {
    wairokabi_refusal refusal;
    uint64_t value;
    size_t next;
} wairokabi_unsigned;

// Reads the unsigned number whose bytes begin at `at`. 1, 2.
wairokabi_unsigned wairokabi_read_unsigned(const uint8_t *s, size_t s_count, size_t at);

// A sign and a size, minus zero too, and the place after them.
typedef struct wairokabi_signed {
    wairokabi_refusal refusal;
    bool minus;
    uint64_t magnitude;
    size_t next;
} wairokabi_signed;

// Reads the signed number whose bytes begin at `at`. 1, 2.
wairokabi_signed wairokabi_read_signed(const uint8_t *s, size_t s_count, size_t at);

// Writes the shortest spelling. 3 above WAIROKABI_MAX_UNSIGNED, 10.
wairokabi_written wairokabi_write_unsigned(uint8_t *out, size_t out_count, uint64_t value);

// Writes the shortest spelling, minus zero too. 3 above WAIROKABI_MAX_SIGNED, 10.
wairokabi_written wairokabi_write_signed(uint8_t *out, size_t out_count, bool minus, uint64_t magnitude);

// ---- text

typedef struct wairokabi_counted {
    uint8_t number;
    wairokabi_units units;
} wairokabi_counted;

// How many UTF-16 units a UTF-8 text has. 6.
wairokabi_counted wairokabi_count_units(const uint8_t *text, size_t text_count);

typedef struct wairokabi_cut {
    uint8_t number;
    wairokabi_bytes bytes;
} wairokabi_cut;

// How many bytes the whole characters from `at` on take that use exactly these units. 7, also at a byte that cannot stand there; what follows the last
// character taken is not looked at.
wairokabi_cut wairokabi_take_text(const uint8_t *text, size_t text_count, size_t at, wairokabi_units units);

// How many bytes stand before a cut after so many units. 6, 7 past the text, 9 inside a pair.
wairokabi_cut wairokabi_cut_text(const uint8_t *text, size_t text_count, wairokabi_units units);

// ---- columns, read: from a place to the next. A place is a plain value: keep it, copy it, read from it again. Only `open` and `next` make one; any
// other is answered too, by what its fields say.

// The next byte, the run's first byte, its value, and how often that still stands.
typedef struct wairokabi_number_place {
    size_t at;
    size_t from;
    uint64_t last;
    uint32_t count;
} wairokabi_number_place;

// The place before the first value of a number column that begins at `at`.
wairokabi_number_place wairokabi_open_numbers(size_t at);

typedef struct wairokabi_number_next {
    wairokabi_refusal refusal;
    uint64_t value;
    wairokabi_number_place place;
} wairokabi_number_next;

// The next value of a number column, and the place after it. 1, 2, 3.
wairokabi_number_next wairokabi_next_number(const uint8_t *column, size_t column_count, wairokabi_number_place place);

// The next byte, the run's first byte, the value before, the difference plus 2^31, and how often it still applies.
typedef struct wairokabi_difference_place {
    size_t at;
    size_t from;
    uint32_t last;
    uint32_t key;
    uint32_t count;
} wairokabi_difference_place;

// The place before the first value of a difference column that begins at `at`.
wairokabi_difference_place wairokabi_open_differences(size_t at);

typedef struct wairokabi_difference_next {
    wairokabi_refusal refusal;
    uint32_t value;
    wairokabi_difference_place place;
} wairokabi_difference_next;

// The next value of a difference column, and the place after it. 1, 2, 3.
wairokabi_difference_next wairokabi_next_difference(const uint8_t *column, size_t column_count, wairokabi_difference_place place);

// The next byte, the run's first byte, its value, and how often that still stands, or that it stands without end.
typedef struct wairokabi_byte_place {
    size_t at;
    size_t from;
    uint8_t last;
    uint32_t count;
    bool endless;
} wairokabi_byte_place;

// The place before the first value of a byte column that begins at `at`.
wairokabi_byte_place wairokabi_open_bytes(size_t at);

typedef struct wairokabi_byte_next {
    wairokabi_refusal refusal;
    uint8_t value;
    wairokabi_byte_place place;
} wairokabi_byte_next;

// The next value of a byte column, and the place after it; the last value, if it has no count, without end. 1, 2, 3.
wairokabi_byte_next wairokabi_next_byte(const uint8_t *column, size_t column_count, wairokabi_byte_place place);

// The next text's first byte, the end of all texts, and the place of the next unit length.
typedef struct wairokabi_string_place {
    size_t at;
    size_t end;
    wairokabi_number_place units;
} wairokabi_string_place;

typedef struct wairokabi_text_opened {
    wairokabi_refusal refusal;
    wairokabi_string_place place;
} wairokabi_text_opened;

// The place before the first text of a text column that begins at `at`. 1, 2, 6: then the place is the column's end, from which every read says 1.
wairokabi_text_opened wairokabi_open_text(const uint8_t *column, size_t column_count, size_t at);

typedef struct wairokabi_text_next {
    wairokabi_refusal refusal;
    wairokabi_part part;
    wairokabi_string_place place;
} wairokabi_text_next;

// Where the next text lies in a text column, and the place after it. 1, 2, 3, 7.
wairokabi_text_next wairokabi_next_text(const uint8_t *column, size_t column_count, wairokabi_string_place place);

// ---- columns, read in bulk
//
// As many values as `out` has room for, or up to the first that cannot be read; zeros behind them. The answer says how many, with number 0, and the place
// after them, from which reading goes on, by these calls or by `next_..`. A refusal is told only where the very first value cannot be read: then no value
// was read, the place is as it was, and `out` is all zero. So a call that gives fewer values than there is room for is followed by one that tells why.

typedef struct wairokabi_numbers_read {
    wairokabi_refusal refusal;
    size_t count;
    wairokabi_number_place place;
} wairokabi_numbers_read;

// The next values of a number column. 1, 2, 3.
wairokabi_numbers_read wairokabi_read_numbers(
    const uint8_t *column, size_t column_count,
    wairokabi_number_place place,
    uint64_t *out, size_t out_count);

typedef struct wairokabi_differences_read {
    wairokabi_refusal refusal;
    size_t count;
    wairokabi_difference_place place;
} wairokabi_differences_read;

// The next values of a difference column. 1, 2, 3.
wairokabi_differences_read wairokabi_read_differences(
    const uint8_t *column, size_t column_count,
    wairokabi_difference_place place,
    uint64_t *out, size_t out_count);

typedef struct wairokabi_bytes_read {
    wairokabi_refusal refusal;
    size_t count;
    wairokabi_byte_place place;
} wairokabi_bytes_read;

// The next values of a byte column. 1, 2, 3.
wairokabi_bytes_read wairokabi_read_bytes(
    const uint8_t *column, size_t column_count,
    wairokabi_byte_place place,
    uint8_t *out, size_t out_count);

typedef struct wairokabi_texts_read {
    wairokabi_refusal refusal;
    size_t count;
    wairokabi_string_place place;
} wairokabi_texts_read;

// Where the next texts lie in a text column, two words each: the place of its first byte, and its length in bytes. 1, 2, 3, 7.
wairokabi_texts_read wairokabi_read_texts(
    const uint8_t *column, size_t column_count,
    wairokabi_string_place place,
    uint64_t *out, size_t out_count);

// ---- columns, written, in the longest runs

// A number column. 3, 10.
wairokabi_written wairokabi_write_numbers(
    uint8_t *out, size_t out_count,
    const uint64_t *values, size_t values_count);

// A difference column of clocks. 3, 13, 10.
wairokabi_written wairokabi_write_differences(
    uint8_t *out, size_t out_count,
    const uint64_t *values, size_t values_count);

// A byte column, its last run without a count. 3, 10.
wairokabi_written wairokabi_write_bytes(
    uint8_t *out, size_t out_count,
    const uint8_t *values, size_t values_count);

// A text column: the text whole, left-over characters too, then the units of each text. 6, 3, 7, 10.
wairokabi_written wairokabi_write_texts(
    uint8_t *out, size_t out_count,
    const uint8_t *text, size_t text_count,
    const uint64_t *units, size_t units_count);

#ifdef __cplusplus
}
#endif

#endif

//! Worked cases through the binding: document 01's C, D, E and M, marks, types and any-lists, the columns F to K, and rows for any update.
mod cases;
use cases::*;
use wairokabi::*;

#[test]
fn case_c_and_d_are_read() {
    for (form, bytes, name, text) in [(1, &C[..], 7, 9), (2, &D[..], 10, 11)] {
        let mut l = lent(ROWS, ROWS, 0);
        let update = read_update(form, bytes, &mut l.rows, &mut l.ranges).unwrap();
        let hi = Block {
            client: 5,
            length: Units(2),
            kind: TEXT,
            has_name: true,
            name: Part { place: name, bytes: Bytes(1) },
            part: Part { place: text, bytes: Bytes(2) },
            ..Block::default()
        };
        assert_eq!(update, Update { blocks: &[hi], ranges: &[] });
        assert!(zero(&l.rows[1..]) && zero(&l.ranges));
        assert_eq!(content(form, bytes, 0), Ok(&b"hi"[..]));
        assert_eq!(content(form, bytes, 0).unwrap().as_ptr(), bytes[text..].as_ptr());
    }
}

#[test]
fn delete_ranges_are_read() {
    let mut l = lent(ROWS, ROWS, 0);
    let update = read_update(1, &GONE, &mut l.rows, &mut l.ranges).unwrap();
    let gc = Block { client: 5, clock: 2, length: Units(3), kind: GC, ..Block::default() };
    let ranges = [Range { client: 7, clock: 3, length: 2 }, Range { client: 7, clock: 9, length: 1 }];
    assert_eq!(update, Update { blocks: &[gc], ranges: &ranges });
    assert!(zero(&l.rows[1..]) && zero(&l.ranges[2..]));
}

#[test]
fn case_e_is_written() {
    for (vector, expected) in [(&HAS_ONE, &E[..]), (&HAS_ALL, &[0x00, 0x00][..])] {
        let mut l = lent(ROWS, ROWS, 64);
        let diff = encode_diff(1, &C, vector, 1, &mut l.rows, &mut l.ranges, &mut l.out).unwrap();
        assert_eq!((diff.bytes, diff.update.blocks.len()), (expected, 1));
        assert!(zero(&l.rows[1..]) && zero(&l.ranges) && zero(&l.out[expected.len()..]));
    }
    let mut l = lent(ROWS, ROWS, 0);
    let cut = read_update(1, &E, &mut l.rows, &mut l.ranges).unwrap().blocks[0];
    assert_eq!((cut.clock, cut.left(), cut.name()), (1, Some(Id { client: 5, clock: 0 }), None));
    assert_eq!(cut.part().unwrap().of(&E), Some(&b"i"[..]));
}

#[test]
fn c_and_d_are_each_other_in_the_other_form() {
    for (form, bytes, to, expected) in [(1, &C[..], 2, &D[..]), (2, &D[..], 1, &C[..])] {
        let mut l = lent(ROWS, ROWS, 64);
        assert_eq!(encode_update(form, bytes, to, &mut l.rows, &mut l.ranges, &mut l.out).unwrap().bytes, expected);
        assert!(zero(&l.out[expected.len()..]));
    }
}

#[test]
fn marks_types_and_values_are_read() {
    let read = |form, bytes: &[u8]| {
        let mut l = lent(ROWS, ROWS, 0);
        let blocks = read_update(form, bytes, &mut l.rows, &mut l.ranges).unwrap().blocks.to_vec();
        assert!(zero(&l.rows[blocks.len()..]) && zero(&l.ranges));
        blocks
    };
    for (form, bytes, value) in [(1, &BOLD_1[..], &b"true"[..]), (2, &BOLD_2, &[0x78])] {
        let [b] = read(form, bytes)[..] else { panic!("one block") };
        assert_eq!((b.kind, b.kind_name(), b.length, b.type_number(), b.type_name()), (FORMAT, "format", Units(1), None, None));
        assert_eq!((b.mark().unwrap().of(bytes), b.part().unwrap().of(bytes)), (Some(&b"bold"[..]), Some(value)));
        assert_eq!(content(form, bytes, 0).unwrap_err().number(), 11);
    }
    for (form, bytes, places) in [(1, &NODES_1[..], [10, 16]), (2, &NODES_2, [17, 17])] {
        let blocks = read(form, bytes);
        assert_eq!(
            blocks.iter().map(|b| (b.type_number(), b.type_name())).collect::<Vec<_>>(),
            [(Some(3), Some("xml element")), (Some(5), Some("xml hook"))]
        );
        assert_eq!(blocks.iter().map(|b| b.mark().unwrap().place).collect::<Vec<_>>(), places);
        assert!(blocks.iter().all(|b| b.kind_name() == "type" && b.part().is_none() && b.mark().unwrap().of(bytes) == Some(b"p")));
    }
    let [b] = read(1, &ONES)[..] else { panic!("one block") };
    assert_eq!((b.kind_name(), b.length, b.mark(), b.part().unwrap().of(&ONES)), ("any", Units(2), None, Some(&ONES[9..14])));
}

#[test]
fn marks_types_and_values_are_written() {
    let written = |form, bytes: &[u8], vector: &[u8], to| {
        let mut l = lent(ROWS, ROWS, 64);
        let answer = encode_diff(form, bytes, vector, to, &mut l.rows, &mut l.ranges, &mut l.out).map(|diff| diff.bytes.to_vec());
        assert!(answer.is_ok() || zero(&l.rows) && zero(&l.out));
        answer.map_err(|refused| (refused.number(), refused.at()))
    };
    assert_eq!((written(1, &NODES_1, &EMPTY, 2), written(2, &NODES_2, &EMPTY, 1)), (Ok(NODES_2.to_vec()), Ok(NODES_1.to_vec())));
    // byte for byte; cut by entries
    assert_eq!(written(1, &ONES, &EMPTY, 1), Ok(ONES.to_vec()));
    assert_eq!(written(1, &ONES, &HAS_ONE, 1), Ok(vec![0x01, 0x01, 0x05, 0x01, 0x88, 0x05, 0x00, 0x01, 0x7d, 0x01, 0x00]));
    // a format stays in its form; one that falls away is no matter
    assert_eq!((written(1, &BOLD_1, &EMPTY, 1), written(2, &BOLD_2, &EMPTY, 2)), (Ok(BOLD_1.to_vec()), Ok(BOLD_2.to_vec())));
    assert_eq!((written(1, &BOLD_1, &EMPTY, 2), written(2, &BOLD_2, &EMPTY, 1)), (Err((19, None)), Err((19, None))));
    assert_eq!(written(2, &BOLD_2, &HAS_ONE, 1), Ok(vec![0, 0]));
}

/// 257 XML elements of different names: too many keys for form 2, and for no other; the same in one list of form 2.
#[test]
fn keys_are_256() {
    let elements = |n: u64| {
        let mut bytes = vec![1];
        bytes.extend(write_unsigned(&mut [0; 9], n).unwrap());
        bytes.extend([5, 0]);
        (0..n).for_each(|k| bytes.extend([7, 1, 1, 0x74, 3, 2, b'a' + (k / 26) as u8, b'a' + (k % 26) as u8]));
        bytes.push(0);
        bytes
    };
    for (n, why) in [(256, None), (257, Some((3, None)))] {
        let bytes = elements(n);
        let mut l = lent(257, 0, 8000);
        assert_eq!(encode_update(1, &bytes, 1, &mut l.rows, &mut l.ranges, &mut l.out).unwrap().bytes, bytes);
        let answer = encode_update(1, &bytes, 2, &mut l.rows, &mut l.ranges, &mut l.out);
        assert_eq!(answer.err().map(|refused| (refused.number(), refused.at())), why);
    }
    let mut l = lent(256, 0, 8000);
    let two = encode_update(1, &elements(256), 2, &mut l.rows, &mut l.ranges, &mut l.out).unwrap().bytes.to_vec();
    let mut l = lent(256, 0, 0);
    assert_eq!(read_update(2, &two, &mut l.rows, &mut l.ranges).unwrap().blocks.len(), 256);
}

#[test]
fn case_m_is_sorted() {
    const NINE: Pending = Pending { client: 9, waits_for: 5, reach: 0 };
    const FIVE: Pending = Pending { client: 5, waits_for: 9, reach: 0 };
    type Case = (&'static [u8], &'static [u64], &'static [(u64, u64)], &'static [Pending]);
    let cases: [Case; 3] =
        [(&BOTH, &[0, 1], &[(9, 1), (5, 1)], &[]), (&WITHOUT, &[], &[(5, 0)], &[FIVE]), (&RING, &[], &[(9, 0), (5, 0)], &[NINE, FIVE])];
    for (update, order, clients, pending) in cases {
        let mut l = lent(ROWS, ROWS, 0);
        let sorted = sort(28, 1, update, &EMPTY, &mut l.rows, &mut l.ranges, &mut l.order, &mut l.counts, &mut l.reaches, &mut l.pending).unwrap();
        assert_eq!((sorted.order, sorted.pending), (order, pending));
        assert_eq!(sorted.counts.iter().map(|c| (c.client, c.taken)).collect::<Vec<_>>(), clients);
        assert_eq!(sorted.reaches.iter().map(|r| (r.client, r.clock)).collect::<Vec<_>>(), clients);
        assert_eq!(sorted.update.blocks.len(), clients.len());
        assert!(zero(&l.order[order.len()..]) && zero(&l.counts[clients.len()..]));
        assert!(zero(&l.reaches[clients.len()..]) && zero(&l.pending[pending.len()..]));
    }
}

#[test]
fn case_c_is_listed() {
    let input: Vec<u8> = [&[1][..], &C].concat();
    let mut out = vec![0xa5; MAX_TEXT];
    let text = list(&input, &mut out).unwrap();
    assert_eq!(text, "update form 1 blocks 1 ranges 0\n5 0 2 text\nend\n");
    let length = text.len();
    assert!(zero(&out[length..]));
    assert_eq!(list(&[], &mut out), Ok("refused 1 at 0\n"));
    assert_eq!(list(&input[..5], &mut out), Ok("refused 1 at 4\n"));
    assert_eq!(list(&[3], &mut out), Ok("refused 12 at 0\n"));
    assert_eq!(list(&[1, 0, 0], &mut out), Ok("empty\n"));
}

#[test]
fn a_vector_is_read() {
    let mut rows = [Entry { client: 7, clock: 7 }; 2];
    assert_eq!(read_state_vector(&HAS_ALL, &mut rows), Ok(&[Entry { client: 5, clock: 2 }][..]));
    assert!(zero(&rows[1..]));
}

#[test]
fn numbers_are_read_and_written() {
    let mut out = [0xa5; 9];
    for value in [0, 127, 128, 16383, 16384, MAX_UNSIGNED] {
        let bytes = write_unsigned(&mut out, value).unwrap();
        assert_eq!(read_unsigned(bytes, 0), Ok((value, bytes.len())));
    }
    for minus in [false, true] {
        for magnitude in [0, 63, 64, MAX_SIGNED] {
            let bytes = write_signed(&mut out, Signed { minus, magnitude }).unwrap();
            assert_eq!(read_signed(bytes, 0), Ok((Signed { minus, magnitude }, bytes.len())));
        }
    }
    assert_eq!(write_unsigned(&mut out, MAX_UNSIGNED + 1).unwrap_err().number(), 3);
    assert!(zero(&out));
}

#[test]
fn columns_are_read_and_written() {
    let mut out = [0xa5; 16];
    for (column, values) in [(&[0x40, 0x03][..], &[0, 0, 0, 0, 0][..]), (&[0x45, 0x00], &[5, 5])] {
        let mut place = open_numbers(0);
        for expected in values {
            let (value, after) = next_number(column, place).unwrap();
            assert_eq!(value, *expected);
            place = after;
        }
        assert_eq!(next_number(column, place).unwrap_err().number(), 1);
        assert_eq!(write_numbers(&mut out, values), Ok(column));
    }
    for (column, values) in [(&[0x03, 0x01][..], [1, 2, 3]), (&[0x0a, 0x41, 0x00], [5, 4, 3])] {
        let mut place = open_differences(0);
        for expected in values {
            let (value, after) = next_difference(column, place).unwrap();
            assert_eq!(u64::from(value), expected);
            place = after;
        }
        assert_eq!(write_differences(&mut out, &values), Ok(column));
    }
    assert_eq!(next_difference(&[0x44], open_differences(0)).unwrap_err().number(), 3);
    assert_eq!(write_bytes(&mut out, &[4, 4, 0]), Ok(&[0x04, 0x01, 0x00][..]));
    let column = [0x03, 0x74, 0x68, 0x69, 0x01, 0x02];
    assert_eq!(write_texts(&mut out, b"thi", &[1, 2]), Ok(&column[..]));
    let (_, place) = next_text(&column, open_text(&column, 0).unwrap()).unwrap();
    let (hi, place) = next_text(&column, place).unwrap();
    assert_eq!(hi.as_ptr(), column[2..].as_ptr());
    assert_eq!(next_text(&column, place).unwrap_err().number(), 1);
}

/// In bulk: what one value after another gives, the room being full or a value that cannot be read ending it.
#[test]
fn columns_are_read_in_bulk() {
    let mut out = [7; 4];
    // 1, 2, 3, then a run of -2 that leads to 1 and then below 0
    let column = [0x03, 0x01, 0x43, 0x01];
    let (values, place) = read_differences(&column, open_differences(0), &mut out[..2]).unwrap();
    assert_eq!(values, [1, 2]);
    let (values, place) = read_differences(&column, place, &mut out).unwrap();
    assert_eq!((values, place.at, place.from, place.count), (&[3, 1][..], 4, 2, 2));
    assert_eq!(out, [3, 1, 0, 0]);
    assert_eq!(read_differences(&column, place, &mut out).unwrap_err().number(), 3);
    assert_eq!(out, [0; 4]);
    // no room: nothing is read and nothing refused
    assert_eq!(read_numbers(&[], open_numbers(0), &mut []), Ok((&[][..], open_numbers(0))));
    assert_eq!(read_numbers(&[], open_numbers(0), &mut out).unwrap_err().number(), 1);
    let mut bytes = [9; 5];
    let (values, place) = read_bytes(&[0x04, 0x01, 0x00], open_bytes(0), &mut bytes).unwrap();
    assert_eq!((values, place.endless), (&[4, 4, 0, 0, 0][..], true));
    // "t", then two units of "h"
    let column = [0x02, 0x74, 0x68, 0x01, 0x02];
    let mut texts = [TextPart { place: 9, bytes: 9 }; 3];
    let (read, place) = read_texts(&column, open_text(&column, 0).unwrap(), &mut texts).unwrap();
    assert_eq!(read, [TextPart { place: 1, bytes: 1 }]);
    assert_eq!(texts[1..], [TextPart::default(); 2]);
    assert_eq!(read_texts(&column, place, &mut texts).unwrap_err().number(), 7);
}

/// A place that no reading made is answered too: here past the column, where a text of no units is empty.
#[test]
fn a_place_past_the_column_has_no_text() {
    let column = [0x00, 0x00];
    let mut place = open_text(&column, 0).unwrap();
    place.at = usize::MAX;
    place.end = usize::MAX;
    assert_eq!(next_text(&column, place).unwrap().0, b"");
}

/// The shortest blocks and ranges, as many as the bytes allow.
#[test]
fn rows_for_any_update() {
    for n in [1, 127, 128, 16384, MAX_BLOCKS] {
        let mut bytes = vec![1];
        let mut number = [0; 9];
        bytes.extend(write_unsigned(&mut number, n as u64).unwrap());
        bytes.extend([5, 0]);
        bytes.extend([0x00, 0x00].repeat(n));
        bytes.extend([1, 7, 60]);
        bytes.extend((0..60).flat_map(|i| [2 * i, 1]));
        let (mut rows, mut ranges) = (rows_for(1, &bytes), ranges_for(&bytes));
        let update = read_update(1, &bytes, &mut rows, &mut ranges).unwrap();
        assert_eq!((update.blocks.len(), update.ranges.len()), (n, 60));
    }
    // form 2: 65,535 GCs of no length, out of runs
    let bytes =
        [0x00, 0x00, 0x01, 0x05, 0x00, 0x00, 0x01, 0x00, 0x01, 0x00, 0x00, 0x00, 0x04, 0x40, 0xfd, 0xff, 0x03, 0x01, 0xff, 0xff, 0x03, 0x00, 0x00];
    let (mut rows, mut ranges) = (rows_for(2, &bytes), ranges_for(&bytes));
    assert_eq!(read_update(2, &bytes, &mut rows, &mut ranges).unwrap().blocks.len(), MAX_BLOCKS);
}

/// Docs/FORMAT.md, "A line behind the wrong reading", in both forms: where z's numbers come from.
#[test]
fn the_example_of_march_is_explained() {
    const FORM_2: [u8; 30] = [0, 0, 3, 5, 0x49, 3, 2, 3, 1, 2, 4, 2, 3, 0xc4, 1, 0x84, 6, 3, 0x78, 0x79, 0x7a, 0x41, 1, 0, 0, 0, 1, 3, 0, 0];
    const FORM_1: [u8; 24] = [1, 3, 5, 0, 0xc4, 9, 1, 9, 2, 1, 0x78, 0xc4, 9, 2, 9, 3, 1, 0x79, 0x84, 9, 3, 1, 0x7a, 0];
    let line = |field: Field, value, place, bytes| Line { field: field as u64, value, place, bytes, ..Line::default() };
    let clock = Line { sign: 1, size: 2, ..line(Field::Clock, 2, 0, 0) };
    let mut out = [Line { field: 1, ..Line::default() }; MAX_LINES + 1];
    let lines = explain(2, &FORM_2, 2, &mut out).unwrap();
    let z = [
        line(Field::BlockCount, 3, 27, 1),
        Line { source: 1, which: 1, of: 1, ..line(Field::Client, 5, 3, 1) },
        line(Field::FirstClock, 0, 28, 1),
        clock,
        Line { source: 2, ..line(Field::Info, 0x84, 15, 1) },
        Line { source: 1, which: 5, of: 5, ..line(Field::LeftClient, 9, 4, 2) },
        Line { source: 1, which: 3, of: 3, base: 2, sign: 1, size: 1, ..line(Field::LeftClock, 3, 7, 2) },
        Line { source: 1, which: 3, of: 3, part_place: 20, part_bytes: 1, ..line(Field::Text, 1, 21, 2) },
    ];
    assert_eq!(lines, z);
    assert_eq!(
        lines.iter().map(|l| l.field().unwrap().name()).collect::<Vec<_>>().join(", "),
        "block count, client, first clock, clock, info, left client, left clock, text"
    );
    assert!(out[8..].iter().all(|l| *l == Line::default()));
    let lines = explain(1, &FORM_1, 2, &mut out).unwrap();
    assert_eq!(
        lines[4..],
        [
            line(Field::Info, 0x84, 18, 1),
            line(Field::LeftClient, 9, 19, 1),
            line(Field::LeftClock, 3, 20, 1),
            Line { part_place: 22, part_bytes: 1, ..line(Field::Text, 1, 21, 1) }
        ]
    );
    assert_eq!((lines[3], lines[6].difference(), lines[6].stand()), (clock, None, Stand::InLine));
    assert_eq!((lines[3].stand(), lines[3].drawn(), lines[3].difference()), (Stand::Nowhere, None, Some((0, 2))));
}

/// A key of form 2 that goes back to one read before: its number falls, and it has one line.
#[test]
fn a_key_read_before_is_explained() {
    let update = [0, 2, 0x0a, 0x4a, 2, 0x45, 0, 1, 0, 0, 3, 6, 0, 0x86, 5, 2, 0x74, 0x62, 0x41, 0, 1, 1, 0, 0, 1, 2, 0, 0x78, 0x78, 0];
    let mut out = [Line::default(); MAX_LINES];
    let keys = |lines: &[Line]| {
        lines
            .iter()
            .filter(|l| l.field >= Field::MarkKey as u64)
            .map(|l| (l.field().unwrap(), l.value, l.difference(), l.part().unwrap()))
            .collect::<Vec<_>>()
    };
    let b = Part { place: 17, bytes: Bytes(1) };
    let value = |place| (Field::MarkValue, 1, None, Part { place, bytes: Bytes(1) });
    assert_eq!(keys(explain(2, &update, 0, &mut out).unwrap()), [(Field::MarkKey, 5, Some((0, 5)), b), (Field::KeyText, 1, None, b), value(27)]);
    assert_eq!(keys(explain(2, &update, 1, &mut out).unwrap()), [(Field::MarkKey, 0, Some((5, -5)), b), value(28)]);
}

//! Refusals through the binding: each number from an update with the byte that it blames, zeros in all that was lent, and tables that are exactly enough or
//! one short.
mod cases;
use cases::*;
use wairokabi::*;

/// The number of a refusal, and the byte that it blames.
fn why<T: std::fmt::Debug>(answer: Result<T, Refused>) -> (u8, Option<usize>) {
    let refused = answer.unwrap_err();
    (refused.number(), refused.at())
}

/// An update of this form is refused so by each call that reads it, before the vector is; all that was lent is zero then.
fn refuses(form: u8, update: &[u8], number: u8, at: Option<usize>) {
    const BAD: [u8; 1] = [0x41];
    let mut l = lent(ROWS, ROWS, 64);
    assert_eq!(why(read_update(form, update, &mut l.rows, &mut l.ranges)), (number, at), "{update:02x?}");
    assert!(zero(&l.rows) && zero(&l.ranges));
    assert_eq!(why(content(form, update, 0)), (number, at));
    let mut lines = [Line { field: 1, ..Line::default() }; 2];
    assert_eq!(why(explain(form, update, 0, &mut lines)), (number, at));
    assert!(lines.iter().all(|l| *l == Line::default()));
    let mut l = lent(ROWS, ROWS, 64);
    assert_eq!(why(encode_update(form, update, 1, &mut l.rows, &mut l.ranges, &mut l.out)), (number, at));
    assert!(zero(&l.rows) && zero(&l.ranges) && zero(&l.out));
    let mut l = lent(ROWS, ROWS, 64);
    assert_eq!(why(encode_diff(form, update, &BAD, 1, &mut l.rows, &mut l.ranges, &mut l.out)), (number, at));
    assert!(zero(&l.rows) && zero(&l.ranges) && zero(&l.out));
    let mut l = lent(ROWS, ROWS, 0);
    let refused = sort(28, form, update, &BAD, &mut l.rows, &mut l.ranges, &mut l.order, &mut l.counts, &mut l.reaches, &mut l.pending);
    assert_eq!(why(refused), (number, at));
    assert!(zero(&l.rows) && zero(&l.ranges) && zero(&l.order) && zero(&l.counts) && zero(&l.reaches) && zero(&l.pending));
}

#[test]
fn updates_are_refused() {
    for end in 0..C.len() {
        refuses(1, &C[..end], 1, Some(end));
    }
    for end in 0..D.len() {
        refuses(2, &D[..end], 1, Some(end));
    }
    refuses(1, &[0x80; 10], 2, Some(0));
    refuses(1, &[0x41], 3, Some(0)); // 65 sections
    refuses(1, &vec![0; MAX_UPDATE + 1], 3, None);
    refuses(1, &vec![0x41; MAX_UPDATE + 1], 3, None);
    refuses(1, &[0x02, 0x01, 0x05, 0x00, 0x00, 0x01, 0x01, 0x05], 4, Some(7));
    refuses(1, &[0x01, 0x01, 0x05, 0x00, 0x82, 0x09, 0x00], 5, Some(4));
    refuses(1, &[0x01, 0x01, 0x05, 0x00, 0x04, 0x01, 0x01, 0xff], 6, Some(7));
    // type 7; an any-list with tag 5, with a string that is not UTF-8, with seventeen arrays
    const NAMED: [u8; 4] = [0x01, 0x01, 0x05, 0x00];
    refuses(1, &[&NAMED[..], &[0x07, 0x01, 0x01, 0x74, 0x07]].concat(), 5, Some(4));
    refuses(1, &[&NAMED[..], &[0x08, 0x01, 0x01, 0x74, 0x01, 0x05]].concat(), 5, Some(4));
    refuses(1, &[&NAMED[..], &[0x08, 0x01, 0x01, 0x74, 0x01, 0x77, 0x01, 0xff]].concat(), 6, Some(11));
    refuses(1, &[&NAMED[..], &[0x08, 0x01, 0x01, 0x74, 0x01], &[0x75, 0x01].repeat(16), &[0x75]].concat(), 3, Some(41));
    for end in 0..BOLD_1.len() {
        refuses(1, &BOLD_1[..end], 1, Some(end));
    }
    for end in 0..BOLD_2.len() {
        refuses(2, &BOLD_2[..end], 1, Some(end));
    }
    refuses(0, &C, 12, None);
    refuses(3, &[], 12, None);
}

/// An end over the limit: of a block it blames the info byte, of a range its clock.
#[test]
fn strictly_no_byte_stays() {
    let strict = |form, update: &[u8]| {
        let mut l = lent(ROWS, ROWS, 0);
        let answer = read_update_strict(form, update, &mut l.rows, &mut l.ranges).map(|u| (u.blocks.len(), u.ranges.len()));
        assert!(answer.is_ok() || zero(&l.rows) && zero(&l.ranges));
        answer
    };
    assert_eq!((strict(1, &C), strict(2, &D), strict(1, &GONE)), (Ok((1, 0)), Ok((1, 0)), Ok((1, 2))));
    for end in 0..D.len() {
        assert_eq!(why(strict(2, &D[..end])), (1, Some(end)));
    }
    assert_eq!(why(strict(1, &[&C[..], &[0x07]].concat())), (15, Some(C.len())));
    assert_eq!(why(strict(2, &[&D[..], &[0x07]].concat())), (15, Some(D.len())));
    assert_eq!(why(strict(2, &[&[0x01], &D[1..]].concat())), (14, Some(0)));
    assert_eq!(why(strict(2, &[0x01])), (14, Some(0)));
    assert_eq!(why(strict(3, &[0x01])), (12, None));
    // a text that no block takes, and its unit length behind it
    assert_eq!(why(strict(2, &[0, 0, 0, 0, 0, 0, 3, 1, 0x61, 1, 0, 0, 0, 0, 0])), (15, Some(8)));
}

#[test]
fn ends_are_refused() {
    refuses(1, &[0x01, 0x01, 0x05, 0xff, 0xff, 0xff, 0xff, 0x07, 0x00, 0x01], 3, Some(8));
    refuses(1, &[0x00, 0x01, 0x05, 0x01, 0xff, 0xff, 0xff, 0xff, 0x07, 0x01], 3, Some(4));
}

/// Case D with one byte changed: what a column refuses.
#[test]
fn columns_of_an_update_are_refused() {
    // a run without its count: the client column's end; content 5; a byte of the text; one unit more than the text has; 65 clients deleted, in the rest
    for (place, byte, number, at) in [(3, 0x45, 1, 4), (7, 0x05, 5, 7), (11, 0xff, 6, 10), (14, 0x03, 7, 11), (22, 0x41, 3, 22)] {
        let mut update = D;
        update[place] = byte;
        refuses(2, &update, number, Some(at));
    }
    // the length of the client column
    refuses(2, &[[0; 2].as_slice(), &[0x80; 9]].concat(), 2, Some(2));
    // two sections whose clients are one run, 45 00: the second blames the run's first byte
    let run = [0x00, 0x00, 0x02, 0x45, 0x00, 0x00, 0x00, 0x01, 0x00, 0x01, 0x00, 0x00, 0x00, 0x02, 0x41, 0x00, 0x02, 0x01, 0x00, 0x01, 0x00, 0x00];
    refuses(2, &run, 4, Some(3));
}

/// Place 0 may be no byte: a vector refused by the number that the update's first byte could be refused by.
#[test]
fn vectors_blame_no_byte() {
    for (vector, number) in [(&[][..], 1), (&[0x80; 9], 2), (&[0x41], 3), (&[0x02, 0x05, 0x00, 0x05, 0x00], 4)] {
        assert_eq!(why(read_state_vector(vector, &mut [Entry::default(); 2])), (number, None));
        let mut l = lent(ROWS, ROWS, 64);
        assert_eq!(why(encode_diff(1, &C, vector, 1, &mut l.rows, &mut l.ranges, &mut l.out)), (number, None));
        assert!(zero(&l.rows) && zero(&l.out));
        let refused = sort(28, 2, &D, vector, &mut l.rows, &mut l.ranges, &mut l.order, &mut l.counts, &mut l.reaches, &mut l.pending);
        assert_eq!(why(refused), (number, None));
    }
}

#[test]
fn rows_are_enough_or_one_short() {
    // the block's info byte is at 4, the second range's clock at 11
    for (rows, ranges, blamed) in [(1, 2, None), (0, 2, Some(4)), (1, 1, Some(11))] {
        let mut l = lent(rows, ranges, 0);
        let answer = read_update(1, &GONE, &mut l.rows, &mut l.ranges).map(|u| (u.blocks.len(), u.ranges.len()));
        if blamed.is_none() {
            assert_eq!(answer, Ok((1, 2)));
        } else {
            assert_eq!(why(answer), (8, blamed));
            assert!(zero(&l.rows) && zero(&l.ranges));
        }
    }
}

#[test]
fn output_is_enough_or_one_short() {
    let mut l = lent(1, 0, E.len());
    assert_eq!(encode_diff(1, &C, &HAS_ONE, 1, &mut l.rows, &mut l.ranges, &mut l.out).unwrap().bytes, E);
    let mut l = lent(1, 0, E.len() - 1);
    let refused = encode_diff(1, &C, &HAS_ONE, 1, &mut l.rows, &mut l.ranges, &mut l.out).unwrap_err();
    assert_eq!(refused.to_string(), "refused 10: output needs more bytes than lent");
    assert!(zero(&l.rows) && zero(&l.out));
}

#[test]
fn reports_are_enough_or_one_short() {
    // words of the order, rows of counts, reaches and pending; the number
    for (order, counts, reaches, pending, number) in [(2, 2, 2, 0, 0), (1, 2, 2, 0, 8), (2, 1, 2, 0, 10), (2, 2, 1, 0, 10), (1, 1, 1, 0, 8)] {
        let mut l = lent(2, 0, 0);
        let (order, counts, reaches, pending) =
            (&mut l.order[..order], &mut l.counts[..counts], &mut l.reaches[..reaches], &mut l.pending[..pending]);
        let answer = sort(28, 1, &BOTH, &EMPTY, &mut l.rows, &mut l.ranges, order, counts, reaches, pending);
        assert_eq!(answer.is_ok(), number == 0);
        if number != 0 {
            assert_eq!(why(answer), (number, None));
            assert!(zero(&l.rows) && zero(order) && zero(counts) && zero(reaches));
        }
    }
    let mut l = lent(1, 0, 0);
    let answer = sort(28, 1, &WITHOUT, &EMPTY, &mut l.rows, &mut [], &mut [], &mut l.counts, &mut l.reaches, &mut []);
    assert_eq!(why(answer), (10, None));
}

#[test]
fn others_are_refused() {
    let mut rows = [Entry { client: 7, clock: 7 }; 2];
    assert_eq!(why(read_state_vector(&[0x01, 0x05], &mut rows)), (1, None));
    assert_eq!(why(read_state_vector(&HAS_ONE, &mut rows[..0])), (10, None));
    assert!(zero(&rows));
    assert_eq!(why(content(1, &C, 1)), (11, None));
    assert_eq!(why(explain(1, &C, 1, &mut [])), (11, None));
    assert_eq!(why(explain(1, &C, 0, &mut [Line::default(); 7])), (10, None));
    assert_eq!(explain(1, &C, 0, &mut [Line::default(); 8]).map(|lines| lines.len()), Ok(8));
    assert_eq!(why(content(1, &GONE, 0)), (11, None));
    // form 1, a text "😀", and a vector that has half of it
    let face = [0x01, 0x01, 0x05, 0x00, 0x04, 0x01, 0x01, 0x74, 0x04, 0xf0, 0x9f, 0x98, 0x80, 0x00];
    let mut l = lent(1, 0, 64);
    assert_eq!(why(encode_diff(1, &face, &HAS_ONE, 1, &mut l.rows, &mut l.ranges, &mut l.out)), (9, None));
    assert!(zero(&l.rows) && zero(&l.out));
    assert_eq!(why(take_text(&face[9..13], 0, Units(1))), (7, None));
    let mut out = [0xa5; 16];
    assert_eq!(why(write_differences(&mut out, &[0, 1 << 30])), (13, None));
    assert!(zero(&out));
    assert_eq!(why(list(&[1, 0, 0], &mut out[..3])), (10, None));
}

/// Numbers and columns count in the bytes that they are read from; place 0 is a byte there.
#[test]
fn numbers_and_columns_are_refused() {
    let nine = [0x05, 0x80, 0x80, 0x80, 0x80, 0x80, 0x80, 0x80, 0x80, 0x80];
    assert_eq!(
        (why(read_unsigned(&nine, 1)), why(read_unsigned(&nine[1..], 0)), why(read_unsigned(&[5], 9))),
        ((2, Some(1)), (2, Some(0)), (1, Some(1)))
    );
    assert_eq!((why(read_signed(&nine, 1)), why(read_signed(&nine[..4], 1)), why(read_signed(&[], 0))), ((2, Some(1)), (1, Some(4)), (1, Some(0))));
    // 5, then a run of 2^53, over the limit
    let over = [0x05, 0xc0, 0x80, 0x80, 0x80, 0x80, 0x80, 0x80, 0x20, 0x00];
    let (_, place) = next_number(&over, open_numbers(0)).unwrap();
    assert_eq!(why(next_number(&over, place)), (3, Some(1)));
    assert_eq!(why(next_difference(&[0x44], open_differences(0))), (3, Some(0)));
    // a count over its limit blames itself
    assert_eq!(why(next_byte(&[0x04, 0xfe, 0xff, 0xff, 0xff, 0x07], open_bytes(0))), (3, Some(1)));
    assert_eq!((why(open_text(&[0x05, 0x74], 0)), why(open_text(&[0x01, 0xff, 0x01], 0))), ((1, Some(2)), (6, Some(1))));
    // two units of "t"; one unit behind it
    let (two, one) = ([0x01, 0x74, 0x02], [0x01, 0x74, 0x41, 0x00]);
    assert_eq!(why(next_text(&two, open_text(&two, 0).unwrap())), (7, Some(1)));
    let (_, place) = next_text(&one, open_text(&one, 0).unwrap()).unwrap();
    assert_eq!(why(next_text(&one, place)), (7, Some(2)));
}

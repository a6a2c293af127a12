//! Yjs's own published fixtures through the binding, all rows lent: the array and the map read; the text has embeds, which are content 5, and is refused at the
//! first of them. What they read to is held to Yjs by `tools/cases`.
use std::fs;
use wairokabi::*;

/// The bytes of a base64 text.
fn of_base64(text: &str) -> Vec<u8> {
    const DIGITS: &str = "ABCDEFGHIJKLMNOPQRSTUVWXYZabcdefghijklmnopqrstuvwxyz0123456789+/";
    let digits: Vec<usize> = text.chars().filter(|c| *c != '=').map(|c| DIGITS.find(c).expect("a base64 digit")).collect();
    let bytes = |four: &[usize]| {
        let bits = four.iter().fold(0, |bits, digit| bits << 6 | digit) << (6 * (4 - four.len()));
        [bits >> 16, bits >> 8, bits].map(|byte| byte as u8)[..four.len() - 1].to_vec()
    };
    digits.chunks(4).flat_map(bytes).collect()
}

/// Name and update of each fixture.
fn fixtures() -> Vec<(String, Vec<u8>)> {
    let path = concat!(env!("CARGO_MANIFEST_DIR"), "/../../tools/cases/yjs-fixtures.json");
    let text = fs::read_to_string(path).unwrap();
    let of = |key: &str| text.split(&format!("\"{key}\":")).skip(1).map(|x| x.split('"').nth(1).unwrap().to_string()).collect::<Vec<_>>();
    of("name").into_iter().zip(of("base64").iter().map(|x| of_base64(x))).collect()
}

#[test]
fn fixtures_are_read() {
    let all = fixtures();
    assert_eq!(all.len(), 3);
    for (name, bytes) in all {
        let (mut rows, mut ranges, mut out) = (rows_for(1, &bytes), ranges_for(&bytes), vec![0; 4 * bytes.len()]);
        let answer = read_update(1, &bytes, &mut rows, &mut ranges);
        if name.contains("Text") {
            assert_eq!(answer.unwrap_err().number(), 5);
            continue;
        }
        let (blocks, values) = (answer.unwrap().blocks.len(), answer.unwrap().blocks.iter().filter(|b| b.kind == ANY).count());
        assert_eq!((blocks, values), if name.contains("Array") { (500, 241) } else { (514, 2) }, "{name}");
        // form 2 and back
        let two = encode_update(1, &bytes, 2, &mut rows, &mut ranges, &mut out).unwrap().bytes.to_vec();
        let one = encode_update(1, &bytes, 1, &mut rows, &mut ranges, &mut out).unwrap().bytes.to_vec();
        assert_eq!(encode_update(2, &two, 1, &mut rows, &mut ranges, &mut out).unwrap().bytes, one);
    }
}

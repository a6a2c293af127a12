//! Any-values as JSON, for the command. The bytes are a part of an update that the library has read, so that they hold whole values, at most sixteen deep; of
//! any other bytes as much is shown as they hold. What JSON does not have is written as JavaScript writes it: `undefined`, `NaN`, `5n`; bytes as `hex:..`.
use std::fmt::Write as _;

/// So many values, with commas between them; a value that is not there is `..`.
pub fn values(bytes: &[u8], count: u64) -> String {
    let mut rest = Rest { bytes, at: 0 };
    let mut text = String::new();
    for n in 0..count {
        if n > 0 {
            text.push(',');
        }
        match rest.value(0) {
            Some(value) => text.push_str(&value),
            None => return text + "..",
        }
    }
    text
}

/// A text as a JSON string.
pub fn string(text: &str) -> String {
    let mut out = String::from('"');
    for c in text.chars() {
        match c {
            '"' | '\\' => out.extend(['\\', c]),
            '\n' => out.push_str("\\n"),
            '\t' => out.push_str("\\t"),
            '\r' => out.push_str("\\r"),
            c if c.is_control() => drop(write!(out, "\\u{:04x}", c as u32)),
            c => out.push(c),
        }
    }
    out + "\""
}

/// A number as JavaScript writes it, where it is short; a whole one without a point.
fn float(value: f64) -> String {
    match value {
        v if v.is_nan() => "NaN".to_string(),
        v if v.is_infinite() => format!("{}Infinity", if v < 0.0 { "-" } else { "" }),
        v if v.fract() == 0.0 && v.abs() < 1e21 => format!("{v:.0}"),
        v => format!("{v:?}"),
    }
}

/// Deeper than any value that the library reads.
const DEEPEST: usize = 16;

struct Rest<'u> {
    bytes: &'u [u8],
    at: usize,
}

impl<'u> Rest<'u> {
    fn take(&mut self, count: usize) -> Option<&'u [u8]> {
        let to = self.at.checked_add(count)?;
        let part = self.bytes.get(self.at..to)?;
        self.at = to;
        Some(part)
    }

    /// A number of at most nine bytes, `low` bits in the first.
    fn number(&mut self, low: u32) -> Option<u64> {
        let first = self.take(1)?[0];
        let (mut value, mut shift, mut last) = (u64::from(first) & ((1 << low) - 1), low, first);
        for _ in 1..9 {
            if last < 128 {
                break;
            }
            last = self.take(1)?[0];
            value |= u64::from(last & 127) << shift;
            shift += 7;
        }
        (last < 128).then_some(value)
    }

    fn sized(&mut self) -> Option<&'u [u8]> {
        let size = self.number(7)?;
        self.take(usize::try_from(size).ok()?)
    }

    fn text(&mut self) -> Option<String> {
        Some(string(&String::from_utf8_lossy(self.sized()?)))
    }

    fn eight(&mut self) -> Option<[u8; 8]> {
        self.take(8)?.try_into().ok()
    }

    /// A minus in front of a size, minus zero too.
    fn integer(&mut self) -> Option<String> {
        let minus = self.bytes.get(self.at)? & 64 != 0;
        Some(format!("{}{}", if minus { "-" } else { "" }, self.number(6)?))
    }

    fn value(&mut self, open: usize) -> Option<String> {
        Some(match self.take(1)?[0] {
            127 => "undefined".to_string(),
            126 => "null".to_string(),
            125 => self.integer()?,
            124 => float(f32::from_be_bytes(self.take(4)?.try_into().ok()?).into()),
            123 => float(f64::from_be_bytes(self.eight()?)),
            122 => format!("{}n", i64::from_be_bytes(self.eight()?)),
            121 => "false".to_string(),
            120 => "true".to_string(),
            119 => self.text()?,
            118 => format!("{{{}}}", self.list(open, |rest, open| Some(format!("{}:{}", rest.text()?, rest.value(open)?)))?),
            117 => format!("[{}]", self.list(open, |rest, open| rest.value(open))?),
            116 => format!("hex:{}", self.sized()?.iter().map(|b| format!("{b:02x}")).collect::<String>()),
            _ => return None,
        })
    }

    fn list(&mut self, open: usize, entry: impl Fn(&mut Self, usize) -> Option<String>) -> Option<String> {
        if open == DEEPEST {
            return None;
        }
        let count = self.number(7)?;
        let mut entries = Vec::new();
        for _ in 0..count {
            entries.push(entry(self, open + 1)?);
        }
        Some(entries.join(","))
    }
}

#[cfg(test)]
mod tests {
    use super::*;

    #[test]
    fn each_value_is_shown() {
        for (bytes, shown) in [
            (&[127][..], "undefined"),
            (&[126], "null"),
            (&[125, 5], "5"),
            (&[125, 0xc5, 0x01], "-69"),
            (&[125, 0x40], "-0"),
            (&[125, 0xbf, 0xff, 0xff, 0xff, 0xff, 0xff, 0xff, 0xff, 0x7f], "4611686018427387903"),
            (&[124, 0x3f, 0x00, 0x00, 0x00], "0.5"),
            (&[124, 0x4f, 0x80, 0x00, 0x00], "4294967296"),
            (&[123, 0x7e, 0x37, 0xe4, 0x3c, 0x88, 0x00, 0x75, 0x9c], "1e300"),
            (&[123, 0x7f, 0xf0, 0, 0, 0, 0, 0, 0], "Infinity"),
            (&[123, 0xff, 0xf0, 0, 0, 0, 0, 0, 0], "-Infinity"),
            (&[123, 0x7f, 0xf8, 0, 0, 0, 0, 0, 0], "NaN"),
            (&[122, 0xff, 0xff, 0xff, 0xff, 0xff, 0xff, 0xff, 0xfe], "-2n"),
            (&[121], "false"),
            (&[120], "true"),
            (&[119, 3, 0xc3, 0xa9, b'"'], "\"é\\\"\""),
            (&[118, 0], "{}"),
            (&[118, 2, 1, b'a', 126, 0, 117, 0], "{\"a\":null,\"\":[]}"),
            (&[117, 2, 125, 1, 118, 1, 1, b'b', 120], "[1,{\"b\":true}]"),
            (&[116, 2, 0xff, 0x00], "hex:ff00"),
        ] {
            assert_eq!(values(bytes, 1), shown);
        }
    }

    #[test]
    fn several_are_shown_in_turn() {
        assert_eq!(values(&[], 0), "");
        assert_eq!(values(&[125, 1, 119, 1, b'a', 126], 3), "1,\"a\",null");
        assert_eq!(values(&[125, 1], 2), "1,..");
    }

    /// Sixteen arrays, and one more; bytes that hold no value, and a count without end.
    #[test]
    fn what_is_no_value_ends() {
        let nested = |n| [[117, 1].repeat(n), vec![126]].concat();
        assert_eq!(values(&nested(16), 1), format!("{}null{}", "[".repeat(16), "]".repeat(16)));
        assert_eq!(values(&nested(17), 1), "..");
        for bytes in [
            &[][..],
            &[5],
            &[125],
            &[125, 0x80],
            &[119, 9],
            &[117, 0xff, 0xff, 0xff, 0xff, 0x0f, 126],
            &[0x80],
            &[116, 0xff, 0xff, 0xff, 0xff, 0xff, 0xff, 0xff, 0xff, 0x7f],
        ] {
            assert_eq!(values(bytes, 1), "..");
        }
    }

    #[test]
    fn strings_stay_on_a_line() {
        assert_eq!(string("a\n\t\u{0}\u{7f}\\"), "\"a\\n\\t\\u0000\\u007f\\\\\"");
    }
}

// yrs REQUESTS START: answers the requests of a file from number START on with yrs's text, a line each, as compare/ours.c does with the library; an error is
// `error`, a panic `panic`. encoding/read.rs and updates/decoder.rs are yrs's files, unchanged; rest.rs is the rest of bench/yrs, which compare/run puts there.
#![allow(dead_code, unused, unexpected_cfgs)]
pub mod encoding {
    pub mod read {
        include!("encoding/read.rs");
    }
    pub mod varint {
        include!("varint.rs");
    }
}
pub mod updates {
    pub mod decoder {
        include!("updates/decoder.rs");

        // So many values of a column, 0 numbers, 1 differences, 2 bytes, 3 texts, put into `out`: what it ended with.
        pub fn column(kind: u8, bytes: &[u8], most: usize, out: &mut Vec<String>) -> Result<(), Error> {
            let c = Cursor::new(bytes);
            match kind {
                0 => {
                    let mut d = UIntOptRleDecoder::new(c);
                    for _ in 0..most {
                        out.push(d.read_u64()?.to_string())
                    }
                }
                1 => {
                    let mut d = IntDiffOptRleDecoder::new(c);
                    for _ in 0..most {
                        out.push(d.read_u32()?.to_string())
                    }
                }
                2 => {
                    let mut d = RleDecoder::new(c);
                    for _ in 0..most {
                        out.push(d.read_u8()?.to_string())
                    }
                }
                _ => {
                    let mut d = StringDecoder::new(c)?;
                    for _ in 0..most {
                        out.push(crate::hex(d.read_str()?.as_bytes()))
                    }
                }
            }
            Ok(())
        }
    }
}
pub mod block {
    pub use crate::ClientID;
}
pub use encoding::read::{Cursor, Error, Read};
use encoding::varint::{Signed, SignedVarInt, VarInt};
pub use updates::decoder::{Decode, Decoder, DecoderV1, DecoderV2};
type UpdateError = Error;

// Stand-in for any.rs: a value is its bytes, gone through by lib0's tags and kept as they stand, 1,000 deep at most; JSON text is not looked into.
#[derive(PartialEq, Clone)]
pub struct Any(Vec<u8>);
struct Kept<'r, R>(&'r mut R, Vec<u8>);
impl<'r, R: Read> Kept<'r, R> {
    fn byte(&mut self) -> Result<u8, Error> {
        let b = self.0.read_u8()?;
        self.1.push(b);
        Ok(b)
    }
    fn bytes(&mut self, n: u64) -> Result<usize, Error> {
        let n = usize::try_from(n).map_err(|_| Error::InvalidVarInt)?;
        self.1.extend_from_slice(self.0.read_exact(n)?);
        Ok(n)
    }
    fn number(&mut self, low: u32) -> Result<u64, Error> {
        let first = self.byte()?;
        let (mut n, mut b, mut shift) = (first as u64 & ((1 << low) - 1), first, low);
        while b >= 128 {
            if shift >= low + 8 * 7 {
                return Err(Error::InvalidVarInt);
            }
            b = self.byte()?;
            n |= ((b & 127) as u64) << shift;
            shift += 7
        }
        Ok(n)
    }
    fn text(&mut self) -> Result<(), Error> {
        let n = self.number(7)?;
        let n = self.bytes(n)?;
        std::str::from_utf8(&self.1[self.1.len() - n..]).map(|_| ()).map_err(|_| Error::UnexpectedValue)
    }
    fn value(&mut self, deep: u32) -> Result<(), Error> {
        match self.byte()? {
            127 | 126 | 121 | 120 => Ok(()),
            125 => self.number(6).map(|_| ()),
            124 => self.bytes(4).map(|_| ()),
            123 | 122 => self.bytes(8).map(|_| ()),
            119 => self.text(),
            116 => {
                let n = self.number(7)?;
                self.bytes(n).map(|_| ())
            }
            tag @ (117 | 118) if deep < 1000 => {
                for _ in 0..self.number(7)? {
                    if tag == 118 {
                        self.text()?
                    }
                    self.value(deep + 1)?
                }
                Ok(())
            }
            _ => Err(Error::UnexpectedValue),
        }
    }
}
impl Any {
    fn decode<R: Read>(r: &mut R) -> Result<Any, Error> {
        let mut kept = Kept(r, Vec::new());
        kept.value(0)?;
        Ok(Any(kept.1))
    }
    fn from_json(s: &str) -> Result<Any, Error> {
        Ok(Any(s.as_bytes().to_vec()))
    }
    fn encode(&self, out: &mut Vec<u8>) {
        out.extend_from_slice(&self.0)
    }
    fn to_json(&self, out: &mut Vec<u8>) {
        out.extend_from_slice(&self.0)
    }
}
include!(env!("YRS_REST"));

// ---- the requests

const MOST: usize = 64; // values of a column

fn hex(b: &[u8]) -> String {
    let digits = b.iter().map(|x| format!("{x:02x}")).collect::<String>();
    format!("<{digits}>")
}
fn shown(id: Option<&ID>) -> String {
    id.map_or("none".to_string(), |i| format!("{}:{}", i.client.get(), i.clock))
}
fn record(b: &Block) -> String {
    let place = |id: ID, len: u32| format!("{} {} {}", id.client.get(), id.clock, len);
    match b {
        Block::GC(r) => place(r.id(), r.len) + " gc none none none none none none none none",
        Block::Skip(r) => place(r.id(), r.len) + " skip none none none none none none none none",
        Block::Item(i) => {
            let none = || "none".to_string();
            let (name, parent) = match &i.parent {
                TypePtr::Named(s) => (hex(s.as_bytes()), none()),
                TypePtr::ID(id) => (none(), shown(Some(id))),
                _ => (none(), none()),
            };
            let key = i.parent_sub.as_ref().map_or(none(), |s| hex(s.as_bytes()));
            let (kind, part, mark, number) = match &i.content {
                ItemContent::Deleted(_) => ("deleted", none(), none(), none()),
                ItemContent::Binary(b) => ("binary", hex(b), none(), none()),
                ItemContent::String(s) => ("text", hex(s.as_bytes()), none(), none()),
                ItemContent::Format(key, value) => ("format", hex(&value.0), hex(key.as_bytes()), none()),
                ItemContent::Type(of) => {
                    let name = match &of.type_ref {
                        TypeRef::XmlElement(name) | TypeRef::XmlHook(name) => hex(name.as_bytes()),
                        _ => none(),
                    };
                    ("type", none(), name, of.type_ref.number().to_string())
                }
                ItemContent::Any(all) => ("any", hex(&all.iter().flat_map(|v| v.0.iter().copied()).collect::<Vec<_>>()), none(), none()),
            };
            let ids = format!("{} {}", shown(i.origin.as_ref()), shown(i.right_origin.as_ref()));
            format!("{} {kind} {ids} {name} {parent} {key} {part} {mark} {number}", place(i.id, i.len))
        }
    }
}
// Blocks of all clients, highest client first.
fn records(blocks: &BlockSet) -> String {
    let mut clients: Vec<_> = blocks.clients.iter().collect();
    clients.sort_by(|a, b| b.0.cmp(a.0));
    clients.iter().flat_map(|(_, b)| b.iter()).map(record).collect::<Vec<_>>().join(",")
}
fn decode(form: u8, b: &[u8]) -> Result<Update, Error> {
    if form == 1 { Update::decode_v1(b) } else { Update::decode_v2(b) }
}
fn read(form: u8, b: &[u8]) -> Result<String, Error> {
    let u = decode(form, b)?;
    let ranges = u.delete_set.0.iter().flat_map(|(c, r)| r.iter().map(move |(r, _)| format!("{} {} {}", c.get(), r.start, r.end as i64 - r.start as i64)));
    Ok(format!("0|{}|{}", records(&u.blocks), ranges.collect::<Vec<_>>().join(",")))
}
fn diff(form: u8, to: u8, b: &[u8], vector: &[u8]) -> Result<String, Error> {
    let u = decode(form, b)?;
    let vector = StateVector::decode_v1(vector)?;
    let out = if to == 1 {
        let mut e = EncoderV1::default();
        u.encode_diff(&vector, &mut e);
        e.to_vec()
    } else {
        let mut e = EncoderV2::default();
        u.encode_diff(&vector, &mut e);
        e.to_vec()
    };
    Ok(format!("0|{}", hex(&out)))
}
// Blocks taken, in their order; blocks left; how far clients reach.
fn sort(form: u8, b: &[u8], vector: &[u8]) -> Result<String, Error> {
    let u = decode(form, b)?;
    let clocks = StateVector::decode_v1(vector)?.0;
    let mut t = TransactionMut { store: Store { blocks: BlockStore { clocks, taken: Vec::new() } } };
    let (pending, _) = u.integrate(&mut t)?;
    let taken = t.store.blocks.taken.iter().map(record).collect::<Vec<_>>().join(",");
    let left = pending.map_or(String::new(), |p| records(&p.update.blocks));
    let mut reaches: Vec<_> = t.store.blocks.clocks.iter().filter(|(_, k)| **k > 0).map(|(c, k)| (c.get(), *k)).collect();
    reaches.sort_by(|a, b| b.cmp(a));
    Ok(format!("0|{}|{}|{}", taken, left, reaches.iter().map(|(c, k)| format!("{c} {k}")).collect::<Vec<_>>().join(",")))
}
fn column(kind: u8, b: &[u8]) -> String {
    let mut out = Vec::new();
    let end = std::panic::catch_unwind(std::panic::AssertUnwindSafe(|| updates::decoder::column(kind, b, MOST, &mut out)));
    let end = match end {
        Ok(Ok(())) => "more",
        Ok(Err(_)) => "error",
        Err(_) => "panic",
    };
    format!("{}|{}", out.join(","), end)
}
fn answer(op: u8, form: u8, to: u8, a: &[u8], b: &[u8]) -> String {
    if op == 4 {
        return column(form, a);
    }
    let r = std::panic::catch_unwind(|| match op {
        1 => read(form, a),
        2 => diff(form, to, a, b),
        _ => sort(form, a, b),
    });
    match r {
        Ok(Ok(s)) => s,
        Ok(Err(_)) => "error".to_string(),
        Err(_) => "panic".to_string(),
    }
}

fn main() {
    use std::io::Write;
    std::panic::set_hook(Box::new(|_| {}));
    let args: Vec<String> = std::env::args().collect();
    let all = std::fs::read(&args[1]).unwrap();
    let start: usize = args[2].parse().unwrap();
    let mut out = std::io::LineWriter::new(std::io::stdout());
    let (mut at, mut k) = (0, 0);
    let part = |at: &mut usize| {
        let n = u32::from_le_bytes(all[*at..*at + 4].try_into().unwrap()) as usize;
        *at += 4 + n;
        &all[*at - n..*at]
    };
    while at < all.len() {
        let (op, form, to) = (all[at], all[at + 1], all[at + 2]);
        at += 4;
        let a = part(&mut at);
        let b = part(&mut at);
        if k >= start {
            writeln!(out, "{}", answer(op, form, to, a, b)).unwrap()
        }
        k += 1
    }
}

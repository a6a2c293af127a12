// Stand-ins for what yrs's text leans on and is not in it. They do what the names say, in plain Rust, no slower than need be; README.md lists them.
use std::collections::{BTreeMap, HashMap, TryReserveError, VecDeque};
use std::hash::{BuildHasherDefault, Hash, Hasher};
use std::ops::{Deref, Range};
use std::sync::Arc;

// ---- error.rs, encoding/varint.rs

#[derive(Debug)]
pub enum Error {
    InvalidVarInt,
    EndOfBuffer(usize),
    UnexpectedValue,
    NotEnoughMemory(TryReserveError),
}
impl From<TryReserveError> for Error {
    fn from(e: TryReserveError) -> Self {
        Error::NotEnoughMemory(e)
    }
}
type UpdateError = Error;

pub trait VarInt: Sized {
    fn read<R: Read>(r: &mut R) -> Result<Self, Error>;
}
macro_rules! unsigned {
    ($t:ty, $bits:expr) => {
        impl VarInt for $t {
            #[inline]
            fn read<R: Read>(r: &mut R) -> Result<Self, Error> {
                let mut n: $t = 0;
                let mut shift = 0u32;
                loop {
                    let b = r.read_u8()?;
                    n |= ((b & 127) as $t) << shift;
                    if b < 128 {
                        return Ok(n);
                    }
                    shift += 7;
                    if shift >= $bits {
                        return Err(Error::InvalidVarInt);
                    }
                }
            }
        }
    };
}
unsigned!(u32, 32);
unsigned!(u64, 64);
#[inline]
fn signed<R: Read>(r: &mut R) -> Result<(bool, i64), Error> {
    let mut b = r.read_u8()?;
    let minus = b & 64 != 0;
    let mut n = (b & 63) as i64;
    let mut shift = 6u32;
    while b >= 128 {
        if shift >= 63 {
            return Err(Error::InvalidVarInt);
        }
        b = r.read_u8()?;
        n |= ((b & 127) as i64) << shift;
        shift += 7;
    }
    Ok((minus, if minus { -n } else { n }))
}
impl VarInt for i32 {
    #[inline]
    fn read<R: Read>(r: &mut R) -> Result<Self, Error> {
        signed(r)?.1.try_into().map_err(|_| Error::InvalidVarInt)
    }
}
pub struct Signed<T> {
    value: T,
    minus: bool,
}
impl<T: Copy> Signed<T> {
    pub fn is_negative(&self) -> bool {
        self.minus
    }
    pub fn value(&self) -> T {
        self.value
    }
}
pub trait SignedVarInt: Sized {
    fn read_signed<R: Read>(r: &mut R) -> Result<Signed<Self>, Error>;
}
impl SignedVarInt for i64 {
    #[inline]
    fn read_signed<R: Read>(r: &mut R) -> Result<Signed<Self>, Error> {
        let (minus, value) = signed(r)?;
        Ok(Signed { value, minus })
    }
}

// ---- smallstr: 8 bytes in place, longer texts on the heap

#[derive(PartialEq, PartialOrd, Eq, Ord, Debug, Clone)]
enum Small {
    Short(u8, [u8; 8]),
    Long(String),
}
#[derive(PartialEq, PartialOrd, Eq, Ord, Debug, Clone)]
pub struct SmallString<A>(Small, std::marker::PhantomData<A>);
impl<A> SmallString<A> {
    fn from_str(s: &str) -> Self {
        let small = if s.len() <= 8 {
            let mut b = [0; 8];
            b[..s.len()].copy_from_slice(s.as_bytes());
            Small::Short(s.len() as u8, b)
        } else {
            Small::Long(s.to_owned())
        };
        SmallString(small, std::marker::PhantomData)
    }
    fn as_str(&self) -> &str {
        self
    }
}
impl<A> Deref for SmallString<A> {
    type Target = str;
    #[inline(always)]
    fn deref(&self) -> &str {
        match &self.0 {
            Small::Short(n, b) => unsafe { std::str::from_utf8_unchecked(b.get_unchecked(..*n as usize)) },
            Small::Long(s) => s,
        }
    }
}

// ---- block.rs's Item (its fields, without methods on a document), types, lib.rs

#[derive(Clone, Copy)]
pub enum OffsetKind {
    Bytes,
    Utf16,
}
#[derive(PartialEq, Clone)]
pub enum TypePtr {
    Unknown,
    Named(Arc<str>),
    ID(ID),
    Branch(Branch),
}
#[derive(PartialEq, Clone)]
pub struct Branch {
    item: Option<BranchItem>,
    type_ref: TypeRef,
}
impl Branch {
    fn new(type_ref: TypeRef) -> Box<Self> {
        Box::new(Branch { item: None, type_ref })
    }
}
#[derive(PartialEq, Clone)]
pub enum TypeRef {
    Array,
    Map,
    Text,
    XmlElement(Arc<str>),
    XmlFragment,
    XmlHook(Arc<str>),
    XmlText,
}
impl TypeRef {
    fn decode<D: Decoder>(d: &mut D) -> Result<Self, Error> {
        Ok(match d.read_type_ref()? {
            0 => TypeRef::Array,
            1 => TypeRef::Map,
            2 => TypeRef::Text,
            3 => TypeRef::XmlElement(d.read_key()?),
            4 => TypeRef::XmlFragment,
            5 => TypeRef::XmlHook(d.read_key()?),
            6 => TypeRef::XmlText,
            _ => return Err(Error::UnexpectedValue),
        })
    }
    fn number(&self) -> u8 {
        match self {
            TypeRef::Array => 0,
            TypeRef::Map => 1,
            TypeRef::Text => 2,
            TypeRef::XmlElement(_) => 3,
            TypeRef::XmlFragment => 4,
            TypeRef::XmlHook(_) => 5,
            TypeRef::XmlText => 6,
        }
    }
    fn encode<E: Encoder>(&self, e: &mut E) {
        e.write_type_ref(self.number());
        if let TypeRef::XmlElement(name) | TypeRef::XmlHook(name) = self {
            e.write_key(name)
        }
    }
}
#[derive(PartialEq, Clone)]
pub struct BranchItem(ID);
impl BranchItem {
    fn id(&self) -> &ID {
        &self.0
    }
}
#[derive(PartialEq)]
pub enum ItemContent {
    Deleted(u32),
    Binary(Vec<u8>),
    String(SplittableString),
    Format(Arc<str>, Box<Any>),
    Type(Box<Branch>),
    Any(Vec<Any>),
}
#[derive(PartialEq)]
pub struct Item {
    id: ID,
    len: u32,
    left: Option<std::num::NonZeroUsize>,
    right: Option<std::num::NonZeroUsize>,
    origin: Option<ID>,
    right_origin: Option<ID>,
    content: ItemContent,
    parent: TypePtr,
    redone: Option<ID>,
    parent_sub: Option<Arc<str>>,
    info: u16,
}
impl Item {
    fn id(&self) -> &ID {
        &self.id
    }
    fn len(&self) -> u32 {
        self.len
    }
    fn clock_range(&self) -> (u32, u32) {
        (self.id.clock, self.id.clock + self.len - 1)
    }
    fn new(
        id: ID,
        _left: Option<()>,
        origin: Option<ID>,
        _right: Option<()>,
        right_origin: Option<ID>,
        parent: TypePtr,
        parent_sub: Option<Arc<str>>,
        content: ItemContent,
    ) -> Option<Box<Item>> {
        let len = match &content {
            ItemContent::Deleted(n) => *n,
            ItemContent::String(s) => s.len(OffsetKind::Utf16) as u32,
            ItemContent::Any(v) => v.len() as u32,
            _ => 1,
        };
        if len == 0 {
            return None;
        }
        let info = if let ItemContent::Deleted(_) = content { 0 } else { 2 };
        Some(Box::new(Item { id, len, left: None, right: None, origin, right_origin, content, parent, redone: None, parent_sub, info }))
    }
}
impl From<Box<Item>> for Block {
    fn from(i: Box<Item>) -> Self {
        Block::Item(i)
    }
}
impl PartialEq for Block {
    fn eq(&self, _: &Self) -> bool {
        false
    }
}
macro_rules! shown {
    ($t:ty) => {
        impl std::fmt::Debug for $t {
            fn fmt(&self, _: &mut std::fmt::Formatter<'_>) -> std::fmt::Result {
                Ok(())
            }
        }
    };
}
shown!(Block);
shown!(Update);
shown!(StateVector);

// ---- slice.rs

struct ItemSlice<'a> {
    ptr: &'a Item,
    start: u32,
    end: u32,
}
impl<'a> ItemSlice<'a> {
    fn new(ptr: &'a Item, start: u32, end: u32) -> Self {
        ItemSlice { ptr, start, end }
    }
    fn encode<E: Encoder>(&self, e: &mut E) {
        let i = self.ptr;
        let origin = if self.start > 0 { Some(ID::new(i.id.client, i.id.clock + self.start - 1)) } else { i.origin };
        let number = match &i.content {
            ItemContent::Deleted(_) => 1,
            ItemContent::Binary(_) => 3,
            ItemContent::String(_) => 4,
            ItemContent::Format(..) => 6,
            ItemContent::Type(_) => 7,
            ItemContent::Any(_) => 8,
        };
        let sub = if i.parent_sub.is_some() { HAS_PARENT_SUB } else { 0 };
        e.write_info(number | if origin.is_some() { HAS_ORIGIN } else { 0 } | if i.right_origin.is_some() { HAS_RIGHT_ORIGIN } else { 0 } | sub);
        if let Some(o) = &origin {
            e.write_left_id(o)
        }
        if let Some(o) = &i.right_origin {
            e.write_right_id(o)
        }
        if origin.is_none() && i.right_origin.is_none() {
            match &i.parent {
                TypePtr::Named(s) => {
                    e.write_parent_info(true);
                    e.write_string(s)
                }
                TypePtr::ID(id) => {
                    e.write_parent_info(false);
                    e.write_left_id(id)
                }
                _ => panic!(),
            }
            if let Some(s) = &i.parent_sub {
                e.write_string(s)
            }
        }
        i.content.encode_slice(e, self.start, self.end)
    }
}

// ---- ids.rs: what is read in order stays as it is, the rest is sorted and joined (what yrs does with it is not known)

#[derive(Default, PartialEq)]
pub struct IdRanges<T>(Vec<(Range<u32>, T)>);
impl IdRanges<()> {
    fn from_raw(mut v: Vec<(Range<u32>, ())>) -> Self {
        if !v.windows(2).all(|w| w[0].0.end < w[1].0.start) {
            v.sort_unstable_by_key(|r| r.0.start);
            let mut last = 0;
            for k in 1..v.len() {
                let r = v[k].0.clone();
                if r.start <= v[last].0.end {
                    v[last].0.end = v[last].0.end.max(r.end)
                } else {
                    last += 1;
                    v[last].0 = r
                }
            }
            v.truncate(last + 1)
        }
        IdRanges(v)
    }
    fn len(&self) -> usize {
        self.0.len()
    }
    fn iter(&self) -> std::slice::Iter<'_, (Range<u32>, ())> {
        self.0.iter()
    }
}
type IdRange = IdRanges<()>;
#[derive(Default, PartialEq)]
pub struct IdMapInner(BTreeMap<ClientID, IdRange>);
impl IdMapInner {
    fn clients_mut(&mut self) -> &mut BTreeMap<ClientID, IdRange> {
        &mut self.0
    }
    fn len(&self) -> usize {
        self.0.len()
    }
    fn iter(&self) -> std::collections::btree_map::Iter<'_, ClientID, IdRange> {
        self.0.iter()
    }
}
#[derive(Default, PartialEq)]
pub struct IdSet(IdMapInner);
impl IdSet {
    fn new() -> Self {
        Self::default()
    }
}

// ---- updates/encoder.rs, encoding/write.rs

fn unsigned(out: &mut Vec<u8>, mut n: u64) {
    while n > 127 {
        out.push(n as u8 | 128);
        n >>= 7
    }
    out.push(n as u8)
}
fn signed_to(out: &mut Vec<u8>, minus: bool, mut n: u64) {
    out.push((n & 63) as u8 | if minus { 64 } else { 0 } | if n > 63 { 128 } else { 0 });
    n >>= 6;
    while n > 0 {
        out.push((n & 127) as u8 | if n > 127 { 128 } else { 0 });
        n >>= 7
    }
}
fn buffer(out: &mut Vec<u8>, b: &[u8]) {
    unsigned(out, b.len() as u64);
    out.extend_from_slice(b)
}
pub trait Encoder {
    fn write_var<T: TryInto<u64>>(&mut self, v: T);
    fn write_client(&mut self, c: ClientID);
    fn write_info(&mut self, i: u8);
    fn write_parent_info(&mut self, named: bool);
    fn write_len(&mut self, n: u32);
    fn write_buf(&mut self, b: &[u8]);
    fn write_string(&mut self, s: &str);
    fn write_key(&mut self, s: &str);
    fn write_type_ref(&mut self, n: u8);
    fn write_json(&mut self, v: &Any);
    fn write_any(&mut self, v: &Any);
    fn write_left_id(&mut self, id: &ID);
    fn write_right_id(&mut self, id: &ID);
    fn reset_ds_cur_val(&mut self);
    fn write_ds_clock(&mut self, c: u32);
    fn write_ds_len(&mut self, n: u32);
    fn to_vec(self) -> Vec<u8>;
}
pub trait Encode {
    fn encode<E: Encoder>(&self, encoder: &mut E);
}
#[derive(Default)]
pub struct EncoderV1(Vec<u8>);
impl Encoder for EncoderV1 {
    fn write_var<T: TryInto<u64>>(&mut self, v: T) {
        unsigned(&mut self.0, v.try_into().ok().unwrap())
    }
    fn write_client(&mut self, c: ClientID) {
        unsigned(&mut self.0, c.get())
    }
    fn write_info(&mut self, i: u8) {
        self.0.push(i)
    }
    fn write_parent_info(&mut self, named: bool) {
        self.0.push(named as u8)
    }
    fn write_len(&mut self, n: u32) {
        unsigned(&mut self.0, n as u64)
    }
    fn write_buf(&mut self, b: &[u8]) {
        buffer(&mut self.0, b)
    }
    fn write_string(&mut self, s: &str) {
        buffer(&mut self.0, s.as_bytes())
    }
    fn write_key(&mut self, s: &str) {
        buffer(&mut self.0, s.as_bytes())
    }
    fn write_type_ref(&mut self, n: u8) {
        self.0.push(n)
    }
    fn write_json(&mut self, v: &Any) {
        let mut text = Vec::new();
        v.to_json(&mut text);
        buffer(&mut self.0, &text)
    }
    fn write_any(&mut self, v: &Any) {
        v.encode(&mut self.0)
    }
    fn write_left_id(&mut self, id: &ID) {
        unsigned(&mut self.0, id.client.get());
        unsigned(&mut self.0, id.clock as u64)
    }
    fn write_right_id(&mut self, id: &ID) {
        self.write_left_id(id)
    }
    fn reset_ds_cur_val(&mut self) {}
    fn write_ds_clock(&mut self, c: u32) {
        unsigned(&mut self.0, c as u64)
    }
    fn write_ds_len(&mut self, n: u32) {
        unsigned(&mut self.0, n as u64)
    }
    fn to_vec(self) -> Vec<u8> {
        self.0
    }
}
#[derive(Default)]
struct UIntOptRleEncoder {
    out: Vec<u8>,
    last: u64,
    count: u32,
}
impl UIntOptRleEncoder {
    fn write(&mut self, v: u64) {
        if self.count > 0 && self.last == v {
            self.count += 1
        } else {
            self.flush();
            self.last = v;
            self.count = 1
        }
    }
    fn flush(&mut self) {
        if self.count > 0 {
            signed_to(&mut self.out, self.count > 1, self.last);
            if self.count > 1 {
                unsigned(&mut self.out, self.count as u64 - 2)
            }
        }
    }
    fn done(mut self) -> Vec<u8> {
        self.flush();
        self.out
    }
}
#[derive(Default)]
struct IntDiffOptRleEncoder {
    out: Vec<u8>,
    last: u32,
    count: u32,
    diff: i32,
}
impl IntDiffOptRleEncoder {
    fn write(&mut self, v: u32) {
        let diff = v as i32 - self.last as i32;
        if self.count > 0 && self.diff == diff {
            self.count += 1
        } else {
            self.flush();
            self.diff = diff;
            self.count = 1
        }
        self.last = v
    }
    fn flush(&mut self) {
        if self.count > 0 {
            let e = self.diff as i64 * 2 + if self.count > 1 { 1 } else { 0 };
            signed_to(&mut self.out, e < 0, e.unsigned_abs());
            if self.count > 1 {
                unsigned(&mut self.out, self.count as u64 - 2)
            }
        }
    }
    fn done(mut self) -> Vec<u8> {
        self.flush();
        self.out
    }
}
#[derive(Default)]
struct RleEncoder {
    out: Vec<u8>,
    last: Option<u8>,
    count: u32,
}
impl RleEncoder {
    fn write(&mut self, v: u8) {
        if self.last == Some(v) {
            self.count += 1
        } else {
            if self.count > 0 {
                unsigned(&mut self.out, self.count as u64 - 1)
            }
            self.count = 1;
            self.out.push(v);
            self.last = Some(v)
        }
    }
    fn done(self) -> Vec<u8> {
        self.out
    }
}
#[derive(Default)]
struct StringEncoder {
    text: String,
    units: UIntOptRleEncoder,
}
impl StringEncoder {
    fn write(&mut self, s: &str) {
        self.units.write(s.encode_utf16().count() as u64);
        self.text.push_str(s)
    }
    fn done(self) -> Vec<u8> {
        let mut out = Vec::with_capacity(self.text.len() + self.units.out.len() + 16);
        buffer(&mut out, self.text.as_bytes());
        out.extend_from_slice(&self.units.done());
        out
    }
}
#[derive(Default)]
pub struct EncoderV2 {
    rest: Vec<u8>,
    key: IntDiffOptRleEncoder,
    keys: HashMap<String, u32>,
    types: UIntOptRleEncoder,
    client: UIntOptRleEncoder,
    left: IntDiffOptRleEncoder,
    right: IntDiffOptRleEncoder,
    info: RleEncoder,
    text: StringEncoder,
    parent: RleEncoder,
    len: UIntOptRleEncoder,
    end: u32,
}
impl Encoder for EncoderV2 {
    fn write_var<T: TryInto<u64>>(&mut self, v: T) {
        unsigned(&mut self.rest, v.try_into().ok().unwrap())
    }
    fn write_client(&mut self, c: ClientID) {
        self.client.write(c.get())
    }
    fn write_info(&mut self, i: u8) {
        self.info.write(i)
    }
    fn write_parent_info(&mut self, named: bool) {
        self.parent.write(named as u8)
    }
    fn write_len(&mut self, n: u32) {
        self.len.write(n as u64)
    }
    fn write_buf(&mut self, b: &[u8]) {
        buffer(&mut self.rest, b)
    }
    fn write_string(&mut self, s: &str) {
        self.text.write(s)
    }
    // distinct keys are numbered from 0
    fn write_key(&mut self, s: &str) {
        let next = self.keys.len() as u32;
        if let Some(n) = self.keys.get(s) {
            return self.key.write(*n);
        }
        self.keys.insert(s.to_owned(), next);
        self.key.write(next);
        self.text.write(s)
    }
    fn write_type_ref(&mut self, n: u8) {
        self.types.write(n as u64)
    }
    fn write_json(&mut self, v: &Any) {
        v.encode(&mut self.rest)
    }
    fn write_any(&mut self, v: &Any) {
        v.encode(&mut self.rest)
    }
    fn write_left_id(&mut self, id: &ID) {
        self.client.write(id.client.get());
        self.left.write(id.clock)
    }
    fn write_right_id(&mut self, id: &ID) {
        self.client.write(id.client.get());
        self.right.write(id.clock)
    }
    fn reset_ds_cur_val(&mut self) {
        self.end = 0
    }
    fn write_ds_clock(&mut self, c: u32) {
        unsigned(&mut self.rest, (c - self.end) as u64);
        self.end = c
    }
    fn write_ds_len(&mut self, n: u32) {
        unsigned(&mut self.rest, n as u64 - 1);
        self.end += n
    }
    fn to_vec(self) -> Vec<u8> {
        let columns = [self.key.done(), self.client.done(), self.left.done(), self.right.done(), self.info.done(), self.text.done(), self.parent.done(),
            self.types.done(), self.len.done()];
        let mut out = Vec::with_capacity(64 + columns.iter().map(|c| c.len()).sum::<usize>() + self.rest.len());
        out.push(0);
        for c in &columns {
            buffer(&mut out, c)
        }
        out.extend_from_slice(&self.rest);
        out
    }
}

// ---- any.rs, serde_json: lib0's any-values and JSON, made into values and written as Yjs writes them; a whole number up to 2^31-1 is an integer

#[derive(PartialEq, Clone)]
pub enum Any {
    Null,
    Undefined,
    Bool(bool),
    Number(f64),
    BigInt(i64),
    String(Arc<str>),
    Buffer(Arc<[u8]>),
    Array(Arc<[Any]>),
    Map(Arc<HashMap<String, Any>>),
}
impl Any {
    fn decode<R: Read>(r: &mut R) -> Result<Any, Error> {
        Ok(match r.read_u8()? {
            127 => Any::Undefined,
            126 => Any::Null,
            125 => {
                let (minus, n) = signed(r)?;
                Any::Number(if minus && n == 0 { -0.0 } else { n as f64 })
            }
            124 => Any::Number(f32::from_be_bytes(r.read_exact(4)?.try_into().unwrap()) as f64),
            123 => Any::Number(f64::from_be_bytes(r.read_exact(8)?.try_into().unwrap())),
            122 => Any::BigInt(i64::from_be_bytes(r.read_exact(8)?.try_into().unwrap())),
            121 => Any::Bool(false),
            120 => Any::Bool(true),
            119 => Any::String(r.read_string()?.into()),
            118 => {
                let n: u32 = r.read_var()?;
                let mut map = HashMap::new();
                for _ in 0..n {
                    let key = r.read_string()?.to_owned();
                    map.insert(key, Any::decode(r)?);
                }
                Any::Map(Arc::new(map))
            }
            117 => {
                let n: u32 = r.read_var()?;
                let mut all = Vec::new();
                for _ in 0..n {
                    all.push(Any::decode(r)?)
                }
                Any::Array(all.into())
            }
            116 => Any::Buffer(r.read_buf()?.into()),
            _ => return Err(Error::UnexpectedValue),
        })
    }
    fn encode(&self, out: &mut Vec<u8>) {
        match self {
            Any::Undefined => out.push(127),
            Any::Null => out.push(126),
            Any::Number(v) if v.fract() == 0.0 && v.abs() <= 2147483647.0 => {
                out.push(125);
                signed_to(out, v.is_sign_negative(), v.abs() as u64)
            }
            Any::Number(v) if *v as f32 as f64 == *v => {
                out.push(124);
                out.extend_from_slice(&(*v as f32).to_be_bytes())
            }
            Any::Number(v) => {
                out.push(123);
                out.extend_from_slice(&v.to_be_bytes())
            }
            Any::BigInt(v) => {
                out.push(122);
                out.extend_from_slice(&v.to_be_bytes())
            }
            Any::Bool(v) => out.push(if *v { 120 } else { 121 }),
            Any::String(v) => {
                out.push(119);
                buffer(out, v.as_bytes())
            }
            Any::Map(v) => {
                out.push(118);
                unsigned(out, v.len() as u64);
                for (key, v) in v.iter() {
                    buffer(out, key.as_bytes());
                    v.encode(out)
                }
            }
            Any::Array(v) => {
                out.push(117);
                unsigned(out, v.len() as u64);
                v.iter().for_each(|v| v.encode(out))
            }
            Any::Buffer(v) => {
                out.push(116);
                buffer(out, v)
            }
        }
    }
    fn from_json(s: &str) -> Result<Any, Error> {
        let mut json = Json { s: s.as_bytes(), at: 0 };
        let value = json.value()?;
        json.blank();
        if json.at == s.len() { Ok(value) } else { Err(Error::UnexpectedValue) }
    }
    fn to_json(&self, out: &mut Vec<u8>) {
        match self {
            Any::Undefined | Any::Null | Any::BigInt(_) | Any::Buffer(_) => out.extend_from_slice(b"null"),
            Any::Bool(v) => out.extend_from_slice(if *v { b"true" } else { b"false" }),
            Any::Number(v) => out.extend_from_slice(v.to_string().as_bytes()),
            Any::String(v) => json_string(v, out),
            Any::Array(all) => {
                out.push(b'[');
                for (k, v) in all.iter().enumerate() {
                    if k > 0 {
                        out.push(b',')
                    }
                    v.to_json(out)
                }
                out.push(b']')
            }
            Any::Map(all) => {
                out.push(b'{');
                for (k, (key, v)) in all.iter().enumerate() {
                    if k > 0 {
                        out.push(b',')
                    }
                    json_string(key, out);
                    out.push(b':');
                    v.to_json(out)
                }
                out.push(b'}')
            }
        }
    }
}
fn json_string(s: &str, out: &mut Vec<u8>) {
    out.push(b'"');
    for b in s.bytes() {
        match b {
            b'"' | b'\\' => out.extend_from_slice(&[b'\\', b]),
            0..=31 => out.extend_from_slice(format!("\\u{b:04x}").as_bytes()),
            b => out.push(b),
        }
    }
    out.push(b'"')
}
struct Json<'a> {
    s: &'a [u8],
    at: usize,
}
impl<'a> Json<'a> {
    fn blank(&mut self) {
        while let Some(b' ' | b'\t' | b'\n' | b'\r') = self.s.get(self.at) {
            self.at += 1
        }
    }
    fn next(&mut self) -> Result<u8, Error> {
        let b = *self.s.get(self.at).ok_or(Error::UnexpectedValue)?;
        self.at += 1;
        Ok(b)
    }
    fn word(&mut self, word: &str, value: Any) -> Result<Any, Error> {
        if !self.s[self.at..].starts_with(word.as_bytes()) {
            return Err(Error::UnexpectedValue);
        }
        self.at += word.len();
        Ok(value)
    }
    fn string(&mut self) -> Result<String, Error> {
        let mut out = Vec::new();
        let mut half = None;
        loop {
            let b = self.next()?;
            if b == b'"' {
                break;
            }
            if b != b'\\' {
                out.push(b);
                continue;
            }
            let c = match self.next()? {
                b'n' => '\n',
                b't' => '\t',
                b'r' => '\r',
                b'b' => '\u{8}',
                b'f' => '\u{c}',
                b'u' => {
                    let digits = self.s.get(self.at..self.at + 4).ok_or(Error::UnexpectedValue)?;
                    self.at += 4;
                    let n = u32::from_str_radix(std::str::from_utf8(digits).unwrap_or("x"), 16).map_err(|_| Error::UnexpectedValue)?;
                    match (half.take(), n) {
                        (None, 0xd800..=0xdbff) => {
                            half = Some(n);
                            continue;
                        }
                        (Some(high), 0xdc00..=0xdfff) => char::from_u32(0x10000 + ((high - 0xd800) << 10) + (n - 0xdc00)).unwrap_or('\u{fffd}'),
                        _ => char::from_u32(n).unwrap_or('\u{fffd}'),
                    }
                }
                b => b as char,
            };
            out.extend_from_slice(c.encode_utf8(&mut [0; 4]).as_bytes())
        }
        String::from_utf8(out).map_err(|_| Error::UnexpectedValue)
    }
    fn value(&mut self) -> Result<Any, Error> {
        self.blank();
        match self.s.get(self.at) {
            Some(b'n') => self.word("null", Any::Null),
            Some(b't') => self.word("true", Any::Bool(true)),
            Some(b'f') => self.word("false", Any::Bool(false)),
            Some(b'"') => {
                self.at += 1;
                Ok(Any::String(self.string()?.into()))
            }
            Some(b'[') => {
                self.at += 1;
                let mut all = Vec::new();
                self.blank();
                if self.s.get(self.at) == Some(&b']') {
                    self.at += 1;
                    return Ok(Any::Array(all.into()));
                }
                loop {
                    all.push(self.value()?);
                    self.blank();
                    match self.next()? {
                        b',' => {}
                        b']' => return Ok(Any::Array(all.into())),
                        _ => return Err(Error::UnexpectedValue),
                    }
                }
            }
            Some(b'{') => {
                self.at += 1;
                let mut all = HashMap::new();
                self.blank();
                if self.s.get(self.at) == Some(&b'}') {
                    self.at += 1;
                    return Ok(Any::Map(Arc::new(all)));
                }
                loop {
                    self.blank();
                    if self.next()? != b'"' {
                        return Err(Error::UnexpectedValue);
                    }
                    let key = self.string()?;
                    self.blank();
                    if self.next()? != b':' {
                        return Err(Error::UnexpectedValue);
                    }
                    all.insert(key, self.value()?);
                    self.blank();
                    match self.next()? {
                        b',' => {}
                        b'}' => return Ok(Any::Map(Arc::new(all))),
                        _ => return Err(Error::UnexpectedValue),
                    }
                }
            }
            _ => {
                let from = self.at;
                while let Some(b'0'..=b'9' | b'-' | b'+' | b'.' | b'e' | b'E') = self.s.get(self.at) {
                    self.at += 1
                }
                let digits = std::str::from_utf8(&self.s[from..self.at]).unwrap_or("");
                digits.parse().map(Any::Number).map_err(|_| Error::UnexpectedValue)
            }
        }
    }
}

// ---- state_vector.rs

type Clocks = HashMap<ClientID, u32, BuildHasherDefault<ClientHasher>>;
#[derive(Default, PartialEq)]
pub struct StateVector(Clocks);
impl StateVector {
    fn set_min(&mut self, c: ClientID, k: u32) {
        let e = self.0.entry(c).or_insert(k);
        *e = (*e).min(k)
    }
    fn get(&self, c: &ClientID) -> u32 {
        *self.0.get(c).unwrap_or(&0)
    }
    fn decode_v1(b: &[u8]) -> Result<Self, Error> {
        let mut r = Cursor::new(b);
        let n: u32 = r.read_var()?;
        let mut clocks = Clocks::default();
        clocks.try_reserve(n as usize)?;
        for _ in 0..n {
            let client: u64 = r.read_var()?;
            clocks.insert(ClientID::new(client), r.read_var()?);
        }
        Ok(StateVector(clocks))
    }
}

// ---- block_store.rs, store.rs, transaction.rs: the least document that a sorter can work on. A block that is integrated is put on a list and lifts its
// client's clock; deletes are not applied.

pub struct BlockStore {
    clocks: Clocks,
    taken: Vec<Block>,
}
impl BlockStore {
    fn get_clock(&self, c: &ClientID) -> u32 {
        *self.clocks.get(c).unwrap_or(&0)
    }
    fn is_missing(&self, id: &ID) -> bool {
        id.clock >= self.get_clock(&id.client)
    }
}
pub struct Store {
    blocks: BlockStore,
}
pub struct TransactionMut {
    store: Store,
}
impl TransactionMut {
    fn lift(&mut self, client: ClientID, end: u32) {
        let e = self.store.blocks.clocks.entry(client).or_insert(0);
        *e = (*e).max(end)
    }
    fn integrate(&mut self, b: Block, _offset: u32) {
        self.lift(*b.client(), b.next_clock());
        self.store.blocks.taken.push(b)
    }
    fn integrate_skip(&mut self, r: BlockRange, _offset: u32) {
        self.lift(r.client, r.clock + r.len)
    }
    fn apply_delete(&mut self, _deletes: &IdSet) -> Option<IdSet> {
        None
    }
}

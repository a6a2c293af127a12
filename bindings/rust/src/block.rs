//! A row of the block table: what its kind says, and what may be there or not.
use crate::raw::{Block, Part};

/// What a block's `kind` says.
pub const GC: u8 = 1;
pub const SKIP: u8 = 2;
pub const DELETED: u8 = 3;
pub const BINARY: u8 = 4;
pub const TEXT: u8 = 5;
pub const FORMAT: u8 = 6;
pub const TYPE: u8 = 7;
pub const ANY: u8 = 8;

/// The types by their numbers.
const TYPES: [&str; 7] = ["array", "map", "text", "xml element", "xml fragment", "xml hook", "xml text"];

/// What names a block's unit: its client and its clock.
#[derive(Clone, Copy, Debug, Default, PartialEq, Eq, Hash)]
pub struct Id {
    pub client: u64,
    pub clock: u32,
}

impl Block {
    /// The kind as the listing names it; empty for a row that has no block.
    pub fn kind_name(&self) -> &'static str {
        match self.kind {
            GC => "gc",
            SKIP => "skip",
            DELETED => "deleted",
            BINARY => "binary",
            TEXT => "text",
            FORMAT => "format",
            TYPE => "type",
            ANY => "any",
            _ => "",
        }
    }

    /// The left id.
    pub fn left(&self) -> Option<Id> {
        self.has_left.then_some(Id { client: self.left_client, clock: self.left_clock })
    }

    /// The right id.
    pub fn right(&self) -> Option<Id> {
        self.has_right.then_some(Id { client: self.right_client, clock: self.right_clock })
    }

    /// The parent, where an id names it.
    pub fn parent(&self) -> Option<Id> {
        self.has_parent.then_some(Id { client: self.parent_client, clock: self.parent_clock })
    }

    /// The parent, where a name names it: a part of the update.
    pub fn name(&self) -> Option<Part> {
        self.has_name.then_some(self.name)
    }

    /// The key: a part of the update.
    pub fn key(&self) -> Option<Part> {
        self.has_key.then_some(self.key)
    }

    /// The stored part of a binary or a text, the value of a format (in form 1 its JSON text, in form 2 an any-value) or all values of an any-list: a part of
    /// the update. Of a binary and a text it is what [`content`](crate::content) finds, without reading again.
    pub fn part(&self) -> Option<Part> {
        matches!(self.kind, BINARY | TEXT | FORMAT | ANY).then_some(self.part)
    }

    /// The key of a format, or the node name of a type that has one: a part of the update. In form 2 a key that was read before lies where it lay then.
    pub fn mark(&self) -> Option<Part> {
        (self.kind == FORMAT || matches!(self.type_number(), Some(3 | 5))).then_some(self.mark)
    }

    /// The number of a type: 0 to 6.
    pub fn type_number(&self) -> Option<u8> {
        (self.kind == TYPE).then_some(self.type_number).and_then(|number| u8::try_from(number).ok())
    }

    /// A type in words: `array`, `map`, `text`, `xml element`, `xml fragment`, `xml hook` or `xml text`.
    pub fn type_name(&self) -> Option<&'static str> {
        self.type_number().and_then(|number| TYPES.get(usize::from(number)).copied())
    }
}

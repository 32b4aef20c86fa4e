//! The canonical spelling of a table that has been verified.

use crate::find::escaped;
use crate::kind::{Kind, Naming};
use crate::names::{HEIGHT, KEY_OFFSET, MISSING, TEXT_OFFSET, TYPE_OFFSET, WIDTH};
use crate::table::Table;

/// Where a spelling goes.
pub trait Out {
    fn put(&mut self, bytes: &[u8]);
}

/// Only counts.
#[derive(Default)]
pub struct Length(pub usize);

impl Out for Length {
    fn put(&mut self, bytes: &[u8]) {
        self.0 += bytes.len();
    }
}

/// Writes to memory that is long enough.
pub struct Buffer<'o> {
    pub rest: &'o mut [u8],
}

impl Out for Buffer<'_> {
    fn put(&mut self, bytes: &[u8]) {
        let (here, rest) = std::mem::take(&mut self.rest).split_at_mut(bytes.len());
        here.copy_from_slice(bytes);
        self.rest = rest;
    }
}

pub struct Speller<'t, O> {
    pub table: Table<'t>,
    pub out: O,
}

impl<O: Out> Speller<'_, O> {
    /// Square brackets around name, parameters and content, with one space between; a text quoted.
    pub fn node(&mut self, node: usize) {
        let kind = self.table.kind(node);
        if kind == Kind::Text {
            return self.quoted(self.table.string(node, TEXT_OFFSET));
        }
        self.out.put(b"[");
        self.out.put(kind.name().as_bytes());
        let rest = self.leading_child(kind, node);
        self.parameters(kind, node);
        for child in self.table.siblings(node, rest) {
            self.out.put(b" ");
            self.node(child);
        }
        self.out.put(b"]");
    }

    /// A title or summary stands before id, type and the rest; answers the first child after it.
    fn leading_child(&mut self, kind: Kind, node: usize) -> usize {
        if !kind.has_title() && kind != Kind::Table {
            return node + 1;
        }
        self.out.put(b" ");
        self.node(node + 1);
        self.table.end(node + 1)
    }

    /// Id or target, size, type.
    fn parameters(&mut self, kind: Kind, node: usize) {
        let name = self.table.string(node, KEY_OFFSET);
        match kind.naming() {
            Naming::HasTarget | Naming::HasUri => self.target(name),
            _ => self.symbol(b" [id ", name),
        }
        let record = self.table.record(node);
        if record[WIDTH] != MISSING {
            self.size(record[WIDTH], record[HEIGHT]);
        }
        self.symbol(b" [type ", self.table.string(node, TYPE_OFFSET));
    }

    fn symbol(&mut self, before: &[u8], value: &[u8]) {
        if !value.is_empty() {
            self.out.put(before);
            self.out.put(value);
            self.out.put(b"]");
        }
    }

    fn target(&mut self, value: &[u8]) {
        self.out.put(b" [target ");
        self.quoted(value);
        self.out.put(b"]");
    }

    fn size(&mut self, width: u32, height: u32) {
        self.out.put(b" [size ");
        self.number(width);
        self.out.put(b" ");
        self.number(height);
        self.out.put(b"]");
    }

    /// Without leading zeros.
    fn number(&mut self, number: u32) {
        let mut digits = [0; 5];
        let mut at = digits.len();
        let mut left = number;
        while left > 0 || at == digits.len() {
            at -= 1;
            digits[at] = b'0' + (left % 10) as u8;
            left /= 10;
        }
        self.out.put(&digits[at..]);
    }

    fn quoted(&mut self, value: &[u8]) {
        self.out.put(b"\"");
        let mut raw = 0;
        while let Some(at) = escaped(value, raw) {
            self.out.put(&value[raw..at]);
            self.escape(value[at]);
            raw = at + 1;
        }
        self.out.put(&value[raw..]);
        self.out.put(b"\"");
    }

    /// `\" \n \r \t`; the backslash and all others as `\u` with lower-case hex.
    fn escape(&mut self, byte: u8) {
        const HEX: &[u8; 16] = b"0123456789abcdef";
        match byte {
            b'"' => self.out.put(b"\\\""),
            b'\n' => self.out.put(b"\\n"),
            b'\r' => self.out.put(b"\\r"),
            b'\t' => self.out.put(b"\\t"),
            _ => self.out.put(&[b'\\', b'u', b'0', b'0', HEX[byte as usize / 16], HEX[byte as usize % 16]]),
        }
    }
}

//! Number 20: is this the node table of a document within the limits? Faults 15 to 18 it may have.

use crate::bytes::{of_id, of_type, of_uri};
use crate::kind::{Kind, Naming};
use crate::names::{
    HEIGHT, KEY_LENGTH, KEY_OFFSET, KIND, MISSING, MOST_BYTES, MOST_NODES, NESTED_LEVELS, PARENT, RECORD_LENGTH,
    TEXT_OFFSET, TYPE_LENGTH, TYPE_OFFSET, WIDTH,
};
use crate::table::Table;

/// The part of the lent memory that the counts name, if it is such a table. What lies past it is not looked at.
pub fn verify<'t>(nodes: &'t [u32], node_count: u32, pool: &'t [u8], pool_count: u32) -> Option<Table<'t>> {
    let (node_count, pool_count) = (node_count as usize, pool_count as usize);
    if node_count > MOST_NODES || pool_count > MOST_BYTES {
        return None;
    }
    let table = Table { words: nodes.get(..node_count * RECORD_LENGTH)?, pool: pool.get(..pool_count)? };
    (shape_is_sound(table) && strings_are_sound(table)).then_some(table)
}

/// A node whose children are being met. Its level is its place on the stack.
#[derive(Clone, Copy)]
struct Frame {
    node: usize,
    kind: Kind,
    end: usize,
    /// Kinds of the last child and of the first child among the content.
    last: Option<Kind>,
    first: Option<Kind>,
}

impl Frame {
    /// Takes the next child, if the rules allow it after the children before it.
    fn take(&mut self, child: Kind) -> bool {
        let fits = match (self.kind, self.last) {
            (Kind::Table, last) => table_part(last, child),
            (kind, None) if kind.has_title() => child == Kind::Title,
            (Kind::Verbatim, Some(_)) => false,
            (kind, _) => kind.may_hold(child) && !kind.sorts_apart(*self.first.get_or_insert(child), child),
        };
        self.last = Some(child);
        fits
    }

    /// Has it all the children that it needs?
    fn is_complete(&self) -> bool {
        match self.kind {
            Kind::Table => self.last == Some(Kind::Body),
            Kind::Verbatim => self.last.is_some(),
            kind => !kind.has_title() || self.last.is_some(),
        }
    }
}

/// A table is summary, head if any, body.
fn table_part(last: Option<Kind>, child: Kind) -> bool {
    match last {
        None => child == Kind::Summary,
        Some(Kind::Summary) => matches!(child, Kind::Head | Kind::Body),
        Some(Kind::Head) => child == Kind::Body,
        Some(_) => false,
    }
}

/// The elements that are open at a node, outermost first.
struct Stack {
    frames: Vec<Frame>,
}

impl Stack {
    /// Ends the frames that end before `node`; false if one of them lacks a child.
    fn end_before(&mut self, node: usize) -> bool {
        while self.frames.last().is_some_and(|frame| frame.end == node) {
            if !self.frames.pop().is_some_and(|frame| frame.is_complete()) {
                return false;
            }
        }
        true
    }

    /// Is a node of that kind, parent and end right here?
    fn admit(&mut self, kind: Kind, parent: u32, end: usize, count: usize) -> bool {
        match self.frames.last_mut() {
            // Only the root stands outside all elements, as it ends with the table.
            None => kind == Kind::Document && parent == MISSING && end == count,
            Some(frame) => parent as usize == frame.node && end <= frame.end && frame.take(kind),
        }
    }
}

/// Kinds, parents, ends, what stands where, and the nesting of the canonical spelling.
fn shape_is_sound(table: Table) -> bool {
    let count = table.count();
    let mut stack = Stack { frames: Vec::with_capacity(NESTED_LEVELS) };
    for node in 0..count {
        if !stack.end_before(node) || !node_is_sound(table, node, count, &mut stack) {
            return false;
        }
    }
    count > 0 && stack.end_before(count)
}

fn node_is_sound(table: Table, node: usize, count: usize, stack: &mut Stack) -> bool {
    let (record, end) = (table.record(node), table.end(node));
    let Some(kind) = Kind::from_number(record[KIND]) else { return false };
    if end <= node || !stack.admit(kind, record[PARENT], end, count) {
        return false;
    }
    if kind == Kind::Text {
        return end == node + 1;
    }
    stack.frames.push(Frame { node, kind, end, last: None, first: None });
    stack.frames.len() + usize::from(has_parameter_brackets(record)) <= NESTED_LEVELS
}

/// Brackets of an id, target, type or size count as a level of the spelling.
fn has_parameter_brackets(record: &[u32]) -> bool {
    record[KEY_LENGTH] != 0 || record[TYPE_LENGTH] != 0 || record[WIDTH] != MISSING
}

/// Strings in the order of the pool without gap, of the right characters, and sizes.
fn strings_are_sound(table: Table) -> bool {
    let mut pool = Pool { bytes: table.pool, used: 0 };
    let all = (0..table.count()).all(|node| {
        let (kind, record) = (table.kind(node), table.record(node));
        pool.takes_strings(kind, record) && size_is_sound(kind, record[WIDTH], record[HEIGHT])
    });
    all && pool.used == pool.bytes.len()
}

struct Pool<'t> {
    bytes: &'t [u8],
    used: usize,
}

impl<'t> Pool<'t> {
    fn takes_strings(&mut self, kind: Kind, record: &[u32]) -> bool {
        self.takes_name(kind.naming(), record)
            && self.takes(record, TYPE_OFFSET, false, kind.may_have_type(), |bytes| all(bytes, of_type))
            && self.takes(record, TEXT_OFFSET, kind == Kind::Text, kind == Kind::Text, is_text)
    }

    fn takes_name(&mut self, naming: Naming, record: &[u32]) -> bool {
        match naming {
            Naming::Nothing => self.takes(record, KEY_OFFSET, false, false, is_text),
            Naming::MayHaveId => self.takes(record, KEY_OFFSET, false, true, |bytes| all(bytes, of_id)),
            Naming::HasId | Naming::HasTarget => self.takes(record, KEY_OFFSET, true, true, |bytes| all(bytes, of_id)),
            Naming::HasUri => self.takes(record, KEY_OFFSET, true, true, |bytes| all(bytes, of_uri)),
        }
    }

    /// A missing string is 0, 0; a present one follows the one before it.
    fn takes(&mut self, record: &[u32], at: usize, must: bool, may: bool, fits: fn(&[u8]) -> bool) -> bool {
        let (offset, length) = (record[at] as usize, record[at + 1] as usize);
        if length == 0 {
            return offset == 0 && !must;
        }
        let Some(bytes) = self.bytes[self.used..].get(..length) else { return false };
        let fine = may && offset == self.used && fits(bytes);
        self.used += length;
        fine
    }
}

fn all(bytes: &[u8], sort: fn(u8) -> bool) -> bool {
    bytes.iter().all(|&byte| sort(byte))
}

/// Any scalar values may stand in a text.
fn is_text(bytes: &[u8]) -> bool {
    std::str::from_utf8(bytes).is_ok()
}

/// An image has both width and height, at most 65,535, or neither; other kinds have neither.
fn size_is_sound(kind: Kind, width: u32, height: u32) -> bool {
    let missing = width == MISSING && height == MISSING;
    missing || (kind == Kind::Image && width <= 65_535 && height <= 65_535)
}

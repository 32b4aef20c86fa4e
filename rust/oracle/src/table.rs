//! The node table ("The table").

use crate::kind::Kind;
use crate::names::{END, KEY_OFFSET, KIND, MISSING, RECORD_LENGTH, TEXT_OFFSET, TYPE_OFFSET};

/// The strings of a node in the order of the pool: id or target, then type, then text.
pub const STRINGS: [usize; 3] = [KEY_OFFSET, TYPE_OFFSET, TEXT_OFFSET];

/// The record of a node without strings, size or descendants.
pub fn bare_record(kind: Kind, parent: u32, node: u32) -> [u32; RECORD_LENGTH] {
    [kind.number(), parent, node + 1, 0, 0, 0, 0, 0, 0, MISSING, MISSING]
}

/// A table to look at. Accessors are for tables whose kinds, ends and strings are known to be sound.
#[derive(Clone, Copy)]
pub struct Table<'t> {
    pub words: &'t [u32],
    pub pool: &'t [u8],
}

impl<'t> Table<'t> {
    pub fn count(&self) -> usize {
        self.words.len() / RECORD_LENGTH
    }

    pub fn record(&self, node: usize) -> &'t [u32] {
        &self.words[node * RECORD_LENGTH..][..RECORD_LENGTH]
    }

    pub fn kind(&self, node: usize) -> Kind {
        Kind::from_number(self.words[node * RECORD_LENGTH + KIND]).expect("a kind of 1 to 25")
    }

    pub fn end(&self, node: usize) -> usize {
        self.words[node * RECORD_LENGTH + END] as usize
    }

    /// The string whose offset is the record's word `at`; empty if it is missing.
    pub fn string(&self, node: usize, at: usize) -> &'t [u8] {
        let record = self.record(node);
        &self.pool[record[at] as usize..][..record[at + 1] as usize]
    }

    /// The node's children from `first` on, which is one of them or the node's end.
    pub fn siblings(self, node: usize, first: usize) -> impl Iterator<Item = usize> + 't {
        let end = self.end(node);
        let within = move |child: usize| (child < end).then_some(child);
        std::iter::successors(within(first), move |&child| within(self.end(child)))
    }

    pub fn children(self, node: usize) -> impl Iterator<Item = usize> + 't {
        self.siblings(node, node + 1)
    }
}

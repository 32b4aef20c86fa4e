//! A text, and the canonical spelling of what it says. [`documents`] has all of them.

use crate::memory::{Room, Table};
use crate::{escapes, forms, many};
use structural::{number, Spelling};

#[derive(Clone)]
pub struct Case {
    pub spelling: Spelling,
    pub text: Vec<u8>,
    pub want: Vec<u8>,
    room: Room,
}

impl Case {
    /// A document of at most 63 nodes and 511 bytes in the pool.
    fn small(spelling: Spelling, text: &[u8], want: &[u8]) -> Case {
        Case { spelling, text: text.to_vec(), want: want.to_vec(), room: Room::new(704, 64, 512) }
    }

    /// A document of at most 4,096 nodes and 8,191 bytes in the pool.
    pub fn large(spelling: Spelling, text: Vec<u8>, want: Vec<u8>) -> Case {
        Case { spelling, text, want, room: Room::new(45_100, 4_100, 8_192) }
    }

    /// Its table in marked memory.
    pub fn table(&self) -> Table {
        Table::read(&self.text, self.spelling, number::OK, self.room)
    }

    /// Its table in memory that is full of these.
    pub fn table_before(&self, word: u32, byte: u8) -> Table {
        Table::read(&self.text, self.spelling, number::OK, Room { word, byte, ..self.room })
    }
}

pub fn nested(text: &[u8], want: &[u8]) -> Case {
    Case::small(Spelling::Nested, text, want)
}

pub fn imperative(text: &[u8], want: &[u8]) -> Case {
    Case::small(Spelling::Imperative, text, want)
}

/// 14, 7 and 3 documents.
pub fn documents() -> Vec<Case> {
    [forms::forms(), escapes::escapes(), many::many()].concat()
}

//! A manual as the run of its blocks, and how it is filled up to a size.

use crate::element::{around, Element};
use crate::spell;
use crate::words::Words;
use structural::Kind;

/// A document: each block with its title and inline content. Which block holds which follows from their kinds.
pub struct Manual {
    blocks: Vec<Element>,
    room: usize,
}

impl Manual {
    /// With nothing in it yet, for `size` bytes in either spelling.
    pub fn new(size: usize) -> Manual {
        Manual { blocks: Vec::new(), room: size }
    }

    pub fn blocks(&self) -> &[Element] {
        &self.blocks
    }

    /// Adds blocks if there is room for them all; says whether there was.
    pub fn add(&mut self, blocks: impl IntoIterator<Item = Element>) -> bool {
        let blocks: Vec<Element> = blocks.into_iter().collect();
        let length = blocks.iter().map(spell::length).sum();
        let room = self.room.checked_sub(length);
        if let Some(room) = room {
            self.room = room;
            self.blocks.extend(blocks);
        }
        room.is_some()
    }

    /// Adds one paragraph that takes the room left, if that is enough for one.
    pub fn fill(mut self, words: &mut Words) -> Manual {
        let least = spell::length(&around(Kind::Paragraph, "a"));
        if let Some(more) = self.room.checked_sub(least) {
            self.add([around(Kind::Paragraph, words.exactly(more + 1))]);
        }
        self
    }
}

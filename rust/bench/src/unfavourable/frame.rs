//! What stands around pieces that are all alike.

use oracle::names::{MOST_BYTES, MOST_NODES};

/// An opening with so many nodes, and its closing.
pub struct Frame {
    pub open: &'static str,
    pub nodes: usize,
    pub close: &'static str,
}

/// Around blocks.
pub const SECTION: Frame = Frame { open: "[document[title][section[title]", nodes: 4, close: "]]" };

impl Frame {
    /// As many pieces of `each` nodes as a table and a text hold.
    pub fn around(&self, each: usize, pieces: impl IntoIterator<Item = String>) -> String {
        let mut text = self.open.to_string();
        for piece in pieces.into_iter().take((MOST_NODES - self.nodes) / each) {
            if text.len() + piece.len() + self.close.len() > MOST_BYTES {
                break;
            }
            text += &piece;
        }
        text + self.close
    }
}

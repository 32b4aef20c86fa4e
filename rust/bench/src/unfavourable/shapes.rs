//! Documents of one shape alone.

use super::frame::{Frame, SECTION};
use crate::deep;
use crate::spell::spell;
use oracle::names::{MOST_BYTES, MOST_NODES};
use std::iter::repeat_n;
use structural::Spelling;

/// Links to the paragraph that holds them.
pub fn one_target() -> String {
    let paragraph = Frame { open: "[document[title][section[title][paragraph[id a]", nodes: 5, close: "]]]" };
    paragraph.around(1, repeat_n("[link[target a]]".to_string(), MOST_NODES))
}

/// A head and two rows, each a third of the nodes that a table's frame leaves.
pub fn wide_rows() -> String {
    let width = (MOST_NODES - 11) / 3;
    let (names, cells) = ("[name]".repeat(width), "[cell]".repeat(width));
    let table = format!("[table[summary][head{names}][body[row{cells}][row{cells}]]]");
    format!("[document[title][section[title][paragraph{table}]]]")
}

/// Lists in items of lists, with one letter in the last.
pub fn deep_lists() -> String {
    spell(&deep::lists(MOST_BYTES), Spelling::Nested)
}

/// Strings of two escapes in turn, one with digits and one with a letter.
pub fn escapes() -> String {
    let paragraph = format!("[paragraph\"{}\"]", "\\u00e9\\n".repeat(80));
    SECTION.around(2, repeat_n(paragraph, MOST_NODES))
}

/// A title of one-letter symbols: a node in two bytes.
pub fn letters() -> String {
    let title = Frame { open: "[document[title ", nodes: 2, close: "]]" };
    title.around(1, repeat_n("a ".to_string(), MOST_NODES))
}

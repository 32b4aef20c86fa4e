//! Ids that an index finds hard to tell apart.

use super::frame::SECTION;
use super::slot::{differing, sharing};

/// Ids that all share a slot. Where a slot is a chain, the check goes along all of it for each.
pub fn one_slot() -> String {
    paragraphs(sharing("", 3_500))
}

/// Ids of a long common beginning. A digital tree has no branch before its end: where each bit of an id is a level, and a
/// node stands at each, 8 bits of 82 bytes are a chain of all 655 ids.
pub fn long_prefix() -> String {
    paragraphs(differing(&"a".repeat(82)))
}

/// Ids that share a slot and have a long common beginning too, for a tree below each slot.
pub fn one_slot_long_prefix() -> String {
    paragraphs(sharing(&"a".repeat(80), 1_000))
}

fn paragraphs(ids: impl IntoIterator<Item = String>) -> String {
    SECTION.around(1, ids.into_iter().map(|id| format!("[paragraph[id {id}]]")))
}

//! Texts that are refused after much work.

use crate::sort::Sort;
use crate::spell::spell;
use oracle::names::{MOST_BYTES, NESTED_LEVELS};
use structural::Spelling;

/// A node in two bytes to the end, and so more nodes than a table may have.
pub fn more_letters() -> String {
    let (open, close) = ("[document[title ", "]]");
    let letters = "a ".repeat((MOST_BYTES - open.len() - close.len()) / 2);
    format!("{open}{letters}{close}")
}

/// Lists to the 64th level, in one list. It is no document, and yet its brackets come before that.
pub fn brackets() -> String {
    let levels = NESTED_LEVELS - 1;
    let inner = "[a".repeat(levels) + &"]".repeat(levels);
    format!("[a{}]", inner.repeat((MOST_BYTES - 3) / inner.len()))
}

/// The manual that takes longest to read, with a symbol behind its last section.
pub fn at_its_end() -> String {
    let end = " a]";
    let manual = spell(&Sort::Links.manual(MOST_BYTES - end.len()), Spelling::Nested);
    let open = manual.trim_end().strip_suffix(']').expect("a document ends with its bracket");
    format!("{open}{end}")
}

//! Lists in items of lists to the deepest level, with next to no text between the brackets.

use crate::element::{around, element, titled, Element};
use crate::manual::Manual;
use crate::words::Words;
use oracle::names::MOST_NODES;
use structural::Kind;

/// As in `lists`: with the term in the last item, levels 6 to 64 of the nested spelling and 1 to 59 of the imperative one.
const DEEPEST: usize = 29;

/// Nodes of the blocks around the paragraphs, and of a paragraph: itself, lists and items, the term and its text.
const BLOCKS: usize = 4 * 3;
const PARAGRAPH: usize = 1 + 2 * DEEPEST + 2;

/// Paragraphs of one such list each, as many as a table and this size hold.
pub fn lists(size: usize) -> Manual {
    let mut manual = Manual::new(size);
    let blocks = [Kind::Document, Kind::Part, Kind::Section, Kind::Subsection];
    manual.add(blocks.map(|kind| titled(kind, "a")));
    for _ in 0..(MOST_NODES - BLOCKS) / PARAGRAPH {
        manual.add([element(Kind::Paragraph).with([list(DEEPEST)])]);
    }
    manual
}

/// The same, and a last paragraph of text that takes the rest of the size.
pub fn manual(size: usize) -> Manual {
    lists(size).fill(&mut Words::new(5))
}

fn list(depth: usize) -> Element {
    let inner = match depth {
        1 => around(Kind::Term, "a"),
        _ => list(depth - 1),
    };
    element(Kind::ListOrdered).with([element(Kind::Item).with([inner])])
}

#[cfg(test)]
mod tests {
    use super::*;
    use crate::spell::{levels, spell};
    use oracle::names::{IMPERATIVE_LEVELS, NESTED_LEVELS};
    use structural::Spelling;

    #[test]
    fn a_small_text_reaches_both_limits_on_nesting() {
        let manual = manual(1024);
        let [nested, imperative] = [Spelling::Nested, Spelling::Imperative].map(|each| levels(&spell(&manual, each)));
        assert_eq!((nested, imperative), (NESTED_LEVELS, IMPERATIVE_LEVELS));
    }
}

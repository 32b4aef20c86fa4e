//! Lists in items of lists, down to the deepest level of brackets that either spelling allows.

use crate::element::{around, element, text, titled, Element};
use crate::manual::Manual;
use crate::words::Words;
use structural::Kind;

/// Under a paragraph of a subsection of a section of a part, 29 lists with an item each and a term in the last are
/// levels 6 to 64 of the nested spelling, and 1 to 59 of the imperative one.
const DEEPEST: usize = 29;

/// Paragraphs of one list each; the last is as deep as there is room for.
pub fn manual(size: usize) -> Manual {
    let mut words = Words::new(4);
    let mut manual = Manual::new(size);
    manual.add([
        titled(Kind::Document, "Checks before departure"),
        titled(Kind::Part, "All boats"),
        titled(Kind::Section, "Trimarans"),
        titled(Kind::Subsection, "On the mooring"),
    ]);
    while manual.add([paragraph(DEEPEST, &mut words)]) {}
    for depth in (1..DEEPEST).rev() {
        if manual.add([paragraph(depth, &mut words)]) {
            break;
        }
    }
    manual.fill(&mut words)
}

fn paragraph(depth: usize, words: &mut Words) -> Element {
    element(Kind::Paragraph).with([list(depth, words)])
}

/// Ordered and unordered in turn.
fn list(depth: usize, words: &mut Words) -> Element {
    let kind = [Kind::ListOrdered, Kind::ListUnordered][depth % 2];
    let first = text(words.phrase(26));
    let inner = match depth {
        1 => around(Kind::Term, words.word()),
        _ => list(depth - 1, words),
    };
    element(kind).with([element(Kind::Item).with([first, inner])])
}

#[cfg(test)]
mod tests {
    use crate::sort::Sort;
    use crate::spell::{levels, spell};
    use oracle::names::{IMPERATIVE_LEVELS, MOST_BYTES, NESTED_LEVELS};
    use structural::Spelling;

    #[test]
    fn both_limits_on_nesting_are_reached() {
        let manual = Sort::Lists.manual(MOST_BYTES);
        let [nested, imperative] = [Spelling::Nested, Spelling::Imperative].map(|each| levels(&spell(&manual, each)));
        assert_eq!((nested, imperative), (NESTED_LEVELS, IMPERATIVE_LEVELS));
    }
}

//! Nearly as many ids and links as a manual of this size can have, for the search for ids.

use crate::element::{element, titled, Element};
use crate::manual::Manual;
use crate::words::Words;
use oracle::names::MOST_BYTES;
use structural::Kind;

/// Paragraphs that have an id and a link, in a manual of 64 KiB.
const PARAGRAPHS: usize = 1_470;
/// Paragraphs of a section, which has an id itself.
const SECTION: usize = 50;

/// At 64 KiB 1,500 ids and 1,470 links; at other sizes as many for each byte.
pub fn manual(size: usize) -> Manual {
    let mut words = Words::new(3);
    let mut manual = Manual::new(size);
    let count = PARAGRAPHS * size / MOST_BYTES;
    manual.add([titled(Kind::Document, "Index of marks")]);
    for number in 0..count {
        if number % SECTION == 0 {
            manual.add([titled(Kind::Section, words.exactly(40)).id(format!("s{number}"))]);
        }
        manual.add([paragraph(number, count)]);
    }
    manual.fill(&mut words)
}

/// A link to a paragraph that is far away in most cases, ahead or back.
fn paragraph(number: usize, count: usize) -> Element {
    let link = element(Kind::Link).target(name(number * 389 % count));
    element(Kind::Paragraph).id(name(number)).with([link])
}

fn name(number: usize) -> String {
    format!("{}{:03}", ['m', 'n'][number / 1000], number % 1000)
}

#[cfg(test)]
mod tests {
    use crate::sort::Sort;
    use crate::spell::spell;
    use oracle::names::MOST_BYTES;
    use structural::Spelling;

    #[test]
    fn ids_and_links_at_64_kib() {
        let text = spell(&Sort::Links.manual(MOST_BYTES), Spelling::Nested);
        assert_eq!((text.matches("[id ").count(), text.matches("[link ").count()), (1_500, 1_470));
    }
}

//! Every kind of element with short texts, so that there are many nodes for each byte.

use crate::element::{around, element, text, titled, Element};
use crate::manual::Manual;
use crate::words::Words;
use structural::Kind;

/// Blocks of a subsection; subsections of a section; sections of a part.
const SUBSECTION: usize = 12;
const SECTION: usize = 4 * SUBSECTION;
const PART: usize = 3 * SECTION;

/// About 4,000 nodes at 64 KiB, at other sizes as many for each byte.
pub fn manual(size: usize) -> Manual {
    let mut words = Words::new(2);
    let mut manual = Manual::new(size);
    manual.add([titled(Kind::Document, "Rigging").id("d").class("manual")]);
    let mut count = 0;
    while manual.add(heads(count, &mut words).into_iter().chain([block(count, &mut words)])) {
        count += 1;
    }
    manual.fill(&mut words)
}

/// The blocks that open before block `count`.
fn heads(count: usize, words: &mut Words) -> Vec<Element> {
    let opens = [(PART, Kind::Part, 'p'), (SECTION, Kind::Section, 's'), (SUBSECTION, Kind::Subsection, 'u')];
    let due = opens.into_iter().filter(|(every, ..)| count.is_multiple_of(*every));
    due.map(|(_, kind, letter)| titled(kind, words.phrase(14)).id(format!("{letter}{count}"))).collect()
}

/// Links and references go to what stands before them, so that the manual may end after any block.
fn block(count: usize, words: &mut Words) -> Element {
    match count % SUBSECTION {
        0 | 6 => wording(words).id(format!("w{count}")),
        1 | 7 => linked(words, format!("w{}", count - 1)),
        2 | 9 => list(words),
        3 => around(Kind::Footnote, words.phrase(20)).id(format!("f{count}")),
        4 => reference(words, format!("f{}", count - 1)),
        5 => figure(words).id(format!("i{count}")).class("figure"),
        8 => element(Kind::Paragraph).with([table(words)]),
        10 => wording(words).class("note"),
        _ => steps(words),
    }
}

fn words_text(words: &mut Words, least: usize) -> Element {
    text(words.phrase(least))
}

fn wording(words: &mut Words) -> Element {
    let term = around(Kind::Term, words.phrase(13)).class("part");
    let verbatim = around(Kind::Verbatim, words.phrase(14)).class("key");
    element(Kind::Paragraph).with([words_text(words, 19), term, words_text(words, 14), verbatim])
}

fn linked(words: &mut Words, target: String) -> Element {
    let link = around(Kind::Link, words.phrase(13)).target(target);
    element(Kind::Paragraph).class("tip").with([words_text(words, 17), link, words_text(words, 20)])
}

fn reference(words: &mut Words, target: String) -> Element {
    let link = around(Kind::LinkExt, words.phrase(13)).target("\"https://loft.example/5011\"");
    let reference = element(Kind::FootnoteRef).target(target);
    element(Kind::Paragraph).with([words_text(words, 16), reference, words_text(words, 15), link])
}

fn figure(words: &mut Words) -> Element {
    let image = around(Kind::Image, words.phrase(14)).target("\"fig/reef.png\"").size(640, 480).class("line");
    titled(Kind::FormalItem, words.phrase(14)).with([image, words_text(words, 20)])
}

fn list(words: &mut Words) -> Element {
    let items: Vec<Element> = (0..3).map(|_| around(Kind::Item, words.phrase(14))).collect();
    element(Kind::Paragraph).with([words_text(words, 16), element(Kind::ListUnordered).with(items)])
}

/// An ordered list with an unordered one in its second item.
fn steps(words: &mut Words) -> Element {
    let inner: Vec<Element> = (0..2).map(|_| around(Kind::Item, words.phrase(13))).collect();
    let inner = element(Kind::ListUnordered).with(inner);
    let first = element(Kind::Item).with([words_text(words, 15), around(Kind::Term, words.phrase(13))]);
    let second = element(Kind::Item).with([words_text(words, 15), inner]);
    element(Kind::Paragraph).with([element(Kind::ListOrdered).with([first, second])])
}

fn table(words: &mut Words) -> Element {
    let names: Vec<Element> = (0..3).map(|_| around(Kind::Name, words.phrase(13))).collect();
    let rows: Vec<Element> = (0..3).map(|number| row(number, words)).collect();
    let summary = around(Kind::Summary, words.phrase(14));
    let head = element(Kind::Head).with(names);
    element(Kind::Table).class("grid").with([summary, head, element(Kind::Body).with(rows)])
}

fn row(number: usize, words: &mut Words) -> Element {
    let wind = around(Kind::Cell, format!("{} kn", 15 + 5 * number));
    let reefs = around(Kind::Cell, number.to_string());
    element(Kind::Row).with([wind, reefs, around(Kind::Cell, words.phrase(13))])
}

#[cfg(test)]
mod tests {
    use super::*;
    use crate::sort::Sort;
    use oracle::names::{MOST_BYTES, MOST_NODES};
    use std::collections::BTreeMap;

    fn count(element: &Element, kinds: &mut BTreeMap<Kind, usize>) {
        *kinds.entry(element.kind).or_default() += 1;
        element.children.iter().for_each(|child| count(child, kinds));
    }

    #[test]
    fn all_kinds_and_about_4000_nodes() {
        let mut kinds = BTreeMap::new();
        Sort::Markup.manual(MOST_BYTES).blocks().iter().for_each(|block| count(block, &mut kinds));
        assert_eq!(kinds.len(), Kind::ALL.len());
        assert!((3_900..=MOST_NODES).contains(&kinds.values().sum::<usize>()));
    }
}

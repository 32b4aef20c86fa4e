//! Nesting of the canonical spelling around the most allowed, 64; brackets of parameters count.

use super::least::{document, least};
use crate::sweep::must::Must;
use crate::sweep::sweeper::Sweeper;
use oracle::names::NESTED_LEVELS;
use oracle::random::{Element, TableCase};
use oracle::Kind;

/// Document, section and paragraph.
const BLOCKS: usize = 3;

/// How many elements have an odd number of levels of their own, with which sums are 60, 62, 64 and 66, and how many an even
/// one, with which they are 61, 63, 65 and 67.
const ODD: u64 = 4;
const EVEN: u64 = 11;

pub fn sweep(sweeper: &mut Sweeper) {
    let must = Must::meet(4 * (ODD + EVEN), 3 * ODD + 2 * EVEN, &[0, 20]);
    sweeper.tables("nesting", must, |tables| {
        for (element, own) in innermost() {
            for pairs in 0..40 {
                let sum = BLOCKS + 2 * pairs + own;
                if (NESTED_LEVELS - 4..=NESTED_LEVELS + 3).contains(&sum) {
                    let table = TableCase::of(document(in_lists(element.clone(), pairs)).table());
                    tables.expect(if sum > NESTED_LEVELS { 20 } else { 0 }, &table);
                }
            }
        }
    });
}

/// Elements and the levels of brackets that they add.
fn innermost() -> Vec<(Element, usize)> {
    let typed = |kind| Element { class: "t".into(), ..least(kind, 0) };
    let image = Element { size: Some((1, 2)), ..least(Kind::Image, 0) };
    let table = |cell: Vec<Element>| {
        let row = Element::holding(Kind::Row, vec![Element::holding(Kind::Cell, cell)]);
        Element::holding(Kind::Table, vec![Element::new(Kind::Summary), Element::holding(Kind::Body, vec![row])])
    };
    vec![
        (least(Kind::Text, 0), 0),
        (least(Kind::Term, 0), 1),
        (least(Kind::Verbatim, 0), 1),
        (least(Kind::ListOrdered, 0), 1),
        (typed(Kind::Term), 2),
        (typed(Kind::Verbatim), 2),
        (least(Kind::Image, 0), 2),
        (image, 2),
        (least(Kind::Link, 0), 2),
        (least(Kind::LinkExt, 0), 2),
        (least(Kind::FootnoteRef, 0), 2),
        (typed(Kind::Table), 2),
        (Element { children: vec![least(Kind::Image, 0)], ..least(Kind::Link, 0) }, 3),
        (table(vec![]), 4),
        (table(vec![typed(Kind::Term)]), 6),
    ]
}

/// So many lists of one item around an element.
fn in_lists(element: Element, pairs: usize) -> Element {
    (0..pairs).fold(element, |inner, _| {
        Element::holding(Kind::ListUnordered, vec![Element::holding(Kind::Item, vec![inner])])
    })
}

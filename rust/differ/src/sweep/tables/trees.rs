//! Every kind in every kind, as a table: up to three children of any kinds.

use super::least::{document, kinds, least};
use crate::sweep::judging::Tables;
use crate::sweep::must::Must;
use crate::sweep::sweeper::Sweeper;
use oracle::random::{Element, TableCase};
use oracle::Kind;

/// 1 + 25 + 625 + 15,625.
const RUNS: u64 = 16_276;

/// How many runs of up to three children each kind may have. Those of c kinds in any order are 1 + c + c * c + c * c * c;
/// inline are 10 kinds, in a cell 9.
const WELL: [(Kind, u64); 25] = [
    // A title alone, then up to two parts or up to two sections; a title and sections; a title, then a subsection or one of
    // three others, then 1 + 3 * 3; a title, then 3, then 3 * 3.
    (Kind::Document, 1 + 2 + 2),
    (Kind::Part, 1 + 1 + 1),
    (Kind::Section, 1 + 4 + 10),
    (Kind::Subsection, 1 + 3 + 9),
    (Kind::Paragraph, 1_111),
    (Kind::FormalItem, 1 + 10 + 100),
    (Kind::Footnote, 1_111),
    (Kind::Title, 4),
    (Kind::Text, 1),
    (Kind::Term, 4),
    (Kind::Image, 4),
    (Kind::Verbatim, 1),
    (Kind::Link, 1 + 2 + 4 + 8),
    (Kind::LinkExt, 1 + 2 + 4 + 8),
    (Kind::FootnoteRef, 1),
    (Kind::ListOrdered, 4),
    (Kind::ListUnordered, 4),
    (Kind::Item, 1_111),
    // With a head and without.
    (Kind::Table, 2),
    (Kind::Summary, 4),
    (Kind::Head, 4),
    (Kind::Name, 4),
    (Kind::Body, 4),
    (Kind::Row, 4),
    (Kind::Cell, 1 + 9 + 81 + 729),
];

pub fn sweep(sweeper: &mut Sweeper) {
    for (kind, well) in WELL {
        let must = Must::meet(RUNS, well, &[0, 20]);
        sweeper.tables(&format!("children of {} as a table", kind.name()), must, |tables| runs(tables, kind));
    }
}

fn runs(tables: &mut Tables, kind: Kind) {
    judge(tables, kind, &[]);
    for first in kinds() {
        judge(tables, kind, &[first]);
        for second in kinds() {
            judge(tables, kind, &[first, second]);
            kinds().for_each(|third| judge(tables, kind, &[first, second, third]));
        }
    }
}

fn judge(tables: &mut Tables, kind: Kind, children: &[Kind]) {
    let children = children.iter().zip(1..).map(|(&child, place)| least(child, place)).collect();
    let element = Element { children, ..least(kind, 0) };
    tables.table(&TableCase::of(document(element).table()));
}

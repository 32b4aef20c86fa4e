//! Faults 15 to 18 side by side in one table: which of them is answered, and at which node.

use super::least::{document, least};
use crate::sweep::judging::Tables;
use crate::sweep::must::Must;
use crate::sweep::sweeper::Sweeper;
use oracle::names::RECORD_LENGTH;
use oracle::random::{Element, TableCase};
use oracle::Kind;

/// Paragraphs in a row, each with one fault or none.
const PLACES: u32 = 4;
const TABLES: u64 = 5_u64.pow(PLACES);

/// Document, title, section, title, and a footnote come before the first of them.
const FIRST: u32 = 5;

pub fn sweep(sweeper: &mut Sweeper) {
    in_order(sweeper);
    beside_no_table(sweeper);
}

/// The lowest number there is decides, and of its nodes the first.
fn in_order(sweeper: &mut Sweeper) {
    let must = Must::meet(TABLES, TABLES, &[0, 15, 16, 17, 18]).sound(1);
    sweeper.tables("faults in order", must, |tables| {
        each(|faults| {
            let (number, node) = first(&faults);
            tables.expect_at(number, node, &table(&faults));
        });
    });
}

/// 20 comes before each of them: with a node more that is lent, with one that is not, and with a byte more of the pool.
fn beside_no_table(sweeper: &mut Sweeper) {
    let must = Must::meet(3 * TABLES, 0, &[20]);
    sweeper.tables("faults beside no table", must, |tables| {
        each(|faults| damaged(table(&faults)).iter().for_each(|table| refused(tables, table)));
    });
}

fn refused(tables: &mut Tables, table: &TableCase) {
    tables.expect_at(20, 0, table);
}

fn damaged(table: TableCase) -> [TableCase; 3] {
    let (mut node, mut byte) = (table.clone(), table.clone());
    let last = table.nodes.len() - RECORD_LENGTH;
    node.nodes.extend_from_within(last..);
    byte.pool.push(b'a');
    node.node_count += 1;
    byte.pool_count += 1;
    [TableCase { node_count: table.node_count + 1, ..table }, node, byte]
}

/// Every choice of a number, 0 or 15 to 18, for each place.
fn each(mut see: impl FnMut([u32; PLACES as usize])) {
    for choice in 0..5_u32.pow(PLACES) {
        see(std::array::from_fn(|place| [0, 15, 16, 17, 18][(choice / 5_u32.pow(place as u32) % 5) as usize]));
    }
}

/// A paragraph with a fault, and how far behind it its node is. The document has the id `d`, and no block `x`.
fn paragraph(number: u32) -> (Element, u32) {
    let holding = |child| Element::holding(Kind::Paragraph, vec![child]);
    let naming = |kind, name: &str| Element { name: name.into(), ..Element::new(kind) };
    match number {
        15 => (holding(odd_row()), 6),
        16 => (naming(Kind::Paragraph, "d"), 0),
        17 => (holding(naming(Kind::Link, "x")), 1),
        18 => (holding(naming(Kind::FootnoteRef, "d")), 1),
        _ => (holding(least(Kind::Link, 0)), 0),
    }
}

/// A table of summary, head, name, body and a row without a cell.
fn odd_row() -> Element {
    let head = Element::holding(Kind::Head, vec![Element::new(Kind::Name)]);
    let body = Element::holding(Kind::Body, vec![Element::new(Kind::Row)]);
    Element::holding(Kind::Table, vec![Element::new(Kind::Summary), head, body])
}

/// The paragraphs stand behind the footnote that [`document`] puts before the first.
fn table(faults: &[u32]) -> TableCase {
    let mut document = document(paragraph(faults[0]).0);
    let others = faults[1..].iter().map(|&number| paragraph(number).0);
    document.children[1].children.extend(others);
    TableCase::of(document.table())
}

/// The number that decides, and its node; 0 and 0 where there is no fault.
fn first(faults: &[u32]) -> (u32, u32) {
    let Some(number) = faults.iter().copied().filter(|&number| number != 0).min() else { return (0, 0) };
    let before = faults.iter().take_while(|&&fault| fault != number).map(|&fault| paragraph(fault).0.count() as u32);
    (number, FIRST + before.sum::<u32>() + paragraph(number).1)
}

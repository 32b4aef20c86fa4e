//! Counts of nodes and pool bytes: around those of a table, beyond what is lent, and around the limits.

use super::table_of;
use crate::sweep::manual;
use crate::sweep::must::Must;
use crate::sweep::sweeper::Sweeper;
use oracle::names::{MISSING, MOST_BYTES, MOST_NODES, RECORD_LENGTH};
use oracle::random::{Element, TableCase};
use oracle::Kind;

const RECORD: i32 = RECORD_LENGTH as i32;
const NODES: u32 = MOST_NODES as u32;
const BYTES: u32 = MOST_BYTES as u32;

pub fn sweep(sweeper: &mut Sweeper) {
    around(sweeper);
    wild(sweeper);
    nodes(sweeper);
    pools(sweeper);
    ids(sweeper);
}

/// One more or less of either count, over memory that is one element short, exact, one element or a record longer.
fn around(sweeper: &mut Sweeper) {
    let must = Must::meet(3 * 3 * 5 * 3, 4 * 2, &[0, 20]);
    sweeper.tables("counts around those of a table", must, |tables| {
        let table = table_of(manual::NESTED);
        let lengths =
            [-1, 0, 1, RECORD - 1, RECORD].into_iter().flat_map(|words| [-1, 0, 1].map(|bytes| (words, bytes)));
        for ((words, bytes), nodes) in lengths.flat_map(|lent| [-1, 0, 1].map(|nodes| (lent, nodes))) {
            for pool in [-1, 0, 1] {
                let fits = words >= 0 && bytes >= 0 && nodes == 0 && pool == 0;
                let case = lent(&table, [words, bytes, nodes, pool]);
                tables.expect(if fits { 0 } else { 20 }, &case);
            }
        }
    });
}

/// So many more words and bytes lent, and so many more nodes and bytes counted.
fn lent(table: &TableCase, [words, bytes, nodes, pool]: [i32; 4]) -> TableCase {
    let mut case = table.clone();
    case.nodes.resize(table.nodes.len().saturating_add_signed(words as isize), 9);
    case.pool.resize(table.pool.len().saturating_add_signed(bytes as isize), b'a');
    case.node_count = table.node_count.saturating_add_signed(nodes);
    case.pool_count = table.pool_count.saturating_add_signed(pool);
    case
}

/// Counts far off; eleven times the fourth to the sixth is about 4,294,967,296.
const WILD: [u32; 14] = [
    0,
    1,
    2,
    0x1745_D174,
    0x1745_D175,
    0x1745_D176,
    NODES - 1,
    NODES,
    NODES + 1,
    BYTES - 1,
    BYTES,
    BYTES + 1,
    0x8000_0000,
    MISSING,
];

fn wild(sweeper: &mut Sweeper) {
    let must = Must::meet(14 * 2, 0, &[20]);
    sweeper.tables("counts far off", must, |tables| {
        let mut table = table_of(manual::NESTED);
        table.nodes.resize((MOST_NODES + 4) * RECORD_LENGTH, 0);
        table.pool.resize(MOST_BYTES + 64, b'a');
        for count in WILD {
            tables.expect(20, &TableCase { node_count: count, ..table.clone() });
            tables.expect(20, &TableCase { pool_count: count, ..table.clone() });
        }
    });
}

/// A title of so many texts.
fn title(texts: impl Iterator<Item = String>) -> Element {
    let texts = texts.map(Element::of_text).collect();
    Element::holding(Kind::Document, vec![Element::holding(Kind::Title, texts)])
}

/// Up to 4,096 nodes.
fn nodes(sweeper: &mut Sweeper) {
    let must = Must::meet(6, 2, &[0, 20]);
    sweeper.tables("nodes of a table", must, |tables| {
        for nodes in [MOST_NODES - 1, MOST_NODES, MOST_NODES + 1, MOST_NODES + 2, 2 * MOST_NODES, 30_002] {
            let document = title((2..nodes).map(|_| "a".into()));
            tables.expect(if nodes > MOST_NODES { 20 } else { 0 }, &TableCase::of(document.table()));
        }
    });
}

/// Two that are not too long, and five that are.
const LENGTHS: [usize; 7] = [
    MOST_BYTES - 1,
    MOST_BYTES,
    MOST_BYTES + 1,
    MOST_BYTES + 2,
    2 * MOST_BYTES - 1,
    2 * MOST_BYTES,
    2 * MOST_BYTES + 1,
];

/// Up to 65,536 bytes: in one text, in one whose characters are all spelled by number, in many, in an id, and in a type.
fn pools(sweeper: &mut Sweeper) {
    let must = Must::meet(7 * 5, 2 * 5, &[0, 20]);
    sweeper.tables("pool of a table", must, |tables| {
        for length in LENGTHS {
            let one = |length| "a".repeat(length);
            let long = title([one(length)].into_iter());
            let escaped = title(["\u{1}".repeat(length)].into_iter());
            let many = title((0..2_047).map(|_| one(32)).chain([one(length - 32 * 2_047)]));
            let id = Element { name: one(length), ..title([].into_iter()) };
            let class = Element { class: one(length), ..title([].into_iter()) };
            for document in [long, escaped, many, id, class] {
                tables.expect(if length > MOST_BYTES { 20 } else { 0 }, &TableCase::of(document.table()));
            }
        }
    });
}

/// The last of as many paragraphs as there can be, counted from 0: 4,096 nodes but document, section and their titles.
const LAST: usize = MOST_NODES - 5;

/// As many blocks with ids as there can be. They are told apart, and so are those of which the last has the id of the
/// first, or of one in the middle: then it is the last node that has the fault.
fn ids(sweeper: &mut Sweeper) {
    let must = Must::meet(3, 3, &[0, 16]).sound(1);
    sweeper.tables("ids of a table", must, |tables| {
        for (last, number, node) in [(LAST, 0, 0), (0, 16, NODES - 1), (2_000, 16, NODES - 1)] {
            let names = (0..LAST).chain([last]).map(|id| format!("i{id}"));
            let paragraphs = names.map(|name| Element { name, ..Element::new(Kind::Paragraph) });
            let titled =
                |kind, rest: Vec<Element>| Element::holding(kind, [vec![Element::new(Kind::Title)], rest].concat());
            let document = titled(Kind::Document, vec![titled(Kind::Section, paragraphs.collect())]);
            tables.expect_at(number, node, &TableCase::of(document.table()));
        }
    });
}

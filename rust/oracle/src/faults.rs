//! Numbers 15 to 18 on a table whose shape is sound. Each in turn is judged over the whole document.

use crate::ids::Ids;
use crate::kind::Kind;
use crate::names::{KEY_OFFSET, REPEATED_ID, ROW_LENGTH, UNKNOWN_FOOTNOTE, UNKNOWN_TARGET};
use crate::table::Table;

/// The first of 15 to 18 that applies, and the node it is found at.
pub fn first_fault(table: Table) -> Option<(u32, usize)> {
    if let Some(row) = first_bad_row(table) {
        return Some((ROW_LENGTH, row));
    }
    let mut ids = Ids::new(table);
    if let Some(block) = first_repeated_id(table, &mut ids) {
        return Some((REPEATED_ID, block));
    }
    first_loose_target(table, &ids)
}

/// 15: the lowest row, over all tables with a head, with another count of cells than the head has names.
fn first_bad_row(table: Table) -> Option<usize> {
    let tables = (0..table.count()).filter(|&node| table.kind(node) == Kind::Table);
    tables.filter_map(|node| first_bad_row_of(table, node)).min()
}

fn first_bad_row_of(table: Table, node: usize) -> Option<usize> {
    // A table's children are its summary, its head if any, and its body.
    let head = table.end(node + 1);
    if table.kind(head) != Kind::Head {
        return None;
    }
    let names = table.children(head).count();
    table.children(table.end(head)).find(|&row| table.children(row).count() != names)
}

/// 16: the first block whose id is on an earlier one. Notes all ids if there is none.
fn first_repeated_id(table: Table, ids: &mut Ids) -> Option<usize> {
    let has_id = |&node: &usize| table.kind(node).is_block() && !table.string(node, KEY_OFFSET).is_empty();
    (0..table.count()).filter(has_id).find(|&block| !ids.insert(block))
}

/// 17: the first link whose target is on no block; else 18: the first footnote-ref whose target is on no footnote.
fn first_loose_target(table: Table, ids: &Ids) -> Option<(u32, usize)> {
    let mut reference = None;
    for node in 0..table.count() {
        match table.kind(node) {
            Kind::Link if ids.find(table.string(node, KEY_OFFSET)).is_none() => return Some((UNKNOWN_TARGET, node)),
            Kind::FootnoteRef if reference.is_none() => {
                let block = ids.find(table.string(node, KEY_OFFSET));
                let footnote = block.is_some_and(|block| table.kind(block) == Kind::Footnote);
                reference = (!footnote).then_some((UNKNOWN_FOOTNOTE, node));
            }
            _ => {}
        }
    }
    reference
}

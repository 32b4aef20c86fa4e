//! What is tried with each of the 24 documents.
//!
//! | test | cases |
//! |---|---|
//! | [`spelled`] | 24 |
//! | [`read_back`] | 24 |
//! | [`output_lengths`] | 96 |
//! | [`past_the_counts`] | 72 |

use crate::cases::{documents, Case};
use crate::memory::Table;
use structural::lent::NODE_WORDS;
use structural::number;

/// Tries each of the 24 documents.
fn each(tried: fn(&Case)) {
    let documents = documents();
    assert_eq!(documents.len(), 24);
    for (k, case) in documents.iter().enumerate() {
        eprintln!("document {k}, {} bytes", case.text.len());
        tried(case);
    }
}

/// The table that was read is printed.
#[test]
fn spelled() {
    each(|case| case.table().spells(&case.want));
}

/// What was printed is read, which gives the same table, and that is printed.
#[test]
fn read_back() {
    each(|case| case.table().comes_back());
}

/// Four outputs: one byte too short, just long enough, longer, and empty.
fn lengths(case: &Case) {
    let (table, want) = (case.table(), &case.want[..]);
    let n = want.len();
    let outputs: [(usize, u32, &[u8]); 4] = [
        (n - 1, number::OUTPUT_SHORT, b""),
        (n, number::OK, want),
        (n + 16, number::OK, want),
        (0, number::OUTPUT_SHORT, b""),
    ];
    outputs.iter().for_each(|(size, number, written)| table.prints(*size, *number, n, written));
}

#[test]
fn output_lengths() {
    each(lengths);
}

/// As much is lent as the counts say.
fn exact(mut table: Table) -> Table {
    table.words.truncate(NODE_WORDS * table.nodes as usize);
    table.bytes.truncate(table.pool as usize);
    table
}

/// Three memories: nothing lies behind the table and the pool, or zeros, or ones.
fn past(case: &Case) {
    let tables = [exact(case.table()), case.table_before(0, 0), case.table_before(u32::MAX, 255)];
    tables.iter().for_each(|table| table.spells(&case.want));
}

#[test]
fn past_the_counts() {
    each(past);
}

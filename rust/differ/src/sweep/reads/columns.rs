//! Tables: heads of so many names over rows of so many cells, and tables beside and within each other.

use super::frame::{expect, PARAGRAPH};
use crate::sweep::must::Must;
use crate::sweep::reading::Reads;
use crate::sweep::sweeper::Sweeper;

pub fn sweep(sweeper: &mut Sweeper) {
    narrow(sweeper);
    wide(sweeper);
    rows(sweeper);
    several(sweeper);
}

/// A table with a head of so many names, if any, and rows of so many cells.
fn table(names: Option<usize>, rows: &[usize]) -> String {
    let head = names.map_or(String::new(), |names| format!("[head{}]", " [name]".repeat(names)));
    let row = |&cells: &usize| format!("[row{}]", " [cell]".repeat(cells));
    format!("[table [summary] {head} [body {}]]", rows.iter().map(row).collect::<String>())
}

/// The table in a paragraph; it is 15 where a row's count is not the head's.
fn compare(reads: &mut Reads, names: Option<usize>, rows: &[usize]) {
    let fits = names.is_none_or(|names| rows.iter().all(|&cells| cells == names));
    expect(reads, if fits { 0 } else { 15 }, PARAGRAPH, table(names, rows).as_bytes());
}

/// Every head of 0 to 40 names over a row of 0 to 40 cells.
fn narrow(sweeper: &mut Sweeper) {
    let must = Must::meet(2 * 41 * 41, 2 * 41 * 41, &[0, 15]);
    sweeper.reads("columns to 40", must, |reads| {
        for (names, cells) in (0..=40).flat_map(|names| (0..=40).map(move |cells| (names, cells))) {
            compare(reads, Some(names), &[cells]);
        }
    });
}

/// Counts around what one byte holds, and others; two of the largest are 4,013 nodes.
const WIDE: [usize; 12] = [63, 64, 65, 127, 128, 255, 256, 257, 300, 512, 1_000, 2_000];

fn wide(sweeper: &mut Sweeper) {
    let must = Must::meet(2 * 12 * 12, 2 * 12 * 12, &[0, 15]);
    sweeper.reads("wide columns", must, |reads| {
        for (names, cells) in WIDE.into_iter().flat_map(|names| WIDE.map(|cells| (names, cells))) {
            compare(reads, Some(names), &[cells]);
        }
    });
}

/// Rows of which the first, the second or the last is one short or one long; without a head any will do.
fn rows(sweeper: &mut Sweeper) {
    let must = Must::meet(2 * 2 * 40 * 6, 2 * 2 * 40 * 6, &[0, 15]);
    sweeper.reads("rows", must, |reads| {
        for names in 1..=40 {
            let (less, more) = (names - 1, names + 1);
            for row in
                [[less; 3], [more; 3], [names, less, names], [names, more, less], [names, names, more], [names; 3]]
            {
                compare(reads, Some(names), &row);
                compare(reads, None, &row);
            }
        }
    });
}

/// Tables that go well without and with a head, with a head of no names, and two that do not.
fn all_sorts() -> [(String, bool); 5] {
    [
        (table(None, &[1, 2]), true),
        (table(Some(2), &[2, 2]), true),
        (table(Some(0), &[0, 0]), true),
        (table(Some(2), &[2, 3]), false),
        (table(Some(0), &[1]), false),
    ]
}

/// One after the other, one in a list behind the other, and both in cells of a table that has a head or none.
fn several(sweeper: &mut Sweeper) {
    let must = Must::meet(2 * 5 * 5 * 4, 2 * 5 * 5 * 4, &[0, 15]);
    sweeper.reads("tables beside and within each other", must, |reads| {
        for (first, second) in all_sorts().iter().flat_map(|first| all_sorts().map(|second| (first.clone(), second))) {
            let number = if first.1 && second.1 { 0 } else { 15 };
            for tables in arranged(&first.0, &second.0) {
                expect(reads, number, PARAGRAPH, tables.as_bytes());
            }
        }
    });
}

fn arranged(first: &str, second: &str) -> [String; 4] {
    let in_list = |table: &str| format!("[list-ordered [item x {table}]]");
    let (inner, other) = (in_list(second), in_list(first));
    [
        format!("{first} {second}"),
        format!("{first} x {inner} [term]"),
        format!("[table [summary] [head [name] [name]] [body [row [cell {inner}] [cell {other}]]]]"),
        format!("[table [summary] [body [row [cell x {other} {inner}]] [row]]]"),
    ]
}

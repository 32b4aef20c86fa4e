//! Outputs of every length, and slices of every length for the answer.

use super::table_of;
use crate::call::NO_ANSWER;
use crate::sweep::manual;
use crate::sweep::must::Must;
use crate::sweep::sweeper::Sweeper;
use crate::{check, print};
use oracle::random::{PrintCase, TableCase};

/// Texts that are their own canonical spelling. The last has all of the faults 15 to 18.
const CANONICAL: [&str; 4] = [
    "[document [title]]",
    "[document [title \"A\"] [id i] [type t]]",
    "[document [title \"\\\"\\n\\r\\t\\u005c\\u0000\\u001f\\u007f\u{80}\"] [section [title] [paragraph \
     [image [target \"\\\"\\u005c\"] [size 7 65535] [type t] \"c\"] [verbatim \"v\"]]]]",
    "[document [title] [id d] [section [title] [id d] [paragraph [footnote-ref [target \"d\"]] [link [target \"x\"]] \
     [table [summary] [head [name]] [body [row]]]]]]",
];

pub fn sweep(sweeper: &mut Sweeper) {
    spelled(sweeper);
    lengths(sweeper);
    answers(sweeper);
    answers_of_checks(sweeper);
}

/// From no bytes to three more than the spelling has.
fn spelled(sweeper: &mut Sweeper) {
    for text in CANONICAL {
        let must = Must::meet(text.len() as u64 + 4, 4, &[0, 21]);
        sweeper.prints(&format!("outputs for {} bytes", text.len()), must, |prints| {
            let table = table_of(text);
            for out in 0..=text.len() + 3 {
                let number = if out < text.len() { 21 } else { 0 };
                prints.print(number, &PrintCase { table: table.clone(), out }, print::WORDS);
            }
        });
    }
}

/// The same of a manual, whose spelling is longer than most outputs here and shorter than the last.
fn lengths(sweeper: &mut Sweeper) {
    let must = Must::meet_some(1_000, 100, &[0, 21]);
    sweeper.prints("outputs for a manual", must, |prints| {
        let table = table_of(manual::NESTED);
        let needed = oracle::print(&table.nodes, table.node_count, &table.pool, table.pool_count, &mut []).length;
        for out in 0..1_000 {
            let number = if out < needed as usize { 21 } else { 0 };
            prints.print(number, &PrintCase { table: table.clone(), out }, print::WORDS);
        }
    });
}

/// From no words to five for the answer: below two nothing is printed.
fn answers(sweeper: &mut Sweeper) {
    let must = Must::meet(3 * 6, 4, &[0, 20, 21, NO_ANSWER]);
    sweeper.prints("words for the answer", must, |prints| {
        let table = table_of(CANONICAL[1]);
        let out = CANONICAL[1].len();
        let other = without_last(&table);
        for (table, out, number) in [(table.clone(), out, 0), (table, out - 1, 21), (other, out, 20)] {
            let case = PrintCase { table, out };
            for words in 0..6 {
                prints.print(if words < print::WORDS { NO_ANSWER } else { number }, &case, words);
            }
        }
    });
}

/// A node fewer is counted, so that the root's end is past the last one.
fn without_last(table: &TableCase) -> TableCase {
    TableCase { node_count: table.node_count.wrapping_sub(1), ..table.clone() }
}

/// The same of the check: below two words nothing is checked.
fn answers_of_checks(sweeper: &mut Sweeper) {
    let must = Must::meet(3 * 6, 2 * 4, &[0, 15, 20, NO_ANSWER]).sound(4);
    sweeper.tables("words for the answer of a check", must, |tables| {
        let (sound, faulty) = (table_of(CANONICAL[1]), table_of(CANONICAL[3]));
        let other = without_last(&faulty);
        for (table, number) in [(sound, 0), (faulty, 15), (other, 20)] {
            for words in 0..6 {
                tables.check(if words < check::WORDS { NO_ANSWER } else { number }, &table, words);
            }
        }
    });
}

//! Calls that check.

use crate::abi;
use crate::call::{put, Call, Lengths, NO_ANSWER};
use crate::lent::Lent;
use crate::table::LentTable;
use oracle::random::TableCase;

/// Words of an answer: number, node.
pub const WORDS: usize = 2;

/// A call of `structural_check`.
#[derive(Clone)]
pub struct Check {
    pub table: LentTable,
    pub answer: Lent<u32>,
}

impl Check {
    /// Lends what the case says.
    pub fn of(case: &TableCase, Lengths { guards, answer }: Lengths) -> Check {
        Check { table: LentTable::of(case, guards), answer: Lent::blank(answer, guards) }
    }
}

impl Call for Check {
    const NAME: &'static str = "check";

    fn by_rules(&mut self) -> u32 {
        if self.answer.length() < WORDS {
            return NO_ANSWER;
        }
        let LentTable { nodes, node_count, pool, pool_count } = &self.table;
        let checked = oracle::check(nodes.slice(), *node_count, pool.slice(), *pool_count);
        put(&[checked.number, checked.node], &mut self.answer);
        checked.number
    }

    fn by_archive(&mut self) -> u32 {
        abi::check(self)
    }

    fn answer(&self) -> &[u32] {
        self.answer.slice()
    }

    fn unlike(&self, other: &Check) -> Vec<&'static str> {
        let mut unlike = self.table.unlike(&other.table);
        unlike.extend((self.answer != other.answer).then_some("answer"));
        unlike
    }

    fn input(&self) -> String {
        self.table.input()
    }
}

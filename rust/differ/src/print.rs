//! Calls that print.

use crate::abi;
use crate::call::{named, put, Call, Lengths, NO_ANSWER};
use crate::lent::Lent;
use crate::table::LentTable;
use oracle::random::PrintCase;

/// Words of an answer: number, length.
pub const WORDS: usize = 2;

/// A call of `structural_print`.
#[derive(Clone)]
pub struct Print {
    pub table: LentTable,
    pub out: Lent<u8>,
    pub answer: Lent<u32>,
}

impl Print {
    /// Lends what the case says.
    pub fn of(case: &PrintCase, Lengths { guards, answer }: Lengths) -> Print {
        let table = LentTable::of(&case.table, guards);
        Print { table, out: Lent::blank(case.out, guards), answer: Lent::blank(answer, guards) }
    }
}

impl Call for Print {
    const NAME: &'static str = "print";

    fn by_rules(&mut self) -> u32 {
        if self.answer.length() < WORDS {
            return NO_ANSWER;
        }
        let LentTable { nodes, node_count, pool, pool_count } = &self.table;
        let printed = oracle::print(nodes.slice(), *node_count, pool.slice(), *pool_count, self.out.slice_mut());
        put(&[printed.number, printed.length], &mut self.answer);
        printed.number
    }

    fn by_archive(&mut self) -> u32 {
        abi::print(self)
    }

    fn answer(&self) -> &[u32] {
        self.answer.slice()
    }

    fn unlike(&self, other: &Print) -> Vec<&'static str> {
        let written = named([("out", self.out != other.out), ("answer", self.answer != other.answer)]);
        [self.table.unlike(&other.table), written].concat()
    }

    fn input(&self) -> String {
        format!("{}, output of {}", self.table.input(), self.out.length())
    }
}

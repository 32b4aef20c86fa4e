//! The checks and prints of a group's tables, and the prints of tables that reads fill.

use super::group::Group;
use super::sweeper::{slowly, stated, Sweeper};
use crate::call::{Call, Lengths};
use crate::check::{self, Check};
use crate::compare::{compare, Compared};
use crate::print::{self, Print};
use crate::read::Read;
use oracle::names::{NOT_A_TABLE, OK, OUTPUT_SHORT};
use oracle::random::{PrintCase, TableCase};

/// Bytes lent for the output where there is no spelling, so that one that is begun is noticed.
const SOME: usize = 40;

/// Takes the tables of a group.
pub struct Tables<'s> {
    sweeper: &'s mut Sweeper,
    group: Group,
}

impl<'s> Tables<'s> {
    pub fn new(sweeper: &'s mut Sweeper, group: Group) -> Tables<'s> {
        Tables { sweeper, group }
    }

    pub fn end(self) -> Group {
        self.group
    }

    /// Checks a table and prints it.
    pub fn table(&mut self, case: &TableCase) {
        self.judge(None, case);
    }

    /// The same of a table that the check has to answer by that number.
    pub fn expect(&mut self, number: u32, case: &TableCase) {
        self.judge(Some((number, None)), case);
    }

    /// The same of a table that the check has to answer by that number and node.
    pub fn expect_at(&mut self, number: u32, node: u32, case: &TableCase) {
        self.judge(Some((number, Some(node))), case);
    }

    /// Checks with so many words for the answer; that number has to be returned.
    pub fn check(&mut self, number: u32, case: &TableCase, answer: usize) {
        if let Some(turn) = self.sweeper.turn() {
            let check = Check::of(case, Lengths::of_answer(turn, answer));
            self.group.tallies.checks.take(turn, stated(Some(number), compare(&check).0, &check));
        }
    }

    /// Prints to the output that the case lends, with so many words for the answer; that number has to be returned.
    pub fn print(&mut self, number: u32, case: &PrintCase, answer: usize) {
        if let Some(turn) = self.sweeper.turn() {
            self.print_on(turn, number, case, Lengths::of_answer(turn, answer));
        }
    }

    /// Printing refuses exactly what the check finds to be no table. The output is as long as it has to be, or longer.
    fn judge(&mut self, answer: Option<(u32, Option<u32>)>, case: &TableCase) {
        let Some(turn) = self.sweeper.turn() else { return };
        let check = Check::of(case, Lengths::by_turns(turn, check::WORDS));
        let (compared, left) = compare(&check);
        let number = if compared.number == NOT_A_TABLE { NOT_A_TABLE } else { OK };
        let compared = stated(answer.map(|(number, _)| number), compared, &check);
        self.group.tallies.checks.take(turn, stated_node(answer.and_then(|(_, node)| node), compared, &left));
        let out = spelled_length(case).unwrap_or(SOME) + slowly(turn) % 3;
        self.print_on(turn, number, &PrintCase { table: case.clone(), out }, Lengths::by_turns(turn, print::WORDS));
    }

    fn print_on(&mut self, turn: u64, number: u32, case: &PrintCase, lengths: Lengths) {
        let print = Print::of(case, lengths);
        self.group.tallies.prints.take(turn, stated(Some(number), compare(&print).0, &print));
    }
}

/// A check also differs if it does not answer the node that its case states.
fn stated_node(node: Option<u32>, compared: Compared, left: &Check) -> Compared {
    let found = left.answer().get(1).copied();
    match node {
        Some(node) if found != Some(node) && compared.difference.is_none() => {
            let difference = format!("node {found:?}, and the sweep states {node}; {}", left.input());
            Compared { difference: Some(difference), ..compared }
        }
        _ => compared,
    }
}

/// Prints what a read filled, with faults 15 to 18 or without. The output is, by turns, as long as needed, one short, or
/// longer.
pub fn filled(turn: u64, read: &Read) -> Compared {
    let [.., node_count, pool_count] = read.words();
    let (nodes, pool) = (read.nodes.slice().to_vec(), read.pool.slice().to_vec());
    let table = TableCase { nodes, node_count, pool, pool_count };
    let needed = spelled_length(&table).unwrap_or(SOME);
    let (out, number) =
        [(needed, OK), (needed.saturating_sub(1), OUTPUT_SHORT), (needed + 1, OK), (needed + 9, OK)][slowly(turn) % 4];
    let print = Print::of(&PrintCase { table, out }, Lengths::by_turns(turn, print::WORDS));
    stated(Some(number), compare(&print).0, &print)
}

/// The length of the spelling, if there is one.
fn spelled_length(case: &TableCase) -> Option<usize> {
    let printed = oracle::print(&case.nodes, case.node_count, &case.pool, case.pool_count, &mut []);
    (printed.number != NOT_A_TABLE).then_some(printed.length as usize)
}

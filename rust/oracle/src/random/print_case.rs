//! A case for printing, made from one seed.

use super::rng::Random;
use super::table_case::TableCase;
use crate::Printed;

/// A table and the length of the output lent.
#[derive(Clone, Debug)]
pub struct PrintCase {
    pub table: TableCase,
    pub out: usize,
}

/// An answer and the whole output after printing.
#[derive(Clone, Debug, PartialEq, Eq)]
pub struct PrintOutcome {
    pub printed: Printed,
    pub out: Vec<u8>,
}

impl PrintCase {
    /// The table is the one that [`TableCase::new`] makes from that seed.
    pub fn new(seed: u64) -> Self {
        let random = &mut Random::new(seed);
        let table = TableCase::random(random);
        let out = random_output(random, &table);
        PrintCase { table, out }
    }

    pub fn run(&self) -> PrintOutcome {
        self.run_with(crate::print)
    }

    /// Runs any printer on an output that holds the same pattern before each run.
    pub fn run_with<P>(&self, printer: P) -> PrintOutcome
    where
        P: FnOnce(&[u32], u32, &[u8], u32, &mut [u8]) -> Printed,
    {
        let mut out: Vec<u8> = (0..self.out).map(|at| 0x3C ^ at as u8).collect();
        let TableCase { nodes, node_count, pool, pool_count } = &self.table;
        let printed = printer(nodes, *node_count, pool, *pool_count, &mut out);
        PrintOutcome { printed, out }
    }
}

/// Often exactly enough, one short, none, or ample.
fn random_output(random: &mut Random, table: &TableCase) -> usize {
    let needed = crate::print(&table.nodes, table.node_count, &table.pool, table.pool_count, &mut []).length as usize;
    match random.below(10) {
        0..=3 => needed,
        4 | 5 => needed.saturating_sub(1),
        6 => 0,
        7 => random.below(needed + 1),
        _ => needed + random.below(50),
    }
}

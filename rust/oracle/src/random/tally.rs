//! How often each number comes up.

use super::print_case::PrintCase;
use super::read_case::ReadCase;
use super::table_case::TableCase;
use std::collections::BTreeMap;

/// How often each number was answered.
pub type Counts = BTreeMap<u32, u64>;

/// Of reads, of the same reads with the check behind them, of checks, and of prints.
#[derive(Clone, Debug, Default, PartialEq, Eq)]
pub struct Tally {
    pub read: Counts,
    pub paired: Counts,
    pub checked: Counts,
    pub printed: Counts,
}

/// Counts the numbers of that many random reads and as many random checks and prints, from `seed` on.
pub fn tally(seed: u64, cases: u64) -> Tally {
    let mut tally = Tally::default();
    for seed in seed..seed + cases {
        let read = ReadCase::new(seed);
        count(&mut tally.read, read.run().answer.number);
        count(&mut tally.paired, read.run_with(crate::pair).answer.number);
        count(&mut tally.checked, TableCase::new(seed).check().number);
        count(&mut tally.printed, PrintCase::new(seed).run().printed.number);
    }
    tally
}

fn count(counts: &mut Counts, number: u32) {
    *counts.entry(number).or_default() += 1;
}

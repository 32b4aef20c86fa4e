//! A group of cases and what came of them.

use super::must::Must;
use crate::tallies::Tallies;
use std::fmt::Write;

/// What the cases of a group are, and of which calls it states what they must meet.
#[derive(Clone, Copy, Debug, PartialEq, Eq)]
pub enum Cases {
    /// Texts: of the read with the check of what it left. What it left is also printed.
    Reads,
    /// Tables: of the check. Each is also printed.
    Tables,
    /// Tables and outputs: of the print.
    Prints,
}

#[derive(Debug, PartialEq, Eq)]
pub struct Group {
    name: String,
    cases: Cases,
    must: Must,
    pub tallies: Tallies,
}

impl Group {
    pub fn new(name: &str, cases: Cases, must: Must) -> Group {
        Group { name: name.to_string(), cases, must, tallies: Tallies::default() }
    }

    /// Takes in what another thread made of the same group.
    pub fn merge(self, other: Group) -> Group {
        assert_eq!(self.name, other.name, "threads go through the same groups");
        Group { tallies: self.tallies.merge(other.tallies), ..self }
    }

    /// How many calls differ.
    pub fn differ(&self) -> u64 {
        self.tallies.differ()
    }

    /// The first differences, a line each.
    pub fn differences(&self, lines: &mut String) {
        for (name, case, difference) in self.tallies.differences() {
            let _ = writeln!(lines, "sweep, {}, {name}, case {case}: {difference}", self.name);
        }
    }

    /// A line if the cases are not those that had to come up, and one if a read has a number that it cannot have.
    pub fn missed(&self, lines: &mut String) {
        let stated = match self.cases {
            Cases::Reads => &self.tallies.pairs,
            Cases::Tables => &self.tallies.checks,
            Cases::Prints => &self.tallies.prints,
        };
        for missed in [self.must.missed(stated), self.tallies.faulty_reads()].into_iter().flatten() {
            let _ = writeln!(lines, "sweep, {}: {missed}", self.name);
        }
    }
}

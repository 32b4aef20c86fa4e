//! What came of the sweep.

use super::group::Group;
use crate::tallies::Tallies;
use oracle::names::OK;
use std::fmt;

#[derive(Debug, Default, PartialEq, Eq)]
pub struct Report {
    pub groups: Vec<Group>,
}

impl Report {
    /// Takes in what another thread made of the same groups.
    pub fn merge(self, other: Report) -> Report {
        assert_eq!(self.groups.len(), other.groups.len(), "threads go through the same groups");
        let pairs = self.groups.into_iter().zip(other.groups);
        Report { groups: pairs.map(|(group, other)| group.merge(other)).collect() }
    }

    /// How many calls differ, from the rules or from the number that their case states.
    pub fn differ(&self) -> u64 {
        self.groups.iter().map(Group::differ).sum()
    }

    /// The first differences of each group, a line each.
    pub fn differences(&self) -> String {
        let mut lines = String::new();
        self.groups.iter().for_each(|group| group.differences(&mut lines));
        lines
    }

    /// A line for each group whose cases are not those that had to come up.
    pub fn missed(&self) -> String {
        let mut lines = String::new();
        self.groups.iter().for_each(|group| group.missed(&mut lines));
        lines
    }
}

impl fmt::Display for Report {
    fn fmt(&self, f: &mut fmt::Formatter<'_>) -> fmt::Result {
        let sum = |of: fn(&Tallies) -> u64| self.groups.iter().map(|group| of(&group.tallies)).sum::<u64>();
        let reads = sum(|tallies| tallies.reads.calls());
        // What a read left is checked just where it answered 0.
        let checks = sum(|tallies| tallies.checks.calls() + tallies.reads.times(|number| number == OK));
        let prints = sum(|tallies| tallies.prints.calls());
        let (groups, differ) = (self.groups.len(), self.differ());
        writeln!(f, "sweep of {reads} reads, {checks} checks and {prints} prints in {groups} groups: {differ} differ")
    }
}

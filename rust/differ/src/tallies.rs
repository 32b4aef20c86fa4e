//! What came of many calls of all kinds.

use crate::call::Call;
use crate::check::Check;
use crate::pair::Pair;
use crate::print::Print;
use crate::read::Read;
use crate::tally::Tally;

/// Reads; the same ones with the check of what they left; checks of tables that no read left; prints.
#[derive(Debug, Default, PartialEq, Eq)]
pub struct Tallies {
    pub reads: Tally,
    pub pairs: Tally,
    pub checks: Tally,
    pub prints: Tally,
}

impl Tallies {
    /// Takes in those of other cases.
    pub fn merge(self, other: Tallies) -> Tallies {
        Tallies {
            reads: self.reads.merge(other.reads),
            pairs: self.pairs.merge(other.pairs),
            checks: self.checks.merge(other.checks),
            prints: self.prints.merge(other.prints),
        }
    }

    /// Each with the name of its calls.
    pub fn named(&self) -> [(&'static str, &Tally); 4] {
        [(Read::NAME, &self.reads), (Pair::NAME, &self.pairs), (Check::NAME, &self.checks), (Print::NAME, &self.prints)]
    }

    /// How many calls differ.
    pub fn differ(&self) -> u64 {
        self.named().iter().map(|(_, tally)| tally.differ()).sum()
    }

    /// The first differences of each kind: name, number of the case, difference.
    pub fn differences(&self) -> impl Iterator<Item = (&'static str, u64, &str)> {
        let named = self.named().into_iter();
        named.flat_map(|(name, tally)| tally.first().iter().map(move |(case, line)| (name, *case, line.as_str())))
    }

    /// A line if reads answered what the check alone answers.
    pub fn faulty_reads(&self) -> Option<String> {
        let faulty = self.reads.times(|number| (15..=18).contains(&number));
        (faulty > 0).then(|| format!("{faulty} reads returned 15 to 18, which are the check's"))
    }
}

#[cfg(test)]
mod tests {
    use super::*;
    use crate::compare::Compared;

    #[test]
    fn reads_alone_have_no_faults() {
        let mut tallies = Tallies::default();
        let faulty = || Compared { number: 16, difference: None };
        tallies.pairs.take(0, faulty());
        tallies.checks.take(0, faulty());
        assert_eq!(tallies.faulty_reads(), None);
        tallies.reads.take(0, faulty());
        assert_eq!(tallies.faulty_reads().as_deref(), Some("1 reads returned 15 to 18, which are the check's"));
    }
}

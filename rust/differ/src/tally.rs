//! What came of many calls of one kind.

use crate::call::NO_ANSWER;
use crate::compare::Compared;
use std::collections::BTreeMap;
use std::fmt;

/// How many differences are kept to be shown.
const SHOWN: usize = 5;

/// How often each value was to be returned, and the differences.
#[derive(Debug, Default, PartialEq, Eq)]
pub struct Tally {
    numbers: BTreeMap<u32, u64>,
    differ: u64,
    /// The first ones, each with the number of its case.
    first: Vec<(u64, String)>,
}

impl Tally {
    /// Takes in one case, whose number is above those before.
    pub fn take(&mut self, case: u64, compared: Compared) {
        *self.numbers.entry(compared.number).or_default() += 1;
        if let Some(difference) = compared.difference {
            self.differ += 1;
            if self.first.len() < SHOWN {
                self.first.push((case, difference));
            }
        }
    }

    /// Takes in those of other cases.
    pub fn merge(mut self, other: Tally) -> Tally {
        for (number, calls) in other.numbers {
            *self.numbers.entry(number).or_default() += calls;
        }
        self.differ += other.differ;
        self.first.extend(other.first);
        self.first.sort_unstable_by_key(|(case, _)| *case);
        self.first.truncate(SHOWN);
        self
    }

    /// How many calls there were.
    pub fn calls(&self) -> u64 {
        self.numbers.values().sum()
    }

    /// How many of them differ.
    pub fn differ(&self) -> u64 {
        self.differ
    }

    /// The first that differ, each with the number of its case.
    pub fn first(&self) -> &[(u64, String)] {
        &self.first
    }

    /// How many returned a value of that sort.
    pub fn times(&self, sort: impl Fn(u32) -> bool) -> u64 {
        self.numbers.iter().filter(|(number, _)| sort(**number)).map(|(_, calls)| calls).sum()
    }

    /// Which of these values did not come up.
    pub fn missing(&self, values: impl Iterator<Item = u32>) -> Vec<u32> {
        values.filter(|value| !self.numbers.contains_key(value)).collect()
    }
}

/// `0: 120, 1: 7, ..`, by number; the value for a slice that is too short comes last.
impl fmt::Display for Tally {
    fn fmt(&self, f: &mut fmt::Formatter<'_>) -> fmt::Result {
        let one = |(number, calls): (&u32, &u64)| match *number {
            NO_ANSWER => format!("answer too short: {calls}"),
            number => format!("{number}: {calls}"),
        };
        f.write_str(&self.numbers.iter().map(one).collect::<Vec<_>>().join(", "))
    }
}

#[cfg(test)]
mod tests {
    use super::*;

    fn tally(cases: impl Iterator<Item = u64>) -> Tally {
        let mut tally = Tally::default();
        for case in cases {
            let number = if case % 4 == 3 { NO_ANSWER } else { (case % 4) as u32 };
            let difference = (case % 2 == 0).then(|| format!("case {case}"));
            tally.take(case, Compared { number, difference });
        }
        tally
    }

    #[test]
    fn parts_make_up_the_whole() {
        let whole = tally(0..100);
        assert_eq!(tally((1..100).step_by(2)).merge(tally((0..100).step_by(2))), whole);
        assert_eq!((whole.calls(), whole.differ()), (100, 50));
        assert_eq!(whole.first().iter().map(|(case, _)| *case).collect::<Vec<_>>(), [0, 2, 4, 6, 8]);
        assert_eq!(whole.to_string(), "0: 25, 1: 25, 2: 25, answer too short: 25");
        assert_eq!(whole.missing([0, 3, NO_ANSWER, 20].into_iter()), [3, 20]);
        assert_eq!((whole.times(|number| number < 2), whole.times(|number| number == 3)), (50, 0));
    }
}

//! Many random cases: a read, with the check of what it left, and a check and a print of one table.

use crate::call::{Lengths, NO_ANSWER};
use crate::check::{self, Check};
use crate::compare::compare;
use crate::pair;
use crate::print::{self, Print};
use crate::read::Read;
use crate::tallies::Tallies;
use oracle::random::PrintCase;
use std::fmt::{self, Write};
use std::thread;

/// Calls do not share anything, so that several threads can make them.
pub const THREADS: usize = 2;

/// What came of a run.
#[derive(Default)]
pub struct Report {
    seed: u64,
    tallies: Tallies,
}

/// Runs that many cases, whose seeds are those from `seed` on.
pub fn run(seed: u64, cases: u64) -> Report {
    let part = |first| move || part(seed, (first..cases).step_by(THREADS));
    thread::scope(|scope| {
        let threads: Vec<_> = (0..THREADS as u64).map(|first| scope.spawn(part(first))).collect();
        let ended = threads.into_iter().map(|thread| thread.join().expect("a thread that compares ends"));
        Report { seed, tallies: ended.fold(Tallies::default(), Tallies::merge) }
    })
}

fn part(seed: u64, cases: impl Iterator<Item = u64>) -> Tallies {
    let mut tallies = Tallies::default();
    for case in cases {
        let seed = seed.wrapping_add(case);
        let (read, left) = compare(&Read::new(seed));
        tallies.pairs.take(case, pair::after(read.number, &left, seed));
        tallies.reads.take(case, read);
        let printed = PrintCase::new(seed);
        tallies.checks.take(case, compare(&Check::of(&printed.table, Lengths::new(seed, check::WORDS))).0);
        tallies.prints.take(case, compare(&Print::of(&printed, Lengths::new(seed, print::WORDS))).0);
    }
    tallies
}

impl Report {
    /// How many calls differ from the rules.
    pub fn differ(&self) -> u64 {
        self.tallies.differ()
    }

    /// The first differences, a line each.
    pub fn differences(&self) -> String {
        let mut lines = String::new();
        for (name, case, difference) in self.tallies.differences() {
            let (seed, own) = (self.seed, self.seed.wrapping_add(case));
            let _ = writeln!(lines, "{name}, seed {seed}, case {case} (alone: differ {own} 1): {difference}");
        }
        lines
    }

    /// What says that the cases were idle: a line for each kind of call, of numbers that did not come up, and one of reads
    /// whose number cannot be. 19 is not expected: 59 levels of brackets below five blocks are 64.
    pub fn idle(&self) -> String {
        let expected: [Vec<u32>; 4] = [
            (0..=14).chain([NO_ANSWER]).collect(),
            (0..=18).chain([NO_ANSWER]).collect(),
            vec![0, 15, 16, 17, 18, 20, NO_ANSWER],
            vec![0, 20, 21, NO_ANSWER],
        ];
        let mut lines = String::new();
        for ((name, tally), expected) in self.tallies.named().into_iter().zip(expected) {
            let missing = tally.missing(expected.into_iter());
            if !missing.is_empty() {
                let _ = writeln!(lines, "no {name} returned {missing:?}");
            }
        }
        self.tallies.faulty_reads().iter().for_each(|line| lines += &format!("{line}\n"));
        lines
    }
}

/// The tallies, and the sum.
impl fmt::Display for Report {
    fn fmt(&self, f: &mut fmt::Formatter<'_>) -> fmt::Result {
        for (name, tally) in self.tallies.named() {
            writeln!(f, "{name}s by number: {tally}")?;
        }
        let [reads, _, checks, prints] = self.tallies.named().map(|(_, tally)| tally.calls());
        writeln!(f, "{reads} reads, {checks} checks and {prints} prints: {} differ", self.differ())
    }
}

#[cfg(test)]
mod tests {
    use super::*;
    use crate::compare::Compared;

    fn compared(number: u32) -> Compared {
        Compared { number, difference: None }
    }

    #[test]
    fn every_case_is_run_once() {
        let report = run(7, 101);
        assert_eq!(report.tallies.named().map(|(_, tally)| tally.calls()), [101; 4]);
        assert_eq!(report.differ(), 0);
        assert_eq!(report.tallies, part(7, 0..101));
    }

    #[test]
    fn few_cases_are_idle() {
        let idle = run(1, 1).idle();
        assert!(idle.starts_with("no read returned [0, 1,"), "{idle}");
        for name in ["pair", "check", "print"] {
            assert!(idle.contains(&format!("\nno {name} returned [")), "{idle}");
        }
    }

    #[test]
    fn all_numbers_but_19_are_not_idle() {
        let mut report = Report::default();
        let tallies = &mut report.tallies;
        (0..=14).chain([NO_ANSWER]).for_each(|number| tallies.reads.take(0, compared(number)));
        (0..=18).chain([NO_ANSWER]).for_each(|number| tallies.pairs.take(0, compared(number)));
        [0, 20, 21, NO_ANSWER].into_iter().for_each(|number| tallies.prints.take(0, compared(number)));
        assert_eq!(report.idle(), "no check returned [0, 15, 16, 17, 18, 20, 4294967295]\n");
        let checks = [0, 15, 16, 17, 18, 20, NO_ANSWER].into_iter();
        checks.for_each(|number| report.tallies.checks.take(0, compared(number)));
        assert_eq!(report.idle(), "");
        report.tallies.reads.take(0, compared(17));
        assert_eq!(report.idle(), "1 reads returned 15 to 18, which are the check's\n");
    }

    #[test]
    fn differences_name_their_case() {
        let mut report = Report { seed: 40, ..Report::default() };
        report.tallies.checks.take(2, Compared { number: 0, difference: Some("so".to_string()) });
        assert_eq!(report.differences(), "check, seed 40, case 2 (alone: differ 42 1): so\n");
        assert!(report.to_string().ends_with("\n0 reads, 1 checks and 0 prints: 1 differ\n"));
    }
}

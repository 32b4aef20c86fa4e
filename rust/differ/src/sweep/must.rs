//! What the calls of a group must meet, so that cases which never came up are noticed.

use crate::tally::Tally;
use oracle::names::{OK, ROW_LENGTH, UNKNOWN_FOOTNOTE};

/// How many calls there are, how many of them go well, how many of these find no fault, and which numbers come up: these
/// and no others.
///
/// By number, what goes well is 0 and 15 to 18: a read that fills what is lent, with the check of that; the check of a
/// document's table; a print that prints (0).
#[derive(Clone, Debug, PartialEq, Eq)]
pub struct Must {
    calls: u64,
    well: Well,
    sound: Option<u64>,
    numbers: Vec<u32>,
}

#[derive(Clone, Copy, Debug, PartialEq, Eq)]
enum Well {
    Exactly(u64),
    AtLeast(u64),
}

impl Must {
    /// That many calls, of which exactly so many go well.
    pub fn meet(calls: u64, well: u64, numbers: &[u32]) -> Must {
        Must { calls, well: Well::Exactly(well), sound: None, numbers: numbers.to_vec() }
    }

    /// That many calls, of which so many or more go well: for cases that are too many to be told one by one.
    pub fn meet_some(calls: u64, well: u64, numbers: &[u32]) -> Must {
        Must { well: Well::AtLeast(well), ..Must::meet(calls, 0, numbers) }
    }

    /// Exactly so many are answered 0, and the others that go well have a fault.
    pub fn sound(self, sound: u64) -> Must {
        Must { sound: Some(sound), ..self }
    }

    /// What was not met, if anything.
    pub fn missed(&self, tally: &Tally) -> Option<String> {
        let (calls, well, sound) = (tally.calls(), tally.times(goes_well), tally.times(|number| number == OK));
        let enough = match self.well {
            Well::Exactly(wanted) => well == wanted,
            Well::AtLeast(wanted) => well >= wanted,
        };
        let enough = enough && self.sound.is_none_or(|wanted| sound == wanted);
        let met = calls == self.calls && enough && tally.missing(self.numbers.iter().copied()).is_empty();
        let none_else = tally.times(|number| !self.numbers.contains(&number)) == 0;
        let missed = || format!("{calls} calls, {well} of them go well, by number: {tally}; must be {self:?}");
        (!met || !none_else).then(missed)
    }
}

/// Whether what returns this number speaks of a document, with a fault or without.
pub fn goes_well(number: u32) -> bool {
    matches!(number, OK | ROW_LENGTH..=UNKNOWN_FOOTNOTE)
}

#[cfg(test)]
mod tests {
    use super::*;
    use crate::compare::Compared;

    fn tally(numbers: &[u32]) -> Tally {
        let mut tally = Tally::default();
        numbers.iter().for_each(|&number| tally.take(0, Compared { number, difference: None }));
        tally
    }

    #[test]
    fn nothing_is_missed_where_all_is_met() {
        let made = tally(&[0, 17, 8, 8, 9]);
        assert_eq!(Must::meet(5, 2, &[0, 8, 9, 17]).missed(&made), None);
        assert_eq!(Must::meet(5, 2, &[0, 8, 9, 17]).sound(1).missed(&made), None);
        assert_eq!(Must::meet_some(5, 1, &[0, 8, 9, 17]).missed(&made), None);
    }

    #[test]
    fn each_part_can_be_missed() {
        let made = tally(&[0, 17, 8, 8, 9]);
        let all = &[0, 8, 9, 17];
        for must in [
            Must::meet(6, 2, all),
            Must::meet(4, 2, all),
            Must::meet(5, 1, all),
            Must::meet(5, 3, all),
            Must::meet_some(5, 3, all),
            Must::meet(5, 2, all).sound(2),
            Must::meet_some(5, 2, all).sound(0),
            Must::meet(5, 2, &[0, 8, 9, 10, 17]),
            Must::meet(5, 2, &[0, 8, 17]),
        ] {
            assert!(must.missed(&made).is_some(), "{must:?}");
        }
    }

    #[test]
    fn no_calls_and_one_refusal_for_all_are_missed() {
        let must = Must::meet(3, 1, &[0, 8]);
        assert!(must.missed(&tally(&[])).is_some());
        assert!(must.missed(&tally(&[8, 8, 8])).is_some());
    }
}

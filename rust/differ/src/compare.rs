//! One call, made and held against the rules.

use crate::call::Call;

/// What the rules return for a call, and in what making it differed from them.
pub struct Compared {
    pub number: u32,
    pub difference: Option<String>,
}

/// Makes a call and holds it against the rules; also the call as they leave it.
pub fn compare<C: Call>(call: &C) -> (Compared, C) {
    hold(call, C::by_archive)
}

/// Holds whatever answers a call against the rules: the value returned, and every buffer with its guards.
fn hold<C: Call>(call: &C, answers: impl FnOnce(&mut C) -> u32) -> (Compared, C) {
    let (mut wanted, mut left) = (call.clone(), call.clone());
    let (number, returned) = (wanted.by_rules(), answers(&mut left));
    let unlike = wanted.unlike(&left);
    let same = returned == number && unlike.is_empty();
    let difference = || {
        let (words, input) = (wanted.answer(), call.input());
        format!("{returned} {:?}, wanted {number} {words:?}, unlike {unlike:?}; {input}", left.answer())
    };
    (Compared { number, difference: (!same).then(difference) }, wanted)
}

#[cfg(test)]
mod tests {
    use super::hold;
    use crate::call::{Call, Lengths};
    use crate::check::{self, Check};
    use crate::lent::{Lent, Mark};
    use crate::pair::Pair;
    use crate::print::{self, Print};
    use crate::read::Read;
    use oracle::random::{PrintCase, TableCase};
    use std::ops::BitXorAssign;

    const CALLS: u64 = 300;

    /// In how many calls that are answered by the rules something is changed afterwards. It is noticed in each of
    /// these, and in no other.
    fn noticed<C: Call>(new: impl Fn(u64) -> C, change: impl Fn(&mut C, &mut u32) -> bool) -> u64 {
        let one = |seed| {
            let mut changed = false;
            let (compared, _) = hold(&new(seed), |call: &mut C| {
                let mut returned = call.by_rules();
                changed = change(call, &mut returned);
                returned
            });
            assert_eq!(compared.difference.is_some(), changed, "seed {seed}");
            u64::from(changed)
        };
        (0..CALLS).map(one).sum()
    }

    fn check(seed: u64) -> Check {
        Check::of(&TableCase::new(seed), Lengths::new(seed, check::WORDS))
    }

    fn print(seed: u64) -> Print {
        Print::of(&PrintCase::new(seed), Lengths::new(seed, print::WORDS))
    }

    /// Reads that are answered 0, as the rules leave them.
    fn accepted() -> Vec<Read> {
        let left = (0..).map(|seed| {
            let mut read = Read::new(seed);
            (read.by_rules() == 0).then_some(read)
        });
        left.flatten().take(CALLS as usize).collect()
    }

    /// Changes an element, if it is there.
    fn flip<T: BitXorAssign + From<u8>>(element: Option<&mut T>) -> bool {
        element.map(|element| *element ^= T::from(1)).is_some()
    }

    /// Changes the last guard before a slice, and the first one behind it.
    fn before<T: Mark + BitXorAssign + From<u8>>(lent: &mut Lent<T>) -> bool {
        let guards = (lent.whole().len() - lent.length()) / 2;
        flip(lent.whole().get_mut(guards - 1))
    }

    fn behind<T: Mark + BitXorAssign + From<u8>>(lent: &mut Lent<T>) -> bool {
        let guards = (lent.whole().len() - lent.length()) / 2;
        let end = guards + lent.length();
        flip(lent.whole().get_mut(end))
    }

    #[test]
    fn the_rules_do_not_differ_from_themselves() {
        assert_eq!(noticed(Read::new, |_, _| false), 0);
        assert_eq!(noticed(check, |_, _| false), 0);
        assert_eq!(noticed(print, |_, _| false), 0);
    }

    #[test]
    fn returned_values() {
        assert_eq!(noticed(Read::new, |_, returned| flip(Some(returned))), CALLS);
        assert_eq!(noticed(check, |_, returned| flip(Some(returned))), CALLS);
        assert_eq!(noticed(print, |_, returned| flip(Some(returned))), CALLS);
    }

    #[test]
    fn guards_of_reads() {
        let touches: [fn(&mut Read) -> bool; 10] = [
            |call| before(&mut call.text),
            |call| behind(&mut call.text),
            |call| before(&mut call.nodes),
            |call| behind(&mut call.nodes),
            |call| before(&mut call.places),
            |call| behind(&mut call.places),
            |call| before(&mut call.pool),
            |call| behind(&mut call.pool),
            |call| before(&mut call.answer),
            |call| behind(&mut call.answer),
        ];
        for touch in touches {
            assert_eq!(noticed(Read::new, |call, _| touch(call)), CALLS);
        }
    }

    #[test]
    fn guards_of_checks() {
        let touches: [fn(&mut Check) -> bool; 6] = [
            |call| before(&mut call.table.nodes),
            |call| behind(&mut call.table.nodes),
            |call| before(&mut call.table.pool),
            |call| behind(&mut call.table.pool),
            |call| before(&mut call.answer),
            |call| behind(&mut call.answer),
        ];
        for touch in touches {
            assert_eq!(noticed(check, |call, _| touch(call)), CALLS);
        }
    }

    #[test]
    fn guards_of_prints() {
        let touches: [fn(&mut Print) -> bool; 8] = [
            |call| before(&mut call.table.nodes),
            |call| behind(&mut call.table.nodes),
            |call| before(&mut call.table.pool),
            |call| behind(&mut call.table.pool),
            |call| before(&mut call.out),
            |call| behind(&mut call.out),
            |call| before(&mut call.answer),
            |call| behind(&mut call.answer),
        ];
        for touch in touches {
            assert_eq!(noticed(print, |call, _| touch(call)), CALLS);
        }
    }

    #[test]
    fn what_is_lent_for_reading() {
        assert!(noticed(Read::new, |call, _| flip(call.text.slice_mut().last_mut())) > CALLS / 2);
        assert!(noticed(check, |call, _| flip(call.table.nodes.slice_mut().last_mut())) > CALLS / 2);
        assert!(noticed(check, |call, _| flip(call.table.pool.slice_mut().last_mut())) > CALLS / 2);
        assert!(noticed(print, |call, _| flip(call.table.nodes.slice_mut().last_mut())) > CALLS / 2);
        assert!(noticed(print, |call, _| flip(call.table.pool.slice_mut().last_mut())) > CALLS / 2);
    }

    #[test]
    fn what_is_lent_for_writing() {
        assert!(noticed(Read::new, |call, _| flip(call.nodes.slice_mut().last_mut())) > CALLS / 2);
        assert!(noticed(Read::new, |call, _| flip(call.places.slice_mut().last_mut())) > CALLS / 2);
        assert!(noticed(Read::new, |call, _| flip(call.pool.slice_mut().last_mut())) > CALLS / 2);
        assert!(noticed(print, |call, _| flip(call.out.slice_mut().last_mut())) > CALLS / 2);
    }

    /// Also those behind the words of the answer.
    #[test]
    fn words_lent_for_the_answer() {
        for index in 0..6 + 3 {
            assert!(noticed(Read::new, |call, _| flip(call.answer.slice_mut().get_mut(index))) > CALLS / 4);
        }
        for index in 0..2 + 3 {
            assert!(noticed(check, |call, _| flip(call.answer.slice_mut().get_mut(index))) > CALLS / 4);
            assert!(noticed(print, |call, _| flip(call.answer.slice_mut().get_mut(index))) > CALLS / 4);
        }
    }

    /// The check behind a read: each word that the pair answers, the value returned, and what was lent to the check.
    #[test]
    fn pairs() {
        let reads = accepted();
        let pair = |seed| Pair::of(&reads[seed as usize], seed);
        assert_eq!(noticed(pair, |_, _| false), 0);
        assert_eq!(noticed(pair, |_, returned| flip(Some(returned))), CALLS);
        for word in 0..6 {
            assert_eq!(noticed(pair, |call, _| flip(call.words.get_mut(word))), CALLS);
        }
        assert_eq!(noticed(pair, |call, _| behind(&mut call.check.table.nodes)), CALLS);
        assert_eq!(noticed(pair, |call, _| before(&mut call.check.answer)), CALLS);
    }
}

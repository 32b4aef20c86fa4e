//! A call of one of the archive's functions, and the lengths that its case leaves open.

use crate::lent::Lent;
use oracle::names::MISSING;
use oracle::random::Random;

/// Returned where the slice for the answer is too short.
pub const NO_ANSWER: u32 = MISSING;

/// A call before it is made; afterwards, what it left of the memory that it lent.
pub trait Call: Clone {
    /// What is done.
    const NAME: &'static str;

    /// Leaves of the memory what the rules say, and returns what they say.
    fn by_rules(&mut self) -> u32;

    /// Makes the call.
    fn by_archive(&mut self) -> u32;

    /// The slice for the answer.
    fn answer(&self) -> &[u32];

    /// Names of the buffers, guards with them, that are not the same in both.
    fn unlike(&self, other: &Self) -> Vec<&'static str>;

    /// The input in short.
    fn input(&self) -> String;
}

/// Guards on each side of a slice, and the length of the one for the answer.
pub struct Lengths {
    pub guards: usize,
    pub answer: usize,
}

impl Lengths {
    /// For an answer of `words`: a slice of often just these, else of some more, and in one call of 64 of too few.
    /// The number of guards varies, so that byte slices start anywhere in a word.
    pub fn new(seed: u64, words: usize) -> Lengths {
        // The case is made from the seed itself.
        let random = &mut Random::new(!seed);
        let answer = match random.below(64) {
            0 => random.below(words),
            1..=31 => words + random.between(1, 9),
            _ => words,
        };
        Lengths { guards: random.between(16, 31), answer }
    }

    /// For a case of the sweep: a slice of those words or up to three more, and guards from 16 to 31, by turns.
    pub fn by_turns(case: u64, words: usize) -> Lengths {
        Lengths::of_answer(case, words + (case / 16 % 4) as usize)
    }

    /// For a case of the sweep, where the length of the answer is given.
    pub fn of_answer(case: u64, answer: usize) -> Lengths {
        Lengths { guards: 16 + (case % 16) as usize, answer }
    }
}

/// Puts an answer's words at the front of the slice for it.
pub fn put(words: &[u32], answer: &mut Lent<u32>) {
    answer.slice_mut()[..words.len()].copy_from_slice(words);
}

/// The names that go with true.
pub fn named<const N: usize>(parts: [(&'static str, bool); N]) -> Vec<&'static str> {
    parts.into_iter().filter(|part| part.1).map(|part| part.0).collect()
}

#[cfg(test)]
mod tests {
    use super::Lengths;
    use std::collections::BTreeMap;

    /// How often each length for the answer comes up in 6,400 calls.
    fn lengths(words: usize) -> BTreeMap<usize, u32> {
        let mut lengths = BTreeMap::new();
        (0..6_400).for_each(|seed| *lengths.entry(Lengths::new(seed, words).answer).or_default() += 1);
        lengths
    }

    #[test]
    fn one_answer_of_64_is_too_short() {
        for words in [2, 6] {
            let lengths = lengths(words);
            assert!(lengths.keys().copied().eq(0..=words + 9));
            let short: u32 = lengths.range(..words).map(|(_, calls)| calls).sum();
            assert!((50..200).contains(&short), "{short}");
            assert!(lengths[&words] > 2_000);
        }
    }
}

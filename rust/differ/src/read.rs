//! Calls that read.

use crate::abi;
use crate::call::{named, put, Call, Lengths, NO_ANSWER};
use crate::lent::Lent;
use oracle::random::ReadCase;
use oracle::Answer;

/// Words of an answer: number, place, line, column, node count, pool count.
pub const WORDS: usize = 6;

/// A call of `structural_read_nested` or `structural_read_imperative`.
#[derive(Clone)]
pub struct Read {
    pub imperative: bool,
    pub text: Lent<u8>,
    pub nodes: Lent<u32>,
    pub places: Lent<u32>,
    pub pool: Lent<u8>,
    pub answer: Lent<u32>,
}

impl Read {
    /// Lends what the case says.
    pub fn of(case: &ReadCase, Lengths { guards, answer }: Lengths) -> Read {
        Read {
            imperative: case.imperative,
            text: Lent::holding(&case.text, guards),
            nodes: Lent::blank(case.words, guards),
            places: Lent::blank(case.places, guards),
            pool: Lent::blank(case.pool, guards),
            answer: Lent::blank(answer, guards),
        }
    }

    /// A random one, made from one seed.
    pub fn new(seed: u64) -> Read {
        Read::of(&ReadCase::new(seed), Lengths::new(seed, WORDS))
    }

    /// The answer. The slice for it is long enough.
    pub fn words(&self) -> [u32; WORDS] {
        self.answer.slice()[..WORDS].try_into().expect("an answer has its words")
    }
}

/// The words of an answer.
pub fn words(answer: Answer) -> [u32; WORDS] {
    let Answer { number, place, line, column, nodes, pool } = answer;
    [number, place, line, column, nodes, pool]
}

impl Call for Read {
    const NAME: &'static str = "read";

    fn by_rules(&mut self) -> u32 {
        if self.answer.length() < WORDS {
            return NO_ANSWER;
        }
        let (text, imperative) = (self.text.slice(), self.imperative);
        let (nodes, places, pool) = (self.nodes.slice_mut(), self.places.slice_mut(), self.pool.slice_mut());
        let answer = oracle::read(text, imperative, nodes, places, pool);
        put(&words(answer), &mut self.answer);
        answer.number
    }

    fn by_archive(&mut self) -> u32 {
        abi::read(self)
    }

    fn answer(&self) -> &[u32] {
        self.answer.slice()
    }

    fn unlike(&self, other: &Read) -> Vec<&'static str> {
        named([
            ("text", self.text != other.text),
            ("nodes", self.nodes != other.nodes),
            ("places", self.places != other.places),
            ("pool", self.pool != other.pool),
            ("answer", self.answer != other.answer),
        ])
    }

    fn input(&self) -> String {
        let spelling = if self.imperative { "imperative" } else { "nested" };
        let text: String = String::from_utf8_lossy(self.text.slice()).chars().take(300).collect();
        let lengths = [self.nodes.length(), self.places.length(), self.pool.length()];
        format!("{spelling}, {} bytes, lent {lengths:?}: {text:?}", self.text.length())
    }
}

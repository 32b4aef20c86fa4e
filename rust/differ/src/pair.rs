//! The pair: a read that answered 0, and the check of what it left.
//!
//! What the pair answers is made here as a caller makes it, from the words of both answers, the place list and the text,
//! and held against the rules, which say it of the text at once.

use crate::call::{Call, Lengths};
use crate::check::{self, Check};
use crate::compare::{compare, Compared};
use crate::lent::Lent;
use crate::read::{self, words, Read};
use crate::table::LentTable;
use oracle::names::OK;

/// A call of `structural_check` on what a read left, with the counts that it answered.
#[derive(Clone)]
pub struct Pair<'r> {
    /// As it is left, with its answer.
    read: &'r Read,
    pub check: Check,
    /// What the pair answers: number, place, line, column, node count, pool count.
    pub words: [u32; read::WORDS],
}

/// Makes the check behind a read whose number that is, and compares the pair. A refusal is the read's own.
pub fn after(number: u32, left: &Read, seed: u64) -> Compared {
    match number {
        OK => compare(&Pair::of(left, seed)).0,
        refused => Compared { number: refused, difference: None },
    }
}

impl<'r> Pair<'r> {
    /// Lends the slices as the rules leave them; a read that left them otherwise differs already. There is room for the
    /// answer: without one there is no pair.
    pub fn of(read: &'r Read, seed: u64) -> Pair<'r> {
        let [.., node_count, pool_count] = read.words();
        let table = LentTable { nodes: read.nodes.clone(), node_count, pool: read.pool.clone(), pool_count };
        let Lengths { guards, answer } = Lengths::by_turns(seed, check::WORDS);
        let check = Check { table, answer: Lent::blank(answer, guards) };
        Pair { read, check, words: [0; read::WORDS] }
    }

    /// What a caller makes of the two answers: the node is a place by the place list.
    fn answered(&self) -> [u32; read::WORDS] {
        let [number, node] = self.check.answer()[..check::WORDS] else { unreachable!("an answer has its words") };
        let place = match number {
            OK => 0,
            _ => self.read.places.slice().get(node as usize).copied().unwrap_or(u32::MAX),
        };
        let [line, column] = position(self.read.text.slice(), place as usize);
        let [.., nodes, pool] = self.read.words();
        [number, place, line, column, nodes, pool]
    }
}

/// Line and column of a place, by lines and characters; 0 and 0 where the text has no such place.
fn position(text: &[u8], place: usize) -> [u32; 2] {
    let before = text.get(..place).and_then(|before| std::str::from_utf8(before).ok());
    let Some(before) = before else { return [0; 2] };
    let last = before.rsplit('\n').next().unwrap_or_default();
    [1 + before.matches('\n').count() as u32, 1 + last.chars().count() as u32]
}

impl Call for Pair<'_> {
    const NAME: &'static str = "pair";

    fn by_rules(&mut self) -> u32 {
        let Read { imperative, text, nodes, places, pool, .. } = self.read;
        let (mut nodes, mut places) = (vec![0; nodes.length()], vec![0; places.length()]);
        let mut pool = vec![0; pool.length()];
        self.words = words(oracle::pair(text.slice(), *imperative, &mut nodes, &mut places, &mut pool));
        self.check.by_rules()
    }

    fn by_archive(&mut self) -> u32 {
        let returned = self.check.by_archive();
        self.words = self.answered();
        returned
    }

    fn answer(&self) -> &[u32] {
        &self.words
    }

    fn unlike(&self, other: &Self) -> Vec<&'static str> {
        let mut unlike = self.check.unlike(&other.check);
        unlike.extend((self.words != other.words).then_some("pair"));
        unlike
    }

    fn input(&self) -> String {
        self.read.input()
    }
}

#[cfg(test)]
mod tests {
    use super::position;

    #[test]
    fn positions_count_lines_and_characters() {
        let text = "ab\r\né😀x\n".as_bytes();
        assert_eq!(position(text, 0), [1, 1]);
        assert_eq!(position(text, 3), [1, 4]);
        assert_eq!(position(text, 4), [2, 1]);
        assert_eq!(position(text, 10), [2, 3]);
        assert_eq!(position(text, 12), [3, 1]);
        assert_eq!(position(text, 13), [0, 0]);
    }
}

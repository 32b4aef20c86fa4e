//! The reads of a group.

use super::group::Group;
use super::judging;
use super::sweeper::{slowly, stated, Sweeper};
use crate::call::Lengths;
use crate::compare::compare;
use crate::pair;
use crate::read::{Read, WORDS};
use oracle::names::{OK, RECORD_LENGTH};
use oracle::random::ReadCase;

/// Takes the texts of a group.
pub struct Reads<'s> {
    sweeper: &'s mut Sweeper,
    group: Group,
}

impl<'s> Reads<'s> {
    pub fn new(sweeper: &'s mut Sweeper, group: Group) -> Reads<'s> {
        Reads { sweeper, group }
    }

    pub fn end(self) -> Group {
        self.group
    }

    /// Reads a text.
    pub fn text(&mut self, imperative: bool, text: &[u8]) {
        self.with_room(None, imperative, text);
    }

    /// Reads a text that has to be answered by that number: 15 to 18 by the check of what is left.
    pub fn expect(&mut self, number: u32, imperative: bool, text: &[u8]) {
        self.with_room(Some(number), imperative, text);
    }

    /// Reads with what the case lends, and with so many words for the answer; that number has to be returned.
    pub fn lent(&mut self, number: u32, case: &ReadCase, answer: usize) {
        if let Some(turn) = self.sweeper.turn() {
            self.make(turn, Some(number), &Read::of(case, Lengths::of_answer(turn, answer)));
        }
    }

    fn with_room(&mut self, number: Option<u32>, imperative: bool, text: &[u8]) {
        if let Some(turn) = self.sweeper.turn() {
            let case = with_room(turn, imperative, text);
            self.make(turn, number, &Read::of(&case, Lengths::by_turns(turn, WORDS)));
        }
    }

    /// Makes the read, and checks and prints what it fills.
    fn make(&mut self, turn: u64, number: Option<u32>, read: &Read) {
        let (compared, left) = compare(read);
        let tallies = &mut self.group.tallies;
        if compared.number == OK {
            tallies.prints.take(turn, judging::filled(turn, &left));
        }
        tallies.pairs.take(turn, stated(number, pair::after(compared.number, &left, turn), read));
        tallies.reads.take(turn, compared);
    }
}

/// A case whose room is what the text needs, or a little more that holds no further node; some also where it needs none.
fn with_room(turn: u64, imperative: bool, text: &[u8]) -> ReadCase {
    let needed = oracle::read(text, imperative, &mut [], &mut [], &mut []);
    let (nodes, pool) = (needed.nodes.max(3) as usize, needed.pool.max(9) as usize);
    let more = slowly(turn);
    let words = nodes * RECORD_LENGTH + more % RECORD_LENGTH;
    ReadCase { text: text.to_vec(), imperative, words, places: nodes + more % 2, pool: pool + more % 3 }
}

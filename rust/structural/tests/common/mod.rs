//! What several tests use: the repository's files, and memory with guards around it.
#![allow(dead_code, unused_imports)]

pub mod definitions;
mod repository;
pub mod written;

pub use repository::{bytes, file, string};

use structural::lent::{self, Answer, Checked, Printed, NODE_WORDS};
use structural::{number, position, Spelling};

/// The examples that have both spellings, `.sd` and `.sdi`.
pub const PAIRS: [&str; 4] = ["anchoring", "crew-manual", "man-overboard", "wave-limits"];

pub fn spellings(example: &str) -> [(Vec<u8>, Spelling); 2] {
    [
        (bytes(&format!("examples/{example}.sd")), Spelling::Nested),
        (bytes(&format!("examples/{example}.sdi")), Spelling::Imperative),
    ]
}

/// The text, and spaces up to a length.
pub fn padded(text: &str, length: usize) -> Vec<u8> {
    let mut padded = text.as_bytes().to_vec();
    assert!(padded.len() <= length);
    padded.resize(length, b' ');
    padded
}

const GUARD: usize = 64;

/// Memory to lend, full of marks, with as many marks on either side that nothing may touch.
#[derive(Clone, PartialEq)]
pub struct Guarded<T> {
    memory: Vec<T>,
    mark: T,
}

impl<T: Copy + PartialEq + std::fmt::Debug> Guarded<T> {
    pub fn new(mark: T, length: usize) -> Guarded<T> {
        Guarded { memory: vec![mark; length + 2 * GUARD], mark }
    }

    pub fn lend(&mut self) -> &mut [T] {
        let end = self.memory.len() - GUARD;
        &mut self.memory[GUARD..end]
    }

    /// What was lent, to be looked at.
    pub fn lent(&self) -> &[T] {
        &self.memory[GUARD..self.memory.len() - GUARD]
    }

    /// The first `used` elements, once it is seen that all others are marks still.
    pub fn used(&self, used: usize) -> &[T] {
        let (before, rest) = self.memory.split_at(GUARD);
        let (used, after) = rest.split_at(used);
        assert!(
            before.iter().chain(after).all(|element| *element == self.mark),
            "memory past the used part was touched"
        );
        used
    }
}

/// Node words, place list and pool, guarded.
#[derive(Clone, PartialEq)]
pub struct Room {
    pub nodes: Guarded<u32>,
    pub places: Guarded<u32>,
    pub pool: Guarded<u8>,
}

impl Room {
    pub fn new(nodes: usize, places: usize, pool: usize) -> Room {
        Room {
            nodes: Guarded::new(0xA5A5_A5A5, nodes),
            places: Guarded::new(0x5A5A_5A5A, places),
            pool: Guarded::new(0xE7, pool),
        }
    }

    /// Enough for what a text needs, and some more.
    pub fn ample(text: &[u8], spelling: Spelling) -> Room {
        let asked = lent::read(text, spelling, &mut [], &mut [], &mut []);
        let nodes = asked.nodes as usize;
        Room::new(nodes * NODE_WORDS + 5, nodes + 3, asked.pool as usize + 7)
    }

    /// Reads into it, and checks what holds of every answer.
    pub fn read(&mut self, text: &[u8], spelling: Spelling) -> Answer {
        let answer = lent::read(text, spelling, self.nodes.lend(), self.places.lend(), self.pool.lend());
        let at = position(text, answer.place as usize);
        assert_eq!((answer.line, answer.column), (at.line, at.column));
        assert!(answer.number <= 14 || answer.number == 19);
        self.filled(answer);
        answer
    }

    /// Checks so many nodes and pool bytes of it. All has to stay as it is, and the guards around it.
    pub fn check(&self, node_count: u32, pool_count: u32) -> Checked {
        let before = self.clone();
        let checked = lent::check(self.nodes.lent(), node_count, self.pool.lent(), pool_count);
        assert!(*self == before, "the check changed what is lent");
        checked
    }

    /// The pair: reads and, where that answers 0, checks what it left. A fault is at the place of its node.
    pub fn pair(&mut self, text: &[u8], spelling: Spelling) -> Answer {
        let answer = self.read(text, spelling);
        if answer.number != number::OK {
            return answer;
        }
        let Checked { number, node } = self.check(answer.nodes, answer.pool);
        let place = if number == number::OK { 0 } else { self.places.lent()[node as usize] };
        let at = position(text, place as usize);
        Answer { number, place, line: at.line, column: at.column, ..answer }
    }

    /// The words, places and pool that an answer says are used, once all the rest is seen to be untouched.
    pub fn filled(&self, answer: Answer) -> (&[u32], &[u32], &[u8]) {
        let fills = number::fills(answer.number);
        let (nodes, pool) = if fills { (answer.nodes as usize, answer.pool as usize) } else { (0, 0) };
        (self.nodes.used(nodes * NODE_WORDS), self.places.used(nodes), self.pool.used(pool))
    }
}

/// Checks words and a pool in guarded memory: number and node.
pub fn check_of(words: &[u32], node_count: u32, pool: &[u8], pool_count: u32) -> (u32, u32) {
    let mut room = Room::new(words.len(), 0, pool.len());
    room.nodes.lend().copy_from_slice(words);
    room.pool.lend().copy_from_slice(pool);
    let Checked { number, node } = room.check(node_count, pool_count);
    (number, node)
}

/// Prints into guarded memory of some length: the answer, and what was written.
pub fn print_into(words: &[u32], node_count: u32, pool: &[u8], pool_count: u32, length: usize) -> (Printed, Vec<u8>) {
    let mut out = Guarded::new(0xE7, length);
    let printed = lent::print(words, node_count, pool, pool_count, out.lend());
    let written = if printed.number == 0 { printed.length as usize } else { 0 };
    let spelling = out.used(written).to_vec();
    (printed, spelling)
}

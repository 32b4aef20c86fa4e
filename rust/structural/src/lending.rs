//! Memory that is lent by bounds, so that one call of the archive reads a text and one prints a draft.
//!
//! Should a bound be too small all the same, the archive answers what is needed, and the call is made again with that:
//! no text is refused for a bound that is wrong here.

use crate::lent::{Answer, Printed, MAX_NODES, MAX_TEXT, NODE_WORDS};
use crate::number;

/// Most bytes that a byte of the pool is spelled in: `\u` and four digits.
const SPELLED_BYTE: usize = 6;

/// More bytes than a node is spelled in beside its strings: brackets, names, quotes, spaces and the digits of a size.
const SPELLED_NODE: usize = 80;

/// Bytes of memory that a system hands out at a time.
const PAGE: usize = 4_096;

/// Node words, place list and pool.
pub(crate) struct Room {
    pub words: Vec<u32>,
    pub places: Vec<u32>,
    pub pool: Vec<u8>,
}

impl Room {
    fn new(nodes: usize, pool: usize) -> Room {
        Room { words: vec![0; nodes * NODE_WORDS], places: vec![0; nodes], pool: vec![0; pool] }
    }

    /// For whatever a text of so many bytes can hold.
    ///
    /// A text has two bytes or more for each node. A symbol has one, and the byte behind it is counted for it too: white
    /// space, a bracket or an opening quote, since white space parts two symbols. A string has three, two without that
    /// quote. An element has its name, three or more, beside its brackets. Only a symbol that ends an imperative text has
    /// no byte behind it, and there the name of the document has bytes to spare. A pool holds no string in more bytes
    /// than the text has it in. A text that is longer than a text may be is not read.
    fn of_text(length: usize) -> Room {
        let length = length.min(MAX_TEXT);
        Room::new(MAX_NODES.min(length / 2 + 1), length)
    }

    /// What is used of it. An archive that says more than was lent is wrong.
    fn used(self, answer: Answer) -> Room {
        let nodes = answer.nodes as usize;
        let words = kept(self.words, nodes * NODE_WORDS);
        Room { words, places: kept(self.places, nodes), pool: kept(self.pool, answer.pool as usize) }
    }
}

/// The first `count` of what was lent. What is left over is given back where it is a page or more: less is not worth the
/// call.
fn kept<T>(mut lent: Vec<T>, count: usize) -> Vec<T> {
    assert!(count <= lent.len(), "the archive uses no more than is lent");
    let over = (lent.len() - count) * size_of::<T>();
    lent.truncate(count);
    if over >= PAGE {
        lent.shrink_to_fit();
    }
    lent
}

/// Memory that `read` has filled from a text of so many bytes; else its answer.
pub(crate) fn filled(length: usize, mut read: impl FnMut(&mut Room) -> Answer) -> Result<Room, Answer> {
    let mut room = Room::of_text(length);
    let mut answer = read(&mut room);
    if is_short(answer) {
        room = Room::new(answer.nodes as usize, answer.pool as usize);
        answer = read(&mut room);
    }
    match answer.number {
        number::OK => Ok(room.used(answer)),
        _ => Err(answer),
    }
}

/// Whether more room would do: there is none for more nodes than a document may have.
fn is_short(answer: Answer) -> bool {
    matches!(answer.number, number::NODES_SHORT | number::POOL_SHORT) && answer.nodes as usize <= MAX_NODES
}

/// What `print` has written of a draft with so many nodes and pool bytes; else its answer.
pub(crate) fn printed(
    nodes: usize,
    pool: usize,
    mut print: impl FnMut(&mut [u8]) -> Printed,
) -> Result<Vec<u8>, Printed> {
    let mut out = vec![0; SPELLED_BYTE * pool + SPELLED_NODE * nodes];
    let mut answer = print(&mut out);
    if answer.number == number::OUTPUT_SHORT {
        out = vec![0; answer.length as usize];
        answer = print(&mut out);
    }
    match answer.number {
        number::OK => Ok(kept(out, answer.length as usize)),
        _ => Err(answer),
    }
}

#[cfg(test)]
mod tests {
    use super::*;
    use crate::{lent, Spelling};
    use std::panic::catch_unwind;

    /// A text with its spelling.
    type Text = (String, Spelling);

    /// As many nodes as a text can have for its bytes: symbols alone, and symbols and strings in turn.
    fn dense(count: usize) -> [Text; 3] {
        let symbols = "a ".repeat(count);
        let strings = "a\"b\"".repeat(count / 2);
        let commands = "[document[title]][section[title]][paragraph]";
        [
            (format!("[document[title {symbols}]]"), Spelling::Nested),
            (format!("[document[title {strings}]]"), Spelling::Nested),
            (format!("{commands}{}", symbols.trim_end()), Spelling::Imperative),
        ]
    }

    /// As many bytes as a spelling can have for what it spells: long names, long values, and escapes alone.
    fn long() -> [Text; 3] {
        let images = "[image[target x][size 65535 65535][type t]]".repeat(1_400);
        let blocks = "[formal-item[title][id x][type t]][footnote[id x][type t]]".repeat(900);
        let escapes = "\u{1}".repeat(60_000);
        [
            (format!("[document[title]][section[title]][paragraph]{images}"), Spelling::Imperative),
            (format!("[document[title][section[title]{blocks}]]"), Spelling::Nested),
            (format!("[document[title \"{escapes}\"]]"), Spelling::Nested),
        ]
    }

    /// What is read, and how often the archive was called for it.
    fn read((text, spelling): &Text) -> (Result<Room, Answer>, usize) {
        let mut calls = 0;
        let room = filled(text.len(), |Room { words, places, pool }| {
            calls += 1;
            lent::read(text.as_bytes(), *spelling, words, places, pool)
        });
        (room, calls)
    }

    /// Bytes that are printed, and how often the archive was called for them.
    fn print(Room { words, places, pool }: &Room) -> (usize, usize) {
        let mut calls = 0;
        let out = printed(places.len(), pool.len(), |out| {
            calls += 1;
            lent::print(words, places.len() as u32, pool, pool.len() as u32, out)
        });
        (out.expect("it was read").len(), calls)
    }

    #[test]
    fn one_call_reads_and_one_prints() {
        let sizes = (0..200).chain([1_000, 2_047, 2_048, 4_091]);
        for text in sizes.flat_map(dense).chain(long()) {
            let begins: String = text.0.chars().take(60).collect();
            let (Ok(room), 1) = read(&text) else { panic!("not read by one call: {begins}") };
            let (length, 1) = print(&room) else { panic!("not printed by one call: {begins}") };
            assert!(length <= SPELLED_BYTE * room.pool.len() + SPELLED_NODE * room.places.len());
        }
    }

    /// More nodes than a document may have, and a text that is no document: the answer is final.
    #[test]
    fn one_call_refuses() {
        for text in dense(4_096) {
            let (Err(answer), 1) = read(&text) else { panic!("not refused by one call") };
            assert_eq!((answer.number, answer.nodes > 4_096), (number::NODES_SHORT, true));
        }
        let (Err(answer), 1) = read(&("[document".into(), Spelling::Nested)) else { panic!("not refused by one call") };
        assert_eq!(answer.number, number::UNPAIRED_BRACKET);
        let (Err(answer), 1) = read(&("a".repeat(70_000), Spelling::Nested)) else { panic!("not refused by one call") };
        assert_eq!(answer.number, number::TEXT_TOO_LONG);
    }

    /// An answer to reading.
    fn answer(number: u32, nodes: u32, pool: u32) -> Answer {
        Answer { number, place: 0, line: 1, column: 1, nodes, pool }
    }

    /// Where a bound was too small, the second call has what the first said; there is no third.
    #[test]
    fn a_bound_that_is_too_small_refuses_nothing() {
        for short in [number::NODES_SHORT, number::POOL_SHORT] {
            let mut rooms = Vec::new();
            let room = filled(10, |room| {
                rooms.push((room.words.len(), room.places.len(), room.pool.len()));
                answer(if rooms.len() == 1 { short } else { number::OK }, 7, 30)
            });
            assert_eq!(rooms, [(66, 6, 10), (77, 7, 30)]);
            assert!(room.is_ok_and(|room| room.places.len() == 7 && room.pool.len() == 30));
            let mut calls = 0;
            let refused = filled(10, |_| {
                calls += 1;
                answer(short, 7, 30)
            });
            assert_eq!((calls, refused.err()), (2, Some(answer(short, 7, 30))));
        }
    }

    #[test]
    fn an_output_that_is_too_short_is_lent_again() {
        let mut lengths = Vec::new();
        let out = printed(1, 1, |out| {
            lengths.push(out.len());
            Printed { number: if lengths.len() == 1 { number::OUTPUT_SHORT } else { number::OK }, length: 100 }
        });
        assert_eq!((lengths, out), (vec![86, 100], Ok(vec![0; 100])));
        let never = Printed { number: number::NOT_A_TABLE, length: 0 };
        assert_eq!(printed(1, 1, |_| never), Err(never));
    }

    /// Counts beyond what was lent are no counts of this memory.
    #[test]
    fn more_than_was_lent_is_not_taken() {
        for (nodes, pool) in [(7, 0), (0, 11), (u32::MAX, 0), (0, u32::MAX)] {
            assert!(catch_unwind(|| filled(10, |_| answer(number::OK, nodes, pool)).is_ok()).is_err());
        }
        assert!(catch_unwind(|| printed(1, 1, |_| Printed { number: number::OK, length: 87 })).is_err());
    }

    #[test]
    fn what_is_left_over_is_given_back_where_it_is_much() {
        assert!(kept(vec![0u32; 2_000], 900).capacity() < 1_000);
        assert_eq!(kept(vec![0u32; 2_000], 1_900).capacity(), 2_000);
    }
}

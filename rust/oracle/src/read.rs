//! Reading: the groups of numbers in the order in which they are judged, up to 14.

use crate::fault::{fault, Fault};
use crate::names::{
    MOST_BYTES, MOST_NODES, NESTED_LEVELS, NESTED_TOO_DEEP, NODES_SHORT, NOT_UTF8, OK, POOL_SHORT, RECORD_LENGTH,
    TEXT_TOO_LONG,
};
use crate::place::line_and_column;
use crate::scan::scan;
use crate::sink::{gather, Count, Fill, Sink};
use crate::walk::{Walked, Walker};

/// What a read returns, and what it returns together with the check ([`crate::pair()`]).
#[derive(Clone, Copy, PartialEq, Eq, Debug)]
pub struct Answer {
    pub number: u32,
    pub place: u32,
    pub line: u32,
    pub column: u32,
    pub nodes: u32,
    pub pool: u32,
}

/// Reads a text into the lent memory, also that of a document with faults 15 to 18. Under 0 the memory is filled, and
/// what lies past the used part keeps its values; under all other numbers it is left as it was.
pub fn read(text: &[u8], imperative: bool, nodes: &mut [u32], places: &mut [u32], pool: &mut [u8]) -> Answer {
    let count = match judge(text, imperative) {
        Ok(count) => count,
        Err(Fault { number, place }) => return answer(text, number, place, Count::default()),
    };
    if count.nodes as usize > MOST_NODES.min(nodes.len() / RECORD_LENGTH).min(places.len()) {
        return answer(text, NODES_SHORT, 0, count);
    }
    if count.pool as usize > pool.len() {
        return answer(text, POOL_SHORT, 0, count);
    }
    let words = &mut nodes[..count.nodes as usize * RECORD_LENGTH];
    fill(text, imperative, words, places, pool);
    answer(text, OK, 0, count)
}

/// Numbers 1 to 12 and 19; else the counts needed.
fn judge(text: &[u8], imperative: bool) -> Result<Count, Fault> {
    if text.len() > MOST_BYTES {
        return fault(TEXT_TOO_LONG, MOST_BYTES);
    }
    if let Err(error) = std::str::from_utf8(text) {
        return fault(NOT_UTF8, error.valid_up_to());
    }
    scan(text, imperative)?;
    let mut walker = Walker::new(text, Count::default());
    walk(&mut walker, imperative)?;
    // 19. With at most 59 levels of brackets under at most 5 blocks this cannot come up.
    if walker.deepest > NESTED_LEVELS {
        return fault(NESTED_TOO_DEEP, 0);
    }
    Ok(walker.sink)
}

/// Fills lent memory that is long enough from a text that has been judged.
fn fill(text: &[u8], imperative: bool, words: &mut [u32], places: &mut [u32], pool: &mut [u8]) {
    let mut walker = Walker::new(text, Fill { words, places, count: 0 });
    walk(&mut walker, imperative).expect("a text that has been judged");
    gather(text, walker.sink.words, pool);
}

fn walk<S: Sink>(walker: &mut Walker<S>, imperative: bool) -> Walked {
    match imperative {
        true => walker.imperative(),
        false => walker.nested(),
    }
}

/// An answer at a place of the text.
pub fn answer(text: &[u8], number: u32, place: usize, count: Count) -> Answer {
    let (line, column) = line_and_column(text, place);
    Answer { number, place: place as u32, line, column, nodes: count.nodes, pool: count.pool }
}

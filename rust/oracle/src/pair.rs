//! The pair: a read, and where that answers 0 the check of what it left, the node turned into a place.

use crate::faults::first_fault;
use crate::names::{OK, RECORD_LENGTH};
use crate::read::{answer, read, Answer};
use crate::sink::Count;
use crate::table::Table;

/// Numbers 0 to 19. A refusal is the read's own. What a read filled has the table of a document, so that 20 is not asked
/// for here: a fault 15 to 18 is found at once, at the place of its node, and its counts are those used.
pub fn pair(text: &[u8], imperative: bool, nodes: &mut [u32], places: &mut [u32], pool: &mut [u8]) -> Answer {
    let filled = read(text, imperative, nodes, places, pool);
    if filled.number != OK {
        return filled;
    }
    let table = Table { words: &nodes[..filled.nodes as usize * RECORD_LENGTH], pool };
    match first_fault(table) {
        Some((number, node)) => {
            let used = Count { nodes: filled.nodes, pool: filled.pool };
            answer(text, number, places[node] as usize, used)
        }
        None => filled,
    }
}

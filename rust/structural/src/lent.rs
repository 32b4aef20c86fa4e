//! Reading, checking and printing over memory that the caller lends, with no allocation.
//!
//! Each slice may have any length, also 0. `docs/LANGUAGE.md` says what each number leaves in them. [`read`] answers
//! no fault of rows, ids or links (15 to 18): whoever wants these calls [`check`] on what it left.

use crate::{abi, Spelling};

/// Words of a node: kind; parent; end; offset and length in the pool of its id or target, of its type, of
/// its text; width; height.
pub const NODE_WORDS: usize = 11;

/// The parent of the root, and a width or height that is not there.
pub const NONE: u32 = 4_294_967_295;

/// Most bytes that a text may have.
pub const MAX_TEXT: usize = 65_536;

/// Most nodes that a document may have.
pub const MAX_NODES: usize = 4_096;

/// What reading answers.
#[derive(Clone, Copy, Debug, PartialEq, Eq, Hash)]
pub struct Answer {
    /// One of [`crate::number`], 0 to 14 or 19; in a [`crate::Refusal`] also 15 to 18.
    pub number: u32,
    /// Offset in the text; 0 where the number has no place.
    pub place: u32,
    /// Line of the place, from 1.
    pub line: u32,
    /// Column of the place, from 1, in code points.
    pub column: u32,
    /// Nodes used under 0 and, in a refusal, 15 to 18; needed under 13 and 14; else 0.
    pub nodes: u32,
    /// Pool bytes, likewise.
    pub pool: u32,
}

/// What the check answers.
#[derive(Clone, Copy, Debug, PartialEq, Eq, Hash)]
pub struct Checked {
    /// 0, 15 to 18 or 20.
    pub number: u32,
    /// The number of the first node that has the fault; 0 under 0 and 20.
    pub node: u32,
}

/// What printing answers.
#[derive(Clone, Copy, Debug, PartialEq, Eq, Hash)]
pub struct Printed {
    /// 0, 20 or 21.
    pub number: u32,
    /// Bytes written under 0, needed under 21, else 0.
    pub length: u32,
}

/// Reads a text into lent node words (eleven a node), a place list (one word a node) and a pool.
///
/// ```
/// use structural::{lent, number, Spelling};
///
/// let text = b"[document [title A]]";
/// let asked = lent::read(text, Spelling::Nested, &mut [], &mut [], &mut []);
/// assert_eq!((asked.number, asked.nodes, asked.pool), (number::NODES_SHORT, 3, 1));
///
/// let (mut nodes, mut places, mut pool) = ([0; 33], [0; 3], [0; 1]);
/// let answer = lent::read(text, Spelling::Nested, &mut nodes, &mut places, &mut pool);
/// assert_eq!(answer.number, number::OK);
/// assert_eq!((places, &pool), ([0, 10, 17], b"A"));
/// ```
pub fn read(text: &[u8], spelling: Spelling, nodes: &mut [u32], places: &mut [u32], pool: &mut [u8]) -> Answer {
    let mut words = [0; abi::READ_WORDS];
    abi::read(spelling, text, nodes, places, pool, &mut words);
    let [number, place, line, column, nodes, pool] = words;
    Answer { number, place, line, column, nodes, pool }
}

/// Checks the first `node_count` nodes and the first `pool_count` pool bytes: 20 where no draft within the limits has
/// this table, or a count is beyond what is lent; then 15, 16, 17 and 18, each over the whole document before the
/// next, with the first node that has the fault; 0 where the document is well-formed.
///
/// ```
/// use structural::{lent, number, Spelling};
///
/// let text = b"[document [title A] [id x] [section [title B] [id x]]]";
/// let (mut nodes, mut places, mut pool) = ([0; 66], [0; 6], [0; 4]);
/// let answer = lent::read(text, Spelling::Nested, &mut nodes, &mut places, &mut pool);
/// assert_eq!((answer.number, answer.nodes, answer.pool), (number::OK, 6, 4));
///
/// let checked = lent::check(&nodes, answer.nodes, &pool, answer.pool);
/// assert_eq!((checked.number, checked.node), (number::REPEATED_ID, 3));
/// assert_eq!(places[checked.node as usize], 27);
/// ```
pub fn check(nodes: &[u32], node_count: u32, pool: &[u8], pool_count: u32) -> Checked {
    let mut words = [0; abi::CHECK_WORDS];
    abi::check(nodes, node_count, pool, pool_count, &mut words);
    let [number, node] = words;
    Checked { number, node }
}

/// Writes the canonical spelling of the draft whose table is the first `node_count` nodes and the first
/// `pool_count` pool bytes. With an output of no bytes it answers the length needed, under 21.
pub fn print(nodes: &[u32], node_count: u32, pool: &[u8], pool_count: u32, out: &mut [u8]) -> Printed {
    let mut words = [0; abi::PRINT_WORDS];
    abi::print(nodes, node_count, pool, pool_count, out, &mut words);
    let [number, length] = words;
    Printed { number, length }
}

//! "Within the limits (at most 4,096 nodes, canonical nesting at most 64, pool at most 65,536)": tables at a limit, and
//! one past it that no text gives.
//!
//! | test | cases |
//! |---|---|
//! | [`deep`], with [`deeper`], [`levels`] | 6 |
//! | [`wide`] | 2 |
//! | [`pools`] | 2 |

use crate::common::padded;
use crate::many::titled;
use crate::memory::{Room, Table};
use structural::lent::{NODE_WORDS, NONE};
use structural::{number, Spelling};

/// A node that is added after all others, in node 1 or in the last node, with so many bytes `u` more in the pool.
struct Added {
    kind: u32,
    in_last: bool,
    bytes: u32,
}

/// An element that ends before node `n` has one node more.
fn raise(words: &mut [u32], n: u32) {
    for record in words.chunks_mut(NODE_WORDS).take(n as usize) {
        if record[0] != 9 && record[2] == n {
            record[2] = n + 1;
        }
    }
}

impl Added {
    /// Node `n`, the last. A text has byte `p` of the pool, a link-ext has it as its target.
    fn row(&self, n: u32, p: u32) -> [u32; NODE_WORDS] {
        let parent = if self.in_last { n - 1 } else { 1 };
        let end = n + 1;
        match self.kind {
            9 => [9, parent, end, 0, 0, 0, 0, p, 1, NONE, NONE],
            14 => [14, parent, end, p, 1, 0, 0, 0, 0, NONE, NONE],
            kind => [kind, parent, end, 0, 0, 0, 0, 0, 0, NONE, NONE],
        }
    }

    /// The table of a text with this node.
    fn to(&self, text: &[u8]) -> Table {
        let room = Room { byte: b'u', ..Room::new(45_100, 4_100, 4_100) };
        let mut table = Table::read(text, Spelling::Nested, number::OK, room);
        let (n, p) = (table.nodes, table.pool);
        raise(&mut table.words, n);
        let at = NODE_WORDS * n as usize;
        table.words[at..at + NODE_WORDS].copy_from_slice(&self.row(n, p));
        Table { nodes: n + 1, pool: p + self.bytes, ..table }
    }
}

/// Blocks around so many lists and items by turns, with `inner` inside, and so many closing brackets: canonical as it
/// stands.
fn levels(blocks: &str, opened: usize, inner: &str, closed: usize) -> String {
    let opening = |k| if k % 2 == 0 { " [list-ordered" } else { " [item" };
    let openings: String = (0..opened).map(opening).collect();
    format!("{blocks}{openings}{inner}{}", "]".repeat(closed))
}

/// A node of this kind is added in the innermost list or item. Where no `inner` is wanted it is a level too deep.
fn deeper(blocks: &str, opened: usize, closed: usize, kind: u32, bytes: u32, inner: &str) {
    eprintln!("{opened} opened, kind {kind}");
    let text = padded(&levels(blocks, opened, "", closed), 1_000);
    let table = Added { kind, in_last: true, bytes }.to(&text);
    if inner.is_empty() {
        table.refuses();
    } else {
        table.spells(levels(blocks, opened, inner, closed).as_bytes());
    }
}

/// Three blocks and 60 lists and items are 63 levels, the last an item; a target has a bracket of its own.
#[test]
fn deep() {
    let three = "[document [title \"A\"] [section [title \"B\"] [paragraph";
    let four = "[document [title \"A\"] [section [title \"B\"] [subsection [title] [paragraph";
    deeper(three, 60, 63, 16, 0, " [list-ordered]");
    deeper(three, 61, 64, 18, 0, "");
    deeper(four, 60, 64, 16, 0, "");
    deeper(four, 60, 64, 9, 1, " \"u\"");
    deeper(four, 58, 62, 14, 1, " [link-ext [target \"u\"]]");
    deeper(three, 60, 63, 14, 1, "");
}

/// A text more in a title of 4,093, and in one of 4,094.
#[test]
fn wide() {
    let added = Added { kind: 9, in_last: false, bytes: 1 };
    let text = padded(&titled(4_093, false, "]]"), 20_000);
    added.to(&text).spells(titled(4_093, true, " \"u\"]]").as_bytes());
    let more = padded(&titled(4_094, false, "]]"), 20_000);
    added.to(&more).refuses();
}

/// A document whose title is one text of so many bytes, which are the pool.
fn one_text(bytes: u32) -> Table {
    let words = [
        [1, NONE, 3, 0, 0, 0, 0, 0, 0, NONE, NONE],
        [8, 0, 3, 0, 0, 0, 0, 0, 0, NONE, NONE],
        [9, 1, 3, 0, 0, 0, 0, 0, bytes, NONE, NONE],
    ];
    Table { words: words.concat(), nodes: 3, bytes: vec![b'a'; 65_537], pool: bytes }
}

/// A text of 65,536 bytes, and of one more.
#[test]
fn pools() {
    let want = format!("[document [title \"{}\"]]", "a".repeat(65_536));
    assert_eq!(want.len(), 65_557);
    one_text(65_536).spells(want.as_bytes());
    one_text(65_537).refuses();
}

//! How many nodes there may be, and the counts that are needed where there are more, or the pool is too short.

use super::frame::{expect, Frame, SPELLINGS};
use crate::read;
use crate::sweep::must::Must;
use crate::sweep::reading::Reads;
use crate::sweep::sweeper::Sweeper;
use oracle::names::{MOST_BYTES, MOST_NODES, RECORD_LENGTH};
use oracle::random::ReadCase;

pub fn sweep(sweeper: &mut Sweeper) {
    nodes(sweeper);
    kinds(sweeper);
    pools(sweeper);
}

/// The most nodes that a text of 65,536 bytes can have: 18 bytes of document and title, and two a text.
const MOST: usize = 2 + (MOST_BYTES - 18) / 2;

const NODES: [usize; 18] = [
    2,
    MOST_NODES - 1,
    MOST_NODES,
    MOST_NODES + 1,
    MOST_NODES + 2,
    2 * MOST_NODES - 1,
    2 * MOST_NODES,
    9_999,
    4 * MOST_NODES,
    24_999,
    25_000,
    25_001,
    25_002,
    30_002,
    32_000,
    MOST - 2,
    MOST - 1,
    MOST,
];

/// With room for all of them, with room for 4,096 and with none.
fn nodes(sweeper: &mut Sweeper) {
    let must = Must::meet(18 * 2 * 3, 3 * 2 * 2, &[0, 13]);
    sweeper.reads("nodes", must, |reads| {
        for (nodes, imperative) in NODES.into_iter().flat_map(|nodes| SPELLINGS.map(|imperative| (nodes, imperative))) {
            let text = format!("[document [title{}]]", " a".repeat(nodes - 2));
            let number = if nodes > MOST_NODES { 13 } else { 0 };
            reads.expect(number, imperative, text.as_bytes());
            let case = ReadCase {
                text: text.into(),
                imperative,
                words: MOST_NODES * RECORD_LENGTH,
                places: MOST_NODES,
                pool: nodes,
            };
            reads.lent(number, &case, read::WORDS);
            reads.lent(13, &ReadCase { words: 0, places: 0, pool: 0, ..case }, read::WORDS);
        }
    });
}

/// Many of one kind, and the nodes around them.
const MANY: [(&str, Frame, usize); 7] = [
    ("[paragraph]", ["[document[title][section[title]@]]", "[document[title]][section[title]]@"], 4),
    ("[term]", ["[document[title][section[title][paragraph @]]]", "[document[title]][section[title]][paragraph]@"], 5),
    (
        "[item]",
        [
            "[document[title][section[title][paragraph[list-ordered@]]]]",
            "[document[title]][section[title]][paragraph][list-ordered@]",
        ],
        6,
    ),
    (
        "[row]",
        [
            "[document[title][section[title][paragraph[table[summary][body@]]]]]",
            "[document[title]][section[title]][paragraph][table[summary][body@]]",
        ],
        8,
    ),
    (
        "[cell]",
        [
            "[document[title][section[title][paragraph[table[summary][body[row@]]]]]]",
            "[document[title]][section[title]][paragraph][table[summary][body[row@]]]",
        ],
        9,
    ),
    (
        "[name]",
        [
            "[document[title][section[title][paragraph[table[summary][head@][body]]]]]",
            "[document[title]][section[title]][paragraph][table[summary][head@][body]]",
        ],
        9,
    ),
    ("[section[title]]", ["[document[title]@]", "[document[title]]@"], 2),
];

/// One node below the most, the most, and one above. A section has two, so that there are 4,094, 4,096 and 4,098.
fn kinds(sweeper: &mut Sweeper) {
    let must = Must::meet(7 * 3 * 2, 7 * 2 * 2, &[0, 13]);
    sweeper.reads("nodes of one kind", must, |reads| {
        for (piece, frame, around) in MANY {
            let nodes = if piece.contains("[title]") { 2 } else { 1 };
            let most = (MOST_NODES - around) / nodes;
            for (count, number) in [(most - 1, 0), (most, 0), (most + 1, 13)] {
                expect(reads, number, frame, piece.repeat(count).as_bytes());
            }
        }
    });
}

/// Bytes of a title's text, up to the most that a text of 65,536 bytes can have.
const POOLS: [usize; 16] =
    [1, 2, 255, 256, 257, 4_095, 4_096, 4_097, 24_999, 25_000, 25_001, 32_767, 32_768, 32_769, 40_000, MOST_BYTES - 19];

/// With the pool that is needed, one short, and none; and as many bytes out of escapes of three bytes and of one.
fn pools(sweeper: &mut Sweeper) {
    let must = Must::meet((16 + 3) * 2 * 3, (16 + 3) * 2, &[0, 14]);
    sweeper.reads("pools", must, |reads| {
        for length in POOLS {
            pool(reads, &"a".repeat(length), length);
        }
        pool(reads, &format!("\"{}\"", "\\u20ac".repeat(10_000)), 30_000);
        pool(reads, &format!("\"{}\"", "\\uFFFFa".repeat(9_000)), 36_000);
        pool(reads, &format!("\"{}\"", "\\n\u{10ffff}".repeat(5_461)), 27_305);
    });
}

/// A title of three nodes whose text has so many bytes.
fn pool(reads: &mut Reads, spelled: &str, length: usize) {
    let text = format!("[document [title {spelled}]]");
    for (lent, number) in [(length, 0), (length - 1, 14), (0, 14)] {
        for imperative in SPELLINGS {
            let case =
                ReadCase { text: text.clone().into(), imperative, words: 3 * RECORD_LENGTH, places: 3, pool: lent };
            reads.lent(number, &case, read::WORDS);
        }
    }
}

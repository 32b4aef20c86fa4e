//! One document with one word, one pool byte or one count changed: refused, but where what is left is the table of
//! another draft.
//!
//! | test | cases |
//! |---|---|
//! | [`words_changed`], with [`changes`], [`still`] | 532 |
//! | [`pool_bytes_refused`], [`pool_bytes_at_fault`], [`pool_bytes_kept`] | 12, 2 and 5 |
//! | [`counts_changed`] | 14 |

use crate::memory::{Room, Table};
use structural::{number, Spelling};

/// The document, with 13 nodes: document, title, text, section, title, paragraph, link, text, image, text,
/// list-ordered, item, text. Its pool, of 14 bytes: d, t; Top; p; p; x; u, w; y; end.
const TEXT: &[u8] = b"[document [title Top] [id d] [type t] [section [title] [paragraph [id p] [link [target p] x] \
                      [image [target u] [size 7 8] [type w] y] [list-ordered [item end]]]]]";

/// Its table, with marks behind it.
fn document() -> Table {
    let table = Table::read(TEXT, Spelling::Nested, number::OK, Room::new(154, 16, 20));
    assert_eq!((table.nodes, table.pool), (13, 14));
    table
}

/// Whether it is still a table with this word. The link may be a link-ext, the list unordered, and width and height,
/// words 97 and 98, another number.
fn still(i: usize, value: u32) -> bool {
    match i {
        66 => value == 14,
        110 => value == 17,
        97 | 98 => value <= 65_535,
        _ => false,
    }
}

/// One more, one less, 65,536 more, 4,294,967,295 and 0, each once.
fn changes(word: u32) -> Vec<u32> {
    let mut changes = vec![word.wrapping_add(1), word.wrapping_sub(1), word.wrapping_add(65_536)];
    match word {
        0 | u32::MAX => (),
        1 => changes.push(u32::MAX),
        _ => changes.extend([u32::MAX, 0]),
    }
    changes
}

/// The document's table with word `i` changed: refused, or well-formed, printed, and read again as the same table.
fn changed(table: &Table, i: usize, value: u32) {
    eprintln!("word {i} as {value}");
    let mut table = table.clone();
    table.words[i] = value;
    if still(i, value) {
        table.comes_back();
        table.checks(number::OK, 0);
    } else {
        table.refuses();
    }
}

/// Of the 143 words 61 are 0 and 25 are 4,294,967,295, with 3 changes each; 11 are 1, with 4; the other 46 have 5.
#[test]
fn words_changed() {
    let table = document();
    let mut cases = 0;
    for (i, word) in table.words[..143].iter().enumerate() {
        let changes = changes(*word);
        cases += changes.len();
        changes.iter().for_each(|value| changed(&table, i, *value));
    }
    assert_eq!(cases, 532);
}

/// The document with byte `i` of the pool changed.
fn poked(i: usize, byte: u8) -> Table {
    eprintln!("pool byte {i} as {byte}");
    let mut table = document();
    table.bytes[i] = byte;
    table
}

/// Bytes that no id, type, target or text has there.
const REFUSED: [(usize, u8); 12] = [
    (0, b' '),
    (0, b'/'),
    (0, 255),
    (1, b'-'),
    (1, b'.'),
    (3, 255),
    (4, 195),
    (7, 195),
    (8, b' '),
    (8, 127),
    (9, b' '),
    (10, 128),
];

#[test]
fn pool_bytes_refused() {
    REFUSED.iter().for_each(|(i, byte)| poked(*i, *byte).refuses());
}

/// A byte of the pool with its new value, the spelling that is then wanted, and number and node of the check.
type AtFault = (usize, u8, &'static [u8], u32, u32);

/// Bytes with which it is a draft that is not well-formed: node 5 has an id that the document has, and node 6 a target
/// that no block has.
const AT_FAULT: [AtFault; 2] = [
    (
        5,
        b'd',
        b"[document [title \"Top\"] [id d] [type t] [section [title] [paragraph [id d] [link [target \"p\"] \"x\"] \
          [image [target \"u\"] [size 7 8] [type w] \"y\"] [list-ordered [item \"end\"]]]]]",
        number::REPEATED_ID,
        5,
    ),
    (
        6,
        b'q',
        b"[document [title \"Top\"] [id d] [type t] [section [title] [paragraph [id p] [link [target \"q\"] \"x\"] \
          [image [target \"u\"] [size 7 8] [type w] \"y\"] [list-ordered [item \"end\"]]]]]",
        number::UNKNOWN_TARGET,
        6,
    ),
];

#[test]
fn pool_bytes_at_fault() {
    for (i, byte, want, number, node) in AT_FAULT {
        let table = poked(i, byte);
        table.spells(want);
        table.checks(number, node);
    }
}

/// Bytes with which it is another document, and its spelling.
const KEPT: [(usize, u8, &[u8]); 5] = [
    (
        0,
        b'-',
        b"[document [title \"Top\"] [id -] [type t] [section [title] [paragraph [id p] [link [target \"p\"] \"x\"] \
          [image [target \"u\"] [size 7 8] [type w] \"y\"] [list-ordered [item \"end\"]]]]]",
    ),
    (
        6,
        b'd',
        b"[document [title \"Top\"] [id d] [type t] [section [title] [paragraph [id p] [link [target \"d\"] \"x\"] \
          [image [target \"u\"] [size 7 8] [type w] \"y\"] [list-ordered [item \"end\"]]]]]",
    ),
    (
        3,
        0,
        b"[document [title \"T\\u0000p\"] [id d] [type t] [section [title] [paragraph [id p] [link [target \"p\"] \"x\"] \
          [image [target \"u\"] [size 7 8] [type w] \"y\"] [list-ordered [item \"end\"]]]]]",
    ),
    (
        8,
        b'"',
        b"[document [title \"Top\"] [id d] [type t] [section [title] [paragraph [id p] [link [target \"p\"] \"x\"] \
          [image [target \"\\\"\"] [size 7 8] [type w] \"y\"] [list-ordered [item \"end\"]]]]]",
    ),
    (
        13,
        b'\\',
        b"[document [title \"Top\"] [id d] [type t] [section [title] [paragraph [id p] [link [target \"p\"] \"x\"] \
          [image [target \"u\"] [size 7 8] [type w] \"y\"] [list-ordered [item \"en\\u005c\"]]]]]",
    ),
];

#[test]
fn pool_bytes_kept() {
    KEPT.iter().for_each(|(i, byte, want)| poked(*i, *byte).answers(want));
}

/// Lent node words, nodes, lent pool bytes, pool bytes: 7 cases with other nodes, 7 with another pool. 11 times
/// 390,451,573 is 7 more than 4,294,967,296.
const COUNTS: [(usize, u32, usize, u32); 14] = [
    (154, 12, 20, 14),
    (154, 14, 20, 14),
    (154, 0, 20, 14),
    (154, u32::MAX, 20, 14),
    (154, 390_451_573, 20, 14),
    (142, 13, 20, 14),
    (143, 14, 20, 14),
    (154, 13, 20, 13),
    (154, 13, 20, 15),
    (154, 13, 20, 0),
    (154, 13, 20, u32::MAX),
    (154, 13, 13, 14),
    (154, 13, 14, 15),
    (0, 0, 0, 0),
];

/// The document with other counts, or with less lent than they say.
#[test]
fn counts_changed() {
    for (words, nodes, bytes, pool) in COUNTS {
        eprintln!("{words} {nodes} {bytes} {pool}");
        let table = document();
        let (words, bytes) = (table.words[..words].to_vec(), table.bytes[..bytes].to_vec());
        Table { words, nodes, bytes, pool }.refuses();
    }
}

//! Documents with one word of their table changed: other drafts, or none.
//!
//! | test | cases |
//! |---|---|
//! | [`sizes`] | 7 |
//! | [`blocks`] | 7 |
//! | [`inline`] | 4 |
//! | [`targets`], [`unknown_targets`] | 3 and 2 |

use crate::memory::{Room, Table};
use structural::lent::NONE;
use structural::{number, Spelling};

/// A text, the word of its table that is changed, the word's new value, and the spelling that is then wanted, none
/// where the table has to be refused.
type Edit = (&'static [u8], usize, u32, &'static [u8]);

/// The table of a text with one word changed.
fn table(text: &[u8], i: usize, value: u32) -> Table {
    eprintln!("word {i} as {value}: {}", String::from_utf8_lossy(text));
    let mut table = Table::read(text, Spelling::Nested, number::OK, Room::new(154, 16, 20));
    table.words[i] = value;
    table
}

fn edited(edits: &[Edit]) {
    edits.iter().for_each(|(text, i, value, want)| table(text, *i, *value).answers(want));
}

/// An image with a size of which one number is changed.
const SIZED: &[u8] = b"[document [title] [section [title] [paragraph [image [target u] [size 7 8] x]]]]";

/// The image is node 5: its width is word 64, its height word 65.
const SIZES: [Edit; 7] = [
    (SIZED, 64, 0, b"[document [title] [section [title] [paragraph [image [target \"u\"] [size 0 8] \"x\"]]]]"),
    (
        SIZED,
        64,
        65_535,
        b"[document [title] [section [title] [paragraph [image [target \"u\"] [size 65535 8] \"x\"]]]]",
    ),
    (
        SIZED,
        65,
        10_000,
        b"[document [title] [section [title] [paragraph [image [target \"u\"] [size 7 10000] \"x\"]]]]",
    ),
    (SIZED, 64, 65_536, b""),
    (SIZED, 65, 65_536, b""),
    (SIZED, 64, NONE, b""),
    (SIZED, 65, NONE, b""),
];

/// A block as another: node 2 or node 4, so word 22 or word 44.
const BLOCKS: [Edit; 7] = [
    (b"[document [title] [section [title]]]", 22, 2, b"[document [title] [part [title]]]"),
    (b"[document [title] [section [title]]]", 22, 4, b""),
    (b"[document [title] [section [title] [paragraph]]]", 22, 2, b""),
    (
        b"[document [title] [section [title] [subsection [title a]]]]",
        44,
        6,
        b"[document [title] [section [title] [formal-item [title \"a\"]]]]",
    ),
    (b"[document [title] [section [title] [subsection [title a]]]]", 44, 5, b""),
    (
        b"[document [title] [section [title] [paragraph [id a] x]]]",
        44,
        7,
        b"[document [title] [section [title] [footnote [id a] \"x\"]]]",
    ),
    (b"[document [title] [section [title] [paragraph x]]]", 44, 7, b""),
];

/// A list or an element of text as another: node 5, so word 55.
const INLINE: [Edit; 4] = [
    (
        b"[document [title] [section [title] [paragraph [list-unordered [item x]]]]]",
        55,
        16,
        b"[document [title] [section [title] [paragraph [list-ordered [item \"x\"]]]]]",
    ),
    (
        b"[document [title] [section [title] [paragraph [term [type c] x]]]]",
        55,
        12,
        b"[document [title] [section [title] [paragraph [verbatim [type c] \"x\"]]]]",
    ),
    (b"[document [title] [section [title] [paragraph [term x y]]]]", 55, 12, b""),
    (b"[document [title] [section [title] [paragraph [term]]]]", 55, 12, b""),
];

/// An element with a target as another: node 5, so word 55.
const TARGETS: [Edit; 3] = [
    (
        b"[document [title] [section [title] [paragraph [id a] [link-ext [target a] x]]]]",
        55,
        13,
        b"[document [title] [section [title] [paragraph [id a] [link [target \"a\"] \"x\"]]]]",
    ),
    (
        b"[document [title] [section [title] [paragraph [id a] [link [target a] x]]]]",
        55,
        11,
        b"[document [title] [section [title] [paragraph [id a] [image [target \"a\"] \"x\"]]]]",
    ),
    (
        b"[document [title] [section [title] [footnote [id a] [link [target a]]]]]",
        55,
        15,
        b"[document [title] [section [title] [footnote [id a] [footnote-ref [target \"a\"]]]]]",
    ),
];

/// The same where no block, or no footnote, has the target: drafts with a fault at node 5.
const UNKNOWN_TARGETS: [(u32, Edit); 2] = [
    (
        number::UNKNOWN_TARGET,
        (
            b"[document [title] [section [title] [paragraph [link-ext [target a] x]]]]",
            55,
            13,
            b"[document [title] [section [title] [paragraph [link [target \"a\"] \"x\"]]]]",
        ),
    ),
    (
        number::UNKNOWN_FOOTNOTE,
        (
            b"[document [title] [section [title] [paragraph [id a] [link [target a]]]]]",
            55,
            15,
            b"[document [title] [section [title] [paragraph [id a] [footnote-ref [target \"a\"]]]]]",
        ),
    ),
];

#[test]
fn sizes() {
    edited(&SIZES);
}

#[test]
fn blocks() {
    edited(&BLOCKS);
}

#[test]
fn inline() {
    edited(&INLINE);
}

#[test]
fn targets() {
    edited(&TARGETS);
}

#[test]
fn unknown_targets() {
    for (number, (text, i, value, want)) in UNKNOWN_TARGETS {
        let table = table(text, i, value);
        table.spells(want);
        table.checks(number, 5);
    }
}

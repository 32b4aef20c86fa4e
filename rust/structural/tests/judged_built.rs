//! Judged texts that are too long to be written out, with their whole answers, node words, places and pools, worked out
//! by hand. Each test has both spellings.
//!
//! | test | cases |
//! |---|---|
//! | [`longest`], [`too_long`] | texts of 65,536 and 65,537 bytes: 2 and 2 |
//! | [`deepest`], [`too_deep`] | 64 and 65 levels of brackets, imperative 59 and 60: 2 and 2 |
//! | [`most`], [`too_many`] | 4,096 and 4,097 nodes: 2 and 2 |
//!
//! The texts and tables are built by [`padded`], [`levels`], [`deep_table`], [`title`] and [`wide_table`], and compared
//! by [`common::written`]. 55 other cases are in `judged.rs`.

mod common;

use common::padded;
use common::written::{judge, list, rows};
use structural::lent::NONE;
use structural::Spelling;

const SPELLINGS: [Spelling; 2] = [Spelling::Nested, Spelling::Imperative];

/// A document, a line end and spaces.
const SHORT: &str = "[document [title \"A\"]]\n";

#[test]
fn longest() {
    for spelling in SPELLINGS {
        let table = (&rows("1 - 3;8 0 3;9 1 3 0 0 0 0 0 1;")[..], &list("0 10 17.")[..], &b"A"[..]);
        judge("text of 65,536 bytes", &padded(SHORT, 65_536), spelling, "0 0 1 1 3 1 231 21 60.", table);
    }
}

/// 65,513 of the 65,536 bytes before the place lie after the line end.
#[test]
fn too_long() {
    for spelling in SPELLINGS {
        let wanted = "1 65536 2 65514 0 0 231 21 60.";
        judge("text of 65,537 bytes", &padded(SHORT, 65_537), spelling, wanted, (&[], &[], b""));
    }
}

const NESTED: &str = "[document [title A] [part [title B] [section [title C] [subsection [title D] [paragraph ";

const IMPERATIVE: &str =
    "[document [title A]] [part [title B]] [section [title C]] [subsection [title D]] [paragraph] ";

/// The blocks' text, so many lists and items by turns, and so many closing brackets.
fn levels(blocks: &str, opened: usize, closed: usize) -> Vec<u8> {
    let opening = |k| if k % 2 == 0 { "[list-ordered " } else { "[item " };
    let openings: String = (0..opened).map(opening).collect();
    padded(&format!("{blocks}{openings}{}", "]".repeat(closed)), 800)
}

/// From node 13 on lists and items by turns, each the only child of the node before it.
fn deep_row(node: u32) -> [u32; 11] {
    let kind = if node % 2 == 1 { 16 } else { 18 };
    [kind, node - 1, 72, 0, 0, 0, 0, 0, 0, NONE, NONE]
}

/// From node 13 on, where the first list is: a list takes 14 bytes and an item 6.
fn deep_place(first: u32, node: u32) -> u32 {
    let k = node - 13;
    first + 20 * (k / 2) + 14 * (k % 2)
}

/// Document, part, section, subsection, each with its title and the title's text, paragraph, and 59 lists and items,
/// the first at `first`.
fn deep_table(places: &str, first: u32) -> (Vec<u32>, Vec<u32>) {
    let mut nodes = rows(
        "1 - 72;8 0 3;9 1 3 0 0 0 0 0 1;\
         2 0 72;8 3 6;9 4 6 0 0 0 0 1 1;\
         3 3 72;8 6 9;9 7 9 0 0 0 0 2 1;\
         4 6 72;8 9 12;9 10 12 0 0 0 0 3 1;\
         5 9 72;",
    );
    nodes.extend((13..72).flat_map(deep_row));
    let mut places = list(places);
    places.extend((13..72).map(|node| deep_place(first, node)));
    (nodes, places)
}

/// Five blocks around lists in items in lists. With 59 lists and items the nested text has 64 levels and the
/// imperative one 59.
#[test]
fn deepest() {
    for (name, spelling, blocks, closed, places, first) in [
        ("nested 64 levels", Spelling::Nested, NESTED, 64, "0 10 17 20 26 33 36 45 52 55 67 74 77.", 88),
        ("imperative 59 levels", Spelling::Imperative, IMPERATIVE, 59, "0 10 17 21 27 34 38 47 54 58 70 77 81.", 93),
    ] {
        let (nodes, places) = deep_table(places, first);
        let wanted = "0 0 1 1 72 4 45100 4100 4100.";
        judge(name, &levels(blocks, 59, closed), spelling, wanted, (&nodes, &places, b"ABCD"));
    }
}

/// One list or item more.
#[test]
fn too_deep() {
    for (name, spelling, blocks, closed, wanted) in [
        ("nested 65 levels", Spelling::Nested, NESTED, 65, "6 682 1 683 0 0 231 21 60."),
        ("imperative 60 levels", Spelling::Imperative, IMPERATIVE, 60, "6 687 1 688 0 0 231 21 60."),
    ] {
        judge(name, &levels(blocks, 60, closed), spelling, wanted, (&[], &[], b""));
    }
}

/// So many letters, from a to z by turns.
fn letters(count: usize) -> String {
    ('a'..='z').cycle().take(count).collect()
}

/// A title of so many texts of one letter, each with a space behind it.
fn title(count: usize) -> Vec<u8> {
    let texts: String = letters(count).chars().flat_map(|letter| [letter, ' ']).collect();
    padded(&format!("[document [title {texts}]]"), 8_300)
}

/// From node 2 on the title's texts; node 2 + k has byte k of the pool.
fn wide_row(node: u32) -> [u32; 11] {
    [9, 1, node + 1, 0, 0, 0, 0, node - 2, 1, NONE, NONE]
}

/// Each text lies two bytes behind the one before it, node 2 at 17.
fn wide_table() -> (Vec<u32>, Vec<u32>) {
    let mut nodes = rows("1 - 4096;8 0 4096;");
    nodes.extend((2..4_096).flat_map(wide_row));
    let mut places = list("0 10.");
    places.extend((2..4_096).map(|node| 13 + 2 * node));
    (nodes, places)
}

/// With 4,094 texts in its title a document has 4,096 nodes, in either spelling.
#[test]
fn most() {
    let (nodes, places) = wide_table();
    for spelling in SPELLINGS {
        let wanted = "0 0 1 1 4096 4094 45100 4100 4100.";
        judge("4,096 nodes", &title(4_094), spelling, wanted, (&nodes, &places, letters(4_094).as_bytes()));
    }
}

#[test]
fn too_many() {
    for spelling in SPELLINGS {
        judge("4,097 nodes", &title(4_095), spelling, "13 0 1 1 4097 4095 45100 4100 4100.", (&[], &[], b""));
    }
}

//! The example inputs of the base points B1 to B28, but for B27: since change request 1 a table with faults prints.

mod common;

use common::{at, imperative, in_paragraph, listing, nested, paragraph, printed, read_amply};
use oracle::names::{KIND, RECORD_LENGTH, TEXT_OFFSET, TYPE_LENGTH, TYPE_OFFSET};
use oracle::{print, read};

#[test]
fn b1_to_b3_listings() {
    assert_eq!(listing(b"", false), "refused 7 1:1\n");
    assert_eq!(listing(b"[document [title A] [id x] [section [title B] [id x]]]", false), "refused 16 1:28\n");
    let title = |texts: usize| format!("[document [title {}]]", "a ".repeat(texts));
    assert!(listing(title(1_022).as_bytes(), false).starts_with("nodes 1024 pool 1022\n"));
    assert_eq!(listing(title(1_023).as_bytes(), false), "refused 13 1:1\n");
}

#[test]
fn b4_to_b8_scan() {
    assert_eq!(at(nested(r#""a\z"#)), (4, 2));
    assert_eq!(at(nested(r#""a\u00"#)), (4, 2));
    assert_eq!(at(nested("\u{feff}[document [title A]]")), (7, 3));
    assert_eq!(at(imperative("\u{feff}[document [title A]]")), (8, 0));
    for blank in ["\u{7f}", "\u{85}", "\u{a0}", "\u{2028}", "\u{feff}"] {
        assert_eq!(nested(format!("[document [title {blank}]]")).pool as usize, blank.len());
    }
    assert_eq!(at(nested("[document\r\r\n[title A]]")), (3, 9));
    assert_eq!(at(nested("[document\r\n[title A]]")), (0, 0));
    let read = read_amply(br"[document [title a\nb]]", false);
    assert_eq!((read.answer.nodes, &read.pool[..]), (3, &br"a\nb"[..]));
}

#[test]
fn b9_to_b11_parameters_and_content() {
    assert_eq!(paragraph(r#"[footnote-ref [target a] (include "x")]"#), (12, 25));
    assert_eq!(paragraph(r#"[table [summary] [body] (include "x")]"#), (12, 24));
    assert_eq!(paragraph(r#"[verbatim a (include "x")]"#), (12, 12));
    assert_eq!(paragraph("[verbatim a b]"), (8, 12));
    assert_eq!(paragraph(r#"[verbatim [type "t"]]"#), (10, 10));
    assert_eq!(paragraph("[verbatim [type t]]"), (9, 0));
    assert_eq!(paragraph("[table [summary [x]]]"), (8, 16));
    assert_eq!(paragraph(r#"[table [summary] [type "t"]]"#), (10, 17));
}

#[test]
fn b12_to_b16_includes_and_names() {
    assert_eq!(at(nested(r#"[document (include "x")]"#)), (9, 0));
    assert_eq!(paragraph(r#"[table [summary] (include "x") [body]]"#), (9, 0));
    assert_eq!(at(nested(r#"[document [title A] [id (include "x")]]"#)), (10, 20));
    assert_eq!(at(nested(r#"[document ["title" A]]"#)), (9, 0));
    assert_eq!(paragraph(r#"["include" "x"]"#), (8, 0));
    assert_eq!(paragraph(r#"[include "x"]"#), (12, 0));
    assert_eq!(paragraph("[text x]"), (8, 0));
    assert_eq!(at(nested("[Document [title A]]")), (8, 0));
}

#[test]
fn b17_to_b19_imperative() {
    assert_eq!(at(imperative("[document [title A]] [document]")), (8, 21));
    assert_eq!(at(imperative(r#"[document [title A]] (include "x")"#)), (12, 21));
    assert_eq!(at(imperative(r#"(include "x")"#)), (8, 0));
    assert_eq!(at(nested(r#"(include "x")"#)), (8, 0));
    assert_eq!(at(imperative(r#"[document [title A] (include "x")]"#)), (8, 20));
    assert_eq!(at(imperative("[document]")), (9, 0));
}

#[test]
fn b20_and_b21_first_in_document_order() {
    let inner = "[table [summary] [head [name]] [body [row]]]";
    let outer = format!("[table [summary] [head [name]] [body [row [cell [list-ordered [item {inner}]]]] [row]]]");
    let (text, start) = in_paragraph(&outer);
    let bad_inner = start as usize + outer.find(inner).unwrap() + inner.find("[row]").unwrap();
    assert_eq!(at(nested(&text)), (15, bad_inner as u32));
    let text =
        "[document [title A] [id x] [section [title B] [id y]] [section [title C] [id x]] [section [title D] [id y]]]";
    assert_eq!(at(nested(text)), (16, 54));
}

#[test]
fn b22_and_b23_room() {
    let title = |texts: usize| format!("[document [title {}]]", "a ".repeat(texts));
    let (mut nodes, mut places, mut pool) = (vec![0; 87], vec![0; 9], vec![0; 9]);
    assert_eq!(read(title(5).as_bytes(), false, &mut nodes, &mut places, &mut pool).number, 0);
    assert_eq!(read(title(6).as_bytes(), false, &mut nodes, &mut places, &mut pool).number, 13);
    let many = nested(title(30_000));
    assert_eq!((many.number, many.nodes, many.pool), (13, 30_002, 30_000));
}

/// A document with a term at that level of brackets (an even one).
fn term_at(level: usize, term: &str) -> Vec<u8> {
    let pairs = (level - 4) / 2;
    let content = format!("{}{term}{}", "[list-ordered [item ".repeat(pairs), "]]".repeat(pairs));
    in_paragraph(&content).0.into_bytes()
}

#[test]
fn b24_canonical_nesting() {
    let plain = read_amply(&term_at(64, "[term x]"), false);
    assert_eq!(plain.answer.number, 0);
    printed(&plain);
    assert_eq!(nested(term_at(64, "[term [type t] x]")).number, 6);
    let typed = read_amply(&term_at(62, "[term [type t] x]"), false);
    printed(&typed);
    // The same term with a type, one pair of list and item deeper, as a table.
    let mut deep = plain;
    let term = deep.nodes.len() / RECORD_LENGTH - 2;
    assert_eq!(deep.nodes[term * RECORD_LENGTH + KIND], 10);
    deep.nodes[term * RECORD_LENGTH + TYPE_OFFSET] = 2;
    deep.nodes[term * RECORD_LENGTH + TYPE_LENGTH] = 1;
    deep.nodes[(term + 1) * RECORD_LENGTH + TEXT_OFFSET] = 3;
    deep.pool.push(b't');
    assert_eq!(print(&deep.nodes, deep.answer.nodes, &deep.pool, 4, &mut [0; 4_096]).number, 20);
}

#[test]
fn b25_and_b26_tables() {
    let read = read_amply(b"[document [title A] [section [title B] [id x]]]", false);
    let number = |nodes: &[u32], count: u32, pool: &[u8]| print(nodes, count, pool, 3, &mut [0; 99]).number;
    let count = read.answer.nodes;
    assert_eq!(number(&read.nodes, count, &read.pool), 0);
    assert_eq!(number(&read.nodes, 0, &read.pool), 20);
    let (mut longer, mut pool) = (read.nodes.clone(), read.pool.clone());
    longer.push(9);
    pool.push(0xFF);
    assert_eq!(number(&longer, count, &pool), 0);
    let mut offset = read.nodes.clone();
    offset[5] = 5;
    assert_eq!(number(&offset, count, &read.pool), 20);
}

#[test]
fn b28_any_scalar_value() {
    let text = "[document [title \"\0\u{fffe}\u{10ffff}\\uFFFF\"]]";
    let read = read_amply(text.as_bytes(), false);
    assert_eq!(read.pool, "\0\u{fffe}\u{10ffff}\u{ffff}".as_bytes());
    assert_eq!(printed(&read), "[document [title \"\\u0000\u{fffe}\u{10ffff}\u{ffff}\"]]".as_bytes());
}

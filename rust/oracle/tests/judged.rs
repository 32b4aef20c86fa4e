//! The judged examples of document 01, and those "also run".

mod common;

use common::{at, imperative, listing, nested, read_amply};
use oracle::names::MISSING;
use oracle::{print, read, Printed};

#[test]
fn starred_examples() {
    assert_eq!(at(nested("")), (7, 0));
    assert_eq!(at(nested("[document]")), (9, 0));
    assert_eq!(at(nested("[document [title A)]")), (5, 18));
    assert_eq!(at(nested("[document [title \"\"]]")), (4, 17));
    assert_eq!(at(nested("[document [title A] [paragraph]]")), (8, 20));
    assert_eq!(at(nested("[document [title A] [section [title B] [footnote [type t] [id f]]]]")), (9, 39));
    assert_eq!(at(nested("[document [title A] [section [title B] [paragraph] [subsection [title C]]]]")), (11, 51));
    assert_eq!(at(nested("[document [title A] [id x] [section [title B] [id x]]]")), (16, 27));
    assert_eq!(at(imperative("[document [title A]] hi")), (8, 21));
}

#[test]
fn starred_examples_with_tables() {
    let quoted = read_amply(b"[document [title \"A\"]]", false);
    assert_eq!((quoted.answer.number, quoted.answer.nodes, quoted.answer.pool), (0, 3, 1));
    assert_eq!((quoted.answer.place, quoted.answer.line, quoted.answer.column), (0, 1, 1));
    let symbols = read_amply(b"(document (title A))", false);
    assert_eq!((&quoted.nodes, &quoted.pool), (&symbols.nodes, &symbols.pool));
    assert_eq!(quoted.places, [0, 10, 17]);
    let mut words = vec![1, MISSING, 3, 0, 0, 0, 0, 0, 0, MISSING, MISSING];
    words.extend([8, 0, 3, 0, 0, 0, 0, 0, 0, MISSING, MISSING]);
    words.extend([9, 1, 3, 0, 0, 0, 0, 0, 1, MISSING, MISSING]);
    assert_eq!(quoted.nodes, words);

    let untitled = nested("[document [title]]");
    assert_eq!((untitled.number, untitled.nodes, untitled.pool), (0, 2, 0));
    let loose = nested("[document [title A] [section [title B] [paragraph [link [target x]]]]]");
    assert_eq!((loose.number, loose.place, loose.nodes, loose.pool), (17, 50, 8, 3));
}

#[test]
fn lengths() {
    let padded = |length: usize| {
        let mut text = b"[document [title A]]".to_vec();
        text.resize(length, b'\n');
        text
    };
    assert_eq!(nested(padded(65_536)).number, 0);
    let over = nested(padded(65_537));
    assert_eq!((over.number, over.place, over.line, over.column), (1, 65_536, 65_517, 1));
    assert_eq!(at(nested([0xFF; 65_537])), (1, 65_536));
}

/// A document whose brackets nest that deep: three blocks, then lists and items, then a term if needed.
fn levels(count: usize, imperative: bool) -> String {
    let blocks = if imperative { 0 } else { 3 };
    let mut inner = String::new();
    for level in (blocks..count).rev() {
        inner = match (level - blocks) % 2 {
            _ if level + 1 == count && (level - blocks) % 2 == 0 => "[term]".into(),
            0 => format!("[list-ordered {inner}]"),
            _ => format!("[item {inner}]"),
        };
    }
    match imperative {
        true => format!("[document [title A]] [section [title B]] [paragraph] {inner}"),
        false => format!("[document [title A] [section [title B] [paragraph {inner}]]]"),
    }
}

#[test]
fn levels_of_brackets() {
    assert_eq!(nested(levels(64, false)).number, 0);
    assert_eq!(imperative(levels(59, true)).number, 0);
    let (deep, run) = (levels(65, false), levels(60, true));
    let place = |text: &str, level: usize| text.match_indices('[').nth(level).unwrap().0 as u32;
    // The brackets of the titles come before the deep ones.
    assert_eq!(at(nested(&deep)), (6, place(&deep, 64 + 2)));
    assert_eq!(at(imperative(&run)), (6, place(&run, 59 + 5)));
}

#[test]
fn rows() {
    let table = |head: &str, rows: &str| common::paragraph(&format!("[table [summary] {head} [body {rows}]]"));
    assert_eq!(table("[head [name] [name]]", "[row [cell]]"), (15, 44));
    assert_eq!(table("", "[row [cell]] [row [cell] [cell]]").0, 0);
    assert_eq!(table("[head [name] [name]]", "[row [cell] [cell]]").0, 0);
    assert_eq!(table("[head]", "[row [cell]]").0, 15);
    assert_eq!(table("[head]", "[row]").0, 0);
}

#[test]
fn backslashes() {
    let read = read_amply(br#"[document [title "\u005c"]]"#, false);
    assert_eq!((read.answer.number, read.pool), (0, b"\\".to_vec()));
    assert_eq!(at(nested(r#"[document [title "\\"]]"#)), (4, 18));
}

#[test]
fn listing_of_the_paper() {
    let text = b"[document [title A]] [section [title B]] [paragraph] hi";
    let wanted = "nodes 8 pool 4\n0 1 - 8\n1 8 0 3\n2 9 1 3\n3 3 0 8\n4 8 3 6\n5 9 4 6\n6 5 3 8\n7 9 6 8\n";
    assert_eq!(listing(text, true), wanted);
    assert_eq!(listing(b"", false), "refused 7 1:1\n");
    assert_eq!(listing(&[b' '; 32_769], false), "too long\n");
}

#[test]
fn pool_order_is_that_of_the_nodes() {
    let text = b"[document [title tt] [type ty] [id ii] [section [title ss] [footnote [id ff] [type fy] xx]]]";
    let read = read_amply(text, false);
    assert_eq!(read.pool, b"iityttssfffyxx");
    let table = b"[document [title] [section [title] [paragraph [table [summary s] [type t] [head [name n]] [body]]]]]";
    assert_eq!(read_amply(table, false).pool, b"tsn");
}

#[test]
fn room_and_counts() {
    let text = b"[document [title ab] [id xyz]]";
    let run = |words: usize, places: usize, pool: usize| {
        let (mut nodes, mut place, mut bytes) = (vec![7; words], vec![7; places], vec![7; pool]);
        let answer = read(text, false, &mut nodes, &mut place, &mut bytes);
        assert_eq!((answer.nodes, answer.pool), (3, 5));
        assert_eq!((answer.place, answer.line, answer.column), (0, 1, 1));
        let untouched = nodes.iter().chain(&place).all(|&word| word == 7) && bytes.iter().all(|&byte| byte == 7);
        assert_eq!(untouched, answer.number != 0);
        answer.number
    };
    assert_eq!(run(33, 3, 5), 0);
    assert_eq!(run(32, 3, 5), 13);
    assert_eq!(run(33, 2, 5), 13);
    assert_eq!(run(33, 3, 4), 14);
    assert_eq!(run(32, 3, 4), 13);
    assert_eq!(run(0, 0, 0), 13);
}

#[test]
fn canonical_spelling() {
    let content = r#"[image(size 007 65535)]"#;
    assert_eq!(common::paragraph(content), (9, 0));
    let text = "(document(type t)(title x))";
    assert_eq!(at(nested(text)), (9, 0));
    let text = concat!(
        "(document(title a\"\\u005C\\n\u{7f}\u{e9}\\u0000/\")(type t)(id\"i\")(section(title)(footnote(id f))",
        "(paragraph(type p)(image(target\"\\\"\\u005c\")(size 007 0)(type y)cap)(footnote-ref(target f))",
        "(link(target i))(table(summary s)(type t)(head(name))(body(row(cell))))(verbatim(type v)x))))"
    );
    let read = read_amply(text.as_bytes(), false);
    assert_eq!(read.answer.number, 0);
    let wanted = concat!(
        "[document [title \"a\" \"\\u005c\\n\\u007f\u{e9}\\u0000/\"] [id i] [type t] [section [title] [footnote [id f]] ",
        "[paragraph [type p] [image [target \"\\\"\\u005c\"] [size 7 0] [type y] \"cap\"] [footnote-ref [target \"f\"]] ",
        "[link [target \"i\"]] [table [summary \"s\"] [type t] [head [name]] [body [row [cell]]]] [verbatim [type v] \"x\"]]]]"
    );
    assert_eq!(String::from_utf8(common::printed(&read)).unwrap(), wanted);
}

#[test]
fn printing_answers() {
    let read = read_amply(b"[document [title A]]", false);
    let wanted = b"[document [title \"A\"]]";
    let mut out = [7; 30];
    let length = wanted.len();
    let mut run = |words: &[u32], nodes, pool: &[u8], count, lent: usize| {
        out = [7; 30];
        let answer = print(words, nodes, pool, count, &mut out[..lent]);
        let kept = if answer.number == 0 { answer.length as usize } else { 0 };
        assert!(out[kept..].iter().all(|&byte| byte == 7));
        assert!(kept == 0 || out[..kept] == *wanted);
        answer
    };
    let answer = |number, length: usize| Printed { number, length: length as u32 };
    assert_eq!(run(&read.nodes, 3, &read.pool, 1, 30), answer(0, length));
    assert_eq!(run(&read.nodes, 3, &read.pool, 1, length), answer(0, length));
    assert_eq!(run(&read.nodes, 3, &read.pool, 1, length - 1), answer(21, length));
    assert_eq!(run(&read.nodes, 3, &read.pool, 1, 0), answer(21, length));
    for (nodes, pool) in [(0, 1), (2, 1), (4, 1), (3, 0), (3, 2), (MISSING, 1), (3, MISSING)] {
        assert_eq!(run(&read.nodes, nodes, &read.pool, pool, 30), answer(20, 0));
    }
}

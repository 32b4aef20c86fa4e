//! Judged texts with their whole answers: those of the pair, reading and the check of what it left.
//!
//! | test | cases |
//! |---|---|
//! | [`stored_cases`] | the 55 of `judged.txt`: answer, node words, places and pool, worked out by hand |
//! | [`examples_of_the_definitions`] | the texts of the definitions, whose answers are proved |
//! | [`lengths`], [`levels`], [`counts`] | the limits |
//!
//! 12 more cases, with texts that are too long to be written out, are in `judged_built.rs`.

mod common;

use common::written::{answer, judge, list, rows};
use common::{string, Room};
use structural::lent::Answer;
use structural::{number, read, Spelling};

fn spelling(name: &str) -> Spelling {
    match name {
        "nested" => Spelling::Nested,
        "imperative" => Spelling::Imperative,
        _ => panic!("{name} is no spelling"),
    }
}

/// Of seven lines: spelling and name; text; answer and room; node words; places; pool; nothing.
fn stored_case(lines: &[&str]) {
    let [name, text, wanted, nodes, places, pool, ""] = lines else { panic!("{lines:?}") };
    let spelling = spelling(name.split(' ').next().unwrap());
    judge(name, text.as_bytes(), spelling, wanted, (&rows(nodes), &list(places), pool.as_bytes()));
}

#[test]
fn stored_cases() {
    let lines: Vec<&str> = include_str!("judged.txt").split_terminator('\n').collect();
    let cases = lines.chunks(7);
    assert_eq!(cases.len(), 55);
    cases.for_each(stored_case);
}

/// A text, its spelling and answer, written `example nested "text" 0 0 1 1 3 1`.
fn definition(line: &str) -> Option<(Spelling, String, Answer)> {
    let (_, example) = line.split_once("example ")?;
    let (name, rest) = example.split_once(" \"")?;
    let (text, rest) = unquoted(rest);
    let words: Vec<u32> = rest.trim_end_matches(')').split_whitespace().map(|word| word.parse().unwrap()).collect();
    Some((spelling(name), text, answer(&words)))
}

/// The text up to the quote that ends it, and what follows.
fn unquoted(quoted: &str) -> (String, &str) {
    let mut text = String::new();
    let mut rest = quoted.chars();
    loop {
        match rest.next().unwrap() {
            '"' => return (text, rest.as_str()),
            '\\' => text.push(escaped(&mut rest)),
            character => text.push(character),
        }
    }
}

fn escaped(rest: &mut std::str::Chars) -> char {
    match rest.next().unwrap() {
        'n' => '\n',
        'r' => '\r',
        't' => '\t',
        'u' => {
            let digits: String = rest.by_ref().take_while(|&digit| digit != '}').skip(1).collect();
            char::from_u32(u32::from_str_radix(&digits, 16).unwrap()).unwrap()
        }
        character => character,
    }
}

#[test]
fn examples_of_the_definitions() {
    let file = string("crates/document/specs/examples/Judged.antt");
    let (full, short) = file.split_once("pub record Lent").unwrap();
    let further = string("crates/examples/specs/Faults.antt");
    let lines = full.lines().chain(further.lines());
    let examples: Vec<_> = lines.filter(|line| !line.trim_start().starts_with("--")).filter_map(definition).collect();
    assert!(examples.len() > 100, "{}", examples.len());
    for (spelling, text, wanted) in examples {
        let mut room = Room::new(704, 64, 64);
        assert_eq!(room.pair(text.as_bytes(), spelling), wanted, "{text}");
        judged_alike(&text, spelling, wanted);
        read_alone(&text, spelling, wanted);
    }
    let lent: Vec<_> = short.lines().filter_map(room_and_example).collect();
    assert!(lent.len() > 5);
    for (mut room, (spelling, text, wanted)) in lent {
        assert_eq!(room.pair(text.as_bytes(), spelling), wanted, "{text}");
    }
}

/// Reading alone answers the same, but 0 at place 0 for a fault 15 to 18, with the same counts.
fn read_alone(text: &str, spelling: Spelling, wanted: Answer) {
    let answer = Room::new(704, 64, 64).read(text.as_bytes(), spelling);
    match wanted.number {
        15..=18 => assert_eq!(answer, Answer { number: 0, place: 0, line: 1, column: 1, ..wanted }, "{text}"),
        _ => assert_eq!(answer, wanted, "{text}"),
    }
}

/// Written `lent 33 3 1 (example ..)`.
fn room_and_example(line: &str) -> Option<(Room, (Spelling, String, Answer))> {
    let (lent, _) = line.split_once(" (example ")?;
    let (_, sizes) = lent.split_once("lent ")?;
    let sizes: Vec<usize> = sizes.split(' ').map(|size| size.parse().unwrap()).collect();
    Some((Room::new(sizes[0], sizes[1], sizes[2]), definition(line)?))
}

/// `read` answers the same of a text.
fn judged_alike(text: &str, spelling: Spelling, wanted: Answer) {
    match read(text, spelling) {
        Ok(document) => {
            assert_eq!(wanted.number, number::OK, "{text}");
            assert_eq!((document.count(), document.pool().len()), (wanted.nodes as usize, wanted.pool as usize));
            assert_eq!(read(document.print(), Spelling::Nested).as_ref(), Ok(&document));
        }
        Err(refusal) => {
            assert_eq!(refusal.answer(), wanted, "{text}");
            assert_eq!(refusal.table().is_some(), wanted.number >= 15 && wanted.number <= 18);
        }
    }
}

/// A title of one text that makes the whole as long as it is to be.
fn of_length(length: usize) -> String {
    let (start, end) = ("[document [title ", "]]");
    format!("{start}{}{end}", "a".repeat(length - start.len() - end.len()))
}

#[test]
fn lengths() {
    let document = read(of_length(65_536), Spelling::Nested).unwrap();
    assert_eq!((document.count(), document.pool().len()), (3, 65_536 - 19));
    let refusal = read(of_length(65_537), Spelling::Nested).unwrap_err();
    assert_eq!(refusal.to_string(), "1:65537: 1: the text has more than 65,536 bytes");
}

/// A document whose brackets nest that deep, in lists of lists.
fn of_levels(levels: usize, start: &str, open: usize) -> String {
    let lists = levels - open;
    let opened: String = (0..lists).map(|i| if i % 2 == 0 { "[list-ordered " } else { "[item " }).collect();
    format!("{start}{opened}{}", "]".repeat(levels))
}

#[test]
fn levels() {
    let start = "[document [title A] [section [title B] [paragraph ";
    assert!(read(of_levels(64, start, 3), Spelling::Nested).is_ok());
    assert_eq!(read(of_levels(65, start, 3), Spelling::Nested).unwrap_err().number(), number::TOO_DEEP);
    let start = "[document [title A]] [section [title B]] [paragraph] ";
    assert!(read(of_levels(59, start, 0), Spelling::Imperative).is_ok());
    assert_eq!(read(of_levels(60, start, 0), Spelling::Imperative).unwrap_err().number(), number::TOO_DEEP);
}

#[test]
fn counts() {
    let of_nodes = |nodes: usize| format!("[document [title{}]]", " a".repeat(nodes - 2));
    let document = read(of_nodes(4_096), Spelling::Nested).unwrap();
    assert_eq!((document.count(), document.root().end()), (4_096, 4_096));
    let refusal = read(of_nodes(4_097), Spelling::Nested).unwrap_err();
    assert_eq!((refusal.number(), refusal.answer().nodes, refusal.answer().pool), (13, 4_097, 4_095));
    let refusal = read(of_nodes(30_002), Spelling::Nested).unwrap_err();
    assert_eq!((refusal.number(), refusal.answer().nodes), (13, 30_002));
}

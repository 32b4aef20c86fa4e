//! Damage: to bytes, for the numbers found by the scan, and to expressions, for those found by the walk.

use super::expression::Expression;
use super::rng::Random;
use super::strings::{id, nearly, text};
use crate::kind::{Kind, Naming, KINDS};

/// Bytes that matter to some rule.
const BYTES: &[u8] = b"()[]\"\\ \n\r\t\x00\x01\x0b\x1f\x7f\x80\xbf\xc0\xc2\xe0\xed\xef\xf0\xf4\xf8\xffaunrtxD8f09.-_";

/// Sequences that matter to some rule.
const SEQUENCES: &[&[u8]] = &[
    b"\r\n",
    b"\r\r\n",
    b"\"\"",
    b"\\\\",
    b"\\u",
    b"\\ud800",
    b"\\uDFFF",
    b"\\uD7ff",
    b"\\u12",
    b"\\U0000005c",
    b"\\/",
    b"\xc0\x80",
    b"\xe0\x9f\xbf",
    b"\xe0\xa0\x80",
    b"\xed\xa0\x80",
    b"\xed\x9f\xbf",
    b"\xf0\x8f\xbf\xbf",
    b"\xf0\x90\x80\x80",
    b"\xf4\x8f\xbf\xbf",
    b"\xf4\x90\x80\x80",
    b"\xc3",
    b"\xe2\x82",
    b"\xf0\x9f\x98",
    b"\xef\xbb\xbf",
    b"[id x]",
    b"(type t)",
    b"[title A]",
    b"(include \"x\")",
    b"[]",
    b"()",
    b"\"x\"",
    b"[text x]",
];

/// Changes, removes, inserts, cuts or duplicates bytes once.
pub fn damage_bytes(random: &mut Random, text: &mut Vec<u8>) {
    let at = random.below(text.len() + 1);
    let most = random.pick(&[2, 6, 60]);
    let end = (at + 1 + random.below(most)).min(text.len());
    match random.below(8) {
        0 if at < text.len() => text[at] = random.pick(BYTES),
        1 if at < text.len() => text[at] ^= 1 << random.below(8),
        2 => drop(text.drain(at..end)),
        3 => text.insert(at, random.pick(BYTES)),
        4 => drop(text.splice(at..at, random.pick(SEQUENCES).iter().copied())),
        5 => text.truncate(at),
        6 => {
            let copy = text[at..end].to_vec();
            let to = random.pick(&[end, text.len()]);
            text.splice(to..to, copy);
        }
        _ => swap_bracket(random, text),
    }
}

/// Puts another bracket, or none, where there is one.
fn swap_bracket(random: &mut Random, text: &mut Vec<u8>) {
    let is_bracket = |byte: &u8| b"()[]".contains(byte);
    let count = text.iter().filter(|byte| is_bracket(byte)).count();
    if count > 0 {
        let chosen = random.below(count);
        let (at, _) = text.iter().enumerate().filter(|(_, byte)| is_bracket(byte)).nth(chosen).unwrap();
        match random.chance(30) {
            true => drop(text.remove(at)),
            false => text[at] = random.pick(b"()[]"),
        }
    }
}

/// Removes, repeats, swaps, moves, adds or changes one expression somewhere, or misspells the name of a list.
pub fn damage_expressions(random: &mut Random, run: &mut Vec<Expression>) {
    if random.chance(15) {
        return add_include(random, run);
    }
    let lists = 1 + count_lists(run);
    let from = random.below(lists);
    let moved = random.chance(10).then(|| take_from(random, run, from)).flatten();
    let lists = 1 + count_lists(run);
    let chosen = random.below(lists);
    let list = find_list(run, chosen);
    match moved {
        Some(expression) => insert(random, list, expression),
        None => damage_list(random, list, chosen > 0),
    }
}

/// Puts an include into an element (no parameter that is a value), or between those of the run.
fn add_include(random: &mut Random, run: &mut Vec<Expression>) {
    let include = stray_include(random);
    let mut list = run;
    while let Some(at) = random_element(random, list) {
        let Expression::List { items, .. } = &mut list[at] else { unreachable!("an element is a list") };
        list = items;
    }
    insert(random, list, include);
}

/// Where one of the elements among the items is; or, now and then, none.
fn random_element(random: &mut Random, items: &[Expression]) -> Option<usize> {
    let is_element = |item: &Expression| matches!(item, Expression::List { is_node: true, .. });
    let elements: Vec<usize> = (0..items.len()).filter(|&at| is_element(&items[at])).collect();
    (!elements.is_empty() && random.chance(75)).then(|| random.pick(&elements))
}

fn take_from(random: &mut Random, run: &mut Vec<Expression>, chosen: usize) -> Option<Expression> {
    let list = find_list(run, chosen);
    (!list.is_empty()).then(|| list.remove(random.below(list.len())))
}

/// One change to the items of a list, or to the whole run, which has no name.
fn damage_list(random: &mut Random, list: &mut Vec<Expression>, named: bool) {
    if list.is_empty() || random.chance(40) {
        let expression = stray(random);
        return insert(random, list, expression);
    }
    let at = random.below(list.len());
    let other = random.below(list.len());
    match random.below(6) {
        0 => drop(list.remove(at)),
        1 => {
            let copy = list[at].clone();
            insert(random, list, copy);
        }
        2 => list.swap(at, other),
        3 if named => rename(random, &mut list[0]),
        4 => misspell(random, &mut list[at]),
        _ => list[at] = stray(random),
    }
}

fn insert(random: &mut Random, list: &mut Vec<Expression>, expression: Expression) {
    // At the end more often, where content stands.
    let at = if random.chance(30) { list.len() } else { random.below(list.len() + 1) };
    list.insert(at, expression);
}

/// An expression that is likely not to be allowed where it comes to stand.
fn stray(random: &mut Random) -> Expression {
    match random.below(12) {
        0..=3 => stray_include(random),
        4 => list(random, &["id", "x"]),
        5 => {
            let value = random.pick(&["t", "\"t\"", "t-u", ""]);
            list(random, &["type", value])
        }
        6 => {
            let words = random.pick(&[&["text", "x"][..], &[], &["\"title\"", "A"], &["size", "1", "2"]]);
            list(random, words)
        }
        7 => Expression::symbol(&id(random)),
        8 => Expression::symbol(&format!("\"{}\"", id(random))),
        _ => element(random),
    }
}

fn stray_include(random: &mut Random) -> Expression {
    let lead = random.pick(&["include", "import", "include", "import", "Include", "\"include\""]);
    list(random, &[lead, "\"x\""])
}

fn list(random: &mut Random, words: &[&str]) -> Expression {
    let items = words.iter().map(|word| Expression::symbol(word)).collect();
    Expression::List { square: random.chance(50), items, is_node: false }
}

/// A small element of any kind, mostly with what it needs.
fn element(random: &mut Random) -> Expression {
    let kind = random.pick(&KINDS);
    let mut element = list(random, &[kind.name()]);
    if let Expression::List { items, .. } = &mut element {
        let need: &[&[&str]] = match kind.naming() {
            Naming::HasId => &[&["id", "y"]],
            Naming::HasTarget | Naming::HasUri => &[&["target", "y"]],
            _ if kind.has_title() => &[&["title", "T"]],
            _ if kind == Kind::Table => &[&["summary"], &["body"]],
            _ => &[],
        };
        if random.chance(80) {
            items.extend(need.iter().map(|words| list(random, words)));
        }
    }
    element
}

/// Another name for a list.
fn rename(random: &mut Random, lead: &mut Expression) {
    if random.chance(30) {
        return misspell(random, lead);
    }
    let names = ["id", "type", "target", "size", "include", "import", "text"];
    *lead = match random.chance(30) {
        true => Expression::symbol(random.pick(&names)),
        false => Expression::symbol(random.pick(&KINDS).name()),
    };
}

/// A symbol or string that is nearly the same, or anything else; a list gets its name misspelled.
fn misspell(random: &mut Random, expression: &mut Expression) {
    match expression {
        Expression::Atom { spelled, .. } => {
            *spelled = match std::str::from_utf8(spelled) {
                Ok(name) if random.chance(70) => nearly(random, name).into_bytes(),
                _ => text(random).into_bytes(),
            }
        }
        Expression::List { items, .. } if !items.is_empty() => misspell(random, &mut items[0]),
        Expression::List { square, .. } => *square = !*square,
    }
}

fn count_lists(run: &[Expression]) -> usize {
    let count = |expression: &Expression| match expression {
        Expression::List { items, .. } => 1 + count_lists(items),
        Expression::Atom { .. } => 0,
    };
    run.iter().map(count).sum()
}

/// The items of the list of that number in text order; number 0 is the run itself.
fn find_list(run: &mut Vec<Expression>, chosen: usize) -> &mut Vec<Expression> {
    if chosen == 0 {
        return run;
    }
    let mut before = 1;
    for expression in run {
        if let Expression::List { items, .. } = expression {
            let count = 1 + count_lists(items);
            if chosen < before + count {
                return find_list(items, chosen - before);
            }
            before += count;
        }
    }
    unreachable!("there are as many lists as were counted")
}

//! Printing and checking against another way to the same answer: a table is that of a document within the limits just
//! if the text spelled from it, by the plainest printer there is, reads back as the very same words and bytes.

mod common;

use common::plain::plain_check;
use common::{cases, read_alone};
use oracle::names::{
    END, HEIGHT, KEY_OFFSET, KIND, MISSING, MOST_BYTES, RECORD_LENGTH, TEXT_OFFSET, TYPE_OFFSET, WIDTH,
};
use oracle::random::{Element, PrintCase, TableCase};
use oracle::{Checked, Kind};

/// The tree that kinds, ends and strings speak of, if they speak of one.
fn rebuild(nodes: &[u32], pool: &[u8], node: usize) -> Option<Element> {
    let record = &nodes[node * RECORD_LENGTH..][..RECORD_LENGTH];
    let string = |at: usize| {
        let bytes = match record[at + 1] as usize {
            0 => &[],
            length => pool.get(record[at] as usize..)?.get(..length)?,
        };
        String::from_utf8(bytes.to_vec()).ok()
    };
    let mut element = Element::new(Kind::from_number(record[KIND])?);
    (element.name, element.class, element.text) = (string(KEY_OFFSET)?, string(TYPE_OFFSET)?, string(TEXT_OFFSET)?);
    if (record[WIDTH], record[HEIGHT]) != (MISSING, MISSING) {
        element.size = Some((record[WIDTH].try_into().ok()?, record[HEIGHT].try_into().ok()?));
    }
    let (mut child, end) = (node + 1, record[END] as usize);
    while child < end {
        let next = *nodes.get(child * RECORD_LENGTH + END)? as usize;
        if next <= child || next > end {
            return None;
        }
        element.children.push(rebuild(nodes, pool, child)?);
        child = next;
    }
    Some(element)
}

fn quoted(value: &str) -> String {
    let character = |character: char| match character {
        '"' => "\\\"".into(),
        '\n' => "\\n".into(),
        '\r' => "\\r".into(),
        '\t' => "\\t".into(),
        '\\' | '\0'..='\u{1f}' | '\u{7f}' => format!("\\u{:04x}", character as u32),
        _ => character.to_string(),
    };
    format!("\"{}\"", value.chars().map(character).collect::<String>())
}

fn spelled(element: &Element) -> String {
    if element.kind == Kind::Text {
        return quoted(&element.text);
    }
    let mut pieces = vec![element.kind.name().to_string()];
    let mut children: Vec<String> = element.children.iter().map(spelled).collect();
    let titled = matches!(element.kind.number(), 1 | 2 | 3 | 4 | 6 | 19);
    if titled && !children.is_empty() {
        pieces.push(children.remove(0));
    }
    match element.kind.number() {
        _ if element.name.is_empty() => {}
        1..=7 => pieces.push(format!("[id {}]", element.name)),
        _ => pieces.push(format!("[target {}]", quoted(&element.name))),
    }
    if let Some((width, height)) = element.size {
        pieces.push(format!("[size {width} {height}]"));
    }
    if !element.class.is_empty() {
        pieces.push(format!("[type {}]", element.class));
    }
    pieces.extend(children);
    format!("[{}]", pieces.join(" "))
}

/// The document and its canonical spelling, if the case has a table and its text is not too long to be read.
fn plain_print(case: &TableCase) -> Option<(Element, String)> {
    let nodes = case.nodes.get(..(case.node_count as usize).checked_mul(RECORD_LENGTH)?)?;
    let pool = case.pool.get(..case.pool_count as usize)?;
    if nodes.is_empty() {
        return None;
    }
    let document = rebuild(nodes, pool, 0)?;
    let text = spelled(&document);
    let read = read_alone(text.as_bytes(), false);
    (read.answer.number == 0 && read.nodes == nodes && read.pool == pool).then_some((document, text))
}

#[test]
fn printer_and_check_answer_as_the_plain_way_does() {
    let (mut fine, mut faulty, mut refused) = (0, 0, 0);
    for seed in 0..cases() {
        let case = PrintCase { out: 1 << 20, ..PrintCase::new(seed) };
        let (outcome, checked) = (case.run(), case.table.check());
        let out = &outcome.out[..outcome.printed.length as usize];
        if out.len() > MOST_BYTES {
            continue;
        }
        match plain_print(&case.table) {
            Some((document, text)) => {
                assert_eq!((outcome.printed.number, out), (0, text.as_bytes()), "seed {seed}");
                assert_eq!(checked, plain_check(&document), "seed {seed}");
                fine += u64::from(checked.number == 0);
                faulty += u64::from(checked.number != 0);
            }
            None => {
                assert_eq!((outcome.printed.number, out), (20, &[][..]), "seed {seed}");
                assert_eq!(checked, Checked { number: 20, node: 0 }, "seed {seed}");
                refused += 1;
            }
        }
    }
    let enough = [fine, faulty, refused].into_iter().all(|count| count * 6 > cases());
    assert!(enough, "{fine} well-formed, {faulty} with a fault, {refused} refused");
}

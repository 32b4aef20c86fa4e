//! The two spellings of a manual. They differ in where brackets close, so both have the same length.

use crate::element::Element;
use crate::manual::Manual;
use structural::{Kind, Spelling};

/// A manual's text: each block on a line of its own, without indentation, so that nearly all bytes are content.
pub fn spell(manual: &Manual, spelling: Spelling) -> String {
    match spelling {
        Spelling::Nested => nested(manual),
        Spelling::Imperative => imperative(manual),
    }
}

/// Bytes of a block in either spelling, with the line end that parts it from the next.
pub fn length(block: &Element) -> usize {
    let mut out = String::new();
    command(block, &mut out);
    content(block, '\n', &mut out);
    out.len() + 1
}

fn imperative(manual: &Manual) -> String {
    let mut out = String::new();
    for block in manual.blocks() {
        command(block, &mut out);
        content(block, '\n', &mut out);
        out.push('\n');
    }
    out
}

fn nested(manual: &Manual) -> String {
    let mut out = String::new();
    let mut open: Vec<u32> = Vec::new();
    for block in manual.blocks() {
        let significance = significance(block.kind);
        while open.last().is_some_and(|&last| last <= significance) {
            open.pop();
            out.push(']');
        }
        if !open.is_empty() {
            out.push('\n');
        }
        head(block, &mut out);
        content(block, ' ', &mut out);
        open.push(significance);
    }
    out.extend(open.iter().map(|_| ']'));
    out.push('\n');
    out
}

/// A block ends each open one of lesser or equal significance.
fn significance(kind: Kind) -> u32 {
    match kind {
        Kind::Document => 4,
        Kind::Part => 3,
        Kind::Section => 2,
        Kind::Subsection => 1,
        _ => 0,
    }
}

fn command(block: &Element, out: &mut String) {
    head(block, out);
    out.push(']');
}

/// The opening bracket, the name and the parameters.
fn head(element: &Element, out: &mut String) {
    out.push('[');
    out.push_str(element.kind.name());
    for child in &element.children[..element.leading()] {
        out.push(' ');
        inline(child, out);
    }
    let size = element.size.map(|(width, height)| format!("{width} {height}"));
    let id = element.id.as_deref();
    let target = element.target.as_deref();
    for (name, value) in [("id", id), ("target", target), ("size", size.as_deref()), ("type", element.class)] {
        if let Some(value) = value {
            *out += &format!(" [{name} {value}]");
        }
    }
}

fn content(element: &Element, between: char, out: &mut String) {
    for child in &element.children[element.leading()..] {
        out.push(between);
        inline(child, out);
    }
}

fn inline(element: &Element, out: &mut String) {
    if element.kind == Kind::Text {
        return string(&element.text, out);
    }
    head(element, out);
    content(element, ' ', out);
    out.push(']');
}

/// A text as an author writes it: a number as a symbol, all else quoted, with escapes for what cannot be seen.
fn string(text: &str, out: &mut String) {
    if text.bytes().all(|byte| byte.is_ascii_digit()) {
        return out.push_str(text);
    }
    out.push('"');
    for character in text.chars() {
        match character {
            '"' => out.push_str("\\\""),
            '\u{a0}' => out.push_str("\\u00a0"),
            _ => out.push(character),
        }
    }
    out.push('"');
}

/// The most brackets open at once, of a text that has none in a string.
#[cfg(test)]
pub fn levels(text: &str) -> usize {
    let open = text.bytes().scan(0, |open, byte| {
        *open = *open + usize::from(byte == b'[') - usize::from(byte == b']');
        Some(*open)
    });
    open.max().unwrap_or(0)
}

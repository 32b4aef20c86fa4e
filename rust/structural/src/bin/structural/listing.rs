//! `structural list`.

use structural::{Node, Table};

/// A line with both counts, and one a node: number, kind, parent (`-` at the root), end, the kind's name,
/// and what the node has of id or target, size, type and text.
pub fn lines(table: &Table) -> String {
    let head = format!("nodes {} pool {}\n", table.count(), table.pool().len());
    table.nodes().fold(head, |lines, node| lines + &line(node) + "\n")
}

fn line(node: Node) -> String {
    let parent = node.parent().map_or("-".to_string(), |parent| parent.number().to_string());
    let kind = node.kind();
    let mut line = format!("{} {} {parent} {} {kind}", node.number(), kind.number(), node.end());
    if let Some(id) = node.id() {
        line += &format!(" id {id}");
    }
    if let Some(target) = node.target() {
        line += &format!(" target {}", quoted(target));
    }
    if let Some(size) = node.size() {
        line += &format!(" size {} {}", size.width, size.height);
    }
    if let Some(name) = node.type_name() {
        line += &format!(" type {name}");
    }
    if let Some(text) = node.text() {
        line += &format!(" {}", quoted(text));
    }
    line
}

/// A string as the canonical spelling has it.
fn quoted(string: &str) -> String {
    format!("\"{}\"", string.chars().map(escaped).collect::<String>())
}

fn escaped(character: char) -> String {
    match character {
        '"' => "\\\"".to_string(),
        '\n' => "\\n".to_string(),
        '\r' => "\\r".to_string(),
        '\t' => "\\t".to_string(),
        '\\' | '\0'..='\x1F' | '\x7F' => format!("\\u{:04x}", u32::from(character)),
        _ => character.to_string(),
    }
}

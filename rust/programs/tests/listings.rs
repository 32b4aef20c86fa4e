//! The listing programs on documents: a header and one line a node.

mod common;

use common::{assert_same, bytes, full, letters, list_imperative, list_nested, padded};

/// Both programs list a document of either spelling, each from its own text.
fn listed(nested: &str, imperative: &str, lines: &str) {
    assert_same(&list_nested(nested), lines);
    assert_same(&list_imperative(imperative), lines);
}

#[test]
fn judged_example() {
    listed(
        "[document [title A] [section [title B] [paragraph hi]]]",
        "[document [title A]] [section [title B]] [paragraph] hi",
        "nodes 8 pool 4\n0 1 - 8\n1 8 0 3\n2 9 1 3\n3 3 0 8\n4 8 3 6\n5 9 4 6\n6 5 3 8\n7 9 6 8\n",
    );
}

/// The fewest nodes.
#[test]
fn smallest_document() {
    let text = "(document(title))";
    listed(text, text, "nodes 2 pool 0\n0 1 - 2\n1 8 0 2\n");
}

#[test]
fn as_many_nodes_as_there_is_room_for() {
    let text = letters(1_024);
    let texts: String = (2..1_024).map(|node| format!("{node} 9 1 {}\n", node + 1)).collect();
    listed(&text, &text, &format!("nodes 1024 pool 1022\n0 1 - 1024\n1 8 0 1024\n{texts}"));
}

#[test]
fn longest_text() {
    let text = padded(32_768);
    listed(&text, &text, "nodes 3 pool 1\n0 1 - 3\n1 8 0 3\n2 9 1 3\n");
}

#[test]
fn fullest_pool() {
    let text = full("a");
    listed(&text, &text, "nodes 3 pool 32750\n0 1 - 3\n1 8 0 3\n2 9 1 3\n");
}

/// A manual has one listing, whichever spelling it is read from.
#[test]
fn manual_in_both_spellings() {
    let lines = String::from_utf8(bytes("crates/list_nested/stdout")).unwrap();
    assert_same(&list_nested(bytes("examples/crew-manual.sd")), &lines);
    assert_same(&list_imperative(bytes("examples/crew-manual.sdi")), &lines);
}

/// A list or an item: lists stand at even levels of brackets, items at odd ones.
struct Element {
    level: usize,
    children: Vec<Element>,
}

impl Element {
    /// A run of elements without children.
    fn leaves(level: usize, count: usize) -> Vec<Element> {
        (0..count).map(|_| Element { level, children: Vec::new() }).collect()
    }

    fn kind_and_name(&self) -> (u32, &'static str) {
        match self.level % 2 {
            0 => (16, "list-ordered"),
            _ => (18, "item"),
        }
    }

    fn spelled(&self) -> String {
        let inside: String = self.children.iter().map(Element::spelled).collect();
        format!("[{}{inside}]", self.kind_and_name().1)
    }

    /// Adds the line of this node and those of the nodes in it, and answers its end.
    fn list(&self, number: usize, parent: usize, lines: &mut String) -> usize {
        let mut inside = String::new();
        let end = self.children.iter().fold(number + 1, |next, child| child.list(next, number, &mut inside));
        *lines += &format!("{number} {} {parent} {end}\n{inside}", self.kind_and_name().0);
        end
    }
}

/// Nodes 5 to 1,023 of a document whose brackets nest that deep, all of them in the paragraph that is node 4.
///
/// Nodes 5 to `levels - 2` each stand in the one before. The last of them holds two nodes in each other around leaves up
/// to 99, and node 100, which holds 101 with leaves up to 999, and 1,000 with leaves up to 1,023.
fn deep(levels: usize) -> Element {
    let last = levels - 2;
    let holding = |level, children| Element { level, children };
    let first = holding(levels - 2, vec![holding(levels - 1, Element::leaves(levels, 99 - (last + 2)))]);
    let second = holding(levels - 1, Element::leaves(levels, 999 - 101));
    let third = holding(levels - 1, Element::leaves(levels, 1_023 - 1_000));
    let children = vec![first, holding(levels - 2, vec![second, third])];
    (5..last).rev().fold(holding(last - 1, children), |inner, number| holding(number - 1, vec![inner]))
}

/// No listing is longer: besides the five nodes around the content all kinds have two digits; each parent has as many
/// digits as the number before its child's; and as many nodes as can be stand around nodes 9, 99 and 999, since an end
/// past one of these has a digit more. The document's id makes the pool's length a number of five digits.
fn longest(levels: usize) -> (String, String) {
    let content = deep(levels);
    let mut lines = "nodes 1024 pool 10000\n0 1 - 1024\n1 8 0 2\n2 3 0 1024\n3 8 2 4\n4 5 2 1024\n".to_string();
    assert_eq!(content.list(5, 4, &mut lines), 1_024);
    (content.spelled(), lines)
}

#[test]
fn longest_listings() {
    let start = format!("[document [title] [id {}]", "i".repeat(10_000));
    let (content, lines) = longest(64);
    assert_eq!(lines.len(), 15_252);
    assert_same(&list_nested(format!("{start} [section [title] [paragraph {content}]]]")), &lines);
    // Three blocks around 59 levels of brackets.
    let (content, lines) = longest(3 + 59);
    assert_eq!(lines.len(), 15_248);
    assert_same(&list_imperative(format!("{start}] [section [title]] [paragraph] {content}")), &lines);
}

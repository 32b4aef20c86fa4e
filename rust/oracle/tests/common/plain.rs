//! The check by the plainest way there is: over a tree, each fault looked for from the start.

use oracle::random::Element;
use oracle::{Checked, Kind};

/// Number 0 or 15 to 18 of a tree that keeps the rules, and the node.
pub fn plain_check(document: &Element) -> Checked {
    let mut nodes = vec![];
    document.visit(&mut |element| nodes.push(element.clone()));
    let blocks = || nodes.iter().filter(|node| node.kind.is_block() && !node.name.is_empty());
    let first = |bad: &dyn Fn(usize, &Element) -> bool| (0..nodes.len()).find(|&at| bad(at, &nodes[at]));
    let rows = bad_rows(document);
    let repeated = |at: usize, node: &Element| {
        let earlier = |other: &Element| other.kind.is_block() && other.name == node.name;
        node.kind.is_block() && !node.name.is_empty() && nodes[..at].iter().any(earlier)
    };
    let link = |_: usize, node: &Element| node.kind == Kind::Link && !blocks().any(|block| block.name == node.name);
    let footnote = |name: &str| blocks().any(|block| block.kind == Kind::Footnote && block.name == name);
    let reference = |_: usize, node: &Element| node.kind == Kind::FootnoteRef && !footnote(&node.name);
    let found = [(15, rows), (16, first(&repeated)), (17, first(&link)), (18, first(&reference))];
    let fault = found.into_iter().find_map(|(number, node)| Some(Checked { number, node: node? as u32 }));
    fault.unwrap_or(Checked { number: 0, node: 0 })
}

/// The first row that does not fit the head of its table.
fn bad_rows(document: &Element) -> Option<usize> {
    let (mut node, mut wanted, mut bad) = (0, vec![], vec![]);
    number_rows(document, &mut node, &mut wanted, &mut bad);
    bad.into_iter().min()
}

fn number_rows(element: &Element, node: &mut usize, wanted: &mut Vec<Option<usize>>, bad: &mut Vec<usize>) {
    if element.kind == Kind::Row && wanted.last().unwrap().is_some_and(|names| names != element.children.len()) {
        bad.push(*node);
    }
    *node += 1;
    if element.kind == Kind::Table {
        let head = element.children.iter().find(|child| child.kind == Kind::Head);
        wanted.push(head.map(|head| head.children.len()));
    }
    element.children.iter().for_each(|child| number_rows(child, node, wanted, bad));
    if element.kind == Kind::Table {
        wanted.pop();
    }
}

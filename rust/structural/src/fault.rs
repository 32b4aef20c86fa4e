use crate::{number, Kind, Node, Table};
use std::collections::{HashMap, HashSet};
use std::fmt;

/// A fault of rows, ids or links. Displayed as `number: what it means`.
///
/// Of several, the least is the one that [`crate::Draft::check`] answers: by number, and then by node.
#[derive(Clone, Copy, Debug, PartialEq, Eq, Hash, PartialOrd, Ord)]
pub struct Fault {
    /// One of [`number`], 15 to 18.
    pub number: u32,
    /// The number of the node that has it.
    pub node: usize,
}

impl Fault {
    /// What the number means, in words.
    pub fn meaning(self) -> &'static str {
        number::meaning(self.number)
    }
}

impl fmt::Display for Fault {
    fn fmt(&self, f: &mut fmt::Formatter<'_>) -> fmt::Result {
        write!(f, "{}: {}", self.number, self.meaning())
    }
}

impl std::error::Error for Fault {}

/// Every fault of a table, in the order of its nodes. There are two passes, since a link may name a later block.
pub(crate) fn every_fault(table: &Table) -> Vec<Fault> {
    let known = Known::of(table);
    let fault = |node: Node| known.fault(node).map(|number| Fault { number, node: node.number() });
    table.nodes().filter_map(fault).collect()
}

/// What a node is judged by.
#[derive(Default)]
struct Known<'a> {
    /// The first block that has an id, by its number.
    blocks: HashMap<&'a str, usize>,
    /// The ids of footnotes. One may be on an earlier block too.
    footnotes: HashSet<&'a str>,
    /// How many names the head of a table has, by the table's number.
    names: HashMap<usize, usize>,
}

impl<'a> Known<'a> {
    fn of(table: &'a Table) -> Known<'a> {
        let mut known = Known::default();
        for node in table.nodes() {
            known.learn(node);
        }
        known
    }

    fn learn(&mut self, node: Node<'a>) {
        if let Some(id) = node.id() {
            self.blocks.entry(id).or_insert(node.number());
            if node.kind() == Kind::Footnote {
                self.footnotes.insert(id);
            }
        }
        if let (Kind::Head, Some(table)) = (node.kind(), node.parent()) {
            self.names.insert(table.number(), node.children().count());
        }
    }

    /// The number of the node's fault.
    fn fault(&self, node: Node) -> Option<u32> {
        match node.kind() {
            Kind::Row => self.other_length(node).then_some(number::ROW_LENGTH),
            Kind::Link => self.is_unknown(node).then_some(number::UNKNOWN_TARGET),
            Kind::FootnoteRef => self.is_unknown_footnote(node).then_some(number::UNKNOWN_FOOTNOTE),
            _ => self.is_repeated(node).then_some(number::REPEATED_ID),
        }
    }

    /// Whether a row has another number of cells than the head of its table has names.
    fn other_length(&self, row: Node) -> bool {
        let table = row.parent().and_then(Node::parent);
        let names = table.and_then(|table| self.names.get(&table.number()));
        names.is_some_and(|&names| names != row.children().count())
    }

    fn is_repeated(&self, node: Node) -> bool {
        node.id().is_some_and(|id| self.blocks[id] < node.number())
    }

    fn is_unknown(&self, link: Node) -> bool {
        link.target().is_some_and(|target| !self.blocks.contains_key(target))
    }

    fn is_unknown_footnote(&self, reference: Node) -> bool {
        reference.target().is_some_and(|target| !self.footnotes.contains(target))
    }
}

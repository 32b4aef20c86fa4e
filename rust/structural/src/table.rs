use crate::lent::{NODE_WORDS, NONE};
use crate::position::positions;
use crate::{Kind, Position};
use std::fmt;
use std::iter::FusedIterator;
use std::ops::Range;

// Where a node's words stand in its record.
const KIND: usize = 0;
const PARENT: usize = 1;
const END: usize = 2;
const KEY: usize = 3;
const TYPE: usize = 5;
const TEXT: usize = 7;
const WIDTH: usize = 9;
const HEIGHT: usize = 10;

/// The nodes of a text, in document order, with the strings that they have.
///
/// A [`crate::Draft`] has a table, and so have a [`crate::Document`] and a [`crate::Refusal`] for rows, ids or links
/// (15 to 18). Two are equal where their nodes and strings are: where these stand in the text does not count.
#[derive(Clone)]
pub struct Table {
    words: Vec<u32>,
    places: Vec<u32>,
    /// Line and column of each place, since the text is not kept.
    positions: Vec<Position>,
    pool: String,
}

impl Table {
    /// Of what reading this text has filled.
    pub(crate) fn new(text: &[u8], words: Vec<u32>, places: Vec<u32>, pool: String) -> Table {
        // Nodes stand in the text in their own order.
        let positions = positions(text, &places);
        Table { words, places, positions, pool }
    }

    /// How many nodes there are.
    pub fn count(&self) -> usize {
        self.places.len()
    }

    /// The root, node 0.
    pub fn root(&self) -> Node<'_> {
        Node { table: self, number: 0 }
    }

    /// The node that has this number.
    pub fn node(&self, number: usize) -> Option<Node<'_>> {
        (number < self.count()).then_some(Node { table: self, number })
    }

    /// All nodes, in document order.
    pub fn nodes(&self) -> Nodes<'_> {
        Nodes { table: self, numbers: 0..self.count() }
    }

    /// The first block that has this id.
    pub fn block(&self, id: &str) -> Option<Node<'_>> {
        self.nodes().find(|node| node.id() == Some(id))
    }

    /// The node whose first byte is at this place of the text.
    pub fn node_at(&self, place: usize) -> Option<Node<'_>> {
        let place = u32::try_from(place).ok()?;
        // Nodes stand in the text in their own order.
        self.node(self.places.binary_search(&place).ok()?)
    }

    /// The words of all nodes, [`NODE_WORDS`] each.
    pub fn words(&self) -> &[u32] {
        &self.words
    }

    /// The offset in the text of each node's first byte.
    pub fn places(&self) -> &[u32] {
        &self.places
    }

    /// The strings of all nodes, one after the other.
    pub fn pool(&self) -> &str {
        &self.pool
    }
}

impl PartialEq for Table {
    fn eq(&self, other: &Table) -> bool {
        self.words == other.words && self.pool == other.pool
    }
}

impl Eq for Table {}

impl fmt::Debug for Table {
    fn fmt(&self, f: &mut fmt::Formatter<'_>) -> fmt::Result {
        f.debug_list().entries(self.nodes()).finish()
    }
}

/// Width and height of an image.
#[derive(Clone, Copy, Debug, PartialEq, Eq, Hash)]
pub struct Size {
    /// At most 65,535.
    pub width: u32,
    /// At most 65,535.
    pub height: u32,
}

/// A node of a table.
#[derive(Clone, Copy)]
pub struct Node<'a> {
    table: &'a Table,
    number: usize,
}

impl<'a> Node<'a> {
    fn word(self, index: usize) -> u32 {
        self.table.words[self.number * NODE_WORDS + index]
    }

    /// The string whose offset and length stand at `index`; none is empty.
    fn string(self, index: usize) -> Option<&'a str> {
        let offset = self.word(index) as usize;
        let length = self.word(index + 1) as usize;
        (length != 0).then(|| &self.table.pool[offset..offset + length])
    }

    /// The number, from 0 in document order.
    pub fn number(self) -> usize {
        self.number
    }

    /// The kind.
    pub fn kind(self) -> Kind {
        Kind::from_number(self.word(KIND)).expect("a table that was filled has kinds 1 to 25")
    }

    /// The parent; none at the root.
    pub fn parent(self) -> Option<Node<'a>> {
        match self.word(PARENT) {
            NONE => None,
            number => self.table.node(number as usize),
        }
    }

    /// One past the number of its last descendant.
    pub fn end(self) -> usize {
        self.word(END) as usize
    }

    /// The id, of a block alone.
    pub fn id(self) -> Option<&'a str> {
        self.string(KEY).filter(|_| self.kind().is_block())
    }

    /// The target, of an image, a link of either kind or a footnote reference.
    pub fn target(self) -> Option<&'a str> {
        self.string(KEY).filter(|_| !self.kind().is_block())
    }

    /// The type.
    pub fn type_name(self) -> Option<&'a str> {
        self.string(TYPE)
    }

    /// The text, of a text alone.
    pub fn text(self) -> Option<&'a str> {
        self.string(TEXT)
    }

    /// The size, of an image alone.
    pub fn size(self) -> Option<Size> {
        let size = Size { width: self.word(WIDTH), height: self.word(HEIGHT) };
        (size.width != NONE).then_some(size)
    }

    /// The offset in the text of its first byte.
    pub fn place(self) -> usize {
        self.table.places[self.number] as usize
    }

    /// Line and column of that place.
    pub fn position(self) -> Position {
        self.table.positions[self.number]
    }

    /// Of a row in a table with a head: how many cells the row has, and how many names the head.
    pub fn row_length(self) -> Option<(usize, usize)> {
        let table = self.parent().filter(|_| self.kind() == Kind::Row)?.parent()?;
        let head = table.children().find(|child| child.kind() == Kind::Head)?;
        Some((self.children().count(), head.children().count()))
    }

    /// Its children, in order.
    pub fn children(self) -> Children<'a> {
        Children { table: self.table, numbers: self.number + 1..self.end() }
    }

    /// All below it, in document order.
    pub fn descendants(self) -> Nodes<'a> {
        Nodes { table: self.table, numbers: self.number + 1..self.end() }
    }
}

impl PartialEq for Node<'_> {
    /// Whether both are the same node of the same table.
    fn eq(&self, other: &Self) -> bool {
        std::ptr::eq(self.table, other.table) && self.number == other.number
    }
}

impl Eq for Node<'_> {}

impl fmt::Debug for Node<'_> {
    fn fmt(&self, f: &mut fmt::Formatter<'_>) -> fmt::Result {
        let mut node = f.debug_struct("Node");
        node.field("number", &self.number).field("kind", &self.kind()).field("end", &self.end());
        for (name, value) in
            [("id", self.id()), ("target", self.target()), ("type", self.type_name()), ("text", self.text())]
        {
            if let Some(value) = value {
                node.field(name, &value);
            }
        }
        if let Some(size) = self.size() {
            node.field("size", &size);
        }
        node.finish()
    }
}

/// Nodes in document order.
#[derive(Clone, Debug)]
pub struct Nodes<'a> {
    table: &'a Table,
    numbers: Range<usize>,
}

impl<'a> Iterator for Nodes<'a> {
    type Item = Node<'a>;

    fn next(&mut self) -> Option<Node<'a>> {
        let number = self.numbers.next()?;
        Some(Node { table: self.table, number })
    }

    fn size_hint(&self) -> (usize, Option<usize>) {
        self.numbers.size_hint()
    }
}

impl DoubleEndedIterator for Nodes<'_> {
    fn next_back(&mut self) -> Option<Self::Item> {
        let number = self.numbers.next_back()?;
        Some(Node { table: self.table, number })
    }
}

impl ExactSizeIterator for Nodes<'_> {}

impl FusedIterator for Nodes<'_> {}

/// The children of a node, in order.
#[derive(Clone, Debug)]
pub struct Children<'a> {
    table: &'a Table,
    /// From the next child to the parent's end.
    numbers: Range<usize>,
}

impl<'a> Iterator for Children<'a> {
    type Item = Node<'a>;

    fn next(&mut self) -> Option<Node<'a>> {
        if self.numbers.is_empty() {
            return None;
        }
        let child = Node { table: self.table, number: self.numbers.start };
        self.numbers.start = child.end();
        Some(child)
    }
}

impl FusedIterator for Children<'_> {}

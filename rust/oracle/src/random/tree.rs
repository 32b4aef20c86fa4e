//! A document as a tree, and its table by the plainest way there is ("The table").

use crate::names::{END, HEIGHT, KEY_OFFSET, MISSING, RECORD_LENGTH, TEXT_OFFSET, TYPE_OFFSET, WIDTH};
use crate::table::bare_record;
use crate::Kind;

/// A node: its values, empty where missing, and its children in document order.
#[derive(Clone, Debug, PartialEq, Eq)]
pub struct Element {
    pub kind: Kind,
    /// Id or target.
    pub name: String,
    pub class: String,
    pub text: String,
    pub size: Option<(u16, u16)>,
    pub children: Vec<Element>,
}

impl Element {
    pub fn new(kind: Kind) -> Self {
        Element { kind, name: String::new(), class: String::new(), text: String::new(), size: None, children: vec![] }
    }

    pub fn holding(kind: Kind, children: Vec<Element>) -> Self {
        Element { children, ..Element::new(kind) }
    }

    pub fn of_text(text: String) -> Self {
        Element { text, ..Element::new(Kind::Text) }
    }

    /// The element and all below it, in document order.
    pub fn visit(&self, see: &mut impl FnMut(&Element)) {
        see(self);
        self.children.iter().for_each(|child| child.visit(see));
    }

    pub fn visit_mut(&mut self, see: &mut impl FnMut(&mut Element)) {
        see(self);
        self.children.iter_mut().for_each(|child| child.visit_mut(see));
    }

    pub fn count(&self) -> usize {
        1 + self.children.iter().map(Element::count).sum::<usize>()
    }

    pub fn table(&self) -> FlatTable {
        let mut table = FlatTable::default();
        table.add(self, MISSING);
        table
    }
}

/// Node words and pool with nothing past them.
#[derive(Clone, Debug, Default, PartialEq, Eq)]
pub struct FlatTable {
    pub nodes: Vec<u32>,
    pub pool: Vec<u8>,
}

impl FlatTable {
    pub fn count(&self) -> usize {
        self.nodes.len() / RECORD_LENGTH
    }

    fn add(&mut self, element: &Element, parent: u32) {
        let (start, node) = (self.nodes.len(), self.count() as u32);
        let mut record = bare_record(element.kind, parent, node);
        for (word, value) in [(KEY_OFFSET, &element.name), (TYPE_OFFSET, &element.class), (TEXT_OFFSET, &element.text)]
        {
            if !value.is_empty() {
                record[word] = self.pool.len() as u32;
                record[word + 1] = value.len() as u32;
                self.pool.extend(value.bytes());
            }
        }
        if let Some((width, height)) = element.size {
            (record[WIDTH], record[HEIGHT]) = (width.into(), height.into());
        }
        self.nodes.extend(record);
        element.children.iter().for_each(|child| self.add(child, node));
        self.nodes[start + END] = self.count() as u32;
    }
}

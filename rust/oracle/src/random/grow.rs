//! Random documents: trees that keep the rules, well-formed or with the faults 15 to 18 that are wanted.

use super::mend::mend;
use super::rng::Random;
use super::strings::{class, id, measure, text, uri};
use super::tree::Element;
use crate::Kind;

/// How large a document is to be about, and which of the faults 15 to 18 it may have.
#[derive(Clone, Copy, Debug, Default)]
pub struct Wanted {
    pub nodes: usize,
    pub bad_rows: bool,
    pub repeated_ids: bool,
    pub loose_links: bool,
    pub loose_references: bool,
}

/// A random document. With no fault wanted it is well-formed.
pub fn grow(random: &mut Random, wanted: Wanted) -> Element {
    let favourite = favourite(random, wanted);
    let mut grower = Grower { random, left: wanted.nodes as isize, level: 0, bad_rows: wanted.bad_rows, favourite };
    let mut document = grower.element(Kind::Document);
    mend(random, wanted, &mut document);
    document
}

struct Grower<'r> {
    random: &'r mut Random,
    /// Nodes still to grow.
    left: isize,
    level: usize,
    bad_rows: bool,
    /// A kind of inline element to grow more of.
    favourite: Kind,
}

/// The kind that the wanted faults are found at.
fn favourite(random: &mut Random, wanted: Wanted) -> Kind {
    let mut kinds = vec![];
    kinds.extend(wanted.bad_rows.then_some(Kind::Table));
    kinds.extend(wanted.loose_links.then_some(Kind::Link));
    kinds.extend(wanted.loose_references.then_some(Kind::FootnoteRef));
    if kinds.is_empty() {
        kinds.push(Kind::Text);
    }
    random.pick(&kinds)
}

/// Elements do not grow deeper than this by chance.
const LEVELS: usize = 20;

const INLINE: [Kind; 10] = [
    Kind::Text,
    Kind::Term,
    Kind::Image,
    Kind::Verbatim,
    Kind::Link,
    Kind::LinkExt,
    Kind::FootnoteRef,
    Kind::ListOrdered,
    Kind::ListUnordered,
    Kind::Table,
];

const LEAVES: [Kind; 3] = [Kind::Paragraph, Kind::FormalItem, Kind::Footnote];

impl Grower<'_> {
    fn element(&mut self, kind: Kind) -> Element {
        self.left -= 1;
        if kind == Kind::Text {
            return Element::of_text(text(self.random));
        }
        self.level += 1;
        let mut element = Element::new(kind);
        self.values(&mut element);
        element.children = self.children(kind);
        self.level -= 1;
        element
    }

    fn values(&mut self, element: &mut Element) {
        use Kind::*;
        let kind = element.kind;
        let named = matches!(kind, Footnote | Link | FootnoteRef) || (kind.is_block() && self.random.chance(50));
        if named {
            element.name = id(self.random);
        }
        if matches!(kind, Image | LinkExt) {
            element.name = uri(self.random);
        }
        if kind.may_have_type() && self.random.chance(30) {
            element.class = class(self.random);
        }
        if kind == Image && self.random.chance(50) {
            element.size = Some((measure(self.random), measure(self.random)));
        }
    }

    fn children(&mut self, kind: Kind) -> Vec<Element> {
        use Kind::*;
        match kind {
            Document => self.titled(&[&[Part], &[Section]]),
            Part => self.titled(&[&[Section]]),
            Section => self.titled(&[&[Subsection], &LEAVES, &LEAVES]),
            Subsection => self.titled(&[&LEAVES]),
            FormalItem => self.titled(&[&INLINE]),
            Paragraph | Footnote | Item => self.run(&INLINE),
            // The last of them is the table.
            Cell => self.run(&INLINE[..9]),
            Title | Term | Image | Summary | Name => self.run(&[Text]),
            Verbatim => vec![self.element(Text)],
            Link | LinkExt => self.run(&[Text, Image]),
            ListOrdered | ListUnordered => self.run(&[Item]),
            Table => self.table(),
            Text | FootnoteRef | Head | Body | Row => vec![],
        }
    }

    /// A title, then a run of one of the sorts.
    fn titled(&mut self, sorts: &[&[Kind]]) -> Vec<Element> {
        let mut children = vec![self.element(Kind::Title)];
        let sort = self.random.pick(sorts);
        children.extend(self.run(sort));
        children
    }

    /// A few elements of those kinds while there are nodes left to grow; more of those that hold others.
    fn run(&mut self, kinds: &[Kind]) -> Vec<Element> {
        let mut children = vec![];
        let least = usize::from(kinds[0] != Kind::Text && self.random.chance(90));
        for _ in 0..least + self.random.few(5) {
            if self.left <= 0 || self.level >= LEVELS {
                break;
            }
            let kind = self.kind(kinds);
            children.push(self.element(kind));
        }
        children
    }

    fn kind(&mut self, kinds: &[Kind]) -> Kind {
        match self.random.below(100) {
            0..=24 => kinds[0],
            25..=49 if kinds.contains(&self.favourite) => self.favourite,
            _ => self.random.pick(kinds),
        }
    }

    fn table(&mut self) -> Vec<Element> {
        let columns = self.random.few(3);
        let mut parts = vec![self.element(Kind::Summary)];
        if self.random.chance(60) {
            parts.push(self.row(Kind::Head, Kind::Name, columns));
        }
        let rows = (0..self.random.few(4)).map(|_| self.table_row(columns)).collect();
        parts.push(Element::holding(Kind::Body, rows));
        // A table without a head may have rows of any length.
        if parts.len() == 2 && self.random.chance(50) {
            let other = self.table_row(columns + 1);
            parts[1].children.push(other);
        }
        parts
    }

    fn table_row(&mut self, columns: usize) -> Element {
        let off = self.bad_rows && self.random.chance(25);
        let cells = match off {
            true if columns > 0 && self.random.chance(50) => columns - 1,
            true => columns + 1,
            false => columns,
        };
        self.row(Kind::Row, Kind::Cell, cells)
    }

    fn row(&mut self, kind: Kind, child: Kind, count: usize) -> Element {
        self.level += 1;
        let children = (0..count).map(|_| self.element(child)).collect();
        self.level -= 1;
        Element::holding(kind, children)
    }
}

/// The blocks around deep content, outermost first.
const CHAINS: [&[Kind]; 4] = [
    &[Kind::Document, Kind::Section, Kind::Paragraph],
    &[Kind::Document, Kind::Part, Kind::Section, Kind::Paragraph],
    &[Kind::Document, Kind::Section, Kind::Subsection, Kind::Paragraph],
    &[Kind::Document, Kind::Part, Kind::Section, Kind::Subsection, Kind::Paragraph],
];

/// A document whose deepest element has that level of brackets in the nested form (6 or more), its parameters not
/// counted: blocks, then pairs of list and item, then the element.
pub fn deep(random: &mut Random, levels: usize) -> Element {
    let mut chain = random.pick(&CHAINS);
    while (levels - 1 - chain.len()) % 2 == 1 {
        chain = random.pick(&CHAINS);
    }
    let mut inner = innermost(random);
    for _ in 0..(levels - 1 - chain.len()) / 2 {
        let list = random.pick(&[Kind::ListOrdered, Kind::ListUnordered]);
        inner = Element::holding(list, vec![Element::holding(Kind::Item, vec![inner])]);
    }
    chain.iter().rev().fold(inner, |inner, &kind| in_block(random, kind, inner))
}

fn in_block(random: &mut Random, kind: Kind, inner: Element) -> Element {
    let title = Element::holding(Kind::Title, vec![Element::of_text(text(random))]);
    match kind.has_title() {
        true => Element::holding(kind, vec![title, inner]),
        false => Element::holding(kind, vec![inner]),
    }
}

fn innermost(random: &mut Random) -> Element {
    let mut inner = Element::new(random.pick(&[Kind::Term, Kind::Term, Kind::Image, Kind::ListOrdered]));
    if inner.kind == Kind::Image {
        inner.name = uri(random);
    }
    if inner.kind == Kind::Term && random.chance(50) {
        inner.class = class(random);
    }
    inner
}

/// A document of exactly that many nodes (2 or more), all texts of its title but for the first two.
pub fn crowded(random: &mut Random, nodes: usize) -> Element {
    let letters = (2..nodes).map(|_| Element::of_text((random.pick(&["a", "b", "cd"])).into()));
    Element::holding(Kind::Document, vec![Element::holding(Kind::Title, letters.collect())])
}

/// Gives a document or section with content a child of the other sort (11), if there is one.
pub fn mix_sorts(random: &mut Random, document: &mut Element) {
    let titled = |kind| Element::holding(kind, vec![Element::new(Kind::Title)]);
    document.visit_mut(&mut |element| {
        let Some(first) = element.children.get(1).map(|child| child.kind) else { return };
        let other = match (element.kind, first) {
            (Kind::Document, Kind::Part) => titled(Kind::Section),
            (Kind::Document, _) => titled(Kind::Part),
            (Kind::Section, Kind::Subsection) => Element::new(Kind::Paragraph),
            (Kind::Section, _) => titled(Kind::Subsection),
            _ => return,
        };
        if random.chance(40) {
            let at = random.between(1, element.children.len());
            element.children.insert(at, other);
        }
    });
}

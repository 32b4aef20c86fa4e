//! The 25 kinds: names, significance, and what may stand in each ("Elements").

#[derive(Clone, Copy, PartialEq, Eq, Debug)]
#[repr(u8)]
pub enum Kind {
    Document = 1,
    Part,
    Section,
    Subsection,
    Paragraph,
    FormalItem,
    Footnote,
    Title,
    Text,
    Term,
    Image,
    Verbatim,
    Link,
    LinkExt,
    FootnoteRef,
    ListOrdered,
    ListUnordered,
    Item,
    Table,
    Summary,
    Head,
    Name,
    Body,
    Row,
    Cell,
}

use Kind::*;

/// All kinds, that of number n at n - 1.
pub const KINDS: [Kind; 25] = [
    Document,
    Part,
    Section,
    Subsection,
    Paragraph,
    FormalItem,
    Footnote,
    Title,
    Text,
    Term,
    Image,
    Verbatim,
    Link,
    LinkExt,
    FootnoteRef,
    ListOrdered,
    ListUnordered,
    Item,
    Table,
    Summary,
    Head,
    Name,
    Body,
    Row,
    Cell,
];

const NAMES: [&str; 25] = [
    "document",
    "part",
    "section",
    "subsection",
    "paragraph",
    "formal-item",
    "footnote",
    "title",
    "text",
    "term",
    "image",
    "verbatim",
    "link",
    "link-ext",
    "footnote-ref",
    "list-ordered",
    "list-unordered",
    "item",
    "table",
    "summary",
    "head",
    "name",
    "body",
    "row",
    "cell",
];

/// What the word for id or target holds in a node of some kind.
#[derive(Clone, Copy, PartialEq, Eq, Debug)]
pub enum Naming {
    Nothing,
    MayHaveId,
    HasId,
    HasTarget,
    HasUri,
}

impl Kind {
    /// The kind of that number, 1 to 25.
    pub fn from_number(number: u32) -> Option<Kind> {
        KINDS.get((number as usize).wrapping_sub(1)).copied()
    }

    pub const fn number(self) -> u32 {
        self as u32
    }

    pub const fn name(self) -> &'static str {
        NAMES[self as usize - 1]
    }

    /// Blocks are kinds 1 to 7.
    pub fn is_block(self) -> bool {
        self.number() <= Footnote.number()
    }

    /// Significance of a block ("Imperative").
    pub fn significance(self) -> u32 {
        5u32.saturating_sub(self.number())
    }

    /// Elements whose first parameter is a title.
    pub fn has_title(self) -> bool {
        matches!(self, Document | Part | Section | Subsection | FormalItem)
    }

    pub fn may_have_type(self) -> bool {
        self.is_block() || matches!(self, Term | Image | Verbatim | Table)
    }

    pub fn naming(self) -> Naming {
        match self {
            Document | Part | Section | Subsection | Paragraph | FormalItem => Naming::MayHaveId,
            Footnote => Naming::HasId,
            Link | FootnoteRef => Naming::HasTarget,
            Image | LinkExt => Naming::HasUri,
            _ => Naming::Nothing,
        }
    }

    /// May a child of that kind be content of this one? (Column "content" of the table of elements.)
    pub fn may_hold(self, child: Kind) -> bool {
        self.content() & bit(child) != 0
    }

    const fn content(self) -> u32 {
        match self {
            Document => bit(Part) | bit(Section),
            Part => bit(Section),
            Section => bit(Subsection) | LEAVES,
            Subsection => LEAVES,
            Paragraph | FormalItem | Footnote | Item => INLINE,
            Cell => INLINE & !bit(Table),
            Title | Term | Image | Verbatim | Summary | Name => bit(Text),
            Link | LinkExt => bit(Text) | bit(Image),
            ListOrdered | ListUnordered => bit(Item),
            Head => bit(Name),
            Body => bit(Row),
            Row => bit(Cell),
            Text | FootnoteRef | Table => 0,
        }
    }

    /// Are the two allowed children of this kind of different sorts? (11)
    pub fn sorts_apart(self, first: Kind, child: Kind) -> bool {
        match self {
            Document => first != child,
            Section => (first == Subsection) != (child == Subsection),
            _ => false,
        }
    }
}

const LEAVES: u32 = bit(Paragraph) | bit(FormalItem) | bit(Footnote);

/// Inline is text and kinds 10 to 17 and 19.
const INLINE: u32 = bit(Text)
    | bit(Term)
    | bit(Image)
    | bit(Verbatim)
    | bit(Link)
    | bit(LinkExt)
    | bit(FootnoteRef)
    | bit(ListOrdered)
    | bit(ListUnordered)
    | bit(Table);

const fn bit(kind: Kind) -> u32 {
    1 << kind as u32
}

#[cfg(test)]
mod tests {
    use super::*;

    #[test]
    fn significance_is_that_of_the_paper() {
        let found: Vec<u32> = KINDS[..7].iter().map(|kind| kind.significance()).collect();
        assert_eq!(found, [4, 3, 2, 1, 0, 0, 0]);
    }

    #[test]
    fn numbers_go_both_ways() {
        for number in 1..=25 {
            assert_eq!(Kind::from_number(number).unwrap().number(), number);
        }
        assert_eq!(Kind::from_number(0), None);
        assert_eq!(Kind::from_number(26), None);
        assert_eq!(Kind::from_number(u32::MAX), None);
    }
}

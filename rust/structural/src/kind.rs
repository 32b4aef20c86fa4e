use std::fmt;

macro_rules! kinds {
    ($($kind:ident = $number:literal $name:literal,)*) => {
        /// The kind of a node. A text is a symbol or a quoted string; every other kind is a list led by its name.
        #[derive(Clone, Copy, Debug, PartialEq, Eq, Hash, PartialOrd, Ord)]
        #[repr(u32)]
        pub enum Kind {
            $(#[doc = concat!("`", $name, "`, number ", $number)] $kind = $number,)*
        }

        impl Kind {
            /// All kinds, by number.
            pub const ALL: [Kind; 25] = [$(Kind::$kind,)*];

            /// The name, which leads the kind's list; of a text it is only what the kind is called.
            pub fn name(self) -> &'static str {
                match self {
                    $(Kind::$kind => $name,)*
                }
            }
        }
    };
}

kinds! {
    Document = 1 "document",
    Part = 2 "part",
    Section = 3 "section",
    Subsection = 4 "subsection",
    Paragraph = 5 "paragraph",
    FormalItem = 6 "formal-item",
    Footnote = 7 "footnote",
    Title = 8 "title",
    Text = 9 "text",
    Term = 10 "term",
    Image = 11 "image",
    Verbatim = 12 "verbatim",
    Link = 13 "link",
    LinkExt = 14 "link-ext",
    FootnoteRef = 15 "footnote-ref",
    ListOrdered = 16 "list-ordered",
    ListUnordered = 17 "list-unordered",
    Item = 18 "item",
    Table = 19 "table",
    Summary = 20 "summary",
    Head = 21 "head",
    Name = 22 "name",
    Body = 23 "body",
    Row = 24 "row",
    Cell = 25 "cell",
}

impl Kind {
    /// The number, 1 to 25.
    pub fn number(self) -> u32 {
        self as u32
    }

    /// The kind that has this number.
    pub fn from_number(number: u32) -> Option<Kind> {
        let index = usize::try_from(number.checked_sub(1)?).ok()?;
        Kind::ALL.get(index).copied()
    }

    /// Whether this is a block, kinds 1 to 7: the ones that may have an id.
    pub fn is_block(self) -> bool {
        self <= Kind::Footnote
    }
}

/// The name.
impl fmt::Display for Kind {
    fn fmt(&self, f: &mut fmt::Formatter<'_>) -> fmt::Result {
        f.pad(self.name())
    }
}

#[cfg(test)]
mod tests {
    use super::Kind;

    #[test]
    fn numbers_run_from_1_to_25() {
        for (index, kind) in Kind::ALL.into_iter().enumerate() {
            assert_eq!(kind.number() as usize, index + 1);
            assert_eq!(Kind::from_number(kind.number()), Some(kind));
        }
        assert_eq!(Kind::from_number(0), None);
        assert_eq!(Kind::from_number(26), None);
    }

    #[test]
    fn blocks_are_the_first_seven() {
        assert_eq!(Kind::ALL.into_iter().filter(|kind| kind.is_block()).count(), 7);
        assert!(Kind::Footnote.is_block() && !Kind::Title.is_block());
    }
}

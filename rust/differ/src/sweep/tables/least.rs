//! Elements of every kind with as little as they need, and documents around them.

use oracle::random::Element;
use oracle::Kind;

/// All kinds, by number.
pub fn kinds() -> impl Iterator<Item = Kind> {
    (1..=25).filter_map(Kind::from_number)
}

/// An element of a kind. A footnote's id goes by its place among its siblings, so that no two are alike; links and
/// references name a block of [`document`].
pub fn least(kind: Kind, place: usize) -> Element {
    let one = |kind| vec![Element::new(kind)];
    let mut element = match kind {
        Kind::Document | Kind::Part | Kind::Section | Kind::Subsection | Kind::FormalItem => {
            Element::holding(kind, one(Kind::Title))
        }
        Kind::Text => Element::of_text("x".into()),
        Kind::Verbatim => Element::holding(kind, vec![Element::of_text("v".into())]),
        Kind::Table => Element::holding(kind, [one(Kind::Summary), one(Kind::Body)].concat()),
        _ => Element::new(kind),
    };
    element.name = match kind {
        Kind::Footnote => format!("n{place}"),
        Kind::Link => "d".into(),
        Kind::FootnoteRef => "r".into(),
        Kind::Image | Kind::LinkExt => "u".into(),
        _ => String::new(),
    };
    element
}

/// A document that holds the element where one of its kind may stand. The document has the id `d`, unless it is the
/// element itself, and where there is a paragraph there is a footnote `r`.
pub fn document(element: Element) -> Element {
    match element.kind {
        Kind::Document => element,
        Kind::Title => Element { name: "d".into(), ..Element::holding(Kind::Document, vec![element]) },
        Kind::Part | Kind::Section => {
            let children = vec![Element::new(Kind::Title), element];
            Element { name: "d".into(), ..Element::holding(Kind::Document, children) }
        }
        _ => document(parent(element)),
    }
}

/// The nearest element around one that is below a section.
fn parent(element: Element) -> Element {
    let new = Element::new;
    match element.kind {
        Kind::Subsection => Element::holding(Kind::Section, vec![new(Kind::Title), element]),
        Kind::Paragraph | Kind::FormalItem | Kind::Footnote => {
            let footnote = Element { name: "r".into(), ..new(Kind::Footnote) };
            Element::holding(Kind::Section, vec![new(Kind::Title), footnote, element])
        }
        Kind::Item => Element::holding(Kind::ListOrdered, vec![element]),
        Kind::Summary => Element::holding(Kind::Table, vec![element, new(Kind::Body)]),
        Kind::Head => Element::holding(Kind::Table, vec![new(Kind::Summary), element, new(Kind::Body)]),
        Kind::Name => Element::holding(Kind::Head, vec![element]),
        Kind::Body => Element::holding(Kind::Table, vec![new(Kind::Summary), element]),
        Kind::Row => Element::holding(Kind::Body, vec![element]),
        Kind::Cell => Element::holding(Kind::Row, vec![element]),
        _ => Element::holding(Kind::Paragraph, vec![element]),
    }
}

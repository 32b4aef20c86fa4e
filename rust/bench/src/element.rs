//! An element of a manual before it is spelled.

use structural::Kind;

/// An element with its parameters. A title or a summary is the first child, as it is in the table.
#[derive(Clone)]
pub struct Element {
    pub kind: Kind,
    pub id: Option<String>,
    pub target: Option<String>,
    pub size: Option<(u32, u32)>,
    pub class: Option<&'static str>,
    pub text: String,
    pub children: Vec<Element>,
}

/// An element without parameters or content.
pub fn element(kind: Kind) -> Element {
    Element { kind, id: None, target: None, size: None, class: None, text: String::new(), children: Vec::new() }
}

/// A text, which is one node.
pub fn text(text: impl Into<String>) -> Element {
    Element { text: text.into(), ..element(Kind::Text) }
}

/// An element around one text: two nodes.
pub fn around(kind: Kind, content: impl Into<String>) -> Element {
    element(kind).with([text(content)])
}

/// A block that begins with a title.
pub fn titled(kind: Kind, title: impl Into<String>) -> Element {
    element(kind).with([around(Kind::Title, title)])
}

impl Element {
    pub fn id(self, id: impl Into<String>) -> Element {
        Element { id: Some(id.into()), ..self }
    }

    pub fn target(self, target: impl Into<String>) -> Element {
        Element { target: Some(target.into()), ..self }
    }

    pub fn size(self, width: u32, height: u32) -> Element {
        Element { size: Some((width, height)), ..self }
    }

    pub fn class(self, class: &'static str) -> Element {
        Element { class: Some(class), ..self }
    }

    pub fn with(mut self, children: impl IntoIterator<Item = Element>) -> Element {
        self.children.extend(children);
        self
    }

    /// How many children are parameters: the title of a block, the summary of a table.
    pub fn leading(&self) -> usize {
        let leads = |child: &Element| matches!(child.kind, Kind::Title | Kind::Summary);
        self.children.first().is_some_and(leads).into()
    }
}

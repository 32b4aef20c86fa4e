//! Elements of every kind around what is swept, and what may stand in each (document 01, "Elements").

use super::frame::Frame;

/// A kind, as the element that expressions are put into.
pub struct Parent {
    pub name: &'static str,
    /// `@` is all that its brackets hold after the name. In the imperative spelling a block is a command.
    pub frame: Frame,
    /// Every run of parameters that may begin it: its lawful orders, up to each parameter.
    pub parameters: &'static [&'static str],
    /// The parameters that it needs.
    pub needs: &'static str,
    /// The expressions that may be its content, one of each.
    pub content: &'static [&'static str],
}

const TITLED: &[&str] = &[
    "",
    "[title A]",
    "[title A] [id i]",
    "[title A] [type y]",
    "[title A] [id i] [type y]",
    "[title A] [type y] [id i]",
];
const PARAGRAPH: &[&str] = &["", "[id i]", "[type y]", "[id i] [type y]", "[type y] [id i]"];
const FOOTNOTE: &[&str] = &["", "[id i]", "[id i] [type y]"];
const TYPED: &[&str] = &["", "[type y]"];
const IMAGE: &[&str] =
    &["", "[target u]", "[target u] [size 1 2]", "[target u] [type y]", "[target u] [size 1 2] [type y]"];
const TARGET: &[&str] = &["", "[target u]"];
const TABLE: &[&str] = &[
    "",
    "[summary]",
    "[summary] [type y]",
    "[summary] [head]",
    "[summary] [type y] [head]",
    "[summary] [body]",
    "[summary] [type y] [body]",
    "[summary] [head] [body]",
    "[summary] [type y] [head] [body]",
];
const NONE: &[&str] = &[""];

const TEXT: &[&str] = &["x", "\"x\""];
const INLINE: &[&str] = &[
    "x",
    "\"x\"",
    "[term]",
    "[image [target u]]",
    "[verbatim v]",
    "[link [target u]]",
    "[link-ext [target u]]",
    "[footnote-ref [target f]]",
    "[list-ordered]",
    "[list-unordered]",
    "[table [summary] [body]]",
];
/// No table, which is the last of these.
const IN_CELL: &[&str] = INLINE.split_at(INLINE.len() - 1).0;
const LEAVES: &[&str] = &["[paragraph]", "[formal-item [title A]]", "[footnote [id k]]"];

/// Every kind but text, in the order of their numbers.
pub const PARENTS: [Parent; 24] = [
    Parent {
        name: "document",
        frame: ["[document @]"; 2],
        parameters: TITLED,
        needs: "[title A]",
        content: &["[part [title A]]", "[section [title A]]"],
    },
    Parent {
        name: "part",
        frame: ["[document [title A] [part @]]", "[document [title A]] [part @]"],
        parameters: TITLED,
        needs: "[title A]",
        content: &["[section [title A]]"],
    },
    Parent {
        name: "section",
        frame: ["[document [title A] [section @]]", "[document [title A]] [section @]"],
        parameters: TITLED,
        needs: "[title A]",
        content: &["[subsection [title A]]", "[paragraph]", "[formal-item [title A]]", "[footnote [id k]]"],
    },
    Parent {
        name: "subsection",
        frame: [
            "[document [title A] [section [title B] [subsection @]]]",
            "[document [title A]] [section [title B]] [subsection @]",
        ],
        parameters: TITLED,
        needs: "[title A]",
        content: LEAVES,
    },
    Parent {
        name: "paragraph",
        frame: [
            "[document [title A] [id u] [section [title B] [paragraph @]]]",
            "[document [title A] [id u]] [section [title B]] [paragraph @]",
        ],
        parameters: PARAGRAPH,
        needs: "",
        content: INLINE,
    },
    Parent {
        name: "formal-item",
        frame: [
            "[document [title A] [id u] [section [title B] [formal-item @]]]",
            "[document [title A] [id u]] [section [title B]] [formal-item @]",
        ],
        parameters: TITLED,
        needs: "[title A]",
        content: INLINE,
    },
    Parent {
        name: "footnote",
        frame: [
            "[document [title A] [id u] [section [title B] [footnote @]]]",
            "[document [title A] [id u]] [section [title B]] [footnote @]",
        ],
        parameters: FOOTNOTE,
        needs: "[id i]",
        content: INLINE,
    },
    Parent { name: "title", frame: ["[document [title @]]"; 2], parameters: NONE, needs: "", content: TEXT },
    Parent {
        name: "term",
        frame: [
            "[document [title A] [section [title B] [paragraph [term @]]]]",
            "[document [title A]] [section [title B]] [paragraph] [term @]",
        ],
        parameters: TYPED,
        needs: "",
        content: TEXT,
    },
    Parent {
        name: "image",
        frame: [
            "[document [title A] [section [title B] [paragraph [image @]]]]",
            "[document [title A]] [section [title B]] [paragraph] [image @]",
        ],
        parameters: IMAGE,
        needs: "[target u]",
        content: TEXT,
    },
    Parent {
        name: "verbatim",
        frame: [
            "[document [title A] [section [title B] [paragraph [verbatim @]]]]",
            "[document [title A]] [section [title B]] [paragraph] [verbatim @]",
        ],
        parameters: TYPED,
        needs: "",
        content: TEXT,
    },
    Parent {
        name: "link",
        frame: [
            "[document [title A] [id u] [section [title B] [paragraph [link @]]]]",
            "[document [title A] [id u]] [section [title B]] [paragraph] [link @]",
        ],
        parameters: TARGET,
        needs: "[target u]",
        content: &["x", "\"x\"", "[image [target u]]"],
    },
    Parent {
        name: "link-ext",
        frame: [
            "[document [title A] [section [title B] [paragraph [link-ext @]]]]",
            "[document [title A]] [section [title B]] [paragraph] [link-ext @]",
        ],
        parameters: TARGET,
        needs: "[target u]",
        content: &["x", "\"x\"", "[image [target u]]"],
    },
    Parent {
        name: "footnote-ref",
        frame: [
            "[document [title A] [section [title B] [footnote [id u]] [paragraph [footnote-ref @]]]]",
            "[document [title A]] [section [title B]] [footnote [id u]] [footnote-ref @]",
        ],
        parameters: TARGET,
        needs: "[target u]",
        content: &[],
    },
    Parent {
        name: "list-ordered",
        frame: [
            "[document [title A] [section [title B] [paragraph [list-ordered @]]]]",
            "[document [title A]] [section [title B]] [paragraph] [list-ordered @]",
        ],
        parameters: NONE,
        needs: "",
        content: &["[item]"],
    },
    Parent {
        name: "list-unordered",
        frame: [
            "[document [title A] [section [title B] [paragraph [list-unordered @]]]]",
            "[document [title A]] [section [title B]] [paragraph] [list-unordered @]",
        ],
        parameters: NONE,
        needs: "",
        content: &["[item]"],
    },
    Parent {
        name: "item",
        frame: [
            "[document [title A] [id u] [section [title B] [paragraph [list-ordered [item @]]]]]",
            "[document [title A] [id u]] [section [title B]] [paragraph] [list-ordered [item @]]",
        ],
        parameters: NONE,
        needs: "",
        content: INLINE,
    },
    Parent {
        name: "table",
        frame: [
            "[document [title A] [section [title B] [paragraph [table @]]]]",
            "[document [title A]] [section [title B]] [paragraph] [table @]",
        ],
        parameters: TABLE,
        needs: "[summary] [body]",
        content: &[],
    },
    Parent {
        name: "summary",
        frame: [
            "[document [title A] [section [title B] [paragraph [table [summary @] [body]]]]]",
            "[document [title A]] [section [title B]] [paragraph] [table [summary @] [body]]",
        ],
        parameters: NONE,
        needs: "",
        content: TEXT,
    },
    Parent {
        name: "head",
        frame: [
            "[document [title A] [section [title B] [paragraph [table [summary] [head @] [body]]]]]",
            "[document [title A]] [section [title B]] [paragraph] [table [summary] [head @] [body]]",
        ],
        parameters: NONE,
        needs: "",
        content: &["[name]"],
    },
    Parent {
        name: "name",
        frame: [
            "[document [title A] [section [title B] [paragraph [table [summary] [head [name @]] [body]]]]]",
            "[document [title A]] [section [title B]] [paragraph] [table [summary] [head [name @]] [body]]",
        ],
        parameters: NONE,
        needs: "",
        content: TEXT,
    },
    Parent {
        name: "body",
        frame: [
            "[document [title A] [section [title B] [paragraph [table [summary] [body @]]]]]",
            "[document [title A]] [section [title B]] [paragraph] [table [summary] [body @]]",
        ],
        parameters: NONE,
        needs: "",
        content: &["[row]"],
    },
    Parent {
        name: "row",
        frame: [
            "[document [title A] [section [title B] [paragraph [table [summary] [body [row @]]]]]]",
            "[document [title A]] [section [title B]] [paragraph] [table [summary] [body [row @]]]",
        ],
        parameters: NONE,
        needs: "",
        content: &["[cell]"],
    },
    Parent {
        name: "cell",
        frame: [
            "[document [title A] [id u] [section [title B] [paragraph [table [summary] [body [row [cell @]]]]]]]",
            "[document [title A] [id u]] [section [title B]] [paragraph] [table [summary] [body [row [cell @]]]]",
        ],
        parameters: NONE,
        needs: "",
        content: IN_CELL,
    },
];

//! Expressions that are put wherever one can stand.

/// One of every kind, with as little as it needs. A link's target is on the document of the frames.
pub const ELEMENTS: [&str; 24] = [
    "[document [title A]]",
    "[part [title A]]",
    "[section [title A]]",
    "[subsection [title A]]",
    "[paragraph]",
    "[formal-item [title A]]",
    "[footnote [id k]]",
    "[title]",
    "[term]",
    "[image [target u]]",
    "[verbatim v]",
    "[link [target u]]",
    "[link-ext [target u]]",
    "[footnote-ref [target f]]",
    "[list-ordered]",
    "[list-unordered]",
    "[item]",
    "[table [summary] [body]]",
    "[summary]",
    "[head]",
    "[name]",
    "[body]",
    "[row]",
    "[cell]",
];

/// One of every kind that lacks what it needs.
pub const LACKING: [&str; 12] = [
    "[document]",
    "[part]",
    "[section]",
    "[subsection]",
    "[formal-item]",
    "[footnote]",
    "[image]",
    "[verbatim]",
    "[link]",
    "[link-ext]",
    "[footnote-ref]",
    "[table]",
];

/// Texts, values, includes, and lists that name no kind.
pub const OTHERS: [&str; 16] = [
    "x",
    "\"x\"",
    "[id k]",
    "[type k]",
    "[target k]",
    "[size 1 2]",
    "[include x]",
    "(import \"x\")",
    "[text x]",
    "[unknown]",
    "[Title]",
    "[titles]",
    "[]",
    "()",
    "[\"title\"]",
    "[[title]]",
];

/// Values that are malformed.
pub const MALFORMED: [&str; 14] = [
    "[id]",
    "[id k k]",
    "[id [k]]",
    "[id \u{e9}]",
    "[type]",
    "[type k k]",
    "[type \"k\"]",
    "[type k-k]",
    "[target]",
    "[target k k]",
    "[size 1]",
    "[size 1 2 3]",
    "[size 1 x]",
    "[size \"1\" 2]",
];

/// How many there are of all sorts.
pub const COUNT: u64 = 24 + 12 + 16 + 14;

pub fn all() -> impl Iterator<Item = &'static str> {
    ELEMENTS.into_iter().chain(LACKING).chain(OTHERS).chain(MALFORMED)
}

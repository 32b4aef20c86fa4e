//! Every run of up to four parameters, texts and includes in every kind, so every order of parameters there is.

use super::frame::{framed, SPELLINGS};
use super::parents::PARENTS;
use crate::sweep::must::Must;
use crate::sweep::sweeper::Sweeper;

const PIECES: [&str; 10] =
    ["[title]", "[id k]", "[type k]", "[target u]", "[size 1 2]", "[summary]", "[head]", "[body]", "x", "[include x]"];

/// 1 + 10 + 100 + 1,000 + 10,000.
const RUNS: u64 = 11_111;

/// How many runs go well in each kind, nested and imperative: the lawful orders of its parameters, and after them as
/// many texts as there is room for among four, if it holds any. So in a paragraph 0 to 4 texts, 0 to 3 after an id or
/// a type, 0 to 2 after both in either order: 5 + 2 * 4 + 2 * 3; a command holds no texts. A table has four: with
/// type or without, with head or without.
const WELL: [(&str, [u64; 2]); 24] = [
    ("document", [5, 5]),
    ("part", [5, 5]),
    ("section", [5, 5]),
    ("subsection", [5, 5]),
    ("paragraph", [19, 5]),
    ("formal-item", [14, 5]),
    ("footnote", [7, 2]),
    ("title", [5, 5]),
    ("term", [9, 9]),
    ("image", [12, 12]),
    ("verbatim", [2, 2]),
    ("link", [4, 4]),
    ("link-ext", [4, 4]),
    ("footnote-ref", [1, 1]),
    ("list-ordered", [1, 1]),
    ("list-unordered", [1, 1]),
    ("item", [5, 5]),
    ("table", [4, 4]),
    ("summary", [5, 5]),
    ("head", [1, 1]),
    ("name", [5, 5]),
    ("body", [1, 1]),
    ("row", [1, 1]),
    ("cell", [5, 5]),
];

/// Kinds that need a parameter, so that 9 comes up, or verbatim's text.
const NEEDY: [&str; 12] = [
    "document",
    "part",
    "section",
    "subsection",
    "formal-item",
    "footnote",
    "image",
    "verbatim",
    "link",
    "link-ext",
    "footnote-ref",
    "table",
];

/// Kinds 1 to 7 are commands in the imperative spelling, in which an include is 8.
const BLOCKS: usize = 7;

pub fn sweep(sweeper: &mut Sweeper) {
    for (at, (parent, (name, well))) in PARENTS.iter().zip(WELL).enumerate() {
        assert_eq!(parent.name, name);
        for imperative in SPELLINGS {
            let mut numbers = vec![0, 8];
            numbers.extend(NEEDY.contains(&name).then_some(9));
            numbers.extend((!imperative || at >= BLOCKS).then_some(12));
            let must = Must::meet(RUNS, well[usize::from(imperative)], &numbers);
            let spelling = ["nested", "imperative"][usize::from(imperative)];
            sweeper.reads(&format!("orders in {name}, {spelling}"), must, |reads| {
                runs(4, &mut |run| reads.text(imperative, &framed(parent.frame, imperative, run.as_bytes())));
            });
        }
    }
}

/// All runs of up to so many pieces.
fn runs(most: usize, see: &mut impl FnMut(&str)) {
    let mut runs = vec![String::new()];
    for _ in 0..most {
        runs.iter().for_each(|run| see(run));
        runs = runs.iter().flat_map(|run| PIECES.map(|piece| format!("{run} {piece}"))).collect();
    }
    runs.iter().for_each(|run| see(run));
}

//! Every expression in every kind: after each run of its parameters, after each first child, after each command, and
//! as the whole text.

use super::expressions::{all, COUNT};
use super::frame::{framed, read, SPELLINGS};
use super::parents::{Parent, PARENTS};
use crate::sweep::must::Must;
use crate::sweep::reading::Reads;
use crate::sweep::sweeper::Sweeper;

/// What the cases of a parent meet. How many go well is counted by hand, from document 01's table of elements.
struct Met {
    parent: &'static str,
    /// After its parameters, nested and imperative.
    well: [u64; 2],
    numbers: [&'static [u32]; 2],
    /// After a first child, in the one spelling or in both.
    pairs: u64,
    pair_numbers: &'static [u32],
}

const IN_BLOCK: &[u32] = &[0, 8, 9, 10, 12];
const IN_COMMAND: &[u32] = &[0, 8, 9, 10];
const OF_INLINE: &[u32] = &[0, 8, 9, 10, 12, 18];
/// Of elements without parameters that hold inline content.
const OF_CONTENT: &[u32] = &[0, 8, 9, 12, 18];
const PLAIN: &[u32] = &[0, 8, 12];

/// For a block: its content after each run that has what it needs, and the parameters that may come next. So for a
/// document, whose content are two: 1 title; 2 + 2; 2 + 1; 2 + 1; 2; 2. In a command the content is refused. Inline
/// are 11 of the expressions, two of them texts.
const MET: [Met; 24] = [
    Met {
        parent: "document",
        well: [15, 5],
        numbers: [IN_BLOCK, IN_COMMAND],
        pairs: 2,
        pair_numbers: &[0, 8, 9, 11, 12],
    },
    Met { parent: "part", well: [10, 5], numbers: [IN_BLOCK, IN_COMMAND], pairs: 1, pair_numbers: &[0, 8, 9, 12] },
    Met {
        parent: "section",
        well: [25, 5],
        numbers: [IN_BLOCK, IN_COMMAND],
        pairs: 1 + 9,
        pair_numbers: &[0, 8, 9, 11, 12, 16],
    },
    Met {
        parent: "subsection",
        well: [20, 5],
        numbers: [IN_BLOCK, IN_COMMAND],
        pairs: 9,
        pair_numbers: &[0, 8, 9, 12, 16],
    },
    Met { parent: "paragraph", well: [59, 4], numbers: [OF_INLINE, &[0, 8, 10]], pairs: 121, pair_numbers: OF_CONTENT },
    Met {
        parent: "formal-item",
        well: [60, 5],
        numbers: [OF_INLINE, IN_COMMAND],
        pairs: 121,
        pair_numbers: OF_CONTENT,
    },
    Met { parent: "footnote", well: [24, 2], numbers: [OF_INLINE, IN_COMMAND], pairs: 121, pair_numbers: OF_CONTENT },
    Met { parent: "title", well: [2; 2], numbers: [PLAIN; 2], pairs: 4, pair_numbers: PLAIN },
    Met { parent: "term", well: [5; 2], numbers: [&[0, 8, 10, 12]; 2], pairs: 4, pair_numbers: PLAIN },
    Met { parent: "image", well: [12; 2], numbers: [IN_BLOCK; 2], pairs: 4, pair_numbers: PLAIN },
    Met { parent: "verbatim", well: [4; 2], numbers: [IN_BLOCK; 2], pairs: 0, pair_numbers: &[8, 12] },
    // Another target than that of the document.
    Met { parent: "link", well: [4; 2], numbers: [&[0, 8, 9, 10, 12, 17]; 2], pairs: 9, pair_numbers: &[0, 8, 9, 12] },
    Met { parent: "link-ext", well: [4; 2], numbers: [IN_BLOCK; 2], pairs: 9, pair_numbers: &[0, 8, 9, 12] },
    Met { parent: "footnote-ref", well: [1; 2], numbers: [&[8, 9, 10, 12, 18]; 2], pairs: 0, pair_numbers: &[] },
    Met { parent: "list-ordered", well: [1; 2], numbers: [PLAIN; 2], pairs: 1, pair_numbers: PLAIN },
    Met { parent: "list-unordered", well: [1; 2], numbers: [PLAIN; 2], pairs: 1, pair_numbers: PLAIN },
    Met { parent: "item", well: [11; 2], numbers: [OF_CONTENT; 2], pairs: 121, pair_numbers: OF_CONTENT },
    // A body after each run that has a summary and no body.
    Met { parent: "table", well: [4; 2], numbers: [IN_BLOCK; 2], pairs: 0, pair_numbers: &[] },
    Met { parent: "summary", well: [2; 2], numbers: [PLAIN; 2], pairs: 4, pair_numbers: PLAIN },
    Met { parent: "head", well: [1; 2], numbers: [PLAIN; 2], pairs: 1, pair_numbers: PLAIN },
    Met { parent: "name", well: [2; 2], numbers: [PLAIN; 2], pairs: 4, pair_numbers: PLAIN },
    Met { parent: "body", well: [1; 2], numbers: [PLAIN; 2], pairs: 1, pair_numbers: PLAIN },
    Met { parent: "row", well: [1; 2], numbers: [PLAIN; 2], pairs: 1, pair_numbers: PLAIN },
    Met { parent: "cell", well: [10; 2], numbers: [OF_CONTENT; 2], pairs: 100, pair_numbers: OF_CONTENT },
];

/// Kinds 1 to 7, which are commands in the imperative spelling.
const BLOCKS: usize = 7;

pub fn sweep(sweeper: &mut Sweeper) {
    for (at, (parent, met)) in PARENTS.iter().zip(&MET).enumerate() {
        assert_eq!(parent.name, met.parent);
        SPELLINGS.into_iter().for_each(|imperative| after_parameters(sweeper, imperative, parent, met));
        if !parent.content.is_empty() {
            let spellings = if at < BLOCKS { &SPELLINGS[..1] } else { &SPELLINGS };
            after_children(sweeper, spellings, parent, met);
        }
    }
    after_commands(sweeper);
    as_text(sweeper);
}

fn after_parameters(sweeper: &mut Sweeper, imperative: bool, parent: &Parent, met: &Met) {
    let spelling = usize::from(imperative);
    let must = Must::meet(parent.parameters.len() as u64 * COUNT, met.well[spelling], met.numbers[spelling]);
    let name = format!("after parameters of {}, {}", parent.name, ["nested", "imperative"][spelling]);
    sweeper.reads(&name, must, |reads| {
        for run in parent.parameters {
            all().for_each(|expression| reads.text(imperative, &inside(parent, imperative, &[run, expression])));
        }
    });
}

fn after_children(sweeper: &mut Sweeper, spellings: &[bool], parent: &Parent, met: &Met) {
    let times = spellings.len() as u64;
    let calls = times * parent.content.len() as u64 * COUNT;
    let must = Must::meet(calls, times * met.pairs, met.pair_numbers);
    sweeper.reads(&format!("after a first child of {}", parent.name), must, |reads| {
        spellings.iter().for_each(|&imperative| second_children(reads, imperative, parent));
    });
}

fn second_children(reads: &mut Reads, imperative: bool, parent: &Parent) {
    for first in parent.content {
        let texts = all().map(|second| inside(parent, imperative, &[parent.needs, first, second]));
        texts.for_each(|text| reads.text(imperative, &text));
    }
}

/// The pieces in the parent, with a space between.
fn inside(parent: &Parent, imperative: bool, pieces: &[&str]) -> Vec<u8> {
    framed(parent.frame, imperative, pieces.join(" ").as_bytes())
}

/// Imperative texts that end in a block, how many of the expressions may follow it, and the numbers.
struct After {
    block: &'static str,
    text: &'static str,
    well: u64,
    numbers: &'static [u32],
}

/// What may follow is a block for the document or for an open block, or content of the innermost.
const AFTER: [After; 8] = [
    After { block: "document", text: "[document [title A]] @", well: 2, numbers: &[0, 8, 9, 12] },
    After { block: "part", text: "[document [title A]] [part [title B]] @", well: 2, numbers: &[0, 8, 9, 12] },
    After {
        block: "section",
        text: "[document [title A]] [section [title B]] @",
        well: 5,
        numbers: &[0, 8, 9, 11, 12],
    },
    After {
        block: "subsection",
        text: "[document [title A]] [section [title B]] [subsection [title C]] @",
        well: 5,
        numbers: &[0, 8, 9, 11, 12],
    },
    After {
        block: "paragraph",
        text: "[document [title A] [id u]] [section [title B]] [paragraph] @",
        well: 4 + 11,
        numbers: &[0, 8, 9, 11, 12, 18],
    },
    After {
        block: "formal-item",
        text: "[document [title A] [id u]] [section [title B]] [formal-item [title C]] x @",
        well: 4 + 11,
        numbers: &[0, 8, 9, 11, 12, 18],
    },
    After {
        block: "footnote",
        text: "[document [title A] [id u]] [section [title B]] [footnote [id i]] @",
        well: 4 + 11,
        numbers: &[0, 8, 9, 11, 12, 18],
    },
    After {
        block: "five blocks",
        text: "[document [title A] [id u]] [part [title B]] [section [title C]] [subsection [title D]] [paragraph] @",
        well: 6 + 11,
        numbers: &[0, 8, 9, 12, 18],
    },
];

fn after_commands(sweeper: &mut Sweeper) {
    for After { block, text, well, numbers } in AFTER {
        let must = Must::meet(COUNT, well, numbers);
        sweeper.reads(&format!("after the command of {block}"), must, |reads| {
            all().for_each(|expression| reads.text(true, text.replace('@', expression).as_bytes()));
        });
    }
}

/// Only a document is a text, and nothing may stand before or behind it.
fn as_text(sweeper: &mut Sweeper) {
    let must = Must::meet(2 * COUNT, 2, &[0, 8, 9]);
    sweeper
        .reads("as the text", must, |reads| all().for_each(|expression| read(reads, ["@"; 2], expression.as_bytes())));
    let must = Must::meet(2 * COUNT, 0, &[7, 8, 9]);
    let frame = ["@ [document [title A]]"; 2];
    sweeper.reads("before the document", must, |reads| {
        all().for_each(|expression| read(reads, frame, expression.as_bytes()));
    });
}

//! Levels of brackets around the most allowed, 64 and in an imperative text 59.

use super::frame::SPELLINGS;
use crate::sweep::must::Must;
use crate::sweep::sweeper::Sweeper;
use oracle::names::{IMPERATIVE_LEVELS, NESTED_LEVELS};

fn most(imperative: bool) -> usize {
    if imperative {
        IMPERATIVE_LEVELS
    } else {
        NESTED_LEVELS
    }
}

pub fn sweep(sweeper: &mut Sweeper) {
    elements(sweeper);
    brackets(sweeper);
}

/// An element, its levels, and what it is answered by: a reference to what is no footnote is 18.
const INNERMOST: [(&str, usize, u32); 16] = [
    ("x", 0, 0),
    ("[term]", 1, 0),
    ("[term \"x\"]", 1, 0),
    ("[verbatim x]", 1, 0),
    ("[list-unordered]", 1, 0),
    ("[term [type t]]", 2, 0),
    ("[verbatim (type v) x]", 2, 0),
    ("[image [target u]]", 2, 0),
    ("[image [target u] [size 1 2] [type t]]", 2, 0),
    ("[link [target u] x]", 2, 0),
    ("[link-ext [target u]]", 2, 0),
    ("[footnote-ref [target u]]", 2, 18),
    ("(list-unordered (item))", 2, 0),
    ("[link [target u] [image [target v]]]", 3, 0),
    ("[table [summary] [type t] [head [name]] [body [row [cell]]]]", 4, 0),
    ("[table [summary] [body [row [cell [term [type t]]]]]]", 6, 0),
];

/// Blocks around lists, by spelling: text before and behind, and how many brackets stay open in it.
const BLOCKS: [[(&str, &str, usize); 2]; 2] = [
    [
        ("[document [title A] [id u] [section [title B] [paragraph ", "]]]", 3),
        ("[document [title A] [id u] [section [title B] [subsection [title C] [paragraph ", "]]]]", 4),
    ],
    [
        ("[document [title A] [id u]] [section [title B]] [paragraph] ", "", 0),
        ("[document [title A] [id u]] [part [title B]] [section [title C]] [subsection [title D]] [paragraph] ", "", 0),
    ],
];

/// Lists in lists, so many pairs of list and item that the element's last level is at most three away from the most
/// allowed. Nested, each of the seven sums is met with the blocks of its parity. Imperative, blocks add no level, so that
/// the sums of the element's own parity are met, with both rows of blocks.
fn elements(sweeper: &mut Sweeper) {
    // Nested: 16 elements, 7 sums, of which 4 are allowed. Imperative, from 56 to 62: 5 elements of odd levels have
    // three sums, of which 57 and 59 are allowed, and 11 of even ones have four, of which 56 and 58 are.
    let calls = 16 * 7 + 2 * (5 * 3 + 11 * 4);
    let well = 16 * 4 + 2 * (5 * 2 + 11 * 2);
    sweeper.reads("levels of elements", Must::meet(calls, well, &[0, 6, 18]), |reads| {
        for (imperative, around, levels) in SPELLINGS.into_iter().flat_map(sums) {
            for (inner, own, number) in INNERMOST {
                let Some(text) = in_lists(around, levels, inner, own) else { continue };
                let number = if levels > most(imperative) { 6 } else { number };
                reads.expect(number, imperative, text.as_bytes());
            }
        }
    });
}

/// The element in blocks and lists, its last level the one wanted, if it can be.
fn in_lists((before, behind, open): (&str, &str, usize), levels: usize, inner: &str, own: usize) -> Option<String> {
    let lists = levels - open - own;
    if lists % 2 == 1 {
        return None;
    }
    let (opened, closed) = ("[list-ordered [item ".repeat(lists / 2), "]]".repeat(lists / 2));
    Some([before, &opened, inner, &closed, behind].concat())
}

/// The blocks of a spelling with each sum of levels.
fn sums(imperative: bool) -> impl Iterator<Item = (bool, (&'static str, &'static str, usize), usize)> {
    let levels = move || most(imperative) - 3..=most(imperative) + 3;
    BLOCKS[usize::from(imperative)]
        .into_iter()
        .flat_map(move |blocks| levels().map(move |sum| (imperative, blocks, sum)))
}

/// Brackets inside a text that has some open.
struct Brackets {
    before: &'static str,
    open: usize,
    /// What follows the innermost of them.
    inside: &'static str,
    closed: bool,
    behind: &'static str,
    /// What it is answered by within the levels.
    number: u32,
}

const BRACKETS: [Brackets; 6] = [
    Brackets { before: "", open: 0, inside: "", closed: true, behind: "", number: 8 },
    Brackets { before: "", open: 0, inside: "", closed: false, behind: "", number: 5 },
    Brackets { before: "", open: 0, inside: "])", closed: false, behind: "", number: 5 },
    Brackets { before: "", open: 0, inside: "\"", closed: true, behind: "", number: 4 },
    Brackets { before: "[document [title A] [id ", open: 2, inside: "x", closed: true, behind: "]]", number: 10 },
    Brackets { before: "[document [title ", open: 2, inside: "x", closed: true, behind: "]]", number: 8 },
];

/// From one level to 70, and some more; square, round and by turns.
fn brackets(sweeper: &mut Sweeper) {
    let must = Must::meet(2 * 6 * 3 * 73, 0, &[4, 5, 6, 8, 10]);
    sweeper.reads("levels of brackets", must, |reads| {
        for levels in (1..=70).chain([128, 256, 1_000]) {
            for (form, open) in BRACKETS.iter().flat_map(|form| ["[", "(", "[("].map(|open| (form, open))) {
                let text = form.text(levels, open);
                for imperative in SPELLINGS {
                    let number = if levels + form.open > most(imperative) { 6 } else { form.number };
                    reads.expect(number, imperative, text.as_bytes());
                }
            }
        }
    });
}

impl Brackets {
    /// With so many levels more, whose opening brackets are these by turns.
    fn text(&self, levels: usize, open: &str) -> String {
        let opened: String = open.chars().cycle().take(levels).collect();
        let partner = |bracket| if bracket == '(' { ')' } else { ']' };
        let closed: String = opened.chars().rev().map(partner).filter(|_| self.closed).collect();
        [self.before, &opened, self.inside, &closed, self.behind].concat()
    }
}

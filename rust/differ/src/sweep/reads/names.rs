//! Names that lead lists, and names that are nearly one of them.

use super::frame::{expect, Frame, SPELLINGS};
use super::parents::PARENTS;
use crate::sweep::must::Must;
use crate::sweep::sweeper::Sweeper;

pub fn sweep(sweeper: &mut Sweeper) {
    kinds(sweeper);
    keywords(sweeper);
}

/// Upper case in all or in the first letter, one letter less or more at either end, another or a further hyphen.
fn nearly(name: &str) -> [String; 7] {
    let hyphen = if name.contains('-') { name.replace('-', "_") } else { format!("{name}-") };
    [
        name.to_uppercase(),
        format!("{}{}", name[..1].to_uppercase(), &name[1..]),
        name[..name.len() - 1].into(),
        name[1..].into(),
        format!("{name}x"),
        format!("x{name}"),
        hyphen,
    ]
}

/// Each kind where it may stand, with what it needs; a verbatim with its text.
fn kinds(sweeper: &mut Sweeper) {
    let must = Must::meet(24 * 2 * 8, 24 * 2, &[0, 8, 9]);
    sweeper.reads("names of kinds", must, |reads| {
        for (parent, imperative) in PARENTS.iter().flat_map(|parent| SPELLINGS.map(|imperative| (parent, imperative))) {
            let inside = if parent.name == "verbatim" { "x" } else { parent.needs };
            let own = format!("[{} @", parent.name);
            let frame = parent.frame[usize::from(imperative)];
            let named = |name: &str| frame.replace(&own, &format!("[{name} @")).replace('@', inside);
            reads.expect(0, imperative, named(parent.name).as_bytes());
            nearly(parent.name).iter().for_each(|name| reads.text(imperative, named(name).as_bytes()));
        }
    });
}

/// A keyword, where it may stand at `@`, what it is answered by, and what any other name there is.
const KEYWORDS: [(&str, Frame, u32, u32); 6] = [
    ("id", ["[document [title A] [@ k]]"; 2], 0, 8),
    ("type", ["[document [title A] [@ k]]"; 2], 0, 8),
    (
        "target",
        [
            "[document [title A] [section [title B] [paragraph [image [@ u]]]]]",
            "[document [title A]] [section [title B]] [paragraph] [image [@ u]]",
        ],
        0,
        9,
    ),
    (
        "size",
        [
            "[document [title A] [section [title B] [paragraph [image [target u] [@ 1 2]]]]]",
            "[document [title A]] [section [title B]] [paragraph] [image [target u] [@ 1 2]]",
        ],
        0,
        8,
    ),
    ("include", INCLUDED, 12, 8),
    ("import", INCLUDED, 12, 8),
];

const INCLUDED: Frame = [
    "[document [title A] [section [title B] [paragraph [@ x]]]]",
    "[document [title A]] [section [title B]] [paragraph] [@ x]",
];

fn keywords(sweeper: &mut Sweeper) {
    let must = Must::meet(6 * 2 * 8, 4 * 2, &[0, 8, 9, 12]);
    sweeper.reads("names of parameters and includes", must, |reads| {
        for (name, frame, number, other) in KEYWORDS {
            expect(reads, number, frame, name.as_bytes());
            nearly(name).iter().for_each(|name| expect(reads, other, frame, name.as_bytes()));
        }
    });
}

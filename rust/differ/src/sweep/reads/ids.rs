//! Ids, equal and nearly equal, of all lengths and on all kinds of blocks, and what refers to them.

use super::frame::{expect, Frame};
use crate::sweep::must::Must;
use crate::sweep::reading::Reads;
use crate::sweep::sweeper::Sweeper;

pub fn sweep(sweeper: &mut Sweeper) {
    lengths(sweeper);
    by_number(sweeper);
    blocks(sweeper);
    characters(sweeper);
    many(sweeper);
}

const LENGTHS: [usize; 16] = [1, 2, 3, 63, 64, 65, 127, 128, 129, 255, 256, 257, 300, 1_000, 4_096, 20_000];

/// An id of that length whose characters tell their place.
fn id(length: usize) -> String {
    (0..length).map(|at| char::from(b"abcdefghijklmnopqrstuvwxyz0123456789_-."[at % 39])).collect()
}

/// The id itself, and eight that are nearly it: with another first, middle or last character, with one more behind or
/// before, without the last or the first (if there are two), and with the first in the other case.
fn nearly(id: &str) -> [String; 9] {
    let other = |at: usize| format!("{}X{}", &id[..at], &id[at + 1..]);
    let (last, middle) = (id.len() - 1, id.len() / 2);
    let shorter = |rest: &str| if rest.is_empty() { "Y".into() } else { rest.to_string() };
    [
        id.into(),
        other(0),
        other(middle),
        other(last),
        format!("{id}a"),
        format!("a{id}"),
        shorter(&id[..last]),
        shorter(&id[1..]),
        format!("A{}", &id[1..]),
    ]
}

/// Two blocks, a link and a block, and a reference and a footnote, with the first id at `<` and the second at `>`.
struct Two {
    texts: [&'static str; 2],
    /// What they are answered by where the ids are equal, and where they are not.
    equal: u32,
    unlike: u32,
}

const TWO: [Two; 5] = [
    Two {
        texts: [
            "[document [title A] [id <] [section [title B] [id >]]]",
            "[document [title A] [id <]] [section [title B] [id >]]",
        ],
        equal: 16,
        unlike: 0,
    },
    Two {
        texts: [
            "[document [title A] [section [title B] [paragraph [link [target >]]] [paragraph [id \"<\"]]]]",
            "[document [title A]] [section [title B]] [paragraph] [link [target >]] [paragraph [id \"<\"]]",
        ],
        equal: 0,
        unlike: 17,
    },
    Two {
        texts: [
            "[document [title A] [id <] [section [title B] [paragraph [link [target \">\"]]]]]",
            "[document [title A] [id <]] [section [title B]] [paragraph] [link [target \">\"]]",
        ],
        equal: 0,
        unlike: 17,
    },
    Two {
        texts: [
            "[document [title A] [section [title B] [paragraph [footnote-ref [target >]]] [footnote [id <]]]]",
            "[document [title A]] [section [title B]] [paragraph] [footnote-ref [target >]] [footnote [id <]]",
        ],
        equal: 0,
        unlike: 18,
    },
    Two {
        texts: [
            "[document [title A] [section [title B] [footnote [id <] [footnote-ref [target \">\"]]]]]",
            "[document [title A]] [section [title B]] [footnote [id <]] [footnote-ref [target \">\"]]",
        ],
        equal: 0,
        unlike: 18,
    },
];

/// Ids of all lengths against those that are nearly equal.
fn lengths(sweeper: &mut Sweeper) {
    let must = Must::meet(16 * 9 * 5 * 2, 16 * 9 * 5 * 2, &[0, 16, 17, 18]);
    sweeper.reads("ids of all lengths", must, |reads| {
        for first in LENGTHS.map(id) {
            for second in nearly(&first) {
                TWO.iter().for_each(|two| compare(reads, two.number(&first, &second), two, &first, &second));
            }
        }
    });
}

/// Ids against those that are nearly equal and spelled by numbers, where they are not in quotes: the first, second and
/// fourth of the texts.
fn by_number(sweeper: &mut Sweeper) {
    let must = Must::meet(14 * 9 * 3 * 2, 14 * 9 * 3 * 2, &[0, 16, 17, 18]);
    sweeper.reads("ids by number", must, |reads| {
        for first in LENGTHS[..14].iter().map(|&length| id(length)) {
            for second in nearly(&first) {
                let digits: String = second.bytes().map(|byte| format!("\\u{byte:04X}")).collect();
                for two in [&TWO[0], &TWO[1], &TWO[3]] {
                    compare(reads, two.number(&first, &second), two, &first, &format!("\"{digits}\""));
                }
            }
        }
    });
}

impl Two {
    fn number(&self, first: &str, second: &str) -> u32 {
        if first == second {
            self.equal
        } else {
            self.unlike
        }
    }
}

fn compare(reads: &mut Reads, number: u32, two: &Two, first: &str, second: &str) {
    for (text, imperative) in two.texts.into_iter().zip([false, true]) {
        reads.expect(number, imperative, text.replace('<', first).replace('>', second).as_bytes());
    }
}

/// A document with every kind of block, each with an id, and something at `@` in the paragraph.
const BLOCKS: Frame = [
    "[document [title A] [id i1] [part [title B] [id i2] [section [title C] [id i3] [subsection [title D] [id i4] \
     [paragraph [id i5] @] [formal-item [title E] [id i6]] [footnote [id i7]]]]]]",
    "[document [title A] [id i1]] [part [title B] [id i2]] [section [title C] [id i3]] [subsection [title D] [id i4]] \
     [formal-item [title E] [id i6]] [footnote [id i7]] [paragraph [id i5]] @",
];

/// Links may name any block, references a footnote alone; and two of any kinds may not have one id.
fn blocks(sweeper: &mut Sweeper) {
    let must = Must::meet(2 * 8 * 2 + 7 * 7 * 2, 2 * 8 * 2 + 7 * 7 * 2, &[0, 16, 17, 18]);
    sweeper.reads("ids on all blocks", must, |reads| {
        for block in 1..=8 {
            let (link, reference) = (if block == 8 { 17 } else { 0 }, if block == 7 { 0 } else { 18 });
            expect(reads, link, BLOCKS, format!("[link [target i{block}]]").as_bytes());
            expect(reads, reference, BLOCKS, format!("[footnote-ref [target i{block}]]").as_bytes());
        }
        for (one, other) in (1..=7).flat_map(|one| (1..=7).map(move |other| (one, other))) {
            let renamed = BLOCKS.map(|text| text.replace(&format!("i{one}"), &format!("i{other}")).replace('@', ""));
            let number = if one == other { 0 } else { 16 };
            renamed.iter().zip([false, true]).for_each(|(text, imperative)| {
                reads.expect(number, imperative, text.as_bytes());
            });
        }
    });
}

/// Every pair of characters, as two ids and as an id and a target.
fn characters(sweeper: &mut Sweeper) {
    let must = Must::meet(65 * 65 * 5 * 2, 65 * 65 * 5 * 2, &[0, 16, 17, 18]);
    sweeper.reads("ids of one character", must, |reads| {
        for (first, second) in pairs() {
            TWO.iter().for_each(|two| compare(reads, two.number(first, second), two, first, second));
        }
    });
}

/// Every character of ids with every other.
fn pairs() -> impl Iterator<Item = (&'static str, &'static str)> {
    let all = "ABCDEFGHIJKLMNOPQRSTUVWXYZabcdefghijklmnopqrstuvwxyz0123456789_-.";
    let one = move |at: usize| &all[at..=at];
    (0..all.len()).flat_map(move |first| (0..all.len()).map(move |second| (one(first), one(second))))
}

/// Many ids: of two characters, as many as the text has room for; and such as share a slot.
fn many(sweeper: &mut Sweeper) {
    let of_two = pairs().map(|(first, second)| format!("{first}{second}")).take(3_400).collect();
    one_after_the_other(sweeper, "many ids", of_two, 40);
    one_after_the_other(sweeper, "ids that share a slot", (0..1 << PAIRS).map(of_pairs).collect(), 3);
}

/// A paragraph with each id. Last comes a block with the first of them again, links to every so many-th, or a link to
/// what is none of them.
fn one_after_the_other(sweeper: &mut Sweeper, name: &str, ids: Vec<String>, step: usize) {
    let must = Must::meet(2 * 4, 2 * 4, &[0, 16, 17]);
    sweeper.reads(name, must, |reads| {
        let blocks: String = ids.iter().map(|id| format!("[paragraph[id {id}]]")).collect();
        let links: String = ids.iter().step_by(step).map(|id| format!("[link[target {id}]]")).collect();
        let again = format!("[footnote[id {}]]", ids[0]);
        let unknown = format!("[link[target {}ab]]", ids[0]);
        last(reads, 0, &blocks, "[paragraph]", "");
        last(reads, 16, &blocks, &again, "");
        last(reads, 0, &blocks, "[paragraph]", &links);
        last(reads, 17, &blocks, "[paragraph]", &unknown);
    });
}

/// The blocks and then one more, with content; nested, that stands in its brackets.
fn last(reads: &mut Reads, number: u32, blocks: &str, block: &str, content: &str) {
    let nested = format!("{}{content}]", block.strip_suffix(']').unwrap_or(block));
    reads.expect(number, false, format!("[document[title][section[title]{blocks}{nested}]]").as_bytes());
    reads.expect(number, true, format!("[document[title]][section[title]]{blocks}{block}{content}").as_bytes());
}

/// How many pairs of letters make up an id below.
const PAIRS: usize = 10;

/// An id of `ab` and `bA`. All of these have one hash where that becomes 33 times itself plus the next byte, as in the
/// archive: 33 * 97 + 98 is 33 * 98 + 65.
fn of_pairs(bits: usize) -> String {
    (0..PAIRS).map(|at| if bits >> at & 1 == 0 { "ab" } else { "bA" }).collect()
}
